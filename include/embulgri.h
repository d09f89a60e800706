/* Embulgri: a verified library for Ogg Opus streams (RFC 3533, RFC 6716, RFC 7845, RFC 8486).
 *
 * The static library target/staticlib/libembulgri.a, built by `tools/staticlib embulgri`, is for x86-64 Linux.
 *
 * Every function but embulgri_checksum, embulgri_start, embulgri_agree, embulgri_totals_after, embulgri_page_end,
 * embulgri_next_page, embulgri_index_count and those that put lines of a listing, of an index or of a salvage returns a
 * refusal's number, 0 for none. On a refusal every output stays as it was; of embulgri_feed's carry buffer, of the
 * outputs of embulgri_feed_pages and of embulgri_header_lines, of the page of embulgri_judge, of the place of
 * embulgri_index_seek and of the work list of embulgri_salvage the comments there say more. A pointer is never null, also
 * where its length is 0. Buffers do not overlap.
 */
#ifndef EMBULGRI_H
#define EMBULGRI_H

#include <stddef.h>
#include <stdint.h>

#ifdef __cplusplus
extern "C" {
#endif

/* The plain checksum of n bytes: polynomial 0x04c11db7, high bit first, start 0, no final change. It refuses nothing.
 * The checksum of a page takes the page's own field as zero; embulgri_page_read and embulgri_page_write see to that.
 * Example: the checksum of the one byte 0x01 is 0x04c11db7. */
uint32_t embulgri_checksum(const uint8_t *bytes, size_t n);

/* Reads one Ogg page. out: flags, granule position, serial, sequence, number of lacing values, body length.
 * The lacing values start at byte 27 of the page, and the body follows them. Flags can be anything from 0 to 255.
 *   3   the bytes are not exactly one whole page, or the version is not 0
 *   4   not 3, and the checksum differs
 *   0   neither; the six numbers are stored
 * Example: a right page with flags 2, granule position 0, serial 7, sequence 0, one lacing value of 19 and a body of 19
 * bytes stores 2, 0, 7, 0, 1, 19. */
uint32_t embulgri_page_read(const uint8_t *page, size_t n, uint64_t out[6]);

/* Writes one Ogg page, 27 + lacing_n + body_n bytes, at the start of out, and its length to *written. What lies past
 * the page stays as it was.
 *   23  there are more than 255 lacing values, they do not sum to body_n, or flags is above 7
 *   22  not 23, and out is shorter than the page
 *   0   neither; the page and its length are stored
 * Example: flags 4, one lacing value of 1, a body of 1 byte and an out of 40 bytes store 29 to *written. */
uint32_t embulgri_page_write(uint64_t flags, uint64_t granule, uint32_t serial, uint32_t sequence,
                             const uint8_t *lacing, size_t lacing_n, const uint8_t *body, size_t body_n,
                             uint8_t *out, size_t out_n, uint64_t *written);

/* Reads one audio packet of so many streams: one Opus packet for each, all but the last self-delimited (RFC 6716,
 * Appendix B). out: their length in samples at 48 kHz, which is one and the same; and of the first of them the number of
 * frames, the stereo bit (the bit of value 4 of its first byte) as 0 or 1, and 1 if it is silent, else 0. It is silent if
 * no frame has a byte; padding does not count.
 *   13  streams is not from 1 to 255
 *   15  not 13, and one of the Opus packets is illegal (RFC 6716, section 3.4), or n is 0
 *   16  neither, and the Opus packets differ in length
 *   0   none of these; the four numbers are stored
 * Example: the byte 0xfc with streams 1 stores 960, 1, 1, 1, and the bytes 0x01, 0xaa, 0xbb store 960, 2, 0, 0. */
uint32_t embulgri_packet_read(const uint8_t *packet, size_t n, uint64_t streams, uint64_t out[4]);

/* Reads one identification header (RFC 7845, section 5.1; RFC 8486, section 3). fields: version, channels, pre-skip,
 * input rate, output gain (its 16 bits, two's complement, as a number from 0 to 65535), mapping family, stream count,
 * coupled count. mapping: the index of each channel, then zeros. Family 0 has no table: its stream count is 1, its
 * coupled count is channels - 1, and its indices are 0 and 1. Family 3 has a matrix and no indices: its mapping is zeros.
 * The fields take 19 bytes in family 0, 21 + 2 * (stream count + coupled count) * channels in family 3, with the counts
 * as they stand in the packet, and 21 + channels in any other family.
 *   12  the signature is wrong, the version is above 15, the fields take more than 61440 bytes, n is below what they
 *       take, or n is above that in version 0 or 1
 *   13  not 12, and the channel mapping is wrong: channels is not 1 or 2 for family 0, 1 to 8 for family 1, 1 to 255
 *       for family 255, (k + 1)^2 or (k + 1)^2 + 2 with k from 0 to 14 for families 2 and 3, or the family is another;
 *       the stream count is 0, the coupled count is above it, or their sum is above 255; or an index is neither below
 *       their sum nor 255
 *   0   neither; the eight numbers and all 255 places of the mapping are stored
 * Example: a right header with 2 channels, pre-skip 312, input rate 48000, output gain 0 and family 0 stores the numbers
 * 1, 2, 312, 48000, 0, 0, 1, 1 and the mapping 0, 1 and zeros. */
uint32_t embulgri_head_read(const uint8_t *packet, size_t n, uint64_t fields[8], uint8_t mapping[255]);

/* Writes one identification header, as long as its fields, at the start of out, and its length to *written. What lies
 * past the header stays as it was. fields and mapping are as embulgri_head_read stores them. matrix: the bytes of the
 * matrix of family 3, and none in any other family.
 *   23  a field is too wide for the header (pre-skip and output gain: 16 bits, input rate: 32, each other: 8), the
 *       version is not 1, embulgri_head_read would refuse the channel mapping by 13, family 0 has other counts or
 *       indices than its own, a place of the mapping past the indices is not zero, the header would take more than 61440
 *       bytes, or matrix_n is not 2 * (stream count + coupled count) * channels in family 3, or not 0 in another
 *   22  not 23, and out is shorter than the header
 *   0   neither; the header and its length are stored
 * Example: the numbers 1, 2, 312, 48000, 0, 0, 1, 1 with the mapping 0, 1 and zeros, no matrix and an out of 40 bytes
 * store 19 to *written. */
uint32_t embulgri_head_write(const uint64_t fields[8], const uint8_t mapping[255],
                             const uint8_t *matrix, size_t matrix_n,
                             uint8_t *out, size_t out_n, uint64_t *written);

/* Finds the matrix of an identification header of family 3. part: where it starts in the packet, and its length in
 * bytes; two zeros in any other family, which has no matrix.
 *   12  embulgri_head_read would refuse the packet by 12
 *   13  embulgri_head_read would refuse the packet by 13
 *   0   neither; the two numbers are stored
 * Example: a right header of family 3 with 4 channels, 2 streams and 2 coupled ones stores 21 and 32. */
uint32_t embulgri_head_matrix(const uint8_t *packet, size_t n, uint64_t part[2]);

/* Reads entry i of the matrix of an identification header of family 3, the first being 0, in the order in which they
 * are stored. *value: its 16 bits, two's complement, as a number from 0 to 65535. Each call checks the whole packet.
 *   12  embulgri_head_read would refuse the packet by 12
 *   13  embulgri_head_read would refuse the packet by 13
 *   20  neither, and the matrix has no entry i; in a family without a matrix there is none
 *   0   none of these; the entry is stored
 * Example: where the matrix begins with the bytes 0xff and 0xff, i 0 stores 65535. */
uint32_t embulgri_head_matrix_entry(const uint8_t *packet, size_t n, uint64_t i, uint64_t *value);

/* Reads one comment header (RFC 7845, section 5.2). *count: the number of its comments. Bytes after the last comment
 * are not looked at.
 *   14  the signature is wrong; a length, the count or a text passes the end of the packet; the vendor or a comment is
 *       not UTF-8 (RFC 3629); a comment's name, which is what precedes its first "=", has a byte outside 0x20 to 0x7D;
 *       or two comments are named R128_TRACK_GAIN, or two R128_ALBUM_GAIN, without regard to ASCII case
 *   0   none of these; the count is stored
 * Example: a header with the vendor "v" and the comments "a=1" and "b=2" stores 2. */
uint32_t embulgri_tags_read(const uint8_t *packet, size_t n, uint64_t *count);

/* Finds the vendor of a comment header. part: where it starts in the packet, and its length in bytes.
 *   14  embulgri_tags_read would refuse the packet
 *   0   it would not; the two numbers are stored
 * Example: a header with the vendor "v" stores 12 and 1. */
uint32_t embulgri_tags_vendor(const uint8_t *packet, size_t n, uint64_t part[2]);

/* Finds comment i of a comment header, the first being 0. part: where it starts in the packet, and its length in bytes.
 * Each call checks the whole packet. A listing needs it for comment 0 only: where a comment ends, the next one's length
 * lies in four bytes, least byte first, and its text follows.
 *   14  embulgri_tags_read would refuse the packet
 *   20  not 14, and i is not below the number of comments
 *   0   neither; the two numbers are stored
 * Example: with the vendor "v" and the comments "a=1" and "b=2", i 1 stores 28 and 3, and i 2 returns 20. */
uint32_t embulgri_tags_comment(const uint8_t *packet, size_t n, uint64_t i, uint64_t part[2]);

/* Reads the gain in comment i of a comment header, the first being 0: the number after its first "=", whatever its
 * name. *gain: its 16 bits, two's complement, as a number from 0 to 65535.
 *   14  embulgri_tags_read would refuse the packet
 *   20  not 14, and i is not below the number of comments
 *   21  neither, and the comment has no "=", or what is after it is not an optional sign and digits, has no digit, has
 *       more than 6 characters, or is not from -32768 to 32767
 *   0   none of these; the gain is stored
 * Example: the comment "R128_TRACK_GAIN=-573" stores 64963, and the comment "b=x" returns 21. */
uint32_t embulgri_tags_gain(const uint8_t *packet, size_t n, uint64_t i, uint64_t *gain);

/* Writes one comment header, 16 + vendor_n + text_n + 4 * lengths_n bytes, at the start of out, and its length to
 * *written. What lies past the header stays as it was. text: the comments joined. lengths: how many bytes each has.
 *   23  the lengths do not sum to text_n, the header is longer than 61440 bytes, or embulgri_tags_read would refuse it
 *   22  not 23, and out is shorter than the header
 *   0   neither; the header and its length are stored
 * Example: the vendor "v", the text "a=1b=2", the lengths 3 and 3 and an out of 40 bytes store 31 to *written. */
uint32_t embulgri_tags_write(const uint8_t *vendor, size_t vendor_n, const uint8_t *text, size_t text_n,
                             const uint64_t *lengths, size_t lengths_n, uint8_t *out, size_t out_n,
                             uint64_t *written);

/* Adds a packet's length in samples to the old clock: to *reading, which rounds the sum once, to the nearest float and
 * at a tie to the even one, and to *count, which is exact. A clock starts at 0 and 0; any reading and any count are
 * taken, a NaN or an infinity too. A NaN that is stored may have any payload and any sign.
 *   30  length is not a multiple of 120 from 120 to 5760, or the count would pass 2^63 - 1
 *   0   neither; the reading and the count are stored
 * Example: the reading 0 and the count 0 with length 960 store 960 and 960. */
uint32_t embulgri_clock_add(float *reading, uint64_t *count, uint64_t length);

/* A reader of one stream is a state of 16 numbers. It may be copied, kept and fed again. Any 16 numbers are a legal
 * state; what embulgri_start, embulgri_open, embulgri_feed and embulgri_feed_pages write is:
 *   0   how far the stream has come: 0 no page yet, 1 before the end of the comment header, 2 among the audio pages,
 *       3 opened part way with no page yet, 4 ended
 *   1   the unfinished packet: 0 none, 1 one that is held, 2 one that is dropped
 *   2   how many bytes of it the carry buffer holds
 *   3   the last granule position: 0 none yet, 1 none yet in a stream that was opened part way, 2 it is number 4
 *   4   the last granule position
 *   5   the serial, 6 the sequence number that is due, 7 the stream count, 8 the pre-skip, 9 the samples still to skip
 *   10  the samples kept on all accepted pages, 11 those skipped, 12 those trimmed, 13 the holes; starting and opening
 *       store zeros, and a refused page changes none
 *   14, 15  zeros
 * Of other numbers, one above 4 in place 0 means 4, and one above 2 in places 1 and 3 means 2. Those in places 5 to 9
 * count modulo 2^32, 2^32, 2^8, 2^16 and 2^16. Those in places 10 to 13 count as they are, and adding to them is modulo
 * 2^64, which no stream reaches. Places 14 and 15 are not looked at. */

/* A reader that waits for the first page of a stream. It refuses nothing.
 * Example: the state that is stored is 16 zeros. */
void embulgri_start(uint64_t state[16]);

/* A reader that waits for any audio page of a stream with this identification header. fields and mapping are as
 * embulgri_head_read stores them. A packet that began before that page is not listed, and the pre-skip is not skipped.
 *   23  the version is above 15, or embulgri_head_write would refuse the fields with version 1 by 23, whatever the
 *       matrix
 *   0   neither; the 16 numbers are stored
 * Example: the numbers 1, 2, 312, 48000, 0, 0, 1, 1 with the mapping 0, 1 and zeros store 3, 0, 0, 1, 0, 0, 0, 1, 312
 * and seven zeros. */
uint32_t embulgri_open(const uint64_t fields[8], const uint8_t mapping[255], uint64_t state[16]);

/* Feeds one page. ends, lengths, kept and frames: for each packet that the page lists the position of its last sample,
 * its length in samples, how many of these are kept, and the number of frames of its first Opus packet. Places past the
 * packets stay as they were. page_out, of this page alone: packets listed, their samples, how many of these are kept,
 * skipped and trimmed, and the hole before them. All are zero on a header page and where no packet completes. Samples are
 * at 48 kHz.
 * carry: between two feedings it has to keep its first bytes, as many as number 2 of the state. The comment header is
 * there from place 0 once it is complete, until an unfinished audio packet is written over it. Under 12 to 19 the page's
 * first piece, if it continues a packet that is held or is one of the comment header, lies after the held bytes.
 * Under any other refusal the carry buffer is as it was.
 * The lowest number that holds is returned, but 19 and 18 before 17, and for each packet in turn 15 before 16:
 *   1   carry_n is below 61440, or ends_n, lengths_n, kept_n or frames_n below 255
 *   2   a page marked last was accepted before
 *   3   the bytes are not exactly one whole page, or the version is not 0
 *   4   the checksum differs
 *   5   the serial differs from that of the first page
 *   6   the sequence number is not 0 on the first page, or later not the last one and 1, modulo 2^32
 *   7   a flag above 4 is set; the first-page mark is absent on the first page or present later; the end mark is on a
 *       page of a header
 *   8   the continued mark is set and no packet is unfinished, or the other way round
 *   9   a packet would pass 61440 bytes
 *   10  the first page is not one completed packet; a page of the comment header is empty or holds anything else
 *   11  the granule position is not 0 where a header completes, not all ones where no packet completes, or above
 *       2^63 - 1 where an audio packet completes
 *   12  the identification header's signature, version or length is wrong
 *   13  its channel mapping is wrong
 *   14  the comment header is wrong
 *   15  an audio packet is illegal, or empty
 *   16  the Opus packets of an audio packet differ in length
 *   17  the granule position is too small for the packets that complete on the page
 *   18  the first page where a packet completes is marked last, and its granule position is below the pre-skip
 *   19  the reader was opened part way, and its first page where a packet completes is marked last
 *   0   none of these; the state, the lists and page_out are stored
 * Example: after the headers of a stream with pre-skip 312, a page of three packets of one frame of 960 samples with
 * granule position 2880 stores ends 960, 1920, 2880, lengths 960, 960, 960, kept 648, 960, 960, frames 1, 1, 1 and
 * page_out 3, 2880, 2568, 312, 0, 0. */
uint32_t embulgri_feed(uint64_t state[16], const uint8_t *page, size_t n, uint8_t *carry, size_t carry_n,
                       uint64_t *ends, size_t ends_n, uint64_t *lengths, size_t lengths_n, uint64_t *kept, size_t kept_n,
                       uint64_t *frames, size_t frames_n, uint64_t page_out[6]);

/* Feeds the pages that lie one after the other in n bytes, each as embulgri_feed would. The packets of each page are
 * listed after those of the pages before it. Before each page, the first too, it stops for the first of these that holds:
 * fewer than 255 places are left in a list; the page is not whole in the bytes, as at their end; it is refused.
 * run_out is stored however it stops:
 *   0   how many bytes the accepted pages have; the next page starts at that place
 *   1   how many pages were accepted
 *   2   how many packets they list, each in a place of the four lists
 *   3   why it stopped: 0 the next page is not whole, 1 fewer than 255 places are left, 2 the next page is refused
 * The state is that of the reader after the accepted pages, also where a refusal comes after them. Where no page was
 * accepted it stays as it was. The lists past the packets stay as they were. carry is as in embulgri_feed.
 * To go on after 0, feed the bytes from that place on with more bytes after them; after 1, with free lists of 255 places
 * or more. Bytes left at the end of the input that are no whole page are for embulgri_feed, which refuses them.
 * Feeding many small pages so is faster than by embulgri_feed, since the tables of the checksum are made once a call.
 *   1   the next page is whole and not short of places, and carry_n is below 61440
 *   2 to 19  embulgri_feed would refuse the next page by this number
 *   0   no page was refused
 * Example: after embulgri_start, the two header pages of a stream, of 47 and 44 bytes, and 20 bytes of the next page
 * store 91, 2, 0, 0. */
uint32_t embulgri_feed_pages(uint64_t state[16], const uint8_t *bytes, size_t n, uint8_t *carry, size_t carry_n,
                             uint64_t *ends, size_t ends_n, uint64_t *lengths, size_t lengths_n,
                             uint64_t *kept, size_t kept_n, uint64_t *frames, size_t frames_n, uint64_t run_out[4]);

/* Whether two readers agree: 1 where numbers 0 to 9 of their states are equal, as they are, and the first bytes of their
 * carry buffers too, as many as number 2 says; else 0, also where a buffer is shorter than that. The totals are not looked
 * at. What is fed to two readers that agree is told alike from there on, and their totals grow alike. So a stream can be
 * cut, and its parts fed to readers of their own: one that is opened at a page and fed up to and with the first page that
 * completes a packet agrees with the reader of the whole stream, where that page is not marked last and nothing is left
 * to skip. It refuses nothing.
 * Example: two states of 16 zeros give 1, and 0 where one of them has 1 in place 9. */
uint32_t embulgri_agree(const uint64_t a[16], const uint8_t *carry_a, size_t a_n, const uint64_t b[16],
                        const uint8_t *carry_b, size_t b_n);

/* Rewrites the totals of end, numbers 10 to 13, to those of the whole: the totals of r, and what those of the other
 * reader gained from o to end, modulo 2^64; r and o are the states when the two agreed. The other numbers stay. It refuses
 * nothing.
 * Example: with 100 in place 10 of r, 30 of o and 50 of end, that of end becomes 120. */
void embulgri_totals_after(const uint64_t r[16], const uint64_t o[16], uint64_t end[16]);

/* The place after the page that starts at place at of n bytes, or 0 where the page is not whole there: fewer than 27
 * bytes are left, or the bytes end before the page does. 27 bytes or more that do not begin with "OggS" count as a page
 * that goes to the end of the bytes; feeding refuses it. It refuses nothing.
 * Example: of "OggS" and 23 zero bytes, at 0 gives 27; of the first 26 of them it gives 0. */
uint64_t embulgri_page_end(const uint8_t *bytes, size_t n, uint64_t at);

/* Judges a whole stream in a buffer. Its pages are found as embulgri_page_end finds them and fed, one after the other, to
 * a reader just started; what is left where a page is not whole is fed as it is.
 *   2 to 18  the first page that is refused is refused by this number; its number, the first page being 0, is stored
 *            to *page
 *   24  no page is refused, and the comment header is not complete, also where there are no bytes; *page stays
 *   0   neither: the stream is whole; *page stays
 * Example: n 0 returns 24. A whole stream of five pages returns 0, and without its last byte 3, with 4 in *page. */
uint32_t embulgri_judge(const uint8_t *stream, size_t n, uint64_t *page);

/* How many records the index of a stream has: one for each page on which an audio packet completes. It refuses nothing; of
 * bytes that are no whole stream the number means nothing, and embulgri_index_build refuses them.
 * Example: the two header pages of a stream and an audio page with one packet give 1. */
uint64_t embulgri_index_count(const uint8_t *stream, size_t n);

/* Builds the index of a whole stream: for each page on which an audio packet completes, in order, its granule position, the
 * place of its first byte in the stream, and its sequence number, in the first places of the three lists; *count is how
 * many they are. Places past them stay as they were.
 *   22  the three lists have different lengths; nothing else is looked at
 *   2 to 18, 24  the stream is not whole, by this number of embulgri_judge
 *   22  neither, and the lists are shorter than the index
 *   0   none of these
 * Example: a stream of five pages, three of them audio pages that complete a packet, with lists of three places stores 3
 * to *count. */
uint32_t embulgri_index_build(const uint8_t *stream, size_t n, uint64_t *granules, size_t granules_n, uint64_t *places,
                              size_t places_n, uint32_t *sequences, size_t sequences_n, uint64_t *count);

/* Seeks a position, in samples at 48 kHz, in an index: the last record whose granule position is at or before the target
 * less 3,840, the 80 ms that a decoder needs to settle (RFC 7845, 4.6). The record is found by halving. out: 1 and the
 * number of the record, the first being 0; or 0 and 0, where no record is early enough or the target is below 3,840; and
 * the number of records looked at, which is 0 for such a target.
 *   22  the three lists have different lengths; nothing else is looked at
 *   26  a granule position is below the one before it; the first such place is stored to *place
 *   0   neither; out is stored, and *place stays
 * Example: the granule positions 5000, 6000, 7000, 7000 and 8000, with five places and five sequence numbers, and the
 * target 10840 store 1, 3, 3. */
uint32_t embulgri_index_seek(const uint64_t *granules, size_t granules_n, const uint64_t *places, size_t places_n,
                             const uint32_t *sequences, size_t sequences_n, uint64_t target, uint64_t out[3],
                             uint64_t *place);

/* The least place at or after from at which a whole page starts that embulgri_page_read would read, so that neither 3 nor 4
 * holds; or n, where there is none. It refuses nothing.
 * Example: of one byte and a right page of 27 bytes after it, from 0 gives 1, and from 2 gives 28. */
uint64_t embulgri_next_page(const uint8_t *bytes, size_t n, uint64_t from);

/* Salvages a stream from n damaged bytes. Its pages are searched for as embulgri_next_page finds them, each from the end of
 * the one before; those with the serial of the first one that is marked first are the stream. A break lies between two of
 * them that are not numbered one after the other. Packets that a break cuts are removed on all their pages, with the
 * continued marks, the pages are numbered from 0, and their checksums are made again. They are fed to a reader just
 * started; the first page that it refuses counts as missing, and all is done again without it, until none is refused.
 * What is left, a whole stream by embulgri_judge, is written to the start of out. A whole stream comes out as it is.
 * what, places and sizes: one place of each for each line of what was skipped and changed, in the order of the bytes:
 *   0   skip: so many bytes from this place on are in no page that was kept
 *   1   number: the page that starts at this place has another number, of 4 bytes
 *   2   mark: it is no longer marked continued, in 1 byte
 *   3   cut: a piece of a packet, of so many bytes, was removed from it; a piece at its start comes before one at its end
 * counts: how many bytes and how many lines are written. What lies past them in out and in the lists stays as it was.
 * work: room for the places of pages. What it has at the end, also under a refusal, means nothing.
 * An out_n of n, a work_n of n / 27, and a what_n, places_n and sizes_n of n / 7 + 1 always suffice.
 *   1   work_n is below n / 27; nothing else is looked at
 *   24  not 1, and no page is marked first, or what is left of the stream lacks a whole header
 *   22  neither, and out_n is below the number of bytes, or what_n, places_n or sizes_n below the number of lines
 *   0   none of these; the bytes, the lines and counts are stored
 * Example: the two header pages of a stream, of 47 and 44 bytes, with one byte x before them store 0, 0, 1 in the first
 * places of the three lists and 91 and 1 in counts. No bytes return 24. */
uint32_t embulgri_salvage(const uint8_t *bytes, size_t n, uint64_t *work, size_t work_n, uint8_t *out, size_t out_n,
                          uint64_t *what, size_t what_n, uint64_t *places, size_t places_n,
                          uint64_t *sizes, size_t sizes_n, uint64_t counts[2]);

/* Crops a whole stream at a page, the first being page 0: both headers as they are, and all pages from that one on, go to
 * the start of out. These are renumbered by one shift, so that they follow the headers, and their checksums are made again;
 * granule positions stay. *written is how many bytes the crop has; the bytes of out past them stay as they were. An out_n
 * of n always suffices.
 *   2 to 18, 24  the stream is not whole, by this number of embulgri_judge
 *   29  neither, and there is no such page, or it is one of the headers, or it is marked continued, completes no packet, or
 *       is marked last
 *   22  none of these, and out_n is below the number of bytes
 *   0   none of these
 * Example: of two header pages, of 47 and 44 bytes, and three audio pages of 31, each of one packet, none marked last, page
 * 3 stores 153 to *written: the pages are numbered 0 to 3. */
uint32_t embulgri_crop(const uint8_t *stream, size_t n, uint64_t page, uint8_t *out, size_t out_n, uint64_t *written);

/* Finds where a crop begins: the last page, of those up to page last, at which embulgri_crop may begin and whose first
 * packet starts at or before a position, in samples at 48 kHz. start: the page, and where that packet starts: its end stamp
 * less its length.
 *   2 to 18, 24  the stream is not whole, by this number of embulgri_judge
 *   29  neither, and there is no such page
 *   0   neither; start is stored
 * Example: where those audio pages have packets of 960 samples and the granule positions 960, 1,920 and 2,880, a last of 9
 * and the position 1,000 store 3 and 960. */
uint32_t embulgri_crop_start(const uint8_t *stream, size_t n, uint64_t last, uint64_t position, uint64_t start[2]);

/* Checks a whole stream for what its writer was advised against. kinds and pages: one place of each for each finding, by page,
 * the first being page 0, and on one page by kind:
 *   1   the last packet is left unfinished; on the last page
 *   2   no page is marked last; on the last page, also where that is one of the headers
 *   3   more samples are trimmed than the last packet has; on the last page
 *   4   the comment header has a REPLAYGAIN tag; once, on the page where it completes
 *   5   a hole lies before the packets of the page
 * *count is how many they are; places past them stay as they were. Lists of n / 27 + 5 places always suffice.
 *   2 to 18, 24  the stream is not whole, by this number of embulgri_judge
 *   22  neither, and the shorter list has fewer places than there are findings
 *   0   neither
 * Example: the two header pages of a stream alone store the kind 2, the page 1 and the count 1. */
uint32_t embulgri_check(const uint8_t *stream, size_t n, uint64_t *kinds, size_t kinds_n, uint64_t *pages, size_t pages_n,
                        uint64_t *count);

/* ---- the lines that the program embulgri prints; these calls are for it, and may change with it */

/* Puts the line above all packets of a listing into out from place at on. It returns the place after it, or at itself
 * where the line does not fit. It refuses nothing.
 * Example: at 0 with an out of 20 bytes returns 20. */
uint64_t embulgri_list_first(uint8_t *out, size_t out_n, uint64_t at);

/* Puts the line of a reader's totals, in the same way.
 * Example: 16 zeros put "total kept=0 skipped=0 trimmed=0 hole=0" and a line feed. */
uint64_t embulgri_list_total(const uint64_t state[16], uint8_t *out, size_t out_n, uint64_t at);

/* Puts the line of a refusal, in the same way.
 * Example: the number 4 and the page 2 put "refused 4 page 2" and a line feed. */
uint64_t embulgri_list_refused(uint64_t number, uint64_t page, uint8_t *out, size_t out_n, uint64_t at);

/* Puts the lines of packets into out from place at on, as long as 84 bytes are left, which is the longest line. The
 * shortest of the four lists says how many packets there are. put: how many lines, and the place after them. It refuses
 * nothing.
 * Example: the end 960, the length 960, 1 frame and 648 kept put "960 960 1 648" and a line feed, and store 1 and 14. */
void embulgri_list_entries(const uint64_t *ends, size_t ends_n, const uint64_t *lengths, size_t lengths_n,
                           const uint64_t *frames, size_t frames_n, const uint64_t *kept, size_t kept_n,
                           uint8_t *out, size_t out_n, uint64_t at, uint64_t put[2]);

/* Puts the line above all records of an index, in the same way. Example: at 0 with an out of 23 bytes returns 23. */
uint64_t embulgri_index_first(uint8_t *out, size_t out_n, uint64_t at);

/* Puts the lines of records into out from place at on, as long as 53 bytes are left, which is the longest line. The
 * shortest of the three lists says how many records there are. put: how many lines, and the place after them. It refuses
 * nothing. Example: the granule position 960, the place 5123 and the sequence number 2 put "960 5123 2" and a line feed,
 * and store 1 and 11. */
void embulgri_index_records(const uint64_t *granules, size_t granules_n, const uint64_t *places, size_t places_n,
                            const uint32_t *sequences, size_t sequences_n, uint8_t *out, size_t out_n, uint64_t at,
                            uint64_t put[2]);

/* Puts the line of a refusal that names neither a page nor a place, in the same way.
 * Example: the number 24 puts "refused 24" and a line feed. */
uint64_t embulgri_index_refused(uint64_t number, uint8_t *out, size_t out_n, uint64_t at);

/* Puts the line above the record that a seek found, in the same way as embulgri_list_first.
 * Example: at 0 with an out of 30 bytes returns 30. */
uint64_t embulgri_seek_first(uint8_t *out, size_t out_n, uint64_t at);

/* Puts the line of that record and of the probes, in the same way.
 * Example: 960, 5123, 2 and 7 put "960 5123 2 7" and a line feed. */
uint64_t embulgri_seek_found(uint64_t granule, uint64_t place, uint32_t sequence, uint64_t probes, uint8_t *out,
                             size_t out_n, uint64_t at);

/* Puts the line of a seek that found no record, in the same way. Example: 7 probes put "begin 7" and a line feed. */
uint64_t embulgri_seek_begin(uint64_t probes, uint8_t *out, size_t out_n, uint64_t at);

/* Puts the line of a refusal with its place, in the same way.
 * Example: the number 26 and the place 3 put "refused 26 place 3" and a line feed. */
uint64_t embulgri_seek_refused(uint64_t number, uint64_t place, uint8_t *out, size_t out_n, uint64_t at);

/* Puts a line of what salvage skipped or changed, in the same way: "skip" for 0, "number" for 1, "mark" for 2 or "cut" for
 * any other number, the place and the bytes. Example: 3, 5123 and 255 put "cut 5123 255" and a line feed. */
uint64_t embulgri_salvage_line(uint64_t what, uint64_t place, uint64_t bytes, uint8_t *out, size_t out_n, uint64_t at);

/* Writes all lines that show an identification header packet and a comment header packet to the start of out, and their
 * length to *written.
 *   12, 13  embulgri_head_read would refuse the first packet so
 *   14  neither, and embulgri_tags_read would refuse the second
 *   22  none of these, and the lines do not fit in out; out then has those pieces of them that fit one after the other
 *   0   none of these; the lines and their length are stored
 * Of packets of at most 61440 bytes the lines have less than 1048576. */
uint32_t embulgri_header_lines(const uint8_t *head, size_t head_n, const uint8_t *tags, size_t tags_n,
                               uint8_t *out, size_t out_n, uint64_t *written);

#ifdef __cplusplus
}
#endif

#endif
