//! The texts of `--help` and `--version`.

/// All that the program can be asked for.
pub const ALL: &str = "\
embulgri reads Ogg Opus recordings, to the sample.

usage: embulgri list [FILE]   one line a packet: its end stamp, its length, its
                              frames and how much of it is kept
       embulgri tags [FILE]   the identification header, the vendor and the
                              comments
       embulgri index [FILE]  one line a page where an audio packet completes: its
                              granule position, place and sequence number
       embulgri seek [FILE] POSITION [--index FILE]
                              the page from which to read to play from POSITION
       embulgri salvage IN OUT
                              what can be saved of a damaged recording, to OUT;
                              one line for each thing skipped or changed
       embulgri crop IN PAGE OUT
       embulgri crop IN --at POSITION OUT
                              the recording from a page on, or from the last one
                              that starts at or before POSITION, to OUT
       embulgri check [FILE] [--explain]
                              whether the recording is accepted; one line for
                              each thing that its writer was advised against
       embulgri explain N     what the number of a refusal means
       embulgri --help        this text; embulgri list --help says more of list,
                              and so on
       embulgri --version     the version

Without FILE, or where it or IN is \"-\", standard input is read. A file that is
read, IN too, must not change meanwhile; it may grow. After \"--\" no word is
taken for an option.

Where standard error is a terminal, it shows how far the work on a file of more
than 64 MiB has come, until lines are printed on a terminal; with --quiet, which
any command takes, it does not.

exit status:
  0  done
  1  check: accepted, and something was found that the writer was advised against
  2  refused: the last line is \"refused N page K\" for a page, and \"refused N
     place P\" for an index; where it is neither, as where a header is lost or no
     crop begins there, \"refused N\". Standard error says what that means
  3  trouble: wrong arguments, or reading or writing failed; standard error
     says which
";

/// What `list` prints.
pub const LIST: &str = "\
usage: embulgri list [FILE]

Lists the packets of an Ogg Opus recording. The first line names the columns,
and one line follows for each packet:
  end     the stamp of its last sample, at 48,000 samples a second
  dur     its length in samples
  frames  the number of its frames
  kept    how many of its samples are neither skipped at the start of the
          recording nor trimmed at its end
The last line is \"total kept=A skipped=B trimmed=C hole=D\", in samples, or,
after a page that breaks a rule, \"refused N page K\". Pages and bytes are
counted from 0.

Without FILE, or where it is \"-\", standard input is read. A file is mapped: it
may grow meanwhile, but what it has must stay as it is.

exit status: 0 listed whole, 2 a page was refused, 3 trouble
";

/// What `tags` prints.
pub const TAGS: &str = "\
usage: embulgri tags [FILE]

Shows the two headers of an Ogg Opus recording: the fields of the
identification header by their names, the vendor, the number of comments, and
each comment. Texts are shown escaped: \\\\ is a backslash, and \\xHH a byte that
is no part of a character, or one of a character that is not shown. After a
gain, and a tab, come its decibels. Where a page of the headers breaks a rule,
\"refused N page K\" is the only line. Pages and bytes are counted from 0.

Without FILE, or where it is \"-\", standard input is read. A file is mapped: it
may grow meanwhile, but what it has must stay as it is.

exit status: 0 shown, 2 a page was refused, 3 trouble, also where the input
ends before both headers are complete
";

/// What `index` prints.
pub const INDEX: &str = "\
usage: embulgri index [FILE]

Lists the index of an Ogg Opus recording. The first line names the columns, and
one line follows for each page on which an audio packet completes:
  granule   its granule position, in samples at 48,000 a second
  place     the byte at which it starts
  sequence  its sequence number
Where a page breaks a rule, \"refused N page K\" is the only line, and where the
recording ends before its comment header is complete, \"refused 24\". Pages and
bytes are counted from 0.

Without FILE, or where it is \"-\", standard input is read. A file is mapped: it
may grow meanwhile, but what it has must stay as it is. Any other input is read
into memory whole. A line takes 20 bytes of memory more.

exit status: 0 listed whole, 2 a page was refused, 3 trouble
";

/// What `seek` prints.
pub const SEEK: &str = "\
usage: embulgri seek [FILE] POSITION [--index FILE]

Tells the page from which to read an Ogg Opus recording to play it from POSITION
on: the last one of its index with a granule position at or before POSITION less
3,840, the 80 ms that a decoder needs before what it gives is right. POSITION is
a decimal number of samples at 48,000 a second, from 0 to 18446744073709551615,
and counts as granule positions do.

The first line names the columns, and the second has the page's line in the
index and the number of probes, the records that the search looked at. Where no
page is early enough, \"begin PROBES\" is the only line: the recording is to be
read from its start. Refusals are those of embulgri index.

With --index the index is not made of the recording, but read from a listing,
which embulgri index printed. Of the recording, only the page that is found is
looked at, which must have the granule position and the sequence number that the
listing says. Where a granule position in the listing is below the one before
it, \"refused 26 place P\" is the only line, P being the first such record,
counted from 0.

Without FILE, or where it is \"-\", standard input is read, for the recording or
for the listing. A file is mapped: it may grow meanwhile, but what it has must
stay as it is. Any other input is read into memory whole, but for a recording
with --index. A record of the index takes 20 bytes of memory more.

exit status: 0 answered, 2 a page or the index was refused, 3 trouble, also
where a listing is no index, or not that of the recording
";

/// What `salvage` does and prints.
pub const SALVAGE: &str = "\
usage: embulgri salvage IN OUT

Saves what it can of a damaged Ogg Opus recording: the whole pages with a right
checksum of one stream, that of the first page that is marked first. Packets of
which a page is missing are removed, and the pages are numbered anew, so that OUT
is a recording that embulgri list accepts. Sound is not changed. One line is
printed for each change, \"what place bytes\", in the order of the input:
  skip    these bytes are in no page that was kept
  number  the page at this place has another number
  mark    it is no longer marked as one that continues a packet
  cut     so many bytes of a packet were removed from it
Places are those of IN, counted from 0. A whole recording comes out as it is,
with no lines. Standard error says in words what was saved.

Where there is no page that is marked first, or a header is lost, \"refused 24\"
is the only line. OUT is written beside its place and renamed when it is
complete; without that it is left as it was. A file that it replaces passes on
its permissions. Where IN is \"-\", standard input is read. IN is mapped, or read
into memory whole, and OUT is made in memory. IN must not change meanwhile.

exit status: 0 saved, with changes or without, 2 refused, 3 trouble
";

/// What `crop` does and prints.
pub const CROP: &str = "\
usage: embulgri crop IN PAGE OUT
       embulgri crop IN --at POSITION OUT

Writes the Ogg Opus recording IN to OUT from a page on: both headers as they
are, and the page and all after it, numbered so that they follow the headers.
Sound and granule positions are not changed: the stamps of embulgri list stay.

Pages are counted from 0. A crop begins with a page of audio on which a packet
completes and which is marked neither continued nor last. With --at it is the
last such page whose first packet starts at or before POSITION, a decimal number
of samples at 48,000 a second, which counts as granule positions do. Standard
error says which page that is and where its first packet starts.

A decoder needs 80 ms from there on, 3,840 samples, to settle, and the pre-skip
is skipped again: to hear all from a position on, give --at one that is earlier
by the greater of both.

Where a page breaks a rule, \"refused N page K\" is the only line, and where the
recording ends before its comment header is complete, \"refused 24\". Where no
crop begins at PAGE, or none at or before POSITION, it is \"refused 29\". Else
nothing is printed.

OUT is written beside its place and renamed when it is complete; without that it
is left as it was. A file that it replaces passes on its permissions. Where IN
is \"-\", standard input is read. IN is mapped, or read into memory whole, and OUT
is made in memory. IN must not change meanwhile.

exit status: 0 cropped, 2 refused, 3 trouble
";

/// What `check` prints.
pub const CHECK: &str = "\
usage: embulgri check [FILE] [--explain]

Checks an Ogg Opus recording for what RFC 7845 advises its writer against. One
line is printed for each finding, and then \"accepted\":
  unfinished page K  the last packet, on the last page, does not complete
  no-end page K      the last page is not marked as the end of the stream
  trimmed page K     the last page discards more samples than the last packet
                     that completes has
  replaygain page K  the comments, which complete on this page, have one of the
                     REPLAYGAIN tags of tracks and albums, for a gain or a peak
  hole page K        by the granule positions, samples are missing before the
                     packets of this page
Pages are counted from 0, and the lines are in the order of the pages. All these
are accepted all the same. Where a page breaks a rule, \"refused N page K\"
is the only line, and where the recording ends before its comment header is
complete, \"refused 24\".

With --explain standard error says, in one sentence for each kind of finding,
what is advised and what a listener or a player will notice.

Without FILE, or where it is \"-\", standard input is read. A file is mapped: it
may grow meanwhile, but what it has must stay as it is. Any other input is read
into memory whole. A finding takes 16 bytes of memory more.

exit status: 0 accepted without a finding, 1 accepted with at least one, 2
refused, 3 trouble
";

/// What `explain` prints.
pub const EXPLAIN: &str = "\
usage: embulgri explain N

Says what the number N of \"refused N page K\" means. There are numbers from 1 to
24, and 26, 29 and 30. Those from 2 to 18 end a listing; these and 24 are given
by index, seek, crop and check, 24 by salvage, 26 by seek and 29 by crop. The
others are told to programs that call the library.

exit status: 0 said, 3 there is no such number
";

/// The program's name and version.
pub fn version() -> String {
    format!("embulgri {}\n", env!("CARGO_PKG_VERSION"))
}
