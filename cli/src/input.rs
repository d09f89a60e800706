//! The input, mapped or read in pieces: in either way, bytes that are not fed yet.

use crate::system::{self, Mapping};
use crate::trouble::Trouble;
use std::ffi::{OsStr, OsString};
use std::fs::File;
use std::io::{ErrorKind, Read, Seek, SeekFrom};
use std::mem::ManuallyDrop;
use std::os::unix::fs::MetadataExt;
use std::sync::atomic::{AtomicU64, Ordering};
use std::sync::Arc;

/// What is read of an input that is not mapped: a page, which has at most 65,307 bytes, and more.
const ROOM: usize = 262_144;

/// The bytes from `from` to `to` of what is mapped, or of the buffer, are not fed yet.
pub struct Input {
    name: String,
    source: Source,
    from: usize,
    to: usize,
    /// The bytes before place `from` that were fed. Only the thread that has the input changes it.
    fed: Arc<AtomicU64>,
    /// What tells its file from others.
    identity: (u64, u64),
}

enum Source {
    Mapped(Mapping),
    Pieces {
        file: ManuallyDrop<File>,
        buffer: Vec<u8>,
        ended: bool,
    },
}

impl Input {
    /// The file with this name, or standard input. Nothing is read yet.
    pub fn open(name: Option<OsString>) -> Result<Input, Trouble> {
        let Some(path) = name else {
            let file = system::standard_input();
            return Ok(Input::of("standard input".into(), file));
        };
        let name = format!("{path:?}");
        match File::open(&path) {
            Ok(file) => Ok(Input::of(name, ManuallyDrop::new(file))),
            Err(why) => Err(Trouble::reading(&name, &why)),
        }
    }

    /// An input from the file's place on. The file is not closed before the program ends, since
    /// standard input is not the program's to close.
    fn of(name: String, file: ManuallyDrop<File>) -> Input {
        let told = file.metadata();
        let identity = told.map_or((0, 0), |told| (told.dev(), told.ino()));
        let (source, from, to) = match mapped(&file) {
            Some((mapping, from)) => {
                let to = mapping.bytes().len();
                (Source::Mapped(mapping), from, to)
            }
            None => (pieces(file), 0, 0),
        };
        Input {
            name,
            source,
            from,
            to,
            fed: Arc::default(),
            identity,
        }
    }

    /// The input's name, for messages.
    pub fn name(&self) -> &str {
        &self.name
    }

    /// Trouble where it is the file with this name, which is to be written.
    pub fn must_not_be(&self, out: &OsStr) -> Result<(), Trouble> {
        if self.is_file(out) {
            let name = &self.name;
            return Err(Trouble::new(format!("{name} and {out:?} are one file")));
        }
        Ok(())
    }

    /// Whether it is the file with this name.
    fn is_file(&self, name: &OsStr) -> bool {
        let Ok(other) = std::fs::metadata(name) else {
            return false;
        };
        (other.dev(), other.ino()) == self.identity
    }

    /// The bytes at hand that are not fed yet.
    pub fn bytes(&self) -> &[u8] {
        let all = match &self.source {
            Source::Mapped(mapping) => mapping.bytes(),
            Source::Pieces { buffer, .. } => buffer,
        };
        &all[self.from..self.to]
    }

    /// Where they start in the input.
    pub fn place(&self) -> u64 {
        self.fed.load(Ordering::Relaxed)
    }

    /// Where they start, for another thread to look at.
    pub fn taken(&self) -> Arc<AtomicU64> {
        self.fed.clone()
    }

    /// The size of a mapped input; of any other it is not known.
    pub fn size(&self) -> Option<u64> {
        match self.source {
            Source::Mapped(_) => Some(self.place() + self.bytes().len() as u64),
            Source::Pieces { .. } => None,
        }
    }

    /// Takes the first n of them for fed.
    pub fn take(&mut self, n: usize) {
        self.from += n;
        self.fed.store(self.place() + n as u64, Ordering::Relaxed);
    }

    /// Takes the bytes up to a place of the input, none before those at hand, for fed; false where
    /// the input ends before that place.
    pub fn skip_to(&mut self, place: u64) -> Result<bool, Trouble> {
        loop {
            let left = place - self.place();
            self.take(left.min(self.bytes().len() as u64) as usize);
            if self.place() == place {
                return Ok(true);
            }
            if !self.read_more()? {
                return Ok(false);
            }
        }
    }

    /// Gets all bytes of the input. What is not mapped is read into memory, which grows with it.
    pub fn read_whole(&mut self) -> Result<(), Trouble> {
        let Source::Pieces {
            file,
            buffer,
            ended,
        } = &mut self.source
        else {
            return Ok(());
        };
        buffer.truncate(self.to);
        file.read_to_end(buffer)
            .map_err(|why| Trouble::reading(&self.name, &why))?;
        (self.to, *ended) = (buffer.len(), true);
        Ok(())
    }

    /// Gets more bytes after those at hand; false where the input has ended.
    pub fn read_more(&mut self) -> Result<bool, Trouble> {
        let Source::Pieces {
            file,
            buffer,
            ended,
        } = &mut self.source
        else {
            return Ok(false);
        };
        buffer.copy_within(self.from..self.to, 0);
        (self.from, self.to) = (0, self.to - self.from);
        while !*ended {
            match file.read(&mut buffer[self.to..]) {
                Ok(0) => *ended = true,
                Ok(n) => {
                    self.to += n;
                    return Ok(true);
                }
                Err(why) if why.kind() == ErrorKind::Interrupted => {}
                Err(why) => return Err(Trouble::reading(&self.name, &why)),
            }
        }
        Ok(false)
    }
}

/// A file that is read in pieces.
fn pieces(file: ManuallyDrop<File>) -> Source {
    Source::Pieces {
        file,
        buffer: vec![0; ROOM],
        ended: false,
    }
}

/// A file as it is mapped, and its place, which is moved to its end as reading it would; none where
/// it is not a regular file with bytes from its place on, or cannot be mapped.
fn mapped(mut file: &File) -> Option<(Mapping, usize)> {
    let told = file.metadata().ok()?;
    if !told.is_file() {
        return None;
    }
    let place = file.stream_position().ok()?;
    if place >= told.len() {
        return None;
    }
    let mapping = Mapping::of(file, usize::try_from(told.len()).ok()?)?;
    file.seek(SeekFrom::Start(told.len())).ok()?;
    Some((mapping, place as usize))
}
