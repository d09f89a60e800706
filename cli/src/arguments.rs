//! What the arguments ask for.

use crate::help;
use crate::numbers::decimal;
use crate::trouble::Trouble;
use embulgri::refusal::Refusal;
use std::ffi::{OsStr, OsString};
use std::os::unix::ffi::OsStrExt;

/// The name of a file; without one, standard input is meant.
pub type Name = Option<OsString>;

/// What is to be done.
pub enum Task {
    /// List a recording.
    List(Name),
    /// Show its headers.
    Tags(Name),
    /// List its index.
    Index(Name),
    /// Seek a position in it, by its own index or by a listing of it.
    Seek {
        recording: Name,
        position: u64,
        listing: Option<Name>,
    },
    /// Save what can be saved of a damaged one to a file.
    Salvage { input: Name, out: OsString },
    /// Keep it from a page on, in a file.
    Crop {
        input: Name,
        begin: Begin,
        out: OsString,
    },
    /// Check it for what its writer was advised against, and explain what is found.
    Check { recording: Name, explain: bool },
    /// Print this text.
    Print(String),
    /// Say how the program is used, since nothing was asked for.
    Usage,
}

/// Where a crop is to begin: with a page, or at a position or before it.
pub enum Begin {
    Page(u64),
    Position(u64),
}

/// What may follow the first word: so many words, an option with one more, and an option alone.
struct Most {
    words: usize,
    option: Option<&'static str>,
    flag: Option<&'static str>,
}

impl Most {
    /// Words alone.
    const fn words(n: usize) -> Most {
        Most {
            words: n,
            option: None,
            flag: None,
        }
    }
}

const SEEK_WORDS: Most = Most {
    option: Some("--index"),
    ..Most::words(2)
};

const CROP_WORDS: Most = Most {
    option: Some("--at"),
    ..Most::words(3)
};

const CHECK_WORDS: Most = Most {
    flag: Some("--explain"),
    ..Most::words(1)
};

/// What follows the first word: a wish for help; or words, the one after the option, and whether
/// the option that stands alone is there.
enum Rest {
    Help,
    Words {
        plain: Vec<OsString>,
        option: Option<OsString>,
        flag: bool,
    },
}

/// The words but "--quiet", and whether it is one of them. After "--" no word is taken for it.
pub fn without_quiet(mut words: Vec<OsString>) -> (Vec<OsString>, bool) {
    let end = words.iter().position(|word| word == "--");
    let mut others = words.split_off(end.unwrap_or(words.len()));
    let count = words.len();
    words.retain(|word| word != "--quiet");
    let quiet = words.len() < count;
    words.append(&mut others);
    (words, quiet)
}

/// The task that the words after the program's name ask for.
pub fn task_of(words: &[OsString]) -> Result<Task, Trouble> {
    let Some((first, rest)) = words.split_first() else {
        return Ok(Task::Usage);
    };
    match first.as_bytes() {
        b"list" => file_task(rest, Task::List, help::LIST),
        b"tags" => file_task(rest, Task::Tags, help::TAGS),
        b"index" => file_task(rest, Task::Index, help::INDEX),
        b"seek" => seek_task(rest),
        b"salvage" => salvage_task(rest),
        b"crop" => crop_task(rest),
        b"check" => check_task(rest),
        b"explain" => explain_task(rest),
        b"--help" | b"-h" => Ok(Task::Print(help::ALL.into())),
        b"--version" => Ok(Task::Print(help::version())),
        word if word.starts_with(b"-") => Err(misused("unknown option", first)),
        _ => Err(misused("unknown word", first)),
    }
}

/// A task on a file.
fn file_task(words: &[OsString], task: fn(Name) -> Task, help: &str) -> Result<Task, Trouble> {
    match rest_of(words, Most::words(1))? {
        Rest::Help => Ok(Task::Print(help.into())),
        Rest::Words { mut plain, .. } => Ok(task(plain.pop().and_then(named))),
    }
}

/// To seek the position that the last word is.
fn seek_task(words: &[OsString]) -> Result<Task, Trouble> {
    let Rest::Words {
        mut plain, option, ..
    } = rest_of(words, SEEK_WORDS)?
    else {
        return Ok(Task::Print(help::SEEK.into()));
    };
    let Some(word) = plain.pop() else {
        return Err(misused_by("seek", "no position to seek"));
    };
    let position = number_of(&word, "seek", "position")?;
    let recording = plain.pop().and_then(named);
    let listing = option.map(named);
    if recording.is_none() && listing == Some(None) {
        return Err(misused_by(
            "seek",
            "the index and the recording are one input",
        ));
    }
    Ok(Task::Seek {
        recording,
        position,
        listing,
    })
}

/// To salvage the first word's file to the second's.
fn salvage_task(words: &[OsString]) -> Result<Task, Trouble> {
    let Rest::Words { mut plain, .. } = rest_of(words, Most::words(2))? else {
        return Ok(Task::Print(help::SALVAGE.into()));
    };
    match (plain.pop(), plain.pop()) {
        (Some(out), Some(_)) if out == "-" => {
            Err(misused_by("salvage", "what is saved is written to a file"))
        }
        (Some(out), Some(input)) => Ok(Task::Salvage {
            input: named(input),
            out,
        }),
        _ => Err(misused_by("salvage", "salvage takes two files, IN and OUT")),
    }
}

/// To crop the first word's file to the last one's, at the page between them or at the option's
/// position.
fn crop_task(words: &[OsString]) -> Result<Task, Trouble> {
    let Rest::Words { plain, option, .. } = rest_of(words, CROP_WORDS)? else {
        return Ok(Task::Print(help::CROP.into()));
    };
    let (input, begin, out) = match (plain.as_slice(), option) {
        ([input, out], Some(word)) => {
            let position = number_of(&word, "crop", "position")?;
            (input, Begin::Position(position), out)
        }
        ([input, word, out], None) => {
            let page = number_of(word, "crop", "page")?;
            (input, Begin::Page(page), out)
        }
        ([_, _, _], Some(_)) => {
            return Err(misused_by("crop", "a page and a position are asked for"));
        }
        _ => {
            let due = "crop takes IN, a PAGE or --at with a POSITION, and OUT";
            return Err(misused_by("crop", due));
        }
    };
    if out == "-" {
        return Err(misused_by("crop", "what is kept is written to a file"));
    }
    Ok(Task::Crop {
        input: named(input.clone()),
        begin,
        out: out.clone(),
    })
}

/// To check the word's file, and to explain what is found where that is wished.
fn check_task(words: &[OsString]) -> Result<Task, Trouble> {
    let Rest::Words {
        mut plain, flag, ..
    } = rest_of(words, CHECK_WORDS)?
    else {
        return Ok(Task::Print(help::CHECK.into()));
    };
    Ok(Task::Check {
        recording: plain.pop().and_then(named),
        explain: flag,
    })
}

/// To print what a number means.
fn explain_task(words: &[OsString]) -> Result<Task, Trouble> {
    let Rest::Words { mut plain, .. } = rest_of(words, Most::words(1))? else {
        return Ok(Task::Print(help::EXPLAIN.into()));
    };
    let Some(word) = plain.pop() else {
        return Err(misused_by("explain", "no number to explain"));
    };
    match explained(&word) {
        Some(text) => Ok(Task::Print(text)),
        None => {
            let message = format!("{word:?} is no number of a refusal");
            Err(misused_by("explain", &message))
        }
    }
}

/// The line that explains a refusal's number, which is written in decimal; none where it is no
/// such.
fn explained(word: &OsStr) -> Option<String> {
    let word = word.to_str()?;
    let mut all = Refusal::ALL.iter();
    let found = all.find(|refusal| refusal.number().to_string() == word)?;
    let (number, name, meaning) = (found.number(), found.name(), found.meaning());
    Some(format!("{number} {name}: {meaning}\n"))
}

/// What follows the first word. After "--" nothing is taken for an option.
fn rest_of(words: &[OsString], most: Most) -> Result<Rest, Trouble> {
    let (mut plain, mut option, mut flag) = (Vec::new(), None, false);
    let mut options = true;
    let mut words = words.iter();
    while let Some(word) = words.next() {
        match word.as_bytes() {
            b"--" if options => options = false,
            b"--help" | b"-h" if options => return Ok(Rest::Help),
            _ if options && most.option.is_some_and(|name| word == name) => match words.next() {
                Some(_) if option.is_some() => return Err(misused("one option too many", word)),
                Some(next) => option = Some(next.clone()),
                None => return Err(misused("nothing after", word)),
            },
            _ if options && most.flag.is_some_and(|name| word == name) => {
                if flag {
                    return Err(misused("one option too many", word));
                }
                flag = true;
            }
            text if options && text.len() > 1 && text[0] == b'-' => {
                return Err(misused("unknown option", word));
            }
            _ if plain.len() == most.words => return Err(misused("one word too many", word)),
            _ => plain.push(word.clone()),
        }
    }
    Ok(Rest::Words {
        plain,
        option,
        flag,
    })
}

/// What a word names where a file is due: "-" is standard input.
fn named(word: OsString) -> Name {
    Some(word).filter(|word| word != "-")
}

/// Of a word that is not understood.
fn misused(what: &str, word: &OsStr) -> Trouble {
    Trouble::new(format!("{what}: {word:?}; see embulgri --help"))
}

/// Of what is wrong in the words that follow this first one.
fn misused_by(first: &str, what: &str) -> Trouble {
    Trouble::new(format!("{what}; see embulgri {first} --help"))
}

/// The number that a word is, after this first one, where such a thing is due.
fn number_of(word: &OsStr, first: &str, thing: &str) -> Result<u64, Trouble> {
    decimal(word.as_bytes()).ok_or_else(|| {
        let most = u64::MAX;
        let message = format!("{word:?} is no {thing}, a decimal number from 0 to {most}");
        misused_by(first, &message)
    })
}
