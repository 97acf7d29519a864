//! Words of the command line: options and files.

use crate::log::LATEST;
use std::fmt;
use std::io::{Read, Write};

/// Bad usage, in words; a file that can't be read or written is one too.
pub struct Wrong(pub String);

impl fmt::Display for Wrong {
    fn fmt(&self, f: &mut fmt::Formatter<'_>) -> fmt::Result {
        f.write_str(&self.0)
    }
}

/// An option's name, and whether a value follows it.
pub type Options = &'static [(&'static str, bool)];

/// The options and files of one command.
pub struct Args {
    options: Vec<(String, String)>,
    /// The files, as named.
    pub files: Vec<String>,
}

impl Args {
    /// Reads a command's words. `--name=value` and `--name value` are the same; behind `--` all are files.
    pub fn read(command: &str, known: Options, words: Vec<String>) -> Result<Args, Wrong> {
        let (mut options, mut files) = (Vec::new(), Vec::new());
        let mut words = words.into_iter();
        while let Some(word) = words.next() {
            if word == "--" {
                files.extend(words.by_ref());
            } else if word == "-" || !word.starts_with('-') {
                files.push(word);
            } else {
                let (name, given) = match word.split_once('=') {
                    Some((name, value)) => (name, Some(value.to_string())),
                    None => (word.as_str(), None),
                };
                let more = format!("'lembuya {command} --help' names its options");
                let value = match known.iter().find(|(option, _)| *option == name) {
                    None => return Err(Wrong(format!("{command} has no option '{name}'; {more}"))),
                    Some((_, false)) if given.is_some() => {
                        return Err(Wrong(format!("{name} takes no value; {more}")))
                    }
                    Some((_, false)) => String::new(),
                    Some((_, true)) => given
                        .or_else(|| words.next())
                        .ok_or_else(|| Wrong(format!("a value is missing behind {name}; {more}")))?,
                };
                options.push((name.to_string(), value));
            }
        }
        if files.is_empty() {
            return Err(Wrong(format!("{command} needs a file, or '-' for standard input")));
        }
        if files.iter().filter(|file| *file == "-").count() > 1 {
            return Err(Wrong("standard input can be read once only".into()));
        }
        Ok(Args { options, files })
    }

    /// Whether an option was given.
    pub fn has(&self, name: &str) -> bool {
        self.value(name).is_some()
    }

    /// An option's value; the last one counts.
    pub fn value(&self, name: &str) -> Option<&str> {
        self.options.iter().rev().find(|(option, _)| option == name).map(|(_, value)| value.as_str())
    }

    /// An option's value as a time.
    pub fn time(&self, name: &str) -> Result<Option<u64>, Wrong> {
        let Some(value) = self.value(name) else { return Ok(None) };
        let time = value.replace(['_', ','], "").parse().ok().filter(|time| *time <= LATEST);
        let wrong =
            || Wrong(format!("{name} {value}: a time is a whole number of bit times, {LATEST} at most"));
        time.map(Some).ok_or_else(wrong)
    }
}

/// The bytes of a file; `-` is standard input.
pub fn bytes(file: &str) -> Result<Vec<u8>, Wrong> {
    let mut all = Vec::new();
    let read = match file {
        "-" => std::io::stdin().read_to_end(&mut all).map(|_| all),
        _ => std::fs::read(file),
    };
    read.map_err(|error| Wrong(format!("{file}: {error}")))
}

/// Writes to standard output. A reader that has gone (`| head`) ends the command quietly.
pub fn print(text: &str) -> Result<(), Wrong> {
    match std::io::stdout().write_all(text.as_bytes()) {
        Err(error) if error.kind() == std::io::ErrorKind::BrokenPipe => std::process::exit(0),
        written => written.map_err(|error| Wrong(format!("standard output: {error}"))),
    }
}
