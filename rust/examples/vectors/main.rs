//! Holds the program `cascade` and the archive against a folder of vectors; `tools/vectors` runs it.
//!
//!     vectors LANDED PROGRAM FOLDER
//!
//! LANDED lists the requests of document 02 that have landed (`tools/landed`). What disagrees is said, a line each; the last
//! line counts, and the status is 0 only where something agrees and nothing doesn't.
//!
//! - `landed`: the list.
//! - `folder`: which vectors of a folder count.
//! - `calls`: lists of calls and their answers, over the archive.

mod calls;
mod folder;
mod landed;

use folder::{Folder, Log};
use landed::Landed;
use std::fs::File;
use std::path::{Path, PathBuf};
use std::process::{Command, ExitCode, Stdio};

fn main() -> ExitCode {
    let words: Vec<PathBuf> = std::env::args_os().skip(1).map(PathBuf::from).collect();
    let done = match &words[..] {
        [landed, program, folder] => vectors(landed, program, folder),
        _ => Err("it takes LANDED, PROGRAM and FOLDER".into()),
    };
    match done {
        Ok(tally) => {
            println!("vectors: {}", tally.words());
            ExitCode::from(u8::from(!tally.holds()))
        }
        Err(wrong) => {
            eprintln!("vectors: {wrong}");
            ExitCode::from(2)
        }
    }
}

/// How many vectors agree, how many don't, and how many are of requests that have not landed.
#[derive(Debug, Default, PartialEq, Eq)]
struct Tally {
    agree: usize,
    differ: usize,
    passed_over: usize,
}

impl Tally {
    fn words(&self) -> String {
        let Tally { agree, differ, passed_over } = self;
        format!("{agree} agree, {differ} don't ({passed_over} of requests that have not landed passed over)")
    }

    fn holds(&self) -> bool {
        self.agree > 0 && self.differ == 0
    }

    /// Counts a vector; what is wrong with it is said.
    fn add(&mut self, name: &Path, wrong: &[String]) {
        if wrong.is_empty() {
            self.agree += 1;
        } else {
            self.differ += 1;
        }
        for words in said(wrong) {
            println!("vectors: {}: {words}", name.display());
        }
    }
}

/// What is said of all that is wrong: the first of it, since the rest mostly follows from that, and how much more there is.
fn said(wrong: &[String]) -> Vec<String> {
    const MOST: usize = 3;
    let more = wrong.len().saturating_sub(MOST);
    let rest = (more > 0).then(|| format!("and {more} more"));
    wrong.iter().take(MOST).cloned().chain(rest).collect()
}

fn vectors(landed: &Path, program: &Path, folder: &Path) -> Result<Tally, String> {
    let list = std::fs::read_to_string(landed).map_err(|error| format!("{}: {error}", landed.display()))?;
    let landed = Landed::read(&list).map_err(|wrong| format!("{}: {wrong}", landed.display()))?;
    let found = Folder::look(folder, &landed).map_err(|error| format!("{}: {error}", folder.display()))?;
    let mut tally = Tally { passed_over: found.passed_over, ..Tally::default() };
    for strange in &found.strange {
        tally.add(strange, &["it names no request".into()]);
    }
    for (name, log) in &found.logs {
        tally.add(Path::new(name), &log_wrong(log, program));
    }
    for file in &found.calls {
        let wrong = match std::fs::read_to_string(file) {
            Ok(text) => calls::wrong(&text),
            Err(error) => vec![error.to_string()],
        };
        tally.add(file, &wrong);
    }
    Ok(tally)
}

/// What is wrong with the program's log of a text: nothing, or one thing.
fn log_wrong(log: &Log, program: &Path) -> Vec<String> {
    let wrong = match log {
        Log { text: Some(text), log: Some(log) } => gives(program, text, log),
        Log { text: None, .. } => Err("its text is missing, or it is of a form that isn't known here".into()),
        Log { log: None, .. } => Err("its log is missing".into()),
    };
    wrong.err().into_iter().collect()
}

/// The program writes this log of this text, byte for byte, and ends well.
fn gives(program: &Path, text: &Path, log: &Path) -> Result<(), String> {
    let said = |file: &Path, error: std::io::Error| format!("{}: {error}", file.display());
    let expected = std::fs::read(log).map_err(|error| said(log, error))?;
    let stdin = File::open(text).map_err(|error| said(text, error))?;
    let run = Command::new(program).stdin(stdin).stderr(Stdio::inherit()).output();
    let run = run.map_err(|error| said(program, error))?;
    if !run.status.success() {
        return Err(format!("{} ends with {} for {}", program.display(), run.status, text.display()));
    }
    let same = run.stdout == expected;
    same.then_some(()).ok_or_else(|| format!("{} gives another log than {}", text.display(), log.display()))
}

#[cfg(test)]
mod tests {
    use super::*;

    #[test]
    fn the_last_line_counts_and_the_status_follows_it() {
        let tally = |agree, differ| Tally { agree, differ, passed_over: 7 };
        let words = "54 agree, 0 don't (7 of requests that have not landed passed over)";
        assert_eq!(tally(54, 0).words(), words);
        assert_eq!(
            [tally(54, 0), tally(53, 1), tally(0, 0)].map(|tally| tally.holds()),
            [true, false, false]
        );
    }

    #[test]
    fn of_much_that_is_wrong_the_first_is_said() {
        let wrong: Vec<String> = (1..=5).map(|number| number.to_string()).collect();
        assert_eq!(said(&wrong), ["1", "2", "3", "and 2 more"]);
        assert_eq!(said(&wrong[..3]), ["1", "2", "3"]);
    }

    /// `cat` writes a text as its log.
    #[test]
    fn a_log_is_compared_byte_for_byte() {
        let folder = folder::tests::made("bytes", &[("a.text", "x\n"), ("a.log", "x\n"), ("b.log", "x")]);
        let file = |name: &str| Some(folder.join(name));
        let wrong = |text, log, program| log_wrong(&Log { text, log }, Path::new(program));
        assert_eq!(wrong(file("a.text"), file("a.log"), "cat"), Vec::<String>::new());
        assert!(wrong(file("a.text"), file("b.log"), "cat")[0].contains("gives another log"));
        assert!(wrong(file("a.text"), None, "cat")[0].contains("log is missing"));
        assert!(wrong(None, file("a.log"), "cat")[0].contains("text is missing"));
        assert!(wrong(file("a.text"), file("a.log"), "false")[0].contains("ends with"));
        assert!(wrong(file("a.text"), file("a.log"), "/no/such/program")[0].contains("/no/such/program"));
    }

    #[test]
    fn a_folder_is_counted_whole() {
        let files = [
            ("a.text", "x\n"),
            ("a.log", "x\n"),
            ("b.text", "y\n"),
            ("b.log", "x\n"),
            ("after-2/c.text", "y\n"),
            ("after-2/c.log", "y\n"),
            ("after-3/d.text", "y\n"),
            ("after-3/d.log", "x\n"),
            ("calls/02-a.calls", calls::tests::EXAMPLE),
            ("calls/2-b.calls", "until 5 = 0\n"),
            ("calls/06-c.calls", "train 5 1 2 0 = 0\n"),
            ("landed", "2\n"),
        ];
        let folder = folder::tests::made("whole", &files);
        let tally = vectors(&folder.join("landed"), Path::new("cat"), &folder).unwrap();
        // a, c and the first calls agree; b and the second calls, which have no plan, don't.
        assert_eq!(tally, Tally { agree: 3, differ: 2, passed_over: 2 });
        assert!(vectors(&folder.join("none"), Path::new("cat"), &folder).is_err());
        assert!(vectors(&folder.join("landed"), Path::new("cat"), &folder.join("none")).is_err());
    }
}
