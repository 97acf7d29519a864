//! The command `lembuya`: a plan and its events to a log, to limits, to waits, to answers of offers and what would make them fit,
//! and to a picture.
//!
//! The log and the answers are the proved archive's. What this command adds (limits, waits, pictures, JSON) is worked out from texts
//! and logs.

mod args;
mod json;
mod limits;
mod log;
mod offers;
mod picture;
mod run;
mod shares;
mod text;
mod waits;

use args::{Args, Wrong};
use std::process::ExitCode;

/// What the command as a whole is for.
const HELP: &str = "\
lembuya: the cascade hub's turns, from a plan and its events

    lembuya run     TEXT..           the log of each text
    lembuya limits  TEXT..           the frame's load, and each reserved node's delay limit
    lembuya waits   TEXT..           how long each node's requests waited, beside what limits that
    lembuya offers  TEXT [OFFERS]    what it would answer reservations, each as if alone; none is made;
                                     with --fit what would make a refused one fit
    lembuya picture TEXT [LOG]       a picture of the log, as SVG

TEXT holds a plan and events, as documents 01 and 02 write them; '-' is standard input. The plan's lines:

    (frame T)  (overhead O)  (interrupt D)  perhaps (framing 3) or (framing 5)  perhaps (strict)  then one hub

D is at least 12,000 + O, with (framing 5) 36,000 + O. A high request of a node with nothing reserved in force
is taken as a normal one, with (strict) refused by 16.

'lembuya run --help' and so on say more.

Exit status: 0; 1 where a plan is refused; 2 for bad usage, a file that can't be read included.
";

/// How the command ended.
pub enum End {
    /// All was done.
    Done,
    /// A plan was refused.
    Refused,
}

/// What a command does with its words.
type Command = fn(&Args) -> Result<End, Wrong>;

fn main() -> ExitCode {
    let mut words: Vec<String> =
        std::env::args_os().skip(1).map(|word| word.to_string_lossy().into()).collect();
    if words.is_empty() {
        eprint!("{HELP}");
        return ExitCode::from(2);
    }
    match command(&words.remove(0), words) {
        Ok(End::Done) => ExitCode::SUCCESS,
        Ok(End::Refused) => ExitCode::from(1),
        Err(wrong) => {
            eprintln!("lembuya: {wrong}");
            ExitCode::from(2)
        }
    }
}

fn command(name: &str, words: Vec<String>) -> Result<End, Wrong> {
    let (help, options, run): (_, _, Command) = match name {
        "run" => (run::HELP, run::OPTIONS, run::command),
        "limits" => (limits::HELP, limits::OPTIONS, limits::command),
        "waits" => (waits::HELP, waits::OPTIONS, waits::command),
        "offers" => (offers::HELP, offers::OPTIONS, offers::command),
        "picture" => (picture::HELP, picture::OPTIONS, picture::command),
        "help" | "--help" | "-h" => return args::print(HELP).map(|()| End::Done),
        _ => return Err(Wrong(format!("'{name}' is no command of it; 'lembuya --help' names them"))),
    };
    if words.iter().any(|word| word == "--help" || word == "-h") {
        return args::print(help).map(|()| End::Done);
    }
    run(&Args::read(name, options, words)?)
}
