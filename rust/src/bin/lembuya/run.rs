//! `lembuya run`: texts to logs.

use crate::args::{self, Args, Options, Wrong};
use crate::log::{self, Entry};
use crate::text::{self, Text};
use crate::{json, End};
use lembuya::Plan;

pub const OPTIONS: Options = &[("--json", false), ("--quiet", false)];

pub const HELP: &str = "\
lembuya run [--json] [--quiet] TEXT..

The log of each text, on standard output. TEXT holds a plan and events; '-' is standard input.
Of more than one text each log has a line '==> FILE <==' above it, as 'head' writes it.

    --json     one object a line: file, form (nodes, grant, rest or refused) and the form's values
    --quiet    don't say on standard error which lines are refused, and why

A grant's line is (grant s k class end moves wait): at s node k gets the line in its class, 1 normal or
2 high, until end, by so many moves of control, and has waited so long: s less the time at which its
request was first put up. A replacing request of the same class keeps that time, and a change of class
sets it anew, also the one at a frame's start; a high request that is taken as normal is a normal one.

Every refused line is said on standard error: FILE:LINE: refused NUMBER: the table's words.
A high request that is taken as normal, in a plan without (strict), is not: its grant has class 1.
Of a text at most 65,536 bytes are looked at.

Exit status: 0; 1 where a plan is refused (a refused event is no error); 2 for bad usage.
";

pub fn command(args: &Args) -> Result<End, Wrong> {
    let mut end = End::Done;
    for file in &args.files {
        let bytes = args::bytes(file)?;
        let written = lembuya::log(&bytes);
        let entries = log::read(&written).expect("the archive writes a log");
        let plan = text::plan(&bytes).ok();
        if args.has("--json") {
            let objects = entries.iter().map(|entry| json::object(file, entry, plan.as_ref()));
            args::print(&objects.collect::<String>())?;
        } else {
            if args.files.len() > 1 {
                args::print(&format!("==> {file} <==\n"))?;
            }
            args::print(&String::from_utf8_lossy(&written))?;
        }
        if !args.has("--quiet") {
            tell(file, &bytes, plan.as_ref(), &entries);
        }
        if matches!(entries[0], Entry::Refused { .. }) {
            end = End::Refused;
        }
    }
    Ok(end)
}

/// A page of each text, made of it and of its log. Refused lines are said, and a text whose plan is refused has no page.
pub fn pages(args: &Args, page: impl Fn(&str, &Text, &[Entry]) -> String) -> Result<End, Wrong> {
    let mut end = End::Done;
    for file in &args.files {
        let bytes = args::bytes(file)?;
        let entries = log::read(&lembuya::log(&bytes)).expect("the archive writes a log");
        let text = Text::read(&bytes);
        tell(file, &bytes, text.as_ref().ok().map(|text| &text.plan), &entries);
        match text {
            Err(_) => end = End::Refused,
            Ok(text) => args::print(&page(file, &text, &entries))?,
        }
    }
    Ok(end)
}

/// Says which lines of a text are refused, and why. It has this plan, if that is taken.
pub fn tell(file: &str, bytes: &[u8], plan: Option<&Plan>, entries: &[Entry]) {
    let lines: Vec<&[u8]> = bytes.split(|byte| *byte == b'\n').collect();
    for entry in entries {
        if let Entry::Refused { line, number } = entry {
            let words = log::words(*line, *number, plan);
            let shown =
                usize::try_from(*line).ok().and_then(|line| lines.get(line - 1)).copied().unwrap_or_default();
            let shown: String = String::from_utf8_lossy(shown).chars().take(80).collect();
            eprintln!("{file}:{line}: refused {number}: {words}: {}", shown.escape_debug());
        }
    }
}
