//! `lembuya picture`: a log as an SVG.
//!
//! - `chart`: what is drawn, in times and rows.
//! - `waits`: of that, how long each request had stood.
//! - `places`: which row is whose.
//! - `draw`: where that stands on the page, and `marks` where the small marks on a node's row do.
//! - `svg`: the page's elements as text.

mod chart;
mod draw;
mod marks;
mod places;
mod svg;
mod waits;

use crate::args::{self, Args, Options, Wrong};
use crate::log::{self, Entry};
use crate::text::Text;
use crate::{run, End};
use chart::Chart;

pub const OPTIONS: Options = &[("--from", true), ("--to", true), ("--title", true)];

pub const HELP: &str = "\
lembuya picture [--from T] [--to T] [--title WORDS] TEXT [LOG]

A picture of a log, as SVG on standard output. TEXT holds the plan and events that LOG is the log
of, which is checked; without LOG the text is run. '-' is standard input. A LOG alone can be drawn
too: then there is no tree, and no frame or delay limit, since a log doesn't tell them.

    --from T, --to T    draw the time from T up to T only, in bit times; at first all of it
    --title WORDS       the words above the picture; at first the file's name

Rows are the hubs and nodes in line order. A node's bars are its grants: high ones orange and tall,
normal ones blue and low, those of high requests that were taken as normal too. A thin line before a
bar is its wait, and starts with a stroke where the request was first put up; a bar without one was
granted at once. A dark line on a hub's row: it has control; where control passes, the number of moves
stands by it. A grey stretch is a rest. Frames are lines with their numbers, a cross is a refused event.
A black triangle under a row's bars is its node's delay limit in that frame: by then its n high packets
are through, if its request stands from the frame's start on and again behind each of them. A high bar
behind it breaks no limit: it was put up later, where its thin line starts or, without one, the bar
itself, or it was held with the share of its frame spent; 'lembuya waits' has what limits such waits.
Point at any of these in a browser and it shows its line of the log.

Exit status: 0; 1 where the plan is refused; 2 for bad usage.
";

pub fn command(args: &Args) -> Result<End, Wrong> {
    let (from, to) = (args.time("--from")?, args.time("--to")?);
    let (text, log) = sorted(&args.files)?;
    let name = text.as_ref().or(log.as_ref()).map(|(file, _)| *file).expect("a file was named");
    let title = args.value("--title").unwrap_or(name);
    let (text, entries) = match (text, log) {
        (Some((file, bytes)), log) => {
            let made = lembuya::log(&bytes);
            let entries = log::read(&made).expect("the archive writes a log");
            let Ok(text) = Text::read(&bytes) else {
                run::tell(file, &bytes, None, &entries);
                return Ok(End::Refused);
            };
            log.map_or(Ok(()), |(other, bytes)| same(other, &bytes, file, &made))?;
            (Some(text), entries)
        }
        (None, Some((file, bytes))) => (None, alone(file, &bytes)?),
        (None, None) => unreachable!("a file was named"),
    };
    let chart = Chart::new(title, text.as_ref(), &entries, from, to).map_err(Wrong)?;
    args::print(&draw::page(&chart))?;
    Ok(End::Done)
}

/// A file's name and its bytes.
type Named<'f> = (&'f str, Vec<u8>);

/// The text and the log among the files: a log starts with the form that only a log has.
fn sorted(files: &[String]) -> Result<(Option<Named<'_>>, Option<Named<'_>>), Wrong> {
    let (mut text, mut log) = (None, None);
    for file in files {
        let bytes = args::bytes(file)?;
        let is_log = bytes.starts_with(b"(nodes ") || bytes.starts_with(b"(refused ");
        let place = if is_log { &mut log } else { &mut text };
        if place.replace((file.as_str(), bytes)).is_some() {
            return Err(Wrong("picture takes one text, or one log, or one of each".into()));
        }
    }
    Ok((text, log))
}

/// A log handed over with its text is just the one that the archive makes of it, line by line.
fn same(file: &str, log: &[u8], text: &str, made: &[u8]) -> Result<(), Wrong> {
    let [log, made] = [log, made].map(log::lines);
    let same = log.iter().zip(&made).take_while(|(line, other)| line == other).count();
    if same == log.len().max(made.len()) {
        return Ok(());
    }
    let words = match (log.get(same).and_then(|line| log::from_before(line)), made.get(same)) {
        (Some(words), _) => words.into(),
        (None, Some(line)) => format!("the log of {text} has {} here", String::from_utf8_lossy(line)),
        (None, None) => format!("the log of {text} ends here"),
    };
    Err(Wrong(format!("{file}:{}: {words}", same + 1)))
}

/// A log without its text: it has a taken plan's first line, and grants to its nodes alone.
fn alone(file: &str, bytes: &[u8]) -> Result<Vec<Entry>, Wrong> {
    let no_line = |line: usize| {
        let words = log::from_before(log::lines(bytes)[line - 1]).unwrap_or("that is no line of a log");
        Wrong(format!("{file}:{line}: {words}"))
    };
    let entries = log::read(bytes).map_err(no_line)?;
    let Some(&Entry::Taken { nodes, .. }) = entries.first() else {
        return Err(Wrong(format!("{file}: a refused plan has no picture")));
    };
    if !(1..=256).contains(&nodes) {
        return Err(Wrong(format!("{file}:1: a plan has 1 to 256 nodes")));
    }
    for (at, entry) in entries.iter().enumerate() {
        if matches!(entry, Entry::Step(lembuya::Step::Grant { node, .. }) if !(1..=nodes).contains(node)) {
            return Err(Wrong(format!("{file}:{}: there is no such node", at + 1)));
        }
    }
    Ok(entries)
}
