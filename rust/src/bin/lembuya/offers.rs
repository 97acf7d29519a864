//! `lembuya offers`: what a hub would answer reservations, none of which is made, and what would make them fit.

use crate::args::{self, Args, Options, Wrong};
use crate::{log, run, End};
use lembuya::{Cascade, Fit, Offer, Refused, MOST_OFFERS};

pub const OPTIONS: Options = &[("--fit", false), ("--quiet", false)];

pub const HELP: &str = "\
lembuya offers [--fit] [--quiet] TEXT [OFFERS]

What the hub would answer reservations, each as if alone; none is made. TEXT holds a plan and events: the
hub is the one behind its last event, and its clock stands where the text leaves it. OFFERS holds any
number of lines (offer k n b), n packets of up to b bits a frame for node k. Each has a line on standard
output, in their order:

    (offer k n b 0)        the frame can hold it, as things are: a reserve at the clock would be taken.
                           It stands in place of the node's own latest reservation; (offer k 0 0) gives
                           that up
    (offer k n b NUMBER)   it would be refused by this row: 13, 14, 15 or 17

Two offers that fit, each alone, may not fit together: put the ones that are chosen into the text as
(reserve t k n b), and ask again.

    --fit      behind each answer of 17 a second line: what would make the offer fit
    --quiet    don't say on standard error which events and offers are refused, and why

What would make an offer fit is the smallest single change with which it would be taken, the first of
these that there is:

    (fit packets n)   fewer packets, for the same node and b: the largest lower n of at least 1
    (fit bits b)      shorter packets, at the same n: the largest lower b from 512 on
    (fit release j)   another node's whole reservation given up: that of node j, which suffices with the
                      least n x (b + O), the lower number winning a tie
    (fit nothing)     no single change makes it fit

Each of them stands in place of the node's own latest reservation, as the offer does.

'-' is standard input, from which OFFERS are read where none are named; TEXT and OFFERS can't both be.
A line of OFFERS that is no offer is bad usage, also a blank one, one that has a number of more than 16
digits or with a leading zero, and a last one without its LF: it is named, and nothing is answered.

A refused line is said on standard error: FILE:LINE: refused NUMBER: the table's words; with --fit what
would make an offer fit stands behind them.
Of a text at most 65,536 bytes are looked at.

Exit status: 0; 1 where the plan is refused (a refused event or offer is no error); 2 for bad usage.
";

pub fn command(args: &Args) -> Result<End, Wrong> {
    let (text, file) = named(&args.files)?;
    let bytes = args::bytes(text)?;
    let offers = read(file, &args::bytes(file)?)?;
    let entries = log::read(&lembuya::log(&bytes)).expect("the archive writes a log");
    let Ok(hub) = Cascade::behind(&bytes) else {
        run::tell(text, &bytes, None, &entries);
        return Ok(End::Refused);
    };
    let answered = answered(&hub, &offers, args.has("--fit"));
    if !args.has("--quiet") {
        run::tell(text, &bytes, Some(hub.plan()), &entries);
    }
    args::print(&answered.iter().map(Answered::lines).collect::<String>())?;
    if !args.has("--quiet") {
        tell(file, &hub, &answered);
    }
    Ok(End::Done)
}

/// The text's file and the offers'.
fn named(files: &[String]) -> Result<(&str, &str), Wrong> {
    match files {
        [text] if text == "-" => {
            Err(Wrong("standard input can be read once only: name the offers' file".into()))
        }
        [text] => Ok((text, "-")),
        [text, offers] => Ok((text, offers)),
        _ => Err(Wrong("offers takes one text, and one file of offers".into())),
    }
}

/// The offers of a file, a line each.
fn read(file: &str, bytes: &[u8]) -> Result<Vec<Offer>, Wrong> {
    let offer = |(number, line): (u64, &[u8])| {
        let line = line.strip_suffix(b"\n").and_then(|line| std::str::from_utf8(line).ok());
        let words = || Wrong(format!("{file}:{number}: that is no (offer k n b), or its LF is missing"));
        line.and_then(|line| line.parse().ok()).ok_or_else(words)
    };
    (1..).zip(bytes.split_inclusive(|byte| *byte == b'\n')).map(offer).collect()
}

/// An offer with its answer.
struct Answered {
    offer: Offer,
    answer: Result<(), Refused>,
    /// What would make it fit, if that is asked and the answer is 17.
    fit: Option<Fit>,
}

/// The offers' answers, in as many passes as it takes: nothing is reserved, so that each meets the same hub.
fn answered(hub: &Cascade, offers: &[Offer], fitted: bool) -> Vec<Answered> {
    let pass = |offers| hub.offers(offers).expect("no more than 64 offers");
    let answers = offers.chunks(MOST_OFFERS).flat_map(pass);
    let answered = |(offer, answer): (&Offer, _)| {
        let asked = fitted && answer == Err(Refused::Full);
        Answered { offer: *offer, answer, fit: asked.then(|| hub.fit(*offer)) }
    };
    offers.iter().zip(answers).map(answered).collect()
}

impl Answered {
    /// 0, or the row's number.
    fn number(&self) -> u32 {
        self.answer.map_or_else(Refused::number, |()| 0)
    }

    /// The offer's line with its answer, and behind it what would make it fit.
    fn lines(&self) -> String {
        let Offer { node, packets, bits } = self.offer;
        let line = format!("(offer {node} {packets} {bits} {})\n", self.number());
        let fit = self.fit.and_then(Fit::line).map(|fit| fit + "\n");
        line + &fit.unwrap_or_default()
    }
}

/// Says which offers are refused, and why, and what would make them fit.
fn tell(file: &str, hub: &Cascade, answered: &[Answered]) {
    for (line, refused) in (1..).zip(answered).filter(|(_, answered)| answered.answer.is_err()) {
        let number = refused.number();
        let words = log::words(line, number.into(), Some(hub.plan()));
        let fit = refused.fit.map(|fit| format!("; {fit}")).unwrap_or_default();
        eprintln!("{file}:{line}: refused {number}: {words}{fit}: {}", refused.offer);
    }
}

#[cfg(test)]
mod tests {
    use super::*;

    #[test]
    fn every_line_is_an_offer_or_the_first_that_is_none_is_named() {
        let read = |bytes: &[u8]| read("f", bytes).map_err(|wrong| wrong.to_string());
        let offer = |node| Offer { node, packets: 2, bits: 4_000 };
        assert_eq!(read(b""), Ok(vec![]));
        assert_eq!(read(b"(offer 1 2 4000)\n(offer 2 2 4000)\n"), Ok(vec![offer(1), offer(2)]));
        let refused = |lines: &[u8], number: u64| {
            let words = format!("f:{number}: that is no (offer k n b), or its LF is missing");
            assert_eq!(read(lines), Err(words), "{}", String::from_utf8_lossy(lines));
        };
        refused(b"\n", 1);
        refused(b"(offer 1 2 4000)", 1);
        refused(b"(offer 1 2 4000)\r\n", 1);
        refused(b"(offer 1 2 4000)\n\n(offer 1 2)\n", 2);
        refused(b"(offer 1 2 4000)\n(offer 1 2 4000)\n(reserve 0 1 2 4000)\n", 3);
        refused(b"(offer 1 2 10000000000000000)\n", 1);
        refused(b"(offer 1 2 \xff)\n", 1);
    }
}
