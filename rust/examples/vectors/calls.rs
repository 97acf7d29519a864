//! Lists of calls with their answers, in the form of `../shared/vectors/calls/README.md`, made over the archive.
//!
//! Each request that adds calls adds an arm to `Runner::line`, for a line that has no answer, or to `Runner::answer`. An answer is
//! shown as the crate shows it, so that it gains a number when the crate's does.

use lembuya::{Answer, Call, Cascade, Fit, Offer, Plan, Refused};

/// What is wrong with a list, each with its line: nothing where every answer is the one given, and there is one at least.
pub fn wrong(text: &str) -> Vec<String> {
    let mut runner = Runner { cascade: None, answers: 0 };
    let mut lines = (1..).zip(text.lines());
    let mut wrong = Vec::new();
    while let Some((number, line)) = lines.next() {
        if let Err(words) = runner.line(line, &mut lines) {
            wrong.push(format!("line {number}: {words}"));
        }
    }
    if runner.answers == 0 {
        wrong.push("it has no call".into());
    }
    wrong
}

/// What the calls are made on.
struct Runner {
    cascade: Option<Cascade>,
    /// How many answers were compared.
    answers: usize,
}

impl Runner {
    /// A line: nothing, a plan with the lines behind it, or a call with its answer.
    fn line<'l>(
        &mut self,
        line: &str,
        behind: &mut impl Iterator<Item = (usize, &'l str)>,
    ) -> Result<(), String> {
        match line {
            "" => Ok(()),
            comment if comment.starts_with('#') => Ok(()),
            "plan" => self.plan(behind),
            _ => {
                let (call, expected) = line.split_once(" = ").ok_or("neither a call nor a plan")?;
                self.answers += 1;
                let answer = self.answer(call)?;
                let same = answer == expected;
                same.then_some(()).ok_or_else(|| format!("{call} = {answer}, not {expected}"))
            }
        }
    }

    /// The plan's lines up to `.`; the calls behind it are made on its fresh cascade.
    fn plan<'l>(&mut self, lines: &mut impl Iterator<Item = (usize, &'l str)>) -> Result<(), String> {
        self.cascade = None;
        let mut text = String::new();
        loop {
            match lines.next() {
                None => return Err("the plan has no end".into()),
                Some((_, ".")) => break,
                Some((_, line)) => text += &format!("{line}\n"),
            }
        }
        let plan =
            Plan::read(text.as_bytes()).map_err(|refused| format!("the plan is refused: {refused}"))?;
        self.cascade = Some(plan.cascade());
        Ok(())
    }

    /// Makes a call. What is no call, or has no plan before it, is an error: nothing is passed over.
    fn answer(&mut self, call: &str) -> Result<String, String> {
        let cascade = self.cascade.as_mut().ok_or_else(|| format!("no plan stands before {call}"))?;
        let no_call = || format!("no call that is known here: {call}");
        match call.split(' ').collect::<Vec<_>>()[..] {
            ["step", bound] => {
                let bound = bound.parse().map_err(|_| no_call())?;
                Ok(shown(cascade.call(Call::Step { bound })))
            }
            ["offers", ..] => offers(cascade, call).ok_or_else(no_call),
            ["fit", ..] => fit(cascade, call).ok_or_else(no_call),
            // All others so far are events, whose forms the crate knows.
            _ => Ok(shown(cascade.call(format!("({call})").parse().map_err(|_| no_call())?))),
        }
    }
}

/// An answer as the lists have it: 0, the number that refused it, or a step's as in the log, without brackets.
fn shown(answer: Answer) -> String {
    match answer {
        Answer::Taken => "0".into(),
        Answer::Refused(row) => row.number().to_string(),
        Answer::Step(step) => step.to_string().trim_matches(['(', ')']).into(),
    }
}

/// Makes the call `offers L | k n b | ..`, if it is one.
fn offers(cascade: &Cascade, call: &str) -> Option<String> {
    let mut parts = call.strip_prefix("offers ")?.split(" | ");
    let length = parts.next()?.parse().ok()?;
    let offers = parts.map(|offer| format!("(offer {offer})").parse().ok());
    Some(offered(cascade, &offers.collect::<Option<Vec<_>>>()?, length))
}

/// What a lent buffer holds, and no answer is.
const UNTOUCHED: u8 = 0xa5;

/// The answer to offers into a buffer of this length: 0 and each offer's, or 18. A byte that should have stayed and didn't is told too,
/// so that no answer of a list is the same.
fn offered(cascade: &Cascade, offers: &[Offer], length: usize) -> String {
    let mut buffer = vec![UNTOUCHED; length];
    let (mut answer, written) = match cascade.offers_into(offers, &mut buffer) {
        Ok(()) => ("0 |".into(), offers.len()),
        Err(short) => (short.number().to_string(), 0),
    };
    let (answers, behind) = buffer.split_at(written);
    for number in answers {
        answer += &format!(" {number}");
    }
    if behind.iter().any(|byte| *byte != UNTOUCHED) {
        answer += ", and bytes that should stay are changed";
    }
    answer
}

/// Makes the call `fit k n b`, if it is one.
fn fit(cascade: &Cascade, call: &str) -> Option<String> {
    let offer = format!("(offer {})", call.strip_prefix("fit ")?).parse().ok()?;
    Some(fitted(cascade.fit(offer)))
}

/// What would make an offer fit, as the lists have it.
fn fitted(fit: Fit) -> String {
    match fit {
        Fit::Answer(answer) => format!("answer {}", answer.map_or_else(Refused::number, |()| 0)),
        Fit::Packets(packets) => format!("packets {packets}"),
        Fit::Bits(bits) => format!("bits {bits}"),
        Fit::Release(node) => format!("release {node}"),
        Fit::Nothing => "nothing".into(),
    }
}

#[cfg(test)]
pub mod tests {
    use super::*;

    /// Document 01's example, whose log that document has; before each event all steps before its time are made.
    pub const EXAMPLE: &str = "\
# Document 01's example, call by call.
plan
(frame 100000)
(overhead 1000)
(interrupt 13000)
(strict)
(hub
(node)
(hub
(node)
(node)
)
(node)
)
.

reserve 0 3 2 4000 = 0
normal 0 1 12000 = 0
normal 0 4 6000 = 0
high 0 3 4000 = 16
until 99000 = 12
step 99000 = grant 0 1 1 13000 0 0
step 99000 = grant 13000 4 1 20000 0 13000
step 99000 = rest 20000 0
step 99000 = quiet
off 99000 5 = 13
normal 99000 2 12000 = 0
step 100000 = grant 99000 2 1 112000 1 0
step 98999 = 11
high 100000 3 4000 = 0
normal 100000 1 1000 = 0
off 100000 4 = 0
step 200000 = grant 112000 3 2 117000 2 12000
step 200000 = grant 117000 1 1 119000 1 17000
step 200000 = rest 119000 0
until 200000 = 0
";

    /// What is wrong with the example when a part of it is replaced.
    fn changed(from: &str, to: &str) -> Vec<String> {
        assert!(EXAMPLE.contains(from), "{from}");
        wrong(&EXAMPLE.replacen(from, to, 1))
    }

    #[test]
    fn the_example_agrees() {
        assert_eq!(wrong(EXAMPLE), Vec::<String>::new());
        // A second plan's calls are made on its own fresh cascade.
        assert_eq!(wrong(&EXAMPLE.repeat(2)), Vec::<String>::new());
    }

    #[test]
    fn another_answer_is_told_with_its_line() {
        let words = "line 22: step 99000 = grant 0 1 1 13000 0 0, not grant 0 1 1 13001 0 0";
        assert_eq!(changed("= grant 0 1 1 13000 0 0", "= grant 0 1 1 13001 0 0"), [words]);
        assert_eq!(changed("3 4000 = 16", "3 4000 = 0"), ["line 20: high 0 3 4000 = 16, not 0"]);
        assert_eq!(changed("= quiet", "= rest 20000 0"), ["line 25: step 99000 = quiet, not rest 20000 0"]);
        // A number more or less is another answer.
        assert_eq!(changed("13000 0 0\n", "13000 0 0 0\n").len(), 1);
        assert_eq!(changed("13000 0 0\n", "13000 0\n").len(), 1);
        assert_eq!(changed("rest 20000 0", "rest 20000").len(), 1);
    }

    #[test]
    fn what_is_no_call_is_told_and_never_passed_over() {
        for line in
            ["train 0 1 2 0 = 0", "normal 0 1 = 0", "step = quiet", "step x = quiet", "steps 5 = quiet"]
        {
            let call = line.split(" = ").next().unwrap();
            let expected = [format!("line 17: no call that is known here: {call}")];
            assert_eq!(changed("reserve 0 3", &format!("{line}\nreserve 0 3")), expected);
        }
        let line = ["line 17: neither a call nor a plan"];
        assert_eq!(changed("reserve 0 3", "until 5\nreserve 0 3"), line);
    }

    /// Behind the example node 3 has 10,000 of the 87,000 that can be reserved.
    #[test]
    fn offers_are_answered_into_a_buffer() {
        let offers = |line: &str| wrong(&format!("{EXAMPLE}{line}\n"));
        for line in [
            "offers 2 | 1 7 10000 | 1 7 10001 = 0 | 0 17",
            "offers 9 | 1 0 0 | 1 0 1 | 0 0 0 | 5 65 0 | 1 65 0 | 3 7 11000 = 0 | 0 15 13 13 14 0",
            "offers 0 = 0 |",
            "offers 5 = 0 |",
            "offers 1 | 1 1 512 | 1 1 512 = 18",
            "offers 0 | 1 1 512 = 18",
        ] {
            assert_eq!(offers(line), Vec::<String>::new(), "{line}");
        }
        assert_eq!(
            offers("offers 2 | 1 7 10001 = 0 | 0"),
            ["line 37: offers 2 | 1 7 10001 = 0 | 17, not 0 | 0"]
        );
        assert_eq!(offers("offers 0 | 1 1 512 = 0 | 0"), ["line 37: offers 0 | 1 1 512 = 18, not 0 | 0"]);
        let many = |count: usize| format!("offers 65{}", " | 1 1 512".repeat(count));
        assert_eq!(offers(&format!("{} = 0 |{}", many(64), " 0".repeat(64))), Vec::<String>::new());
        assert_eq!(offers(&format!("{} = 18", many(65))), Vec::<String>::new());
        for call in [
            "offers",
            "offers x",
            "offers 2 | 1 1",
            "offers 2 | 1 1 512 | ",
            "offers 2 1 1 512",
            "offers 2 |",
        ] {
            assert_eq!(
                offers(&format!("{call} = 18")),
                [format!("line 37: no call that is known here: {call}")]
            );
        }
    }

    /// Behind the example node 3 has 10,000 of the 87,000 that can be reserved; 40 × 1,800 = 72,000 for node 1 leave 5,000.
    #[test]
    fn what_would_make_an_offer_fit_is_told() {
        let fit = |line: &str| wrong(&format!("{EXAMPLE}reserve 200000 1 40 800 = 0\n{line}\n"));
        for line in [
            "fit 2 3 1000 = packets 2",
            "fit 2 1 12000 = bits 4000",
            "fit 2 4 4001 = release 1", // 20,004; node 3's release makes 15,000, and 4 × 1,512 are 6,048
            "fit 2 13 5000 = nothing",  // 78,000, and node 1's release makes 77,000
            "fit 2 1 4000 = answer 0",
            "fit 3 0 0 = answer 0",
            "fit 5 65 0 = answer 13",
            "fit 2 65 0 = answer 14",
            "fit 2 64 12001 = answer 15",
        ] {
            assert_eq!(fit(line), Vec::<String>::new(), "{line}");
        }
        assert_eq!(fit("fit 2 1 12000 = bits 4001"), ["line 38: fit 2 1 12000 = bits 4000, not bits 4001"]);
        assert_eq!(fit("fit 2 3 1000 = answer 17"), ["line 38: fit 2 3 1000 = packets 2, not answer 17"]);
        for call in [
            "fit",
            "fit 2 1",
            "fit 2 1 512 0",
            "fit x 1 512",
            "fit | 2 1 512",
            "fit 02 1 512",
            "fits 2 1 512",
        ] {
            assert_eq!(
                fit(&format!("{call} = nothing")),
                [format!("line 38: no call that is known here: {call}")]
            );
        }
    }

    #[test]
    fn a_list_without_a_plan_or_a_call_is_told() {
        assert_eq!(wrong("until 5 = 0\n"), ["line 1: no plan stands before until 5"]);
        assert_eq!(wrong("# nothing\n"), ["it has no call"]);
        assert!(
            changed("(frame 100000)", "(frame 99999)")[0].starts_with("line 2: the plan is refused: line 1:")
        );
        assert!(changed(")\n.\n", ")\n")[0].starts_with("line 2: the plan has no end"));
    }
}
