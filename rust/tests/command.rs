//! The command `lembuya` as a caller meets it: what it writes where, and its exit status.

use std::io::Write;
use std::process::{Command, Output, Stdio};

const EXAMPLE: &str = concat!(env!("CARGO_MANIFEST_DIR"), "/../examples/example.text");
const LOG: &str = include_str!("../../examples/example.log");

/// A plan of framing 5 whose packets have the greatest length, and one too long.
const RING: &str =
    "(frame 200000)\n(overhead 1000)\n(interrupt 37000)\n(framing 5)\n(hub\n(node)\n(node)\n)\n\
    (reserve 0 2 1 36000)\n(normal 0 1 36000)\n(normal 0 2 36001)\n(high 200000 2 36000)\n(until 400000)\n";
/// By hand: line 11 asks for more than 36,000 bits. Each grant holds the line for 36,000 + 1,000, node 2's in frame 1, from
/// whose start on its reservation is in force. There is one hub, so control never moves.
const RING_LOG: &str = "(nodes 2 hubs 1)\n(refused 11 15)\n(grant 0 1 1 37000 0 0)\n(rest 37000 0)\n\
    (grant 200000 2 2 237000 0 0)\n(rest 237000 0)\n";

/// Row 16 where the plan is strict, and where it isn't.
const STRICT_16: &str =
    "n in force at t is 0 and the plan is strict, or it isn't 0 and b above the b in force";
const DEFAULT_16: &str = "b above the b in force";

/// A laptop, node 2, that calls everything high beside a camera, node 1, which once asks for more than it reserved.
const LAPTOP: &str = "(frame 100000)\n(overhead 1000)\n(interrupt 13000)\n(hub\n(node)\n(node)\n)\n\
    (reserve 0 1 1 4000)\n(high 0 2 12000)\n(high 100000 1 4001)\n(high 100000 2 12000)\n(high 100000 1 4000)\n\
    (until 200000)\n";
/// By hand: line 10 asks for more than the 4,000 bits in force. Node 2's requests are normal: the first is granted at once, the
/// second behind node 1's, 5,000 later, each for 12,000 + 1,000. There is one hub, so control never moves.
const LAPTOP_LOG: &str = "(nodes 2 hubs 1)\n(grant 0 2 1 13000 0 0)\n(rest 13000 0)\n(refused 10 16)\n\
    (grant 100000 1 2 105000 0 0)\n(grant 105000 2 1 118000 0 5000)\n(rest 118000 0)\n";
/// By hand, with `(strict)`, so that each line has a number more: 10 and 12 are refused too, and node 2 has no turn.
const LAPTOP_STRICT_LOG: &str = "(nodes 2 hubs 1)\n(refused 10 16)\n(refused 11 16)\n(refused 12 16)\n\
    (grant 100000 1 2 105000 0 0)\n(rest 105000 0)\n";

fn strict(text: &str) -> String {
    text.replacen("(hub\n", "(strict)\n(hub\n", 1)
}

/// What the command did with words and standard input: status, standard output and standard error.
fn lembuya(words: &[&str], stdin: &str) -> (i32, String, String) {
    let mut command = Command::new(env!("CARGO_BIN_EXE_lembuya"));
    command.args(words).stdin(Stdio::piped()).stdout(Stdio::piped()).stderr(Stdio::piped());
    let mut child = command.spawn().unwrap();
    // A command that doesn't read its standard input may be gone already.
    let _ = child.stdin.take().unwrap().write_all(stdin.as_bytes());
    let Output { status, stdout, stderr } = child.wait_with_output().unwrap();
    let text = |bytes| String::from_utf8(bytes).unwrap();
    (status.code().unwrap(), text(stdout), text(stderr))
}

fn example() -> String {
    std::fs::read_to_string(EXAMPLE).unwrap()
}

#[test]
fn run_writes_the_log_and_says_what_is_refused() {
    let (status, out, err) = lembuya(&["run", EXAMPLE], "");
    assert_eq!((status, out.as_str()), (0, LOG));
    assert_eq!(err, format!("{EXAMPLE}:16: refused 16: {STRICT_16}: (high 0 3 4000)\n"));
    assert_eq!(lembuya(&["run", "--quiet", "-"], &example()), (0, LOG.into(), String::new()));
}

#[test]
fn several_texts_have_a_heading_each_and_one_refused_plan_is_status_1() {
    let (status, out, err) = lembuya(&["run", "-", EXAMPLE], "(frame 1)\n");
    assert_eq!(status, 1);
    assert_eq!(out, format!("==> - <==\n(refused 1 2)\n==> {EXAMPLE} <==\n{LOG}"));
    assert!(err.starts_with("-:1: refused 2: T, O or D out of range: (frame 1)\n"), "{err}");
}

#[test]
fn json_is_one_object_a_line() {
    let (status, out, _) = lembuya(&["run", "--json", "-"], &example());
    assert_eq!((status, out.lines().count()), (0, LOG.lines().count()));
    assert_eq!(out.lines().next(), Some("{\"file\":\"-\",\"form\":\"nodes\",\"nodes\":4,\"hubs\":2}"));
    assert!(out.lines().all(|line| line.starts_with("{\"file\":\"-\",\"form\":\"") && line.ends_with('}')));
}

/// Document 01's log has waits of 0, 13000, 0, 12000 and 17000.
#[test]
fn a_grants_object_has_its_wait() {
    let (_, out, _) = lembuya(&["run", "--json", "-"], &example());
    let grants = out.lines().filter(|line| line.contains("\"form\":\"grant\""));
    let waits: Vec<&str> = grants.map(|line| line.split_once("\"moves\":").unwrap().1).collect();
    let expected =
        ["0,\"wait\":0}", "0,\"wait\":13000}", "1,\"wait\":0}", "2,\"wait\":12000}", "1,\"wait\":17000}"];
    assert_eq!(waits, expected);
}

#[test]
fn limits_are_document_01s() {
    let text = example().replace("(normal 0 1 12000)", "(reserve 0 1 1 11000)");
    let (status, out, _) = lembuya(&["limits", "-"], &text);
    assert_eq!((status, out.lines().count()), (0, 6));
    let lines: Vec<Vec<&str>> = out.lines().map(|line| line.split_whitespace().collect()).collect();
    // D + 12,000 + 2 × 5,000; node 1: D + 12,000 + 1 × 5,000; node 3: D + 2 × 5,000 + 1 × 12,000.
    assert_eq!(lines[1], ["load", "35000", "of", "100000", "bit", "times,", "35.00", "%"]);
    assert_eq!(lines[3], ["1", "1", "11000", "12000", "12.00", "30000", "300.00"]);
    assert_eq!(lines[4], ["3", "2", "4000", "10000", "10.00", "35000", "350.00"]);
    assert_eq!(lembuya(&["limits", "-"], "(hub\n").0, 1);
}

#[test]
fn a_plan_of_framing_5_is_run_with_its_own_lengths() {
    let (status, out, err) = lembuya(&["run", "-"], RING);
    assert_eq!((status, out.as_str()), (0, RING_LOG));
    let words =
        "b outside 512 to the plan's longest packet, here 36000; in a reserve with n = 0 instead: b not 0";
    assert_eq!(err, format!("-:11: refused 15: {words}: (normal 0 2 36001)\n"));
    // Without its framing line the same plan is one of framing 3, whose packets have 12,000 bits at most: all four are too long.
    let (_, out, err) = lembuya(&["run", "-"], &RING.replace("(framing 5)\n", ""));
    assert_eq!(out, "(nodes 2 hubs 1)\n(refused 8 15)\n(refused 9 15)\n(refused 10 15)\n(refused 11 15)\n");
    let words =
        "b outside 512 to the plan's longest packet, here 12000; in a reserve with n = 0 instead: b not 0";
    assert_eq!(err.lines().next(), Some(&*format!("-:8: refused 15: {words}: (reserve 0 2 1 36000)")));
    assert_eq!(err.lines().filter(|line| line.contains(&format!(": refused 15: {words}: ("))).count(), 4);
}

/// Limits, JSON and pictures have row 15's figure too.
#[test]
fn a_length_too_long_is_told_with_the_plans_longest() {
    let words =
        "b outside 512 to the plan's longest packet, here 36000; in a reserve with n = 0 instead: b not 0";
    let (_, _, err) = lembuya(&["limits", "-"], RING);
    assert_eq!(err, format!("-:11: refused 15: {words}: (normal 0 2 36001)\n"));
    let (_, out, _) = lembuya(&["run", "--json", "-"], RING);
    let object = "\"file\":\"-\",\"form\":\"refused\",\"line\":11,\"number\":15";
    assert_eq!(out.lines().nth(1), Some(&*format!("{{{object},\"words\":\"{words}\"}}")));
    let (_, out, _) = lembuya(&["picture", "-"], RING);
    assert!(out.contains(&format!("<title>(refused 11 15): {words}</title>")), "{out}");
}

#[test]
fn a_framing_line_is_refused_in_words() {
    let refused = |old: &str, new: &str| lembuya(&["run", "-"], &RING.replace(old, new));
    let (status, out, err) = refused("(framing 5)", "(framing 4)");
    assert_eq!((status, out.as_str()), (1, "(refused 4 4)\n"));
    assert_eq!(err, "-:4: refused 4: the number is neither 3 nor 5: (framing 4)\n");
    // D is 12,000 + O at least, but less than 36,000 + O.
    let (status, out, err) = refused("(interrupt 37000)", "(interrupt 36999)");
    assert_eq!((status, out.as_str()), (1, "(refused 4 2)\n"));
    let words = "D too small for framing 5, which needs 36,000 + O";
    assert_eq!(err, format!("-:4: refused 2: {words}: (framing 5)\n"));
    for command in ["limits", "waits", "picture"] {
        let told = lembuya(&[command, "-"], &RING.replace("(interrupt 37000)", "(interrupt 36999)"));
        assert_eq!(told, (1, String::new(), err.clone()), "{command}");
    }
    // D below 12,000 + O is refused on its own line, and there it is D's range.
    let (status, out, err) = refused("(interrupt 37000)", "(interrupt 12999)");
    assert_eq!((status, out.as_str()), (1, "(refused 3 2)\n"));
    assert_eq!(err, "-:3: refused 2: T, O or D out of range: (interrupt 12999)\n");
    let (status, out, _) =
        lembuya(&["run", "--json", "--quiet", "-"], &RING.replace("(framing 5)", "(framing 0)"));
    let words = "\"words\":\"the number is neither 3 nor 5\"";
    assert_eq!(status, 1);
    assert_eq!(out, format!("{{\"file\":\"-\",\"form\":\"refused\",\"line\":4,\"number\":4,{words}}}\n"));
}

#[test]
fn limits_and_pictures_say_the_framing() {
    let (status, out, _) = lembuya(&["limits", "-"], RING);
    let lines: Vec<Vec<&str>> = out.lines().map(|line| line.split_whitespace().collect()).collect();
    assert_eq!(status, 0);
    assert!(lines[0].ends_with(&["framing", "5,", "longest", "packet", "36000,", "not", "strict"]), "{out}");
    // D + 1 × (36,000 + 1,000), 37 % of 200,000; node 2's share is 37,000, 18.5 %, and its limit the whole load: it is alone.
    assert_eq!(lines[1], ["load", "74000", "of", "200000", "bit", "times,", "37.00", "%"]);
    assert_eq!(lines[3], ["2", "1", "36000", "37000", "18.50", "74000", "740.00"]);
    let (status, out, _) = lembuya(&["picture", "-"], RING);
    assert_eq!(status, 0);
    assert!(out.contains("; framing 5, longest packet 36000 bits; not strict</text>"));
    // All of it is 400,000 bit times on 1,000 units from 80 on, so a grant of 37,000 is 92.5 wide, and 200,000 stands at 580.
    let bars = |class: &str, grant: &str, x: &str| {
        let is_bar = |line: &&str| {
            line.starts_with(&format!("<rect class=\"{class}\" x=\"{x}\"")) && line.contains(grant)
        };
        out.lines().filter(is_bar).filter(|line| line.contains(" width=\"92.5\"")).count()
    };
    assert_eq!(bars("normal", "<title>(grant 0 1 1 37000 0 0)</title>", "80"), 1);
    assert_eq!(bars("high", "<title>(grant 200000 2 2 237000 0 0)</title>", "580"), 1);
}

#[test]
fn a_laptop_is_normal_or_refused() {
    let (status, out, err) = lembuya(&["run", "-"], LAPTOP);
    assert_eq!((status, out.as_str()), (0, LAPTOP_LOG));
    assert_eq!(err, format!("-:10: refused 16: {DEFAULT_16}: (high 100000 1 4001)\n"));
    let (status, out, err) = lembuya(&["run", "-"], &strict(LAPTOP));
    assert_eq!((status, out.as_str()), (0, LAPTOP_STRICT_LOG));
    let lines = [(10, "(high 0 2 12000)"), (11, "(high 100000 1 4001)"), (12, "(high 100000 2 12000)")];
    let told = lines.map(|(line, event)| format!("-:{line}: refused 16: {STRICT_16}: {event}\n"));
    assert_eq!(err, told.concat());
    // JSON and pictures have the same words.
    for (text, line, words) in [(LAPTOP, 10, DEFAULT_16), (&strict(LAPTOP), 11, STRICT_16)] {
        let (_, out, _) = lembuya(&["run", "--json", "-"], text);
        let object = format!("\"form\":\"refused\",\"line\":{line},\"number\":16,\"words\":\"{words}\"}}");
        assert!(out.contains(&object), "{out}");
        let (_, out, _) = lembuya(&["picture", "-"], text);
        assert!(out.contains(&format!("<title>(refused {line} 16): {words}</title>")), "{out}");
    }
}

#[test]
fn limits_and_pictures_say_whether_a_plan_is_strict() {
    let limits = |text: &str| lembuya(&["limits", "-"], text).1;
    let (default, with_line) = (limits(LAPTOP), limits(&strict(LAPTOP)));
    assert!(default.lines().next().unwrap().ends_with(", longest packet 12000, not strict"), "{default}");
    assert_eq!(default.lines().last(), Some("a high request without a reservation is taken as normal"));
    // D + 1 × (4,000 + 1,000): the camera's share and limit are the same with the line.
    let row = |page: &str| page.lines().nth(3).unwrap().split_whitespace().collect::<Vec<_>>().join(" ");
    assert_eq!(row(&default), "1 1 4000 5000 5.00 18000 180.00");
    assert_eq!(row(&with_line), row(&default));
    assert!(with_line.lines().next().unwrap().ends_with(", longest packet 12000, strict"), "{with_line}");
    assert_eq!(with_line.lines().last(), Some("a high request without a reservation is refused by 16"));
    for (text, words) in [(LAPTOP, "not strict"), (&strict(LAPTOP), "strict")] {
        let (_, out, _) = lembuya(&["picture", "-"], text);
        assert!(out.contains(&format!("; framing 3, longest packet 12000 bits; {words}</text>")), "{out}");
    }
}

#[test]
fn a_strict_line_elsewhere_is_no_form() {
    let refused = |text: &str, line: u64, shown: &str| {
        let (status, out, err) = lembuya(&["run", "-"], text);
        assert_eq!((status, out), (1, format!("(refused {line} 1)\n")));
        assert!(err.starts_with(&format!("-:{line}: refused 1: not the form allowed here, ")), "{err}");
        assert!(err.ends_with(&format!(": {shown}\n")), "{err}");
    };
    refused(&RING.replace("(framing 5)\n", "(strict)\n(framing 5)\n"), 5, "(framing 5)");
    refused(&strict(&strict(RING)), 6, "(strict)");
    refused(&strict(RING).replace("(strict)", "(strict 5)"), 5, "(strict 5)");
    assert_eq!(lembuya(&["run", "--quiet", "-"], &strict(RING)).0, 0);
}

#[test]
fn a_picture_has_each_grant_of_the_log_once() {
    let (status, out, err) = lembuya(&["picture", EXAMPLE], "");
    assert_eq!((status, err.as_str()), (0, ""));
    for line in LOG.lines().filter(|line| line.starts_with("(grant")) {
        let class = if line.split(' ').nth(3) == Some("2") { "high" } else { "normal" };
        let bars = out.lines().filter(|bar| bar.starts_with(&format!("<rect class=\"{class}\"")));
        assert_eq!(bars.filter(|bar| bar.contains(&format!("<title>{line}</title>"))).count(), 1, "{line}");
    }
    // A log that is handed over is drawn as the one that is made; alone it has no frames.
    let log = concat!(env!("CARGO_MANIFEST_DIR"), "/../examples/example.log");
    assert_eq!(lembuya(&["picture", EXAMPLE, log], "").1, out);
    let (status, alone, _) = lembuya(&["picture", log], "");
    assert_eq!(status, 0);
    assert!(alone.contains("<title>(grant 0 1 1 13000 0 0)</title>") && !alone.contains("frame 0"));
    assert!(out.contains(">frame 0<"));
}

/// 200,000 bit times on 1,000 units from 94 on: node 3's request of 100,000 is granted at 112,000, node 1's at 117,000.
#[test]
fn a_picture_has_each_wait_of_the_log_once() {
    let (_, out, _) = lembuya(&["picture", EXAMPLE], "");
    let waits: Vec<&str> = out
        .lines()
        .filter(|line| line.starts_with("<path class=\"wait\"") && line.contains("<title>"))
        .collect();
    let titles = waits.iter().map(|line| line.split_once("<title>").unwrap().1.split('<').next().unwrap());
    assert_eq!(
        titles.collect::<Vec<_>>(),
        [
            "node 4 waited 13000 bit times, from 0 on: (grant 13000 4 1 20000 0 13000)",
            "node 3 waited 12000 bit times, from 100000 on: (grant 112000 3 2 117000 2 12000)",
            "node 1 waited 17000 bit times, from 100000 on: (grant 117000 1 1 119000 1 17000)",
        ]
    );
    for (wait, from, to) in [(waits[1], "M594 ", "L654 "), (waits[2], "M594 ", "L679 ")] {
        assert!(wait.contains(from) && wait.contains(to), "{wait}");
    }
    assert!(out.contains(">wait, from its request on</text>"));
}

#[test]
fn a_picture_of_a_part_shows_that_part() {
    let (status, out, _) =
        lembuya(&["picture", "--from", "0", "--from", "112000", "--to=119,000", EXAMPLE], "");
    assert_eq!(status, 0);
    assert!(out.contains("(grant 112000 3 2 117000 2 12000)") && !out.contains("(grant 0 1 1 13000 0 0)"));
}

#[test]
fn bad_usage_is_status_2_and_help_is_0() {
    let refused: &[&[&str]] = &[
        &[],
        &["draw"],
        &["run"],
        &["run", "--fast", EXAMPLE],
        &["run", "--json=1", EXAMPLE],
        &["run", "/no/such/file"],
        &["run", "-", "-"],
        &["waits"],
        &["waits", "--quiet", EXAMPLE],
        &["picture", EXAMPLE, EXAMPLE],
        &["picture", "--from", "x", EXAMPLE],
        &["picture", "--from", "5", "--to", "5", EXAMPLE],
        &["picture", "--from", EXAMPLE],
    ];
    for words in refused {
        let (status, out, err) = lembuya(words, "");
        assert_eq!((status, out.as_str()), (2, ""), "{words:?}");
        assert!(err.starts_with("lembuya: "), "{words:?}: {err}");
    }
    for command in ["run", "limits", "waits", "picture"] {
        let (status, out, err) = lembuya(&[command, "--help"], "");
        assert_eq!((status, err.as_str()), (0, ""));
        assert!(out.starts_with(&format!("lembuya {command} ")));
    }
    assert_eq!(lembuya(&["--help"], "").0, 0);
}

#[test]
fn waits_stand_beside_their_limits() {
    let (status, out, err) = lembuya(&["waits", EXAMPLE], "");
    assert_eq!(status, 0);
    assert_eq!(err, format!("{EXAMPLE}:16: refused 16: {STRICT_16}: (high 0 3 4000)\n"));
    assert_eq!(out.lines().next(), Some(&*format!("{EXAMPLE}: grants 5; waits in bit times (10 ns)")));
    let lines: Vec<Vec<&str>> = out.lines().skip(1).map(|line| line.split_whitespace().collect()).collect();
    // Node 1 waits 0 and 17,000; node 3's limit is D alone, since nobody else has a reservation.
    let expected = [
        ["node", "class", "grants", "mean", "greatest", "limit"],
        ["1", "normal", "2", "8500.0", "17000", "-"],
        ["2", "normal", "1", "0.0", "0", "-"],
        ["3", "high", "1", "12000.0", "12000", "13000"],
        ["4", "normal", "1", "13000.0", "13000", "-"],
    ];
    assert_eq!(lines, expected);
    let (_, out, _) = lembuya(&["waits", "--json", "-"], &example());
    let object = "{\"file\":\"-\",\"node\":3,\"class\":\"high\",\"grants\":1,\"mean\":12000.0,";
    assert_eq!(out.lines().nth(2), Some(&*format!("{object}\"greatest\":12000,\"limit\":13000}}")));
}

/// Two in one call, one of which is refused; and a camera that asks twice in a frame for its one packet.
#[test]
fn waits_take_several_texts_and_say_why_there_is_no_limit() {
    let (status, out, err) = lembuya(&["waits", "-", EXAMPLE], "(frame 1)\n");
    assert_eq!(status, 1);
    assert!(out.starts_with(&format!("{EXAMPLE}: grants 5;")), "{out}");
    assert!(err.starts_with("-:1: refused 2: "), "{err}");
    let held = LAPTOP.replace("(until 200000)", "(high 105001 1 4000)\n(until 300000)");
    let (status, out, _) = lembuya(&["waits", "-"], &held);
    // Granted at once at 100,000; the second is held until 200,000. The limit of the first is D: nobody else has a reservation.
    let row = "   1 high        2      47499.5      94999        -  \
        share spent; of 1 with a limit the greatest is 0, limit 13000";
    assert_eq!((status, out.lines().nth(2)), (0, Some(row)));
}

/// A log of five numbers a grant is no log any more, and its reader is told why, with its text and without it.
#[test]
fn a_log_from_before_is_told_so() {
    let before: String = LOG
        .lines()
        .map(|line| match line.strip_prefix("(grant ") {
            Some(grant) => format!("(grant {})\n", grant.rsplit_once(' ').unwrap().0),
            None => format!("{line}\n"),
        })
        .collect();
    let words = "a grant without its wait: the log was written before grants had one, and 'lembuya run' writes it anew";
    for files in [&["picture", "-"][..], &["picture", EXAMPLE, "-"]] {
        assert_eq!(lembuya(files, &before), (2, String::new(), format!("lembuya: -:3: {words}\n")));
    }
}

#[test]
fn help_says_what_d_must_be() {
    for words in [&["--help"][..], &["limits", "--help"]] {
        let out = lembuya(words, "").1;
        let flowing = out.split_whitespace().collect::<Vec<_>>().join(" ");
        assert!(flowing.contains("D is at least 12,000 + O, with (framing 5) 36,000 + O"), "{out}");
    }
}

#[test]
fn help_says_what_a_wait_is() {
    let flowing = |command: &str| {
        let out = lembuya(&[command, "--help"], "").1;
        out.split_whitespace().collect::<Vec<_>>().join(" ")
    };
    assert!(flowing("run").contains("(grant s k class end moves wait)"));
    assert!(flowing("run").contains("s less the time at which its request was first put up"));
    assert!(flowing("waits").contains("with one digit behind the point, a half rounded up"));
    assert!(flowing("waits")
        .contains("D plus the sum of c = b + O over all other nodes with a reservation in force"));
    assert!(flowing("picture").contains("A thin line before a bar is its wait"));
}

#[test]
fn help_says_what_the_strict_line_does() {
    for words in [&["--help"][..], &["limits", "--help"], &["run", "--help"]] {
        let out = lembuya(words, "").1;
        assert!(out.contains("(strict)") && out.contains("normal"), "{out}");
    }
    let out = lembuya(&["--help"], "").1;
    assert!(out.contains("perhaps (framing 3) or (framing 5)  perhaps (strict)  then one hub"), "{out}");
}

#[test]
fn a_log_with_its_text_must_be_that_texts_log() {
    let refused = |log: &str, words: &str| {
        let (status, out, err) = lembuya(&["picture", EXAMPLE, "-"], log);
        assert_eq!((status, out.as_str()), (2, ""));
        assert_eq!(err, format!("lembuya: -:{words}\n").replace("EXAMPLE", EXAMPLE));
    };
    refused("(nodes 5 hubs 2)\n", "1: the log of EXAMPLE has (nodes 4 hubs 2) here");
    refused(
        &LOG.replace("(grant 13000 4", "(grant 13000 3"),
        "4: the log of EXAMPLE has (grant 13000 4 1 20000 0 13000) here",
    );
    refused(&LOG.replace("(rest 119000 0)\n", ""), "9: the log of EXAMPLE has (rest 119000 0) here");
    refused(&format!("{LOG}(rest 200000 0)\n"), "10: the log of EXAMPLE ends here");
    assert_eq!(lembuya(&["picture", EXAMPLE, "-"], LOG.trim_end()).0, 0);
}

#[test]
fn a_log_alone_must_be_a_log() {
    let refused = |log: &str, words: &str| {
        assert_eq!(lembuya(&["picture", "-"], log), (2, String::new(), format!("lembuya: -:{words}\n")));
    };
    refused("(nodes 4 hubs 2)\n(grant 0 5 1 13000 0 0)\n", "2: there is no such node");
    refused("(nodes 4 hubs 2)\n(grand 0 1 1 13000 0 0)\n", "2: that is no line of a log");
    refused("(nodes 4 hubs 2)\n(grant 0 1 1 13000 0 1)\n", "2: that is no line of a log");
    refused("(nodes 257 hubs 2)\n", "1: a plan has 1 to 256 nodes");
    refused("(refused 1 2)\n", " a refused plan has no picture");
}
