//! The command's offers, and what would make them fit. The archive's are held against the reference in `differential/offers.rs` and
//! `differential/fit.rs`.

use std::io::Write;
use std::process::{Command, Output, Stdio};

const PRESS: &str = concat!(env!("CARGO_MANIFEST_DIR"), "/../examples/press.text");
const OFFERS: &str = concat!(env!("CARGO_MANIFEST_DIR"), "/../examples/press.offers");
const ANSWERS: &str = include_str!("../../examples/press.answers");
const RING: &str = concat!(env!("CARGO_MANIFEST_DIR"), "/../examples/ring.text");
const FULL: &str = concat!(env!("CARGO_MANIFEST_DIR"), "/../examples/press-full.text");
const FULL_OFFERS: &str = concat!(env!("CARGO_MANIFEST_DIR"), "/../examples/press-full.offers");
const FULL_ANSWERS: &str = include_str!("../../examples/press-full.answers");

/// What the command did with words and standard input: status, standard output and standard error.
fn lembuya(words: &[&str], stdin: &str) -> (i32, String, String) {
    let mut command = Command::new(env!("CARGO_BIN_EXE_lembuya"));
    command.arg("offers").args(words);
    command.stdin(Stdio::piped()).stdout(Stdio::piped()).stderr(Stdio::piped());
    let mut child = command.spawn().unwrap();
    // A command that doesn't read its standard input may be gone already.
    let _ = child.stdin.take().unwrap().write_all(stdin.as_bytes());
    let Output { status, stdout, stderr } = child.wait_with_output().unwrap();
    let text = |bytes| String::from_utf8(bytes).unwrap();
    (status.code().unwrap(), text(stdout), text(stderr))
}

/// By hand: c is b + 1,011, and of the frame's 200,000 there are 126,857 left (`lembuya limits`). Node 3 asks for 4 × 5,011 in place of
/// its 2 × 5,011; node 1 for 9 × 13,011 = 117,099, and for 130,110; node 4 for 20 × 1,523.
#[test]
fn the_presses_offers_are_answered_in_their_order() {
    let numbers: Vec<&str> = ANSWERS.lines().map(|line| line.rsplit_once(' ').unwrap().1).collect();
    assert_eq!(numbers, ["0)", "0)", "17)", "0)", "13)", "0)"]);
    let (status, out, err) = lembuya(&[PRESS, OFFERS], "");
    assert_eq!((status, out.as_str()), (0, ANSWERS));
    let full = format!("{OFFERS}:3: refused 17: the frame can't hold it: (offer 1 10 12000)\n");
    let node = format!("{OFFERS}:5: refused 13: k is 0 or above N: (offer 15 1 4000)\n");
    assert_eq!(err, full + &node);
    let (text, asked) = [PRESS, OFFERS].map(|file| std::fs::read_to_string(file).unwrap()).into();
    assert_eq!(lembuya(&["--quiet", PRESS], &asked), (0, ANSWERS.into(), String::new()));
    assert_eq!(lembuya(&["--quiet", "-", OFFERS], &text), (0, ANSWERS.into(), String::new()));
    assert_eq!(lembuya(&["--quiet", PRESS, "-"], ""), (0, String::new(), String::new()));
    // With the camera's share reserved, what the image asks for doesn't fit any more: 20,044 - 10,022 more are taken.
    let reserved = text.replace("(until 1000000)", "(reserve 1000000 3 4 4000)");
    let (_, out, _) = lembuya(&["-", OFFERS], &reserved);
    assert_eq!(out, ANSWERS.replace("(offer 1 9 12000 0)", "(offer 1 9 12000 17)"));
}

/// No offer is no line, from a file that is named too.
#[test]
fn no_offer_is_no_answer() {
    for words in [&[PRESS, "/dev/null"][..], &[PRESS, "-"], &[PRESS], &["--quiet", PRESS, "/dev/null"]] {
        assert_eq!(lembuya(words, ""), (0, String::new(), String::new()), "{words:?}");
    }
}

/// About the ends of a pass, which has up to 64. Those of each row are told in their order, each with its own line.
#[test]
fn the_last_and_the_first_of_a_pass_are_answered_alike() {
    for count in [1, 63, 64, 65, 127, 128, 129, 200] {
        let kinds = [("1 1 12000", 0), ("15 1 4000", 13), ("1 10 12000", 17)];
        let asked = |place: usize| kinds[place % kinds.len()];
        let lines: String = (0..count).map(|place| format!("(offer {})\n", asked(place).0)).collect();
        let expected: String =
            (0..count).map(|place| format!("(offer {} {})\n", asked(place).0, asked(place).1)).collect();
        let (status, out, err) = lembuya(&[PRESS], &lines);
        assert_eq!((status, out), (0, expected), "{count} offers");
        let told: Vec<&str> = err.lines().map(|line| line.split(": ").next().unwrap()).collect();
        let refused = (0..count).filter(|place| asked(*place).1 != 0);
        assert_eq!(told, refused.map(|place| format!("-:{}", place + 1)).collect::<Vec<_>>());
    }
}

/// In three passes, each against the same hub: 1 × 13,011 fits alone as often as it is asked.
#[test]
fn any_number_of_offers_is_answered() {
    let asked = "(offer 1 1 12000)\n".repeat(150);
    let (status, out, err) = lembuya(&[PRESS], &(asked.clone() + "(offer 1 65 0)\n"));
    assert_eq!((status, out), (0, asked.replace("12000)", "12000 0)") + "(offer 1 65 0 14)\n"));
    assert_eq!(err, "-:151: refused 14: n above 64: (offer 1 65 0)\n");
}

/// By hand: the image's 117,099 and the console's 9,011 leave 747 of the press's 126,857.
/// - Node 3 has 747 + its own 10,022 = 10,769, in which 3 × 3,011 = 9,033 fit and 12,044 don't.
/// - Node 2 has 747 + its own 9,011 = 9,758, which is 8,747 + 1,011.
/// - Node 4 has 747, in which not even 512 + 1,011 fit. Node 2's release makes it 9,758, in which 5,011 fit; any camera's 10,769, in
///   which 2 × 5,011 fit; node 1's 117,846, in which 9 × 13,011 = 117,099 fit and 130,110 don't.
#[test]
fn what_would_make_an_offer_fit_stands_behind_its_17() {
    let (fits, answers): (Vec<&str>, Vec<&str>) =
        FULL_ANSWERS.lines().partition(|line| line.starts_with("(fit "));
    let worked = ["packets 3", "bits 8747", "release 2", "release 3", "release 1", "nothing"];
    assert_eq!(fits, worked.map(|fit| format!("(fit {fit})")));
    let (status, out, _) = lembuya(&["--fit", FULL, FULL_OFFERS], "");
    assert_eq!((status, out.as_str()), (0, FULL_ANSWERS));
    let quiet = lembuya(&["--quiet", FULL, FULL_OFFERS, "--fit"], "");
    assert_eq!(quiet, (0, FULL_ANSWERS.into(), String::new()));
    // Without the option there is none of it.
    let (status, out, _) = lembuya(&[FULL, FULL_OFFERS], "");
    assert_eq!((status, out.lines().collect::<Vec<_>>()), (0, answers));
}

#[test]
fn what_would_make_an_offer_fit_is_said_in_words_too() {
    let (_, _, err) = lembuya(&["--fit", FULL, FULL_OFFERS], "");
    let full = |line: u64, words: &str, offer: &str| {
        format!("{FULL_OFFERS}:{line}: refused 17: the frame can't hold it; {words}: (offer {offer})\n")
    };
    let expected = [
        full(1, "3 packets a frame would fit", "3 5 2000"),
        full(2, "packets of up to 8747 bits would fit", "2 1 12000"),
        full(3, "it would fit if node 2's reservation were given up", "4 1 4000"),
        full(4, "it would fit if node 3's reservation were given up", "4 2 4000"),
        full(5, "it would fit if node 1's reservation were given up", "4 9 12000"),
        full(6, "no single change makes it fit", "4 10 12000"),
        format!("{FULL_OFFERS}:8: refused 13: k is 0 or above N: (offer 15 1 4000)\n"),
    ];
    assert_eq!(err, expected.concat());
    let (_, _, plain) = lembuya(&[FULL, FULL_OFFERS], "");
    let first = format!("{FULL_OFFERS}:1: refused 17: the frame can't hold it: (offer 3 5 2000)\n");
    assert!(plain.starts_with(&first) && !plain.contains(" fit"), "{plain}");
}

/// Nine of the longest packets fit on the press as it is; no other of its offers is refused by 17.
#[test]
fn no_other_answer_has_a_second_line() {
    let fitted = ANSWERS.replace("12000 17)\n", "12000 17)\n(fit packets 9)\n");
    assert_eq!(lembuya(&["--fit", "--quiet", PRESS, OFFERS], ""), (0, fitted, String::new()));
    let asked =
        "(offer 1 9 12000)\n(offer 1 65 12000)\n(offer 1 64 12001)\n(offer 0 64 12000)\n(offer 3 0 0)\n";
    let plain = lembuya(&[PRESS], asked);
    assert_eq!(lembuya(&["--fit", PRESS], asked), plain);
    let numbers: Vec<&str> = plain.1.lines().map(|line| line.rsplit_once(' ').unwrap().1).collect();
    assert_eq!(numbers, ["0)", "14)", "15)", "13)", "0)"]);
    assert_eq!(lembuya(&["--fit", PRESS, "/dev/null"], ""), (0, String::new(), String::new()));
}

/// What is named is taken when it is asked, and what is a packet or a bit more isn't; behind a release the offer itself is.
#[test]
fn what_is_named_fits() {
    let asked = "(offer 3 3 2000)\n(offer 3 4 2000)\n(offer 2 1 8747)\n(offer 2 1 8748)\n";
    let answers = "(offer 3 3 2000 0)\n(offer 3 4 2000 17)\n(offer 2 1 8747 0)\n(offer 2 1 8748 17)\n";
    assert_eq!(lembuya(&["--quiet", FULL], asked), (0, answers.into(), String::new()));
    // Of node 4's four offers those that fit where another node has given up its reservation.
    let full = std::fs::read_to_string(FULL).unwrap();
    let fit_without = |node: u64| {
        let (_, out, _) = lembuya(&["--quiet", "-", FULL_OFFERS], &format!("{full}(reserve 0 {node} 0 0)\n"));
        let offers =
            ["1 4000", "2 4000", "9 12000", "10 12000"].map(|offer| format!("(offer 4 {offer} 0)\n"));
        offers.map(|line| out.contains(&line))
    };
    assert_eq!(fit_without(1), [true, true, true, false]);
    assert_eq!(fit_without(2), [true, false, false, false]);
    for camera in [3, 5, 7, 9, 11, 13] {
        assert_eq!(fit_without(camera), [true, true, false, false], "{camera}");
    }
}

/// In three passes: each 17 has its own line behind it.
#[test]
fn each_of_many_has_what_would_make_it_fit() {
    let asked = |bits: u64| format!("(offer 2 1 {bits})\n");
    let lines: String = (8_700..8_830).map(asked).collect();
    // 8,747 bits fit, and no more.
    let answered = |bits: u64| match bits {
        ..=8_747 => format!("(offer 2 1 {bits} 0)\n"),
        _ => format!("(offer 2 1 {bits} 17)\n(fit bits 8747)\n"),
    };
    let expected: String = (8_700..8_830).map(answered).collect();
    assert_eq!(lembuya(&["--fit", "--quiet", FULL], &lines), (0, expected, String::new()));
}

/// With token ring frames D is 37,011, and 102,857 are left: 2 × 37,011 = 74,022 fit, and not 111,033.
#[test]
fn the_longest_packet_is_the_plans() {
    let asked = "(offer 1 3 36000)\n(offer 1 3 36001)\n";
    let answers = "(offer 1 3 36000 17)\n(fit packets 2)\n(offer 1 3 36001 15)\n";
    assert_eq!(lembuya(&["--fit", "--quiet", RING], asked), (0, answers.into(), String::new()));
}

/// A text's refused events are said as `run` says them, and its hub goes on behind its last event.
#[test]
fn the_texts_refusals_are_said_too() {
    let plan = "(frame 100000)\n(overhead 1000)\n(interrupt 13000)\n(hub\n(node)\n)\n";
    let text = format!("{plan}(normal 0 1 511)\n(reserve 5 1 1 12000)\n");
    // The plan has one node, so that each offer is refused, by 13 or by 17.
    let (status, out, err) = lembuya(&["-", OFFERS], &text);
    assert_eq!((status, out.lines().count(), err.lines().count()), (0, 6, 7));
    assert!(err.starts_with("-:7: refused 15: b outside 512 to "), "{err}");
    assert_eq!(lembuya(&["--quiet", "-", OFFERS], &text), (0, out, String::new()));
    // Nobody is left to answer, and that is said also where little is to be said.
    for words in [&["-", OFFERS][..], &["--quiet", "-", OFFERS], &["-", "/dev/null"]] {
        let (status, out, err) = lembuya(words, "(frame 1)\n");
        assert_eq!((status, out.as_str()), (1, ""), "{words:?}");
        assert_eq!(err, "-:1: refused 2: T, O or D out of range: (frame 1)\n", "{words:?}");
    }
}

#[test]
fn a_line_that_is_no_offer_is_bad_usage() {
    let lines =
        ["", "(offer 1 1)", "(reserve 0 1 1 512)", "(offer 1 1 512 0)", "(offer 1 1 10000000000000000)"];
    for line in lines {
        let found = lembuya(&[PRESS], &format!("(offer 1 1 512)\n{line}\n(offer 1 1 512)\n"));
        let words = "lembuya: -:2: that is no (offer k n b), or its LF is missing\n";
        assert_eq!(found, (2, String::new(), words.into()), "{line}");
    }
    let (status, out, err) = lembuya(&[PRESS], "(offer 1 1 512)");
    assert_eq!((status, out.as_str()), (2, ""));
    assert!(err.starts_with("lembuya: -:1: "), "{err}");
}

#[test]
fn bad_usage_is_status_2_and_help_is_0() {
    let refused: &[&[&str]] = &[
        &[],
        &["-"],
        &["-", "-"],
        &[PRESS, OFFERS, OFFERS],
        &["--json", PRESS],
        &["--fit"],
        &["--fit=packets", PRESS, OFFERS],
        &["--fits", PRESS, OFFERS],
        &["/no/such/file"],
        &[PRESS, "/no/such/file"],
    ];
    for words in refused {
        let (status, out, err) = lembuya(words, "");
        assert_eq!((status, out.as_str()), (2, ""), "{words:?}");
        assert!(err.starts_with("lembuya: "), "{words:?}: {err}");
    }
    let (status, out, err) = lembuya(&["--help"], "");
    assert_eq!((status, err.as_str()), (0, ""));
    assert!(out.starts_with("lembuya offers ") && out.contains("(offer k n b NUMBER)"), "{out}");
    assert!(
        out.contains("[--fit]") && out.contains("(fit packets n)") && out.contains("(fit nothing)"),
        "{out}"
    );
}
