//! What the command `lembuya offers --fit` writes behind random texts: what the reference tells.

use super::case;
use crate::archive::{on_all, setting};
use crate::common::{control, Found};
use crate::{cut_down, Lent};
use reference::control::Control;
use reference::fit::Fit;
use reference::hub::Hub;
use reference::log::{log_of, LONGEST_TEXT};
use reference::offers::{Offer, MOST_OFFERS};
use reference::plan::{self, Plan};
use reference::random::{fit, texts, Random};
use std::io::Write;
use std::path::PathBuf;
use std::process::{Command, Output, Stdio};

/// A number of a line has 16 digits at most.
const LARGEST: u64 = 9_999_999_999_999_999;

/// A file that is there as long as this is.
struct File(PathBuf);

impl File {
    fn new(seed: u64, bytes: &[u8]) -> File {
        let path = std::env::temp_dir().join(format!("lembuya-fit-{}-{seed}", std::process::id()));
        std::fs::write(&path, bytes).unwrap();
        File(path)
    }
}

impl Drop for File {
    fn drop(&mut self) {
        let _ = std::fs::remove_file(&self.0);
    }
}

/// What the command did with a text and lines of offers. For an even seed the text is a file, for others the offers are.
fn lembuya(seed: u64, text: &[u8], offers: &[u8]) -> Output {
    let even = seed.is_multiple_of(2);
    let (file, stdin) = if even { (text, offers) } else { (offers, text) };
    let file = File::new(seed, file);
    let names = [file.0.as_os_str(), "-".as_ref()];
    let mut command = Command::new(env!("CARGO_BIN_EXE_lembuya"));
    command.args(["offers", "--fit", "--quiet"]).args([names[usize::from(!even)], names[usize::from(even)]]);
    command.stdin(Stdio::piped()).stdout(Stdio::piped()).stderr(Stdio::piped());
    let mut child = command.spawn().unwrap();
    child.stdin.take().unwrap().write_all(stdin).unwrap();
    child.wait_with_output().unwrap()
}

/// A text's plan and the reference's hub behind its last event; none where the plan is refused.
fn behind(text: &[u8]) -> Option<(Plan, Hub<Control>)> {
    let plan = plan::read(&text[..text.len().min(LONGEST_TEXT)]).ok()?.plan;
    let mut hub = control(&plan);
    log_of(text, |_| Lent(&mut hub));
    Some((plan, hub))
}

/// A random text, mostly with reserves at its end that fill the frame.
fn filled(random: &mut Random) -> Vec<u8> {
    let mut text = if random.chance(60) { texts::whole(random) } else { texts::text(random) };
    if let Some((plan, hub)) = behind(&text).filter(|_| random.chance(80)) {
        let lines = fit::reserves(random, &plan, &hub).into_iter().map(texts::line);
        text.extend(lines.collect::<String>().bytes());
    }
    text
}

/// Some offers to the hub behind a text, in numbers that a line may have; sometimes there are more than a pass answers. Where the plan
/// is refused there is one.
fn some_offers(random: &mut Random, text: &[u8]) -> Vec<Offer> {
    let Some((plan, hub)) = behind(text) else { return vec![Offer { k: 1, n: 1, b: 512 }] };
    let count = if random.chance(5) { MOST_OFFERS + random.place(100) } else { random.place(10) };
    let offers = (0..count).map(|_| fit::offer_to(random, &plan, &hub));
    offers.filter(|&Offer { k, n, b }| k.max(n).max(b) <= LARGEST).collect()
}

/// An offer's lines, where it hears this.
fn answered(Offer { k, n, b }: Offer, fit: Fit) -> String {
    match fit {
        Fit::Answer(row) => format!("(offer {k} {n} {b} {row})\n"),
        change => format!("(offer {k} {n} {b} 17)\n(fit {change})\n"),
    }
}

/// The exit status and the lines that the reference's answers are, which are counted.
fn expected(text: &[u8], offers: &[Offer], found: &mut Found) -> (i32, String) {
    let Some((_, hub)) = behind(text) else {
        found.count("plan refused");
        return (1, String::new());
    };
    let lines = offers.iter().map(|&offer| {
        let fit = hub.fit(offer);
        found.count(case(fit));
        answered(offer, fit)
    });
    (0, lines.collect())
}

/// Whether the command ends and writes as expected; if not, what it did.
fn same_lines(seed: u64, text: &[u8], offers: &[Offer], found: &mut Found) -> Result<(), String> {
    let expected = expected(text, offers, found);
    let lines = offers.iter().map(|Offer { k, n, b }| format!("(offer {k} {n} {b})\n"));
    let Output { status, stdout, stderr } = lembuya(seed, text, lines.collect::<String>().as_bytes());
    let [out, err] = [stdout, stderr].map(|bytes| String::from_utf8_lossy(&bytes).into_owned());
    let written = (status.code().expect("an exit status"), out);
    if written != expected {
        return Err(format!("reference: {expected:?}\ncommand: {written:?}\n{err}"));
    }
    Ok(())
}

/// Fails with a text cut down.
fn show_text(seed: u64, text: &[u8], offers: &[Offer]) -> ! {
    let same = |text: &[u8]| same_lines(seed, text, offers, &mut Found::default());
    let short = cut_down(text, |text| same(text).is_err());
    panic!("seed {seed}: {}\n{}", same(&short).unwrap_err(), String::from_utf8_lossy(&short))
}

#[test]
fn fits_through_the_command() {
    let texts = setting("LEMBUYA_TEXTS", 10_000) / 20;
    let found = on_all(
        0..texts,
        |seed, found| {
            let mut random = Random::new(seed);
            let text = filled(&mut random);
            let offers = some_offers(&mut random, &text);
            if same_lines(seed, &text, &offers, found).is_err() {
                show_text(seed, &text, &offers);
            }
            found.count("texts");
            found.add("more than a pass", u64::from(offers.len() > MOST_OFFERS));
        },
        Found::join,
    );
    println!("{found:?}");
    found.assert_met(texts / 10, &["answer 0", "packets", "bits", "release", "nothing", "plan refused"]);
    found.assert_met(texts / 50, &["answer 13", "answer 14", "answer 15"]);
    found.assert_met(texts / 100, &["more than a pass"]);
}
