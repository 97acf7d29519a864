//! The log as JSON, one object a line.

use crate::log::{words, Entry};
use lembuya::{Class, Plan, Step};

/// A text as a JSON string.
pub fn string(text: &str) -> String {
    let mut json = String::from('"');
    for letter in text.chars() {
        match letter {
            '"' => json += "\\\"",
            '\\' => json += "\\\\",
            '\n' => json += "\\n",
            control if control < ' ' => json += &format!("\\u{:04x}", control as u32),
            other => json.push(other),
        }
    }
    json + "\""
}

/// A class's name, as objects and tables have it.
pub fn class_name(class: Class) -> &'static str {
    match class {
        Class::Normal => "normal",
        Class::High => "high",
    }
}

/// An entry as an object, of the log of a text with this plan, or whose plan is refused.
pub fn object(file: &str, entry: &Entry, plan: Option<&Plan>) -> String {
    let fields = match entry {
        Entry::Taken { nodes, hubs } => format!("\"form\":\"nodes\",\"nodes\":{nodes},\"hubs\":{hubs}"),
        Entry::Step(Step::Grant { time, node, class, end, moves, wait }) => {
            let turn = format!("\"time\":{time},\"node\":{node},\"class\":\"{}\"", class_name(*class));
            format!("\"form\":\"grant\",{turn},\"end\":{end},\"moves\":{moves},\"wait\":{wait}")
        }
        Entry::Step(Step::Rest { time, moves }) => {
            format!("\"form\":\"rest\",\"time\":{time},\"moves\":{moves}")
        }
        Entry::Step(Step::Quiet) => unreachable!("the log has no line for quiet"),
        Entry::Refused { line, number } => {
            let words = string(&words(*line, *number, plan));
            format!("\"form\":\"refused\",\"line\":{line},\"number\":{number},\"words\":{words}")
        }
    };
    format!("{{\"file\":{},{fields}}}\n", string(file))
}

#[cfg(test)]
mod tests {
    use super::*;

    #[test]
    fn strings_are_escaped() {
        assert_eq!(string("a\"b\\c\n\u{1}é"), "\"a\\\"b\\\\c\\n\\u0001é\"");
    }

    #[test]
    fn each_form_is_an_object() {
        let log = b"(nodes 4 hubs 2)\n(refused 15 1)\n(grant 13000 4 1 20000 0 13000)\n(rest 20000 0)\n";
        let log = crate::log::read(log).unwrap();
        let plan = Plan::read(include_bytes!("../../../../examples/example.text")).unwrap();
        let objects: String = log.iter().map(|entry| object("a", entry, Some(&plan))).collect();
        assert_eq!(
            objects,
            "{\"file\":\"a\",\"form\":\"nodes\",\"nodes\":4,\"hubs\":2}\n\
             {\"file\":\"a\",\"form\":\"refused\",\"line\":15,\"number\":1,\"words\":\"no form above, or its LF is missing\"}\n\
             {\"file\":\"a\",\"form\":\"grant\",\"time\":13000,\"node\":4,\"class\":\"normal\",\"end\":20000,\"moves\":0,\"wait\":13000}\n\
             {\"file\":\"a\",\"form\":\"rest\",\"time\":20000,\"moves\":0}\n"
        );
    }
}
