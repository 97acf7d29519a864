//! The whole program by the peer: plan and events in, the log out.

use super::read::{self, Window, WINDOW};
use super::{write, Peer};
use crate::hub::{Answer, Call};
use crate::log::LONGEST_TEXT;
use crate::plan;

/// The log of a text.
pub fn log(text: &[u8]) -> Vec<u8> {
    let mut log = Vec::with_capacity(LONGEST_TEXT);
    log_onto(text, &mut log);
    log
}

/// Puts the log of a text behind what stands in a buffer.
pub fn log_onto(text: &[u8], log: &mut Vec<u8>) {
    let text = &text[..text.len().min(LONGEST_TEXT)];
    let taken = match plan::read(text) {
        Ok(taken) => taken,
        Err(refused) => {
            write::line(log, b"(refused", [refused.line, u64::from(refused.number)]);
            return;
        }
    };
    let mut peer = Peer::new(&taken.plan);
    write::form(log, b"(nodes", [peer.nodes]);
    write::line(log, b" hubs", [u64::from(peer.hubs)]);
    events(&text[taken.at..], taken.line, &mut peer, log);
}

/// The events behind the plan, the first of which has this line number.
fn events(text: &[u8], first_line: u64, peer: &mut Peer, log: &mut Vec<u8>) {
    let mut left = text;
    let mut line = first_line;
    while !left.is_empty() {
        let read = match left.first_chunk() {
            Some(window) => read::event(window),
            None => read::event(&padded(left)),
        };
        let length = match read {
            Some((call, length)) => {
                steps(peer, call.time(), log);
                if let Answer::Refused(row) = peer.call(call) {
                    write::line(log, b"(refused", [line, u64::from(row)]);
                }
                length
            }
            None => {
                write::line(log, b"(refused", [line, 1]);
                left.iter().position(|&byte| byte == b'\n').map_or(left.len(), |lf| lf + 1)
            }
        };
        left = &left[length..];
        line += 1;
    }
}

/// The last bytes of a text, with zeros behind them, which stand in no form.
#[cold]
fn padded(left: &[u8]) -> Window {
    let mut window = [0; WINDOW];
    window[..left.len()].copy_from_slice(left);
    window
}

/// All steps strictly before t.
#[inline]
fn steps(peer: &mut Peer, t: u64, log: &mut Vec<u8>) {
    loop {
        match peer.call(Call::Step { t }) {
            Answer::Grant { time, node, class, end, moves, wait } => {
                write::line(log, b"(grant", [time, node, class.number(), end, moves, wait]);
            }
            Answer::Rest { time, moves } => write::line(log, b"(rest", [time, moves]),
            _ => return,
        }
    }
}
