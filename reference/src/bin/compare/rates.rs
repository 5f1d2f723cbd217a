//! Answers about rate passes by what came before them (02, i).

use std::collections::BTreeSet;

use reference::blocks::{HEADER, MEASUREMENTS, RATE_LIMIT};
use reference::board::PassKind;
use reference::crc::crc8;
use reference::frames::{self, Frame, DELIMITER, OUR_ADDRESS};
use reference::other::Served;

use crate::{has_id, mode_name, PING_ID, START_ID, STOP_ID, WRITE_ID};

/// Answers to lines in a rate pass, each of which must be seen idle and in a run.
const IN_RATE_PASS: &[&str] = &[
    "C 5 read static",
    "C 5 read dynamic",
    "C 9 write",
    "C 9 start",
    "C 9 ping",
    "K 0",
    "G 15",
    "R good frame",
    "R good done",
    "R again frame",
    "R failed frame",
    "R failed done",
    "R 11",
    "R 12",
    "T again frame",
    "T failed frame",
    "T failed done",
    "T 11",
    "T 12",
    "F 0",
    "F 11",
    "F 12",
    "N 0",
    "N 11",
    "S 0",
    "L 9",
    "M 9",
    "D 0",
    "D 6",
    "B 9",
];

/// The other answers that must be seen. Rates are not all zero; they are those of
/// the last finished rate pass, and what is named after them came since it
/// finished. The count of a reply that is named alone decides on it.
const RATES: &[&str] = &[
    "C 9 stop while fetching rates",
    "C 5 stop while running and fetching rates",
    "G 16 while fetching rates",
    "G 0 while running and fetching rates",
    "G 0 that ends a run while fetching rates",
    "B 0 while idle",
    "B 0 while running",
    "B 0 while idle, without an active board",
    "B 0 while running, without an active board",
    "B 0 after a rate pass",
    "B 9 while reprogramming",
    "B 9 while pinging",
    "R good with count 0 at 2^30 - 1",
    "R good with count 1 at 2^30 - 1",
    "R good with count 2 at 2^30 - 1",
    "R good with count 3 at 2^30 - 1",
    "R good with count 4 at 2^30 - 1",
    "R bad with count 0 at 2^30",
    "R bad with count 1 at 2^30",
    "R bad with count 2 at 2^30",
    "R bad with count 3 at 2^30",
    "R bad with count 4 at 2^30",
    "R bad with count 0 at 2^32 - 1",
    "R bad with count 1 at 2^32 - 1",
    "R bad with count 2 at 2^32 - 1",
    "R bad with count 3 at 2^32 - 1",
    "R bad with count 4 at 2^32 - 1",
    "R good with a total that is not the sum",
    "R good with an overflow",
    "R good with byte 3",
    "R good with CRC errors",
    "D 0 with zeros before any rate pass",
    "D 0 with zeros after rates",
    "D 0 with rates while idle",
    "D 0 with rates while running",
    "D 0 with rates while reprogramming",
    "D 0 with rates while pinging",
    "D 0 with rates while fetching rates",
    "D 0 with rates while running and fetching rates",
    "D 0 with rates beside a failed board",
    "D 0 with rates after a write",
    "D 0 with rates after a start",
    "D 0 with rates after a stop",
    "D 0 with rates after the last trigger of a run",
    "D 0 with rates after a ping",
    "D 0 with rates after a reset",
    "D 6 with 0 words",
    "D 6 with 1 words",
    "D 6 with 2 words",
    "D 6 with 3 words",
    "D 6 with 5 words",
    "D 6 with 6 words",
    "D 6 with 7 words",
    "D 6 with 8 words",
    "D 6 with 484 words",
    "L 0 with boards after a rate pass",
    "M 0 after a rate pass",
    "M 18 after a rate pass",
];

/// Both lists.
pub fn listed() -> Vec<String> {
    let modes = ["fetching rates", "running and fetching rates"];
    let in_pass =
        IN_RATE_PASS.iter().flat_map(|name| modes.map(|mode| format!("{name} while {mode}")));
    in_pass.chain(RATES.iter().map(|name| name.to_string())).collect()
}

/// A line of a script, its answer and the answer's own name.
#[derive(Clone, Copy)]
pub struct Answered<'a> {
    pub line: &'a [u8],
    pub answer: &'a [u8],
    pub name: &'a str,
    pub served: &'a Served,
    /// The frame that is outstanding on the crate of a reply, where a line has
    /// shown it.
    pub sent: Option<Frame>,
}

impl Answered<'_> {
    fn in_rate_pass(&self) -> bool {
        self.served.mode.pass == Some(PassKind::Rates)
    }

    /// The line after its letter, without spaces.
    pub fn digits(&self) -> impl Iterator<Item = u8> + '_ {
        self.line[1..].iter().copied().filter(|&byte| byte != b' ')
    }

    /// Whether a line ended the run.
    fn ends_run(&self) -> bool {
        self.served.mode.run.is_some() && self.served.mode_after.run.is_none()
    }

    /// The words of the answer from this one on, where it is a block.
    fn words_from(&self, word: usize) -> &[u8] {
        self.answer.get(b"0 ".len() + 4 * word..).unwrap_or(&[])
    }

    /// The frame in the answer.
    pub fn frame(&self) -> Option<Frame> {
        let digits = self.answer.rsplit(|&byte| byte == b' ').next()?;
        bytes_of(digits)?.try_into().ok()
    }

    /// The bytes of a line that has only bytes.
    pub fn bytes(&self) -> Option<Vec<u8>> {
        bytes_of(&self.digits().collect::<Vec<u8>>())
    }

    /// The bytes of a reply.
    pub fn reply(&self) -> Option<Frame> {
        self.bytes()?.get(1..)?.try_into().ok()
    }
}

/// The bytes of these digits; none where there are others or an odd number.
fn bytes_of(digits: &[u8]) -> Option<Vec<u8>> {
    let value = |digit: u8| char::from(digit).to_digit(16).map(|value| value as u8);
    let pairs = digits.chunks(2);
    pairs.map(|pair| Some(value(pair[0])? << 4 | value(*pair.get(1)?)?)).collect()
}

/// What the names of these lists ask of the lines before.
#[derive(Default)]
pub struct Past {
    finished: bool,
    /// The last pass that began was a rate pass.
    last: bool,
    /// There were rates that are not all zero.
    had_rates: bool,
    /// A board failed: in the last rate pass that finished, and in the one begun last.
    failed: bool,
    failing: bool,
    /// What was accepted since the last rate pass finished.
    since: BTreeSet<&'static str>,
}

impl Past {
    /// The names in these lists of an answer.
    pub fn names(&self, answered: &Answered) -> Vec<String> {
        let mode = mode_name(answered.served.mode);
        let mut names = Vec::new();
        if answered.in_rate_pass() {
            names.extend(in_pass_name(answered).map(|name| format!("{name} while {mode}")));
        }
        match answered.name {
            "B 0" => self.begin_names(answered, &mut names),
            "B 9" if !answered.in_rate_pass() => names.push(format!("B 9 while {mode}")),
            "D 0" => self.dynamic_names(answered, &mut names),
            "D 6" => {
                let words = answered.digits().count() / 4;
                if words <= 8 || words == MEASUREMENTS {
                    names.push(format!("D 6 with {words} words"));
                }
            }
            "G 0" if answered.in_rate_pass() && answered.ends_run() => {
                names.push("G 0 that ends a run while fetching rates".to_string());
            }
            "M 0" | "M 18" if self.last => {
                names.push(format!("{} after a rate pass", answered.name))
            }
            "L 0" if self.last && !answered.words_from(HEADER).starts_with(b"0000") => {
                names.push("L 0 with boards after a rate pass".to_string());
            }
            name if name.starts_with("R ") && answered.in_rate_pass() => {
                count_names(answered, &mut names);
            }
            _ => {}
        }
        names
    }

    fn begin_names(&self, answered: &Answered, names: &mut Vec<String>) {
        let name = format!("B 0 while {}", mode_name(answered.served.mode));
        if answered.served.mode_after.pass.is_none() {
            names.push(format!("{name}, without an active board"));
        }
        names.push(name);
        if self.finished {
            names.push("B 0 after a rate pass".to_string());
        }
    }

    /// Beside the mode, what came since the rates were fetched.
    fn dynamic_names(&self, answered: &Answered, names: &mut Vec<String>) {
        match (has_rates(answered), self.finished) {
            (false, false) => names.push("D 0 with zeros before any rate pass".to_string()),
            (false, true) if self.had_rates => names.push("D 0 with zeros after rates".to_string()),
            (false, true) => {}
            // In no list.
            (true, false) => names.push("D 0 with rates before any rate pass".to_string()),
            (true, true) => {
                names.push(format!("D 0 with rates while {}", mode_name(answered.served.mode)));
                names.extend(self.since.iter().map(|what| format!("D 0 with rates after {what}")));
                if self.failed {
                    names.push("D 0 with rates beside a failed board".to_string());
                }
            }
        }
    }

    /// Adds the line that had this answer. All lines of a script come in turn.
    pub fn add(&mut self, answered: &Answered) {
        let Answered { name, served, .. } = *answered;
        match name {
            "P 0" => *self = Past::default(),
            "B 0" | "C 441 write" | "C 5 ping" => self.begin_pass(name == "B 0"),
            "D 0" => self.had_rates |= has_rates(answered),
            _ => {}
        }
        if answered.in_rate_pass() && name.contains("failed") {
            self.failing = true;
        }
        self.since.extend(accepted(answered));
        let fetching = answered.in_rate_pass() || name == "B 0";
        if fetching && served.mode_after.pass.is_none() && name != "P 0" {
            self.finished = true;
            self.failed = self.failing;
            self.since.clear();
        }
    }

    fn begin_pass(&mut self, of_rates: bool) {
        self.last = of_rates;
        if of_rates {
            self.failing = false;
        }
    }
}

/// What an answer in a rate pass is called, before its mode; resets have names of
/// their own, and other lines none.
fn in_pass_name(answered: &Answered) -> Option<String> {
    let ids = [(WRITE_ID, "write"), (START_ID, "start"), (STOP_ID, "stop"), (PING_ID, "ping")];
    let Answered { line, name, .. } = *answered;
    match (line[0], name) {
        (b'C', "C 9") => {
            let found = ids.iter().find(|(id, _)| has_id(line, id));
            found.map(|(_, command)| format!("C 9 {command}"))
        }
        (b'C', _) if name.starts_with("C 5 ") => Some(name.to_string()),
        (b'K' | b'G' | b'R' | b'T' | b'F' | b'N' | b'S' | b'L' | b'M' | b'D' | b'B', _) => {
            (name != "?").then(|| name.to_string())
        }
        _ => None,
    }
}

/// What an accepted line did that leaves the rates alone.
fn accepted(answered: &Answered) -> Option<&'static str> {
    match answered.name {
        "C 441 write" => Some("a write"),
        "C 5 start" | "C 7 start" => Some("a start"),
        "C 5 stop" => Some("a stop"),
        "C 5 ping" => Some("a ping"),
        "G 0" if answered.ends_run() => Some("the last trigger of a run"),
        name if name.starts_with("C 5 reset") => Some("a reset"),
        _ => None,
    }
}

/// Whether a dynamic block has a rate that is not zero; on-time and temperatures
/// stand before the rates.
fn has_rates(answered: &Answered) -> bool {
    answered.words_from(HEADER + 7).iter().any(|&digit| digit != b'0')
}

/// The names of a reply that is right by 01 in all but its data.
fn count_names(answered: &Answered, names: &mut Vec<String>) {
    let (Some(sent), Some(reply)) = (answered.sent, answered.reply()) else {
        return;
    };
    if !right_but_for_data(&reply, sent[1]) {
        return;
    }
    let verdict = if answered.name.starts_with("R good") { "good" } else { "bad" };
    names.extend(names_of_rates(&reply).iter().map(|name| format!("R {verdict} with {name}")));
}

/// Whether a reply is right by 01 in all but its data.
fn right_but_for_data(reply: &Frame, address: u8) -> bool {
    let head = [reply[0], reply[1], reply[2], reply[4]];
    head == [DELIMITER, OUR_ADDRESS, address, frames::RATES]
        && reply[27] == crc8(frames::CRC_START, &reply[..27])
}

/// What is named in a reply's rates.
fn names_of_rates(reply: &Frame) -> Vec<String> {
    let counts = frames::rates(reply).counts;
    let high = counts.iter().filter(|&&count| count >= RATE_LIMIT).count();
    let mut names = Vec::new();
    for (place, &count) in counts.iter().enumerate() {
        let value = match (high, count) {
            (0, _) if count == RATE_LIMIT - 1 => "2^30 - 1",
            (1, RATE_LIMIT) => "2^30",
            (1, u32::MAX) => "2^32 - 1",
            _ => continue,
        };
        names.push(format!("count {place} at {value}"));
    }
    if high == 0 {
        let sum: u64 = counts[..4].iter().map(|&count| u64::from(count)).sum();
        let others = [
            (u64::from(counts[4]) != sum, "a total that is not the sum"),
            (reply[25] != 0, "an overflow"),
            (reply[3] != 0, "byte 3"),
            (reply[26] != 0, "CRC errors"),
        ];
        names.extend(others.iter().filter(|other| other.0).map(|other| other.1.to_string()));
    }
    names
}
