//! Runs another replay program and the model on the same generated scripts and
//! compares every line: `compare PATH-TO-OTHER-REPLAY [SCRIPTS [SEED]]`.

use std::collections::{BTreeMap, BTreeSet};
use std::iter;
use std::process::ExitCode;
use std::sync::Mutex;

use reference::board::{Mode, PassKind};
use reference::frames::{self, Frame};
use reference::generate::{self, crate_in, Generated, SCRIPTS};
use reference::other::{self, shown, Seen, Served};
use reference::replay::MAX_DIGITS;
use reference::CRATES;

use rates::Answered;

mod checksums;
mod explanations;
mod rates;

const SEED: u64 = 1;

/// Every answer that the board's lines can get: the line's letter and the
/// refusal, or what was done. `G 17` is left out: no script has the
/// 4,294,967,295 triggers that must come before it.
const REACHABLE: &[&str] = &[
    "P 0",
    "P 20",
    "C 1",
    "C 2",
    "C 3",
    "C 4",
    "C 5",
    "C 6",
    "C 7",
    "C 8",
    "C 9",
    "C 10",
    "C 5 read static",
    "C 5 read dynamic",
    "C 441 write",
    "C 5 start",
    "C 7 start",
    "C 5 stop",
    "C 5 ping",
    "C 5 reset 0",
    "C 5 reset 1",
    "C 5 reset 2",
    "C 5 reset 3",
    "E 0",
    "E 1",
    "E 2",
    "E 3",
    "E 4",
    "E 5",
    "E 6",
    "E 7",
    "E 8",
    "E 9",
    "E 10",
    "K 0",
    "G 0",
    "G 15",
    "G 16",
    "R good frame",
    "R good done",
    "R again frame",
    "R failed frame",
    "R failed done",
    "R 11",
    "R 12",
    "T again frame",
    "T failed frame",
    "T failed done",
    "T 11",
    "T 12",
    "F 0",
    "F 11",
    "F 12",
    "N 0",
    "N 11",
    "S 0",
    "L 0",
    "L 9",
    "M 0",
    "M 9",
    "M 18",
    "D 0",
    "D 6",
    "B 0",
    "B 9",
    "?",
];

/// The same for the far end. With `W` and `Y` stands the byte after the letter;
/// where a `W` is accepted, also the block that is read, an X, or the crate.
const FAR_END: &[&str] = &[
    "W0101 0", "W0102 0", "W02 0", "W02 6", "W02 8", "W04 0", "W04X 0", "W04 7", "W08 0", "W10 0",
    "W2000 0", "W2001 0", "W2002 0", "W2003 0", "W20 11", "X 0", "X 13", "X 14", "X 15", "Y01 0",
    "Y01 6", "Y01 8", "Y01 20", "Y02 0", "Y02 6", "Y02 8", "Y02 20", "Y03 0", "Y03 6", "Y03 20",
    "Y04 0", "Y04 6", "Y04 20",
];

/// Lines of the far end in another form, by what is wrong with them.
const OTHER_FORMS: &[&str] = &[
    "W ? no ID",
    "W ? other ID",
    "W ? other block",
    "W ? other digits",
    "X ? half a byte",
    "Y ? no kind",
    "Y ? other kind",
    "Y ? half a word",
];

/// Crate resets and starts by what came before them (02, b): these answers have
/// such a name beside the one in the first list. The run or reset that is named
/// cleared fresh; the ping, rate pass or refused write came after the last accepted
/// reset; the write set fresh again; the refused reset and, where a start follows,
/// the rate pass came after the last accepted write.
const RESETS: &[&str] = &[
    "C reset while fresh",
    "C reset before any write",
    "C reset after a run",
    "C reset after a reset",
    "C 9 reset while running",
    "C 9 reset while reprogramming",
    "C 9 reset while pinging",
    "C 9 reset while fetching rates",
    "C 9 reset while running and fetching rates",
    "C 10 before any write",
    "C 10 after a run",
    "C 10 after a reset",
    "C 10 after a reset and a ping",
    "C 10 after a reset and a rate pass",
    "C 10 after a reset and a refused write",
    "C start after a rate pass",
    "C start after a reset and a write",
    "C start after a reset refused with 4",
    "C start after a reset refused with 5",
    "C start after a reset refused with 9",
];

/// Fetches of first frames by what came before them (02, d), beside their names
/// in the first list. What was refused or counted is a reply or time-up, on the
/// same crate and in this pass where nothing else is said. The refused one came
/// before the pass; with 12, the counted one is the last, and a frame is
/// outstanding.
const FETCHES: &[&str] = &[
    "F 0 a second time",
    "F 0 after one refused with 12",
    "F 0 after one counted in an earlier pass",
    "F 0 after one counted on another crate",
    "F 12 before any pass",
    "F 12 without an active board",
    "F 12 after a counted reply",
    "F 12 after a counted time-up",
    "F 12 once the crate is done",
];

/// Every answer that must be seen.
fn listed() -> Vec<String> {
    let listed = [REACHABLE, FAR_END, OTHER_FORMS, RESETS, FETCHES].concat();
    let listed = listed.into_iter().map(String::from);
    let listed = listed.chain(rates::listed()).chain(explanations::listed());
    listed.chain(checksums::listed()).collect()
}

/// The digits of the IDs of commands.
const WRITE_ID: &[u8; 4] = b"0002";
const START_ID: &[u8; 4] = b"0004";
const STOP_ID: &[u8; 4] = b"0008";
const PING_ID: &[u8; 4] = b"0010";
const RESET_ID: &[u8; 4] = b"0020";
/// How the name of an accepted reset begins.
const ACCEPTED_RESET: &str = "C 5 reset";

/// What cleared fresh last, since power-up.
#[derive(Clone, Copy, Default, PartialEq)]
enum Cleared {
    #[default]
    Never,
    ByStart,
    ByReset,
}

impl Cleared {
    /// In a name, where the board is not fresh.
    fn name(self) -> &'static str {
        match self {
            Cleared::Never => "before any write",
            Cleared::ByStart => "after a run",
            Cleared::ByReset => "after a reset",
        }
    }
}

/// What the names of `RESETS` ask of the lines before.
#[derive(Default)]
struct Past {
    cleared: Cleared,
    /// The last accepted write set fresh again after a reset had cleared it.
    set_again: bool,
    /// The refusals of resets since the last accepted write.
    refused_resets: BTreeSet<String>,
    /// Pings, rate passes and refused writes since the last accepted reset.
    since_reset: BTreeSet<&'static str>,
    /// A rate pass began since the last accepted write.
    rates_since_write: bool,
}

impl Past {
    /// The names in `RESETS` of an answer, given by its own name, to a line that
    /// found the board in this state.
    fn names(&self, line: &[u8], name: &str, mode: Mode, fresh: bool) -> Vec<String> {
        let state = if fresh { "while fresh" } else { self.cleared.name() };
        match name {
            "C 5 start" | "C 7 start" => self.start_names(),
            "C 10" => {
                let since = self.since_reset.iter().filter(|_| self.cleared == Cleared::ByReset);
                let since = since.map(|what| format!("C 10 {state} and {what}"));
                iter::once(format!("C 10 {state}")).chain(since).collect()
            }
            "C 9" if has_id(line, RESET_ID) => vec![format!("C 9 reset while {}", mode_name(mode))],
            _ if name.starts_with(ACCEPTED_RESET) => vec![format!("C reset {state}")],
            _ => vec![],
        }
    }

    /// The names of an accepted start.
    fn start_names(&self) -> Vec<String> {
        let rates = self.rates_since_write.then(|| "C start after a rate pass".to_string());
        let again = self.set_again.then(|| "C start after a reset and a write".to_string());
        let refused = self.refused_resets.iter();
        let refused = refused.map(|number| format!("C start after a reset refused with {number}"));
        rates.into_iter().chain(again).chain(refused).collect()
    }

    /// Adds the line that had this answer. All lines of a script come in turn.
    fn add(&mut self, line: &[u8], name: &str, fresh: bool) {
        match name {
            "P 0" => *self = Past::default(),
            "C 441 write" => {
                self.set_again = !fresh && self.cleared == Cleared::ByReset;
                self.refused_resets.clear();
                self.rates_since_write = false;
            }
            "B 0" => {
                self.since_reset.insert("a rate pass");
                self.rates_since_write = true;
            }
            "C 5 start" | "C 7 start" => self.cleared = Cleared::ByStart,
            "C 5 ping" => {
                self.since_reset.insert("a ping");
            }
            "C 4" | "C 5" | "C 6" | "C 8" | "C 9" if has_id(line, WRITE_ID) => {
                self.since_reset.insert("a refused write");
            }
            "C 4" | "C 5" | "C 9" if has_id(line, RESET_ID) => {
                self.refused_resets.insert(name.replace("C ", ""));
            }
            _ if name.starts_with(ACCEPTED_RESET) => {
                self.since_reset.clear();
                if fresh {
                    self.cleared = Cleared::ByReset;
                }
            }
            _ => {}
        }
    }
}

/// What the names of `FETCHES` ask of the lines before, on one crate.
#[derive(Clone, Copy, Default)]
struct Bus {
    /// The letter of the last counted line of this pass, and whether the crate
    /// was done then.
    counted: Option<(u8, bool)>,
    /// A line was counted in an earlier pass.
    counted_earlier: bool,
    /// A reply or time-up was refused with 12 since the last counted one.
    refused: bool,
    /// The first frame was fetched in this pass.
    fetched: bool,
}

/// The same on all crates.
#[derive(Default)]
struct Buses {
    any_pass: bool,
    buses: [Bus; CRATES],
}

impl Buses {
    /// The names in `FETCHES` of an answer, given by its own name.
    fn names(&self, line: &[u8], name: &str) -> Vec<&'static str> {
        match name {
            "F 0" => self.accepted_names(crate_in(line)),
            "F 12" => vec![self.refused_name(crate_in(line))],
            _ => vec![],
        }
    }

    fn accepted_names(&self, crate_number: usize) -> Vec<&'static str> {
        let bus = self.buses[crate_number];
        let counted = |number: usize| self.buses[number].counted.is_some();
        let elsewhere = (0..CRATES).any(|number| number != crate_number && counted(number));
        let names = [
            (bus.fetched, "F 0 a second time"),
            (bus.refused, "F 0 after one refused with 12"),
            (bus.counted_earlier, "F 0 after one counted in an earlier pass"),
            (elsewhere, "F 0 after one counted on another crate"),
            // In no list.
            (counted(crate_number), "F 0 after one counted"),
        ];
        names.into_iter().filter_map(|(holds, name)| holds.then_some(name)).collect()
    }

    fn refused_name(&self, crate_number: usize) -> &'static str {
        match self.buses[crate_number].counted {
            None if !self.any_pass => "F 12 before any pass",
            None => "F 12 without an active board",
            Some((_, true)) => "F 12 once the crate is done",
            Some((b'R', false)) => "F 12 after a counted reply",
            Some((_, false)) => "F 12 after a counted time-up",
        }
    }

    /// Adds the line that had this answer. All lines of a script come in turn.
    fn add(&mut self, line: &[u8], name: &str) {
        match name {
            "P 0" => *self = Buses::default(),
            "C 441 write" | "C 5 ping" | "B 0" => self.begin_pass(),
            "F 0" => self.buses[crate_in(line)].fetched = true,
            "R 11" | "T 11" => {}
            "R 12" | "T 12" => self.buses[crate_in(line)].refused = true,
            _ if name.starts_with(['R', 'T']) => {
                let bus = &mut self.buses[crate_in(line)];
                bus.counted = Some((line[0], name.ends_with("done")));
                bus.refused = false;
            }
            _ => {}
        }
    }

    fn begin_pass(&mut self) {
        self.any_pass = true;
        for bus in &mut self.buses {
            bus.counted_earlier |= bus.counted.is_some();
            bus.counted = None;
            bus.fetched = false;
        }
    }
}

/// The frame that is outstanding on each crate, where a line has shown it.
#[derive(Default)]
struct Shown([Option<Frame>; CRATES]);

impl Shown {
    /// That of a reply's crate.
    fn sent(&self, line: &[u8], name: &str) -> Option<Frame> {
        let reply = name.starts_with("R ") && name != "R 11";
        reply.then(|| self.0[crate_in(line)]).flatten()
    }

    /// Adds the line that had this answer. All lines of a script come in turn.
    fn add(&mut self, answered: &Answered) {
        match answered.name {
            "P 0" | "B 0" | "C 441 write" | "C 5 ping" => *self = Shown::default(),
            "F 11" | "F 12" | "R 11" | "R 12" | "T 11" | "T 12" => {}
            name if name.starts_with(['F', 'R', 'T']) => {
                self.0[crate_in(answered.line)] = answered.frame();
            }
            _ => {}
        }
    }
}

fn mode_name(mode: Mode) -> &'static str {
    match (mode.pass, mode.run.is_some()) {
        (None, false) => "idle",
        (None, true) => "running",
        (Some(PassKind::Reprogramming), false) => "reprogramming",
        (Some(PassKind::Ping), false) => "pinging",
        (Some(PassKind::Rates), false) => "fetching rates",
        (Some(PassKind::Rates), true) => "running and fetching rates",
        // In no list.
        (Some(_), true) => "running and in another pass",
    }
}

/// Whether a line of a command has the ID of these digits.
fn has_id(line: &[u8], id: &[u8; 4]) -> bool {
    line[1..].iter().filter(|&&byte| byte != b' ').skip(4).take(4).eq(id)
}

/// The name of an answer to a line; all but `G 17` are in the first three lists.
fn name(line: &[u8], answer: &[u8]) -> String {
    let answer = String::from_utf8_lossy(answer);
    if answer == "?" {
        return other_form(line).unwrap_or("?").to_string();
    }
    let (number, rest) = answer.split_once(' ').unwrap_or((&answer, ""));
    let asked = asked(line, number == "0");
    match (line[0], number) {
        (b'C', "0") => format!("{asked} {rest}"),
        (b'R' | b'T', "0") => format!("{asked} {}", outcome(rest)),
        _ => format!("{asked} {number}"),
    }
}

/// The answer to a reply or a time-up, with `frame` for the digits of one.
fn outcome(answer: &str) -> String {
    match answer.split_once(' ') {
        Some((outcome, digits)) if digits.len() == 2 * frames::BYTES => format!("{outcome} frame"),
        _ => answer.to_string(),
    }
}

/// What the line asks for, as far as the lists tell it apart.
fn asked(line: &[u8], accepted: bool) -> String {
    let letter = char::from(line[0]);
    if letter != 'W' && letter != 'Y' {
        return letter.to_string();
    }
    let digits = line[1..].iter().filter(|&&byte| byte != b' ');
    let digits: String = digits.map(|&digit| char::from(digit)).collect();
    let first = |count: usize| digits.get(..count).unwrap_or(&digits);
    let what = match (letter, first(2)) {
        ('W', "01" | "20") if accepted => first(4),
        ('W', "04") if accepted && digits.len() > 2 => "04X",
        (_, byte) => byte,
    };
    format!("{letter}{what}")
}

/// What is wrong with a line of the far end that has another form; none if it
/// has a character that is no digit, or too many digits.
fn other_form(line: &[u8]) -> Option<&'static str> {
    let mut digits = Vec::new();
    for &byte in line[1..].iter().filter(|&&byte| byte != b' ') {
        digits.push(char::from(byte).to_digit(16)?);
    }
    if digits.len() > MAX_DIGITS {
        return None;
    }
    let first_byte = digits.get(..2).map(|pair| 16 * pair[0] + pair[1]);
    match (line[0], first_byte) {
        (b'W', None) => Some("W ? no ID"),
        (b'W', Some(0x01)) if digits.len() == 4 => Some("W ? other block"),
        (b'W', Some(0x01 | 0x02 | 0x04 | 0x08 | 0x10 | 0x20)) => Some("W ? other digits"),
        (b'W', Some(_)) => Some("W ? other ID"),
        (b'X', _) => Some("X ? half a byte"),
        (b'Y', None) => Some("Y ? no kind"),
        (b'Y', Some(1..=4)) => Some("Y ? half a word"),
        (b'Y', Some(_)) if digits.len() % 4 == 2 => Some("Y ? other kind"),
        _ => None,
    }
}

/// The name of each answer to a script's lines, and its names in `RESETS`,
/// `FETCHES` and the lists of `rates`, `explanations` and `checksums`.
fn names<'a>(
    script_lines: &'a [&[u8]],
    answers: &'a [&[u8]],
    served: &'a [Served],
) -> impl Iterator<Item = (String, Vec<String>)> + 'a {
    let mut past = Past::default();
    let mut buses = Buses::default();
    let mut shown = Shown::default();
    let mut rates = rates::Past::default();
    let mut explanations = explanations::Past::default();
    answers.iter().zip(served).map(move |(answer, served)| {
        let &Served { number, mode, fresh, .. } = served;
        let line = script_lines[number];
        let name = name(line, answer);
        let sent = shown.sent(line, &name);
        let answered = Answered { line, answer, name: &name, served, sent };
        let mut others = past.names(line, &name, mode, fresh);
        others.extend(buses.names(line, &name).into_iter().map(String::from));
        others.extend(rates.names(&answered));
        others.extend(explanations.names(&answered));
        others.extend(checksums::name(&answered));
        past.add(line, &name, fresh);
        buses.add(line, &name);
        shown.add(&answered);
        rates.add(&answered);
        explanations.add(&answered);
        (name, others)
    })
}

/// Compares a script's lines and gives how many there are, or the first
/// difference; counts the model's answers.
fn compare(program: &str, script: &[u8], seen: &Mutex<Seen>) -> Result<usize, String> {
    let (printed, served) = other::model(script);
    let script_lines = other::lines(script);
    let ours = other::lines(&printed);
    let mut counts = Seen::new();
    for (name, others) in names(&script_lines, &ours, &served) {
        for name in others.into_iter().chain([name]) {
            *counts.entry(name).or_default() += 1;
        }
    }
    other::add_seen(seen, counts);
    let other_printed = other::run_other(program, script)?;
    if other_printed == printed {
        return Ok(ours.len());
    }
    let theirs = other::lines(&other_printed);
    let place = (0..ours.len().max(theirs.len()))
        .find(|&place| ours.get(place) != theirs.get(place))
        .ok_or("the last line feed differs")?;
    let line = served.get(place).map(|line| (line.number, script_lines[line.number]));
    Err(difference(line, ours.get(place).copied(), theirs.get(place).copied()))
}

/// The report of two answers to a line of the script, given with its number.
fn difference(line: Option<(usize, &[u8])>, ours: Option<&[u8]>, theirs: Option<&[u8]>) -> String {
    let line = match line {
        Some((number, line)) => format!("script line {}: {}", number + 1, shown(Some(line))),
        None => "after the script's last line".to_string(),
    };
    format!("{line}\n  model: {}\n  other: {}", shown(ours), shown(theirs))
}

/// The report of a script that differs, which is saved.
fn report(script: &Generated, number: usize, seed: u64, difference: &str) -> String {
    let saved = other::save(&format!("script-{seed}-{number}.txt"), &script.text);
    let Generated { family, index, .. } = script;
    format!("script {number} ({family} {index}), seed {seed}: {difference}\n  {saved}")
}

/// Prints how often each answer was seen.
fn print_seen(seen: &Seen) {
    let mut refusals: BTreeMap<usize, usize> = BTreeMap::new();
    let mut others = String::new();
    for (name, count) in seen {
        let number = name.split_once(' ').and_then(|(_, rest)| rest.parse().ok());
        match number {
            Some(number) if number > 0 => *refusals.entry(number).or_default() += count,
            _ => others.push_str(&format!(" {name}: {count},")),
        }
    }
    let refusals: String =
        refusals.iter().map(|(number, count)| format!(" {number}: {count},")).collect();
    println!("refusals:{}", refusals.trim_end_matches(','));
    println!("answers:{}", others.trim_end_matches(','));
}

/// False, with a line that says which, if an answer in the lists was never seen
/// or one was seen that is in none.
fn check_seen(seen: &Seen) -> bool {
    other::check_seen(seen, listed())
}

fn main() -> ExitCode {
    let Some((program, scripts, seed)) = other::arguments(SCRIPTS, SEED) else {
        eprintln!("usage: compare PATH-TO-OTHER-REPLAY [SCRIPTS [SEED]]");
        return ExitCode::from(2);
    };
    let seen = Mutex::new(Seen::new());
    let compared = other::compare_all(scripts, |number| {
        let script = generate::script(seed, number);
        compare(&program, &script.text, &seen)
            .map_err(|difference| report(&script, number, seed, &difference))
    });
    let seen = seen.into_inner().expect("no thread panicked");
    print_seen(&seen);
    let right = check_seen(&seen);
    let (verdict, code) = match (compared.differing, right) {
        (0, true) => ("all agree".to_string(), ExitCode::SUCCESS),
        (0, false) => ("agree, but with other answers than those listed".into(), ExitCode::FAILURE),
        (differing, _) => (format!("{differing} scripts differ"), ExitCode::FAILURE),
    };
    println!("{} scripts, {} lines: {verdict}", compared.served, compared.lines);
    code
}

#[cfg(test)]
pub mod tests {
    use super::*;

    #[test]
    fn names_of_answers() {
        for (line, answer, expected) in [
            ("T 04", "11", "T 11"),
            ("C", "1 0", "C 1"),
            ("R00", "0 good done", "R good done"),
            ("T 00", &format!("0 again {}", "0".repeat(56)), "T again frame"),
            ("R00", &format!("0 good {}", "0".repeat(54)), &format!("R good {}", "0".repeat(54))),
            ("F 00", &format!("0 {}", "0".repeat(56)), "F 0"),
            ("W 0 2", "8 435", "W02 8"),
            ("W01 02", "0 00400001000200000000", "W0102 0"),
            ("W04", "0 00400004000100000000", "W04 0"),
            ("W04 00011170", "0 0040000400020000000000011170", "W04X 0"),
            ("W 0400000000", "7", "W04 7"),
            ("W20 03", "0 00400020000800000000", "W2003 0"),
            ("W20 04", "11", "W20 11"),
            ("X", "13", "X 13"),
            ("Y0400", "6", "Y04 6"),
            ("S0", "?", "?"),
            ("W0x", "?", "?"),
            ("W 0", "?", "W ? no ID"),
            ("W40", "?", "W ? other ID"),
            ("W0103", "?", "W ? other block"),
            ("W0100", "?", "W ? other block"),
            ("W08 00", "?", "W ? other digits"),
            ("X0", "?", "X ? half a byte"),
            ("Y", "?", "Y ? no kind"),
            ("Y05 0000", "?", "Y ? other kind"),
            ("Y01 00", "?", "Y ? half a word"),
        ] {
            assert_eq!(name(line.as_bytes(), answer.as_bytes()), expected);
        }
    }

    pub const RESET: &str = "C0040 0020 0002 0000 0000\n";
    pub const START: &str = "C0040 0004 0001 0000 0000\n";
    pub const START_OF_ONE: &str = "C0040 0004 0002 0000 0000 0000 0001\n";
    pub const TRIGGER: &str = "G0000000000000000\n";
    pub const STOP: &str = "C0040 0008 0000 0000 0000\n";
    pub const PING: &str = "C0040 0010 0000 0000 0000\n";
    /// Refused with 4 and 5.
    pub const RESET_OF_NO_CRATE: &str = "C004000 200003 00000000\n";
    const RESET_WITH_SPARE_WORD: &str = "C0040 0020 0001 0000 0001\n";
    /// Refused with 6.
    pub const SHORT_WRITE: &str = "C0040 0002 0001 0000 0000 0000\n";
    const SHORT_START: &str = "C0040 0004 0002 0000 0000 0000\n";

    /// A write with these active flags of crate 3, and all else zero.
    pub fn write_line(flags: &str) -> String {
        format!("C0040 0002 0001 0000 0000 {}{flags}\n", "0000".repeat(435))
    }

    /// The lines of a ping in which no board answers.
    pub fn time_ups() -> String {
        (0..4).map(|crate_number| format!("T0{crate_number}\n").repeat(30)).collect()
    }

    /// The names that the lines of a script have beside their own, in turn.
    pub fn names_of(script: &str) -> Vec<String> {
        let (printed, served) = other::model(script.as_bytes());
        let (lines, answers) = (other::lines(script.as_bytes()), other::lines(&printed));
        names(&lines, &answers, &served).flat_map(|(_, others)| others).collect()
    }

    /// Checks for each row which names beside their own its lines have, in turn.
    pub fn check_names(rows: &[(&[&str], &[&str])]) {
        for (number, (row, expected)) in rows.iter().enumerate() {
            assert_eq!(names_of(&row.concat()), *expected, "row {number}");
        }
    }

    #[test]
    fn names_of_resets_and_starts() {
        let write: &str = &write_line("0000");
        check_names(&[
            (
                &[RESET, START, PING, RESET],
                &["C reset before any write", "C 10 before any write", "C 9 reset while pinging"],
            ),
            (
                &[write, RESET, RESET, START, write, START],
                &[
                    "C reset while fresh",
                    "C reset after a reset",
                    "C 10 after a reset",
                    "C start after a reset and a write",
                ],
            ),
            (
                &[write, START, RESET, STOP, RESET, START, write, START],
                &["C 9 reset while running", "C reset after a run", "C 10 after a run"],
            ),
            // The trigger ends the run.
            (
                &[write, START_OF_ONE, TRIGGER, RESET, START],
                &["C reset after a run", "C 10 after a run"],
            ),
            // The power-up is refused.
            (
                &[write, RESET, "P0200000000000000 0000\n", START],
                &["C reset while fresh", "C 10 after a reset"],
            ),
        ]);
    }

    #[test]
    fn names_of_starts_with_no_accepted_write_since_a_reset() {
        let (write, time_ups): (&str, &str) = (&write_line("0000"), &time_ups());
        let (cleared, refused) = ("C reset while fresh", "C 10 after a reset");
        let after_write = "C 10 after a reset and a refused write";
        let after_ping = "C 10 after a reset and a ping";
        let (parameter, spare_word) = ("C004000020002 00000000\n", "C004000020001 00000001\n");
        for refused_write in [parameter, spare_word, SHORT_WRITE, &write_line("0400")] {
            check_names(&[(
                &[write, RESET, refused_write, START],
                &[cleared, refused, after_write],
            )]);
        }
        check_names(&[
            (&[write, RESET, PING, time_ups, START], &[cleared, refused, after_ping]),
            (
                &[write, RESET, PING, write, time_ups, START],
                &[cleared, refused, after_ping, after_write],
            ),
            // No write.
            (&[write, RESET, SHORT_START, START], &[cleared, refused]),
            // Before the last reset.
            (&[write, PING, time_ups, SHORT_WRITE, RESET, START], &[cleared, refused]),
            (
                &[write, RESET, SHORT_WRITE, RESET, START],
                &[cleared, "C reset after a reset", refused],
            ),
            // The start cleared fresh.
            (
                &[write, START, STOP, RESET, SHORT_WRITE, START],
                &["C reset after a run", "C 10 after a run"],
            ),
        ]);
    }

    #[test]
    fn names_of_starts_after_refused_resets() {
        let write: &str = &write_line("0000");
        check_names(&[
            (
                &[&write_line("0001"), RESET, "T03\nT03\nT03\n", START],
                &["C 9 reset while reprogramming", "C start after a reset refused with 9"],
            ),
            (
                &[write, RESET_WITH_SPARE_WORD, RESET_OF_NO_CRATE, START],
                &["C start after a reset refused with 4", "C start after a reset refused with 5"],
            ),
            // Refused with 4, 5 and 9, and no reset.
            (&[write, "C0040 0010 0020 0000 0000\n", START], &[]),
            (&[write, "C0040 0004 0001 0000 0020\n", START], &[]),
            (&[write, PING, PING, &time_ups(), START], &[]),
        ]);
    }

    #[test]
    fn starts_without_a_name() {
        let write: &str = &write_line("0000");
        check_names(&[
            (&[RESET, write, START], &["C reset before any write"]),
            (&[write, RESET_WITH_SPARE_WORD, write, START], &[]),
            (&[write, RESET, write, write, START], &["C reset while fresh"]),
            (&[write, RESET, "P0000000000000000 0000\n", write, START], &["C reset while fresh"]),
            (&["C0040 0020\n", write, "C0040 0003 0020 0000 0000\n", START], &[]),
        ]);
    }

    #[test]
    fn names_of_fetches() {
        let write: &str = &write_line("0001");
        let (before, inactive) = ("F 12 before any pass", "F 12 without an active board");
        let (second, done) = ("F 0 a second time", "F 12 once the crate is done");
        let after_time_up = "F 12 after a counted time-up";
        let elsewhere = "F 0 after one counted on another crate";
        let earlier = "F 0 after one counted in an earlier pass";
        check_names(&[
            (
                &["F00\nF04\nT04\n", write, "F 00\nF03\nF03\nF03\n"],
                &[before, inactive, second, second],
            ),
            (&[write, "R03\nF 0 3\nT03\nF03\n"], &["F 12 after a counted reply", after_time_up]),
            (&[write, "T03\nT03\nT03\nF03\n", PING, "F03\nF00\n"], &[done, earlier]),
            (&[write, "T03\nT03\nR03\nF03\n"], &[done]),
            (
                &[PING, "F01\nT00\nF00\nF01\nT0x\nF02\n"],
                &[after_time_up, second, elsewhere, elsewhere],
            ),
            (&["T00\nR01\n", PING, "F00\nF01\nF02\n"], &["F 0 after one refused with 12"; 2]),
            (
                &["F00\n", PING, "F00\nT00\n", &time_ups(), PING, "F00\n"],
                &[before, "F 0 after one refused with 12", earlier],
            ),
            (&[PING, "F00\nT00\nP0000000000000000 0000\nF00\n", PING, "F00\n"], &[before]),
        ]);
    }

    const DYNAMIC: &str = "D0000 0000 0000 0000\n";
    const FETCH: &str = "F03\n";
    const RATES: &str = "B\n";
    const SILENT: &str = "T03\nT03\nT03\n";

    /// A reply of board 0 of crate 3 with these counts, overflow, byte 3 and byte 26.
    fn rates_line(counts: [u32; 5], free: [u8; 3]) -> String {
        let mut reply = vec![0x40, 192, 0x30, free[1], frames::RATES];
        counts.iter().for_each(|count| reply.extend(count.to_be_bytes()));
        reply.extend([free[0], free[2]]);
        reply.push(reference::crc::crc8(frames::CRC_START, &reply));
        let digits: String = reply.iter().map(|byte| format!("{byte:02X}")).collect();
        format!("R03 {digits}\n")
    }

    #[test]
    fn names_in_a_rate_pass() {
        let write: &str = &write_line("0001");
        check_names(&[
            (
                &[write, RATES, SILENT, START, RATES, RATES, RESET, PING, write, START, TRIGGER],
                &[
                    "B 9 while reprogramming",
                    "B 0 while running",
                    "B 9 while running and fetching rates",
                    "C 9 reset while running and fetching rates",
                    "C 9 ping while running and fetching rates",
                    "C 9 write while running and fetching rates",
                    "C 9 start while running and fetching rates",
                    "G 0 while running and fetching rates",
                ],
            ),
            // Not in a rate pass, and after another pass.
            (&[PING, RATES, STOP, "F00\n", &time_ups(), "M00\n"], &["B 9 while pinging"]),
        ]);
    }

    #[test]
    fn names_of_runs_that_end_in_a_rate_pass() {
        let (write, counts) = (&write_line("0001"), &rates_line([1, 0, 0, 0, 1], [0; 3]));
        check_names(&[
            (
                &[write, SILENT, START, RATES, STOP, STOP, TRIGGER, "L\nX\nC\nK\n", counts],
                &[
                    "B 0 while running",
                    "C 5 stop while running and fetching rates",
                    "C 9 stop while fetching rates",
                    "G 16 while fetching rates",
                    "L 9 while fetching rates",
                    "X 13 of 0 zero bytes",
                    "R good done while fetching rates",
                ],
            ),
            (
                &[write, SILENT, START_OF_ONE, RATES, TRIGGER, SILENT, "M00\nM01\n"],
                &[
                    "B 0 while running",
                    "G 0 while running and fetching rates",
                    "G 0 that ends a run while fetching rates",
                    "T again frame while fetching rates",
                    "T again frame while fetching rates",
                    "T failed done while fetching rates",
                    "M 0 after a rate pass",
                    "M 18 after a rate pass",
                ],
            ),
        ]);
    }

    const IDLE: &str = "B 0 while idle";
    const NONE_ACTIVE: &str = "B 0 while idle, without an active board";
    const SECOND: &str = "B 0 after a rate pass";
    const DONE: &str = "R good done while fetching rates";
    const FIRST: &str = "D 0 with zeros before any rate pass";
    const SHOWN: &str = "D 0 with rates while idle";

    #[test]
    fn names_of_rates_shown() {
        let (write, counts) = (&write_line("0001"), &rates_line([0, 0, 0, 0, 1], [0; 3]));
        let while_fetching = "D 0 while fetching rates";
        let earlier = "D 0 with rates while fetching rates";
        let zeros = "D 0 with zeros after rates";
        check_names(&[
            (&[DYNAMIC, RATES, DYNAMIC], &[FIRST, NONE_ACTIVE, IDLE]),
            (
                &[write, SILENT, RATES, DYNAMIC, counts, DYNAMIC, RATES, DYNAMIC],
                &[IDLE, while_fetching, FIRST, DONE, SHOWN, IDLE, SECOND, while_fetching, earlier],
            ),
            (
                &[write, SILENT, RATES, counts, DYNAMIC, &write_line("0000"), RATES, DYNAMIC],
                &[IDLE, DONE, SHOWN, NONE_ACTIVE, IDLE, SECOND, zeros],
            ),
            (
                &["D\nD00\n", &format!("D{}\n", "0000".repeat(484))],
                &["D 6 with 0 words", "D 6 with 484 words"],
            ),
        ]);
    }

    #[test]
    fn names_of_rates_shown_after_other_commands() {
        let (write, counts) = (&write_line("0001"), &rates_line([0, 0, 0, 0, 1], [0; 3]));
        let (after_reset, after_write) =
            ("D 0 with rates after a reset", "D 0 with rates after a write");
        check_names(&[(
            &[write, SILENT, RATES, counts, RESET, DYNAMIC, &write_line("0000"), DYNAMIC],
            &[
                IDLE,
                DONE,
                "C reset while fresh",
                SHOWN,
                after_reset,
                SHOWN,
                after_reset,
                after_write,
            ],
        )]);
    }

    /// Only where the address of the outstanding frame was shown, and no other thing
    /// is wrong.
    #[test]
    fn names_of_counts() {
        let write: &str = &write_line("0001");
        let top = 1 << 30;
        let begin = [write, SILENT, START, RATES].concat();
        let frame = "F 0 after one counted in an earlier pass";
        let fetched = ["B 0 while running", frame, "F 0 while running and fetching rates"];
        let again = "R again frame while running and fetching rates";
        let good = "R good done while running and fetching rates";
        for (counts, free, expected) in [
            (
                [top - 1, 0, 0, 0, top - 1],
                [0; 3],
                &[good, "R good with count 0 at 2^30 - 1", "R good with count 4 at 2^30 - 1"][..],
            ),
            ([0, top, 0, top - 1, 0], [1; 3], &[again, "R bad with count 1 at 2^30"]),
            ([0, 0, u32::MAX, 0, 0], [0; 3], &[again, "R bad with count 2 at 2^32 - 1"]),
            ([top, 0, top, 0, 0], [0; 3], &[again]),
            ([0; 5], [1, 0, 0], &[good, "R good with an overflow"]),
            ([0; 5], [0, 1, 0], &[good, "R good with byte 3"]),
            ([0; 5], [0, 0, 1], &[good, "R good with CRC errors"]),
            ([1, 2, 3, 4, 11], [0; 3], &[good, "R good with a total that is not the sum"]),
            ([1, 2, 3, 4, 10], [0; 3], &[good]),
        ] {
            let line = rates_line(counts, free);
            let right = ["R good with a CRC from 0x00 to code 5"];
            let right = &right[..usize::from(expected[0] == good)];
            let whole = [&fetched[..], expected, right].concat();
            check_names(&[
                (&[&begin, FETCH, &line], &whole),
                (&[&begin, &line], &["B 0 while running", expected[0]]),
            ]);
        }
        let line = rates_line([top, 0, 0, 0, 0], [0; 3]).replace("R03 40C030", "R03 40C031");
        check_names(&[(&[&begin, FETCH, &line], &[&fetched[..], &[again]].concat())]);
    }

    #[test]
    fn answers_are_those_listed() {
        let listed = listed();
        let seen: Seen = listed.iter().map(|name| (name.clone(), 1)).collect();
        assert_eq!(seen.len(), listed.len());
        assert!(check_seen(&seen));
        for name in &listed {
            let mut fewer = seen.clone();
            fewer.remove(name);
            assert!(!check_seen(&fewer), "without {name}");
        }
        for name in [
            "G 17",
            "W04 0 0",
            "Y03 8",
            "R again done",
            "T good frame",
            "C 10 while fresh",
            "F 0 after one counted",
            "D 8",
            "B 9 while idle",
            "R good with count 0 at 2^30",
            "R bad with count 4 at 2^30 - 1",
            "D 0 with rates before any rate pass",
            "L 0 while fetching rates",
            "E 11",
            "E 10 used by a run where it is nothing written",
            "E 9 idle for a ping while running",
            "E 8 block word 4, allowed 0000 to FFFF",
            "C 4 explained as 5",
            "X 0 of 7 zero bytes",
            "X 0 with a CRC from 0x00",
            "X 14 with a CRC from 0xFF",
            "R good with a CRC from 0xFF to code 1",
            "R bad with a CRC from 0x00 to code 4",
        ] {
            let mut more = seen.clone();
            more.insert(name.to_string(), 1);
            assert!(!check_seen(&more), "with {name}");
        }
    }
}
