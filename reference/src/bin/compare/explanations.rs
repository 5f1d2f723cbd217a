//! Explanations by what they name, and by what came before them (02, c).

use std::collections::BTreeSet;

use reference::commands::{self, EVENTS, HEAD};
use reference::configuration;
use reference::replay::MAX_DIGITS;

use crate::{has_id, mode_name, Answered, ACCEPTED_RESET, RESET_ID, START_ID, WRITE_ID};

/// The state as 9 has it, and as the other lists have it.
const STATES: [(&str, &str); 6] = [
    ("idle", "idle"),
    ("running", "running"),
    ("reprogramming", "reprogramming"),
    ("ping", "pinging"),
    ("rates", "fetching rates"),
    ("running and rates", "running and fetching rates"),
];

/// The bounded places of the block, and their bounds as they are printed.
const BOUNDS: [(usize, &str); 8] = [
    (0, "00FF"),
    (1, "00FF"),
    (2, "03FF"),
    (3, "0FFF"),
    (432, "03FF"),
    (433, "03FF"),
    (434, "03FF"),
    (435, "03FF"),
];

/// What is named for 1 to 7, without what stands there; the command beside 4 and 6.
/// Word 4 is "too" where both are at fault.
const NAMED: &[&str] = &[
    "E 1 missing 1",
    "E 1 missing 2",
    "E 1 missing 3",
    "E 1 missing 4",
    "E 1 missing 5",
    "E 2 word 0, allowed 0040",
    "E 3 word 1, allowed 0001 0002 0004 0008 0010 0020",
    "E 4 word 2, allowed 0001 0002 for a read",
    "E 4 word 2, allowed 0001 for a write",
    "E 4 word 2, allowed 0001 0002 for a start",
    "E 4 word 2, allowed 0000 for a stop",
    "E 4 word 2, allowed 0000 for a ping",
    "E 4 word 2, allowed 0001 0002 0004 0008 for a reset",
    "E 5 word 3, allowed 0000",
    "E 5 word 4, allowed 0000",
    "E 5 word 3, allowed 0000, and word 4 too",
    "E 6 missing 1 for a write",
    "E 6 missing 2 to 435 for a write",
    "E 6 missing 436 for a write",
    "E 6 missing 1 for a start",
    "E 6 missing 2 for a start",
    "E 7 word 5, allowed 0001 to FFFF",
];

/// The commands that can be accepted, and refused with 9, in the order of 01.
const COMMANDS: [&str; 8] = [
    "a static read",
    "a dynamic read",
    "a write",
    "an endless start",
    "a counted start",
    "a stop",
    "a ping",
    "a reset",
];

/// Lines of another form.
const OTHER_FORMS: [&str; 3] = ["E ? half a word", "E ? too many digits", "E ? other character"];

/// What came since the last accepted write was used up or, before any, since
/// power-up, and left the reason for 10 as it was.
const SINCE: [&str; 6] =
    ["a reset", "a refused write", "a refused start", "a refused reset", "a ping", "a rate pass"];
/// The same that came before any write, or after a run, alone.
const SINCE_POWER_UP: &str = "a power-up";
const ENDS_OF_RUNS: [&str; 2] = ["a stop", "the last trigger"];

/// What became of a write.
#[derive(Clone, Copy, Default, PartialEq)]
enum Write {
    #[default]
    Never,
    Fresh,
    UsedByRun,
    UsedByReset,
}

impl Write {
    /// As 10 has it; a write that another replaced was not used.
    fn name(self) -> &'static str {
        match self {
            Write::Never => "nothing written",
            Write::Fresh => "not used",
            Write::UsedByRun => "used by a run",
            Write::UsedByReset => "used by a reset",
        }
    }
}

/// Every name in these lists.
pub fn listed() -> Vec<String> {
    let mut names: Vec<String> = NAMED.iter().chain(&OTHER_FORMS).map(|n| n.to_string()).collect();
    for (_, mode) in STATES {
        names.extend((0..=8).map(|number| format!("E {number} while {mode}")));
    }
    for (place, bound) in BOUNDS {
        let name = format!("E 8 block word {place}, allowed 0000 to {bound}");
        names.extend([", one above it", ", FFFF"].map(|word| format!("{name}{word}")));
        if place != 435 {
            names.push(format!("{name}, and a later one too"));
        }
        names.push(name);
        names.push(format!("E 0 with block word {place} at its bound"));
    }
    names.push("E 0 with a free word at FFFF".to_string());
    for number in [0, 7, 8, 9, 10] {
        names.push(format!("E {number} with words after the command"));
    }
    names.extend((0..=10).map(|number| format!("C {number} as explained")));
    names.extend(COMMANDS[..7].iter().map(|command| format!("E 0 for {command}")));
    names.extend((0..4).map(|number| format!("E 0 for a reset of crate {number}")));
    names.extend(listed_states());
    names.extend(listed_histories());
    names
}

/// 9, and for each state the commands that get it there.
fn listed_states() -> Vec<String> {
    let mut names = Vec::new();
    for (text, mode) in STATES {
        let refused = COMMANDS[2..].iter().filter(|&&command| match command {
            "a stop" => !text.starts_with("running"),
            _ => text != "idle",
        });
        names.extend(refused.map(|command| format!("E 9 {text} for {command} while {mode}")));
    }
    names
}

/// 10, and an accepted start, by what came before.
fn listed_histories() -> Vec<String> {
    let mut names = Vec::new();
    for write in [Write::Never, Write::UsedByRun, Write::UsedByReset] {
        let name = format!("E 10 {}", write.name());
        let others: &[&str] = match write {
            Write::Never => &[SINCE_POWER_UP],
            Write::UsedByRun => &ENDS_OF_RUNS,
            _ => &[],
        };
        names.extend(SINCE.iter().chain(others).map(|what| format!("{name}, after {what}")));
        names.extend(COMMANDS[3..5].iter().map(|command| format!("{name} for {command}")));
        if write != Write::Never {
            names.extend(BEFORE.map(|before| format!("{name}, {}", before_name(before))));
        }
    }
    names.extend(BEFORE.map(|before| format!("E 0 for a start, {}", before_name(before))));
    names
}

/// What can have become of the write before the last one.
const BEFORE: [Write; 3] = [Write::Fresh, Write::UsedByRun, Write::UsedByReset];

fn before_name(before: Write) -> String {
    format!("the write before {}", before.name())
}

/// What the names of these lists ask of the lines before.
#[derive(Default)]
pub struct Past {
    /// The line just before, where it is explained: its digits, and the number and
    /// place that the explanation has.
    explained: Option<(Vec<u8>, String)>,
    last: Write,
    /// What became of the write before that.
    before: Write,
    since: BTreeSet<&'static str>,
}

impl Past {
    /// The names in these lists of an answer.
    pub fn names(&self, answered: &Answered) -> Vec<String> {
        match (answered.line[0], answered.name) {
            (b'C', _) => self.command_name(answered).into_iter().collect(),
            (b'E', "?") => vec![other_form(answered).to_string()],
            (b'E', _) => self.explanation_names(answered),
            _ => vec![],
        }
    }

    /// A command right after its explanation gets the number and place of that.
    fn command_name(&self, answered: &Answered) -> Option<String> {
        let (digits, explained) = self.explained.as_ref()?;
        if *digits != digits_of(answered) {
            return None;
        }
        let answer = String::from_utf8_lossy(answered.answer);
        let fields: Vec<&str> = answer.split(' ').collect();
        let given = match fields[..] {
            ["8", _, place] => format!("8 {place}"),
            _ => fields[0].to_string(),
        };
        Some(match given == *explained {
            true => format!("C {} as explained", fields[0]),
            // In no list.
            false => format!("C {given} explained as {explained}"),
        })
    }

    fn explanation_names(&self, answered: &Answered) -> Vec<String> {
        let answer = String::from_utf8_lossy(answered.answer);
        let (number, text) = answer.split_once(' ').unwrap_or((&answer, ""));
        let words = words_of(answered);
        let mode = mode_name(answered.served.mode);
        let mut names = Vec::new();
        match number {
            "0" => self.accepted_names(&words, &mut names),
            "4" | "6" => {
                let missing = text.strip_prefix("missing ").and_then(|count| count.parse().ok());
                let named = match missing {
                    Some(2..=435) if words[1] == commands::WRITE => "missing 2 to 435",
                    _ => text,
                };
                names.push(format!("E {number} {} for {}", without_found(named), command(&words)));
            }
            "5" => {
                let name = format!("E 5 {}", without_found(text));
                if text.starts_with("word 3") && words[4] != 0 {
                    names.push(format!("{name}, and word 4 too"));
                }
                names.push(name);
            }
            "8" => block_names(text, &words, &mut names),
            "9" => names.push(format!("E 9 {text} for {} while {mode}", whole_command(&words))),
            "10" => self.start_names(text, &words, &mut names),
            _ => names.push(format!("E {number} {}", without_found(text))),
        }
        if !["9", "10"].contains(&number) {
            names.push(format!("E {number} while {mode}"));
        }
        if ["0", "7", "8", "9", "10"].contains(&number) && words.len() > due(&words) {
            names.push(format!("E {number} with words after the command"));
        }
        names
    }

    fn accepted_names(&self, words: &[u16], names: &mut Vec<String>) {
        names.push(match words[1] {
            commands::RESET => format!("E 0 for a reset of crate {}", words[2].trailing_zeros()),
            _ => format!("E 0 for {}", whole_command(words)),
        });
        if words[1] == commands::START && self.before != Write::Never {
            names.push(format!("E 0 for a start, {}", before_name(self.before)));
        }
        if words[1] != commands::WRITE {
            return;
        }
        let block = &words[HEAD..HEAD + configuration::WORDS];
        for (place, _) in BOUNDS {
            if block[place] == configuration::bound(place) {
                names.push(format!("E 0 with block word {place} at its bound"));
            }
        }
        if block[4..432].contains(&0xFFFF) {
            names.push("E 0 with a free word at FFFF".to_string());
        }
    }

    /// The names of 10, by what the lines before tell.
    fn start_names(&self, text: &str, words: &[u16], names: &mut Vec<String>) {
        let expected = self.last.name();
        if text != expected {
            // In no list.
            names.push(format!("E 10 {text} where it is {expected}"));
            return;
        }
        let name = format!("E 10 {text}");
        names.push(format!("{name} for {}", whole_command(words)));
        names.extend(self.since.iter().map(|what| format!("{name}, after {what}")));
        if self.before != Write::Never {
            names.push(format!("{name}, {}", before_name(self.before)));
        }
    }

    /// Adds the line that had this answer. All lines of a script come in turn.
    pub fn add(&mut self, answered: &Answered) {
        let Answered { line, name, served, .. } = *answered;
        self.explained = explained(answered);
        match name {
            "P 0" => self.power_up(),
            "C 441 write" => {
                self.before = self.last;
                self.last = Write::Fresh;
                self.since.clear();
            }
            "C 5 start" | "C 7 start" => self.use_up(Write::UsedByRun),
            "C 5 stop" => self.add_since("a stop"),
            "C 5 ping" => self.add_since("a ping"),
            "B 0" => self.add_since("a rate pass"),
            "G 0" if served.mode_after.run.is_none() => self.add_since("the last trigger"),
            _ if name.starts_with(ACCEPTED_RESET) => match self.last {
                Write::Fresh => self.use_up(Write::UsedByReset),
                _ => self.add_since("a reset"),
            },
            _ if line[0] == b'C' && has_refusal(name) => {
                let ids = [
                    (WRITE_ID, "a refused write"),
                    (START_ID, "a refused start"),
                    (RESET_ID, "a refused reset"),
                ];
                let refused = ids.iter().filter(|(id, _)| has_id(line, id));
                refused.for_each(|(_, what)| self.add_since(what));
            }
            _ => {}
        }
    }

    fn power_up(&mut self) {
        let written = self.last != Write::Never || self.since.contains(SINCE_POWER_UP);
        *self = Past::default();
        if written {
            self.add_since(SINCE_POWER_UP);
        }
    }

    fn use_up(&mut self, write: Write) {
        self.last = write;
        self.since.clear();
    }

    fn add_since(&mut self, what: &'static str) {
        self.since.insert(what);
    }
}

/// Whether this is the name of a refused command.
fn has_refusal(name: &str) -> bool {
    name.strip_prefix("C ").is_some_and(|rest| rest.parse::<u8>().is_ok())
}

/// The digits of an explained command, and the number and place that are named.
fn explained(answered: &Answered) -> Option<(Vec<u8>, String)> {
    if answered.line[0] != b'E' || answered.name == "?" {
        return None;
    }
    let answer = String::from_utf8_lossy(answered.answer);
    let fields: Vec<&str> = answer.split(' ').collect();
    let named = match fields[..] {
        ["8", "block", "word", place, ..] => format!("8 {place}"),
        _ => fields[0].to_string(),
    };
    Some((digits_of(answered), named))
}

fn digits_of(answered: &Answered) -> Vec<u8> {
    answered.digits().map(|digit| digit.to_ascii_uppercase()).collect()
}

fn words_of(answered: &Answered) -> Vec<u16> {
    let digits = answered.digits().filter_map(|digit| char::from(digit).to_digit(16));
    let digits: Vec<u16> = digits.map(|digit| digit as u16).collect();
    digits.chunks(4).map(|four| four.iter().fold(0, |sum, digit| sum << 4 | digit)).collect()
}

/// What is wrong with a line of another form.
fn other_form(answered: &Answered) -> &'static str {
    let digits = digits_of(answered);
    match (digits.iter().all(u8::is_ascii_hexdigit), digits.len()) {
        (false, _) => OTHER_FORMS[2],
        (true, count) if count > MAX_DIGITS => OTHER_FORMS[1],
        (true, count) if !count.is_multiple_of(4) => OTHER_FORMS[0],
        // In no list.
        _ => "E ?",
    }
}

/// An explanation without what stands at the place.
fn without_found(text: &str) -> String {
    match (text.split_once(" is "), text.split_once(", ")) {
        (Some((word, _)), Some((_, allowed))) => format!("{word}, {allowed}"),
        _ => text.to_string(),
    }
}

/// What a command is called by its ID.
fn command(words: &[u16]) -> &'static str {
    match words[1] {
        commands::READ => "a read",
        commands::START => "a start",
        _ => whole_command(words),
    }
}

/// And by its parameter.
fn whole_command(words: &[u16]) -> &'static str {
    match (words[1], words[2]) {
        (commands::READ, 1) => COMMANDS[0],
        (commands::READ, _) => COMMANDS[1],
        (commands::WRITE, _) => COMMANDS[2],
        (commands::START, 1) => COMMANDS[3],
        (commands::START, _) => COMMANDS[4],
        (commands::STOP, _) => COMMANDS[5],
        (commands::PING, _) => COMMANDS[6],
        _ => COMMANDS[7],
    }
}

/// The words of the whole command.
fn due(words: &[u16]) -> usize {
    match (words[1], words[2]) {
        (commands::WRITE, _) => HEAD + configuration::WORDS,
        (commands::START, 2) => HEAD + EVENTS,
        _ => HEAD,
    }
}

/// The names of 8: beside the place, what stands there, and whether a later word is
/// above its bound too.
fn block_names(text: &str, words: &[u16], names: &mut Vec<String>) {
    let name = format!("E 8 {}", without_found(text));
    let block = &words[HEAD..HEAD + configuration::WORDS];
    let above = |place: &usize| block[*place] > configuration::bound(*place);
    let mut places = BOUNDS.iter().map(|(place, _)| *place).filter(above);
    if let Some(place) = places.next() {
        if block[place] == configuration::bound(place) + 1 {
            names.push(format!("{name}, one above it"));
        }
        if block[place] == 0xFFFF {
            names.push(format!("{name}, FFFF"));
        }
    }
    if places.next().is_some() {
        names.push(format!("{name}, and a later one too"));
    }
    names.push(name);
}

#[cfg(test)]
mod tests {
    use crate::tests::{check_names, names_of, time_ups, write_line};
    use crate::tests::{
        PING, RESET, RESET_OF_NO_CRATE, SHORT_WRITE, START, START_OF_ONE, STOP, TRIGGER,
    };

    const POWER_UP: &str = "P0000000000000000 0000\n";

    /// The explanation of what a command's line has.
    fn explain(line: &str) -> String {
        line.replacen('C', "E", 1)
    }

    /// Checks for each row which names its last line has, as an explanation.
    fn check_explained(rows: &[(&[&str], &str, &[&str])]) {
        for (before, line, expected) in rows {
            let (before, line) = (before.concat(), explain(line));
            let names = names_of(&[&before[..], &line].concat());
            assert_eq!(names[names_of(&before).len()..], **expected, "{line}");
        }
    }

    #[test]
    fn names_of_faults() {
        check_explained(&[
            (&[], "E\n", &["E 1 missing 5", "E 1 while idle"]),
            (&[], "E0040 0 0 0 4\n", &["E 1 missing 3", "E 1 while idle"]),
            (&[], "E0041 0001 0001 0000 0000\n", &["E 2 word 0, allowed 0040", "E 2 while idle"]),
            (
                &[PING],
                "E0040 ffff 0001 0000 0000\n",
                &["E 3 word 1, allowed 0001 0002 0004 0008 0010 0020", "E 3 while pinging"],
            ),
            (
                &[],
                "E0040 0020 0003 0000 0000\n",
                &["E 4 word 2, allowed 0001 0002 0004 0008 for a reset", "E 4 while idle"],
            ),
            (
                &[],
                "E0040 0004 0003 0000 0000\n",
                &["E 4 word 2, allowed 0001 0002 for a start", "E 4 while idle"],
            ),
            (
                &[],
                "E0040 0008 0000 0001 0001\n",
                &[
                    "E 5 word 3, allowed 0000, and word 4 too",
                    "E 5 word 3, allowed 0000",
                    "E 5 while idle",
                ],
            ),
            (&[], SHORT_WRITE, &["E 6 missing 2 to 435 for a write", "E 6 while idle"]),
            (
                &[],
                "E0040 0002 0001 0000 0000\n",
                &["E 6 missing 436 for a write", "E 6 while idle"],
            ),
            (&[], "E0040 0004 0002 0000 0000\n", &["E 6 missing 2 for a start", "E 6 while idle"]),
            (
                &[],
                "E0040 0004 0002 0000 0000 0000 0000 0001\n",
                &[
                    "E 7 word 5, allowed 0001 to FFFF",
                    "E 7 while idle",
                    "E 7 with words after the command",
                ],
            ),
        ]);
    }

    #[test]
    fn names_of_blocks() {
        let block = |words: &[(usize, &str)]| {
            let mut block = vec!["0000"; 436];
            words.iter().for_each(|&(place, word)| block[place] = word);
            format!("C0040 0002 0001 0000 0000 {}\n", block.concat())
        };
        let name = "E 8 block word 2, allowed 0000 to 03FF";
        let [one_above, high, later] = [", one above it", ", FFFF", ", and a later one too"]
            .map(|what| format!("{name}{what}"));
        check_explained(&[
            (&[], &block(&[(2, "0400")]), &[&one_above, name, "E 8 while idle"]),
            (&[], &block(&[(2, "FFFF"), (435, "0400")]), &[&high, &later, name, "E 8 while idle"]),
            (
                &[],
                &block(&[(2, "03FF"), (435, "03FF"), (4, "FFFF")]),
                &[
                    "E 0 for a write",
                    "E 0 with block word 2 at its bound",
                    "E 0 with block word 435 at its bound",
                    "E 0 with a free word at FFFF",
                    "E 0 while idle",
                ],
            ),
        ]);
    }

    #[test]
    fn names_of_states() {
        let write: &str = &write_line("0001");
        let running = [write, "T03\nT03\nT03\n", START].concat();
        check_explained(&[
            (&[], STOP, &["E 9 idle for a stop while idle"]),
            (&[&running], RESET, &["E 9 running for a reset while running"]),
            (&[write], STOP, &["E 9 reprogramming for a stop while reprogramming"]),
            (&[PING], START, &["E 9 ping for an endless start while pinging"]),
            (
                &[&running, "B\n", STOP],
                START_OF_ONE,
                &["E 9 rates for a counted start while fetching rates"],
            ),
            (
                &[&running, "B\n"],
                "C0040 0010 0000 0000 0000 0040\n",
                &[
                    "E 9 running and rates for a ping while running and fetching rates",
                    "E 9 with words after the command",
                ],
            ),
            (&[&running, "B\n"], STOP, &["E 0 for a stop", "E 0 while running and fetching rates"]),
            (&[], RESET, &["E 0 for a reset of crate 1", "E 0 while idle"]),
        ]);
    }

    /// The names of an explained start after these lines.
    fn check_starts(rows: &[(&[&str], &[&str])]) {
        for (before, expected) in rows {
            check_explained(&[(before, START, expected)]);
        }
    }

    #[test]
    fn names_of_histories() {
        let write: &str = &write_line("0000");
        let nothing = "E 10 nothing written for an endless start";
        let run = "E 10 used by a run for an endless start";
        let reset = "E 10 used by a reset for an endless start";
        check_starts(&[
            (&[], &[nothing]),
            (&[RESET], &[nothing, "E 10 nothing written, after a reset"]),
            (&[SHORT_WRITE], &[nothing, "E 10 nothing written, after a refused write"]),
            (
                &[write, RESET, POWER_UP, START],
                &[
                    nothing,
                    "E 10 nothing written, after a power-up",
                    "E 10 nothing written, after a refused start",
                ],
            ),
            (&[write, START, STOP], &[run, "E 10 used by a run, after a stop"]),
            (
                &[write, START_OF_ONE, RESET, TRIGGER, RESET],
                &[
                    run,
                    "E 10 used by a run, after a refused reset",
                    "E 10 used by a run, after a reset",
                    "E 10 used by a run, after the last trigger",
                ],
            ),
            (&[write, RESET], &[reset]),
            (
                &[write, RESET, RESET_OF_NO_CRATE, PING, &time_ups(), "B\n"],
                &[
                    reset,
                    "E 10 used by a reset, after a ping",
                    "E 10 used by a reset, after a rate pass",
                    "E 10 used by a reset, after a refused reset",
                ],
            ),
            (
                &[write, START, STOP, write, RESET],
                &[reset, "E 10 used by a reset, the write before used by a run"],
            ),
            (
                &[write, write, START, STOP],
                &[
                    run,
                    "E 10 used by a run, after a stop",
                    "E 10 used by a run, the write before not used",
                ],
            ),
            (
                &[write, RESET, write],
                &[
                    "E 0 for an endless start",
                    "E 0 for a start, the write before used by a reset",
                    "E 0 while idle",
                ],
            ),
        ]);
    }

    #[test]
    fn names_of_commands_after_their_explanation() {
        let explained = &["E 9 idle for a stop while idle", "C 9 as explained"];
        let stop: &str = &explain(STOP);
        let small = "E0040 0020 000a 0000 0000\nC0040 0020 000A 0000 0000\n";
        check_names(&[
            (&[stop, STOP], explained),
            (&[stop, "# note\n\n", STOP], explained),
            (&[stop, "K00000000\n", STOP], &explained[..1]),
            (&[stop, "C0040 0008 0000 0000 0000 0000\n"], &explained[..1]),
            (&["E0\n", "C\n"], &["E ? half a word"]),
            (
                &[small],
                &[
                    "E 4 word 2, allowed 0001 0002 0004 0008 for a reset",
                    "E 4 while idle",
                    "C 4 as explained",
                ],
            ),
        ]);
    }

    #[test]
    fn names_of_other_forms() {
        let long = format!("E{}\n", "0".repeat(4097));
        check_names(&[(
            &["E00400\n", "E0040x\n", "E004g00\n", &long],
            &[
                "E ? half a word",
                "E ? other character",
                "E ? other character",
                "E ? too many digits",
            ],
        )]);
    }
}
