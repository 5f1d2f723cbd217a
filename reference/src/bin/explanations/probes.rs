//! What is asked beside an explanation, and what must be printed for it if the
//! explanation is right.

use reference::commands::HEAD;
use reference::generate::{words_line, Random};
use reference::other::shown;

use crate::said::{Allowed, Fault, Said};

const START: [u16; 5] = [0x40, 4, 1, 0, 0];
const TAKE_ONE: [u16; 7] = [0x40, 4, 2, 0, 0, 0, 1];
const STOP: [u16; 5] = [0x40, 8, 0, 0, 0];
const PING: [u16; 5] = [0x40, 0x10, 0, 0, 0];
const ACCEPTED: &str = "0 accepted";

/// What must be printed.
enum Expected {
    /// This line.
    Line(String),
    /// A block.
    Block,
    /// An explanation that comes later than this one.
    Later(Said),
}

/// A line that is asked beside an explanation.
pub struct Probe {
    pub line: Vec<u8>,
    expected: Expected,
}

impl Probe {
    /// The explanation of these words.
    fn explain(words: &[u16], expected: Expected) -> Probe {
        Probe { line: words_line(b'E', words), expected }
    }

    /// Of these words, with this line expected.
    fn line(words: &[u16], line: impl ToString) -> Probe {
        Probe::explain(words, Expected::Line(line.to_string()))
    }

    /// The FTU list, which is refused in a pass.
    fn list(in_pass: bool) -> Probe {
        let expected = if in_pass { Expected::Line("9".to_string()) } else { Expected::Block };
        Probe { line: b"L".to_vec(), expected }
    }

    /// Checks the answer. Where a fault was removed, gives the number explained before
    /// and the one after.
    pub fn check(&self, answer: &[u8]) -> Result<Option<(u8, u8)>, String> {
        let wrong = |expected: String| Err(format!("{} and not {expected}", shown(Some(answer))));
        match &self.expected {
            Expected::Line(line) if answer != line.as_bytes() => wrong(line.clone()),
            Expected::Block if !answer.starts_with(b"0 ") => wrong("a block".to_string()),
            Expected::Line(_) | Expected::Block => Ok(None),
            Expected::Later(said) => {
                let now = Said::read(answer)?;
                if now.order() <= said.order() {
                    return wrong(format!("something later than {said}"));
                }
                Ok(Some((said.number(), now.number())))
            }
        }
    }
}

/// What became of the last accepted write, and which pass began last, by the answers
/// to the lines so far.
#[derive(Default)]
pub struct Past {
    /// As 10 says it, none while fresh; nothing written at first.
    write: Write,
    pass: Option<&'static str>,
}

#[derive(Default, PartialEq)]
enum Write {
    #[default]
    Never,
    Fresh,
    UsedByRun,
    UsedByReset,
}

impl Write {
    fn text(&self) -> &'static str {
        match self {
            Write::Never => "nothing written",
            Write::Fresh => "fresh",
            Write::UsedByRun => "used by a run",
            Write::UsedByReset => "used by a reset",
        }
    }
}

impl Past {
    /// Adds the line that had this answer. All lines come in turn.
    pub fn add(&mut self, line: &[u8], answer: &[u8]) {
        let answer = String::from_utf8_lossy(answer);
        let mut fields = answer.split(' ');
        match (line[0], fields.next(), fields.nth(1)) {
            (b'P', Some("0"), _) => *self = Past::default(),
            (b'B', Some("0"), _) => self.pass = Some("rates"),
            (b'C', Some("0"), Some("write")) => {
                self.write = Write::Fresh;
                self.pass = Some("reprogramming");
            }
            (b'C', Some("0"), Some("ping")) => self.pass = Some("ping"),
            (b'C', Some("0"), Some("start")) => self.use_up(Write::UsedByRun),
            (b'C', Some("0"), Some("reset")) => self.use_up(Write::UsedByReset),
            _ => {}
        }
    }

    fn use_up(&mut self, write: Write) {
        if self.write == Write::Fresh {
            self.write = write;
        }
    }
}

fn words_of(line: &[u8]) -> Vec<u16> {
    let digits = line[1..].iter().filter_map(|&byte| char::from(byte).to_digit(16));
    let digits: Vec<u16> = digits.map(|digit| digit as u16).collect();
    digits.chunks(4).map(|four| four.iter().fold(0, |sum, digit| sum << 4 | digit)).collect()
}

/// What to ask beside what was said of this line; an error if it cannot be right.
pub fn probes(
    random: &mut Random,
    line: &[u8],
    said: &Said,
    past: &Past,
) -> Result<Vec<Probe>, String> {
    let words = words_of(line);
    let mut probes = match said {
        Said::Missing { number, words: missing } => {
            return Ok(missing_words(random, &words, *number, *missing));
        }
        Said::Accepted => vec![],
        Said::Fault(fault) => other_words(random, &words, fault)?,
        Said::State(state) => commands_in(state, past)?,
        Said::Write(text) => starts(text, past)?,
    };
    // Words after the command belong to the next.
    let mut longer = words.clone();
    longer.extend((0..=random.below(3)).map(|_| random.word()));
    probes.push(Probe::line(&longer, said));
    Ok(probes)
}

/// With all missing words added, of any kind, the refusal is not given; with some of
/// them it is.
fn missing_words(random: &mut Random, words: &[u16], number: u8, missing: usize) -> Vec<Probe> {
    let mut probes = Vec::new();
    for added in [random.below(missing), missing - 1] {
        let more: Vec<u16> = (0..added).map(|_| random.word()).collect();
        let fewer = Said::Missing { number, words: missing - added };
        probes.push(Probe::line(&[words, &more].concat(), fewer));
    }
    for kind in 0..3 {
        let more: Vec<u16> = (0..missing)
            .map(|_| match kind {
                0 => 0,
                1 => random.choose(&[0, 0, 0, 0, 1, 2, 4, 8, 0x10, 0x20, 0x40]),
                _ => random.word(),
            })
            .collect();
        let later = Expected::Later(Said::Missing { number, words: missing });
        probes.push(Probe::explain(&[words, &more].concat(), later));
    }
    probes
}

/// With an allowed word at the place, the refusal is not given there; with another
/// that is not allowed it is.
fn other_words(random: &mut Random, words: &[u16], fault: &Fault) -> Result<Vec<Probe>, String> {
    let place = if fault.number == 8 { HEAD + fault.place } else { fault.place };
    if words.get(place) != Some(&fault.found) {
        return Err(format!("{fault}: another word stands there"));
    }
    if fault.allowed.contains(fault.found) {
        return Err(format!("{fault}: it is allowed"));
    }
    let with = |word: u16| {
        let mut words = words.to_vec();
        words[place] = word;
        words
    };
    let later = || Expected::Later(Said::Fault(fault.clone()));
    let allowed = some_allowed(random, &fault.allowed);
    let mut probes: Vec<Probe> =
        allowed.into_iter().map(|word| Probe::explain(&with(word), later())).collect();
    for found in some_others(random, &fault.allowed) {
        probes.push(Probe::line(&with(found), Fault { found, ..fault.clone() }));
    }
    Ok(probes)
}

/// All numbers of a list; the ends of a range and some between.
fn some_allowed(random: &mut Random, allowed: &Allowed) -> Vec<u16> {
    match allowed {
        Allowed::Numbers(numbers) => numbers.clone(),
        Allowed::Range(first, last) => {
            let count = usize::from(last - first) + 1;
            let between = [0; 3].map(|_| first + random.below(count) as u16);
            [&[*first, *last], &between[..]].concat()
        }
    }
}

/// Numbers that are not allowed: beside those that are, single bits, and any.
fn some_others(random: &mut Random, allowed: &Allowed) -> Vec<u16> {
    let near = match allowed {
        Allowed::Numbers(numbers) => random.choose(numbers),
        Allowed::Range(first, last) => random.choose(&[*first, *last]),
    };
    let others = [
        0,
        0xFFFF,
        near.wrapping_add(1),
        near.wrapping_sub(1),
        near | 0x0100,
        1 << random.below(16),
        random.word(),
    ];
    others.into_iter().filter(|&word| !allowed.contains(word)).collect()
}

/// 9: a stop is accepted exactly in a run, a ping exactly while idle, and the list is
/// refused exactly in a pass, of the kind that began last.
fn commands_in(state: &str, past: &Past) -> Result<Vec<Probe>, String> {
    let refused = format!("9 {state}");
    let line = |accepted: bool| if accepted { ACCEPTED } else { &refused };
    let pass = match state {
        "idle" | "running" => None,
        "running and rates" => Some("rates"),
        pass => Some(pass),
    };
    if pass.is_some() && pass != past.pass {
        return Err(format!("{refused}: another pass began last"));
    }
    Ok(vec![
        Probe::line(&STOP, line(state.starts_with("running"))),
        Probe::line(&PING, line(state == "idle")),
        Probe::list(pass.is_some()),
    ])
}

/// 10: the board is idle, and every start gets the same.
fn starts(text: &str, past: &Past) -> Result<Vec<Probe>, String> {
    let refused = format!("10 {text}");
    if text != past.write.text() {
        return Err(format!("{refused}: it is {}", past.write.text()));
    }
    Ok(vec![
        Probe::line(&START, &refused),
        Probe::line(&TAKE_ONE, &refused),
        Probe::line(&PING, ACCEPTED),
        Probe::list(false),
    ])
}
