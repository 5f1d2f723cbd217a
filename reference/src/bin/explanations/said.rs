//! Explanations as they are printed (docs/REPLAY.md, Explanations).

use std::fmt;

use reference::other::shown;

/// What 9 and 10 can say.
const STATES: [&str; 6] =
    ["idle", "running", "reprogramming", "ping", "rates", "running and rates"];
const WRITES: [&str; 3] = ["nothing written", "used by a run", "used by a reset"];

/// All that is said to be allowed at a place.
#[derive(Clone, Debug, PartialEq)]
pub enum Allowed {
    Numbers(Vec<u16>),
    Range(u16, u16),
}

impl Allowed {
    pub fn contains(&self, word: u16) -> bool {
        match self {
            Allowed::Numbers(numbers) => numbers.contains(&word),
            Allowed::Range(first, last) => (*first..=*last).contains(&word),
        }
    }
}

/// A word that is said to be at fault; for 8 its place is in the block.
#[derive(Clone, Debug, PartialEq)]
pub struct Fault {
    pub number: u8,
    pub place: usize,
    pub found: u16,
    pub allowed: Allowed,
}

/// An explanation.
#[derive(Clone, Debug, PartialEq)]
pub enum Said {
    Accepted,
    Missing { number: u8, words: usize },
    Fault(Fault),
    State(String),
    Write(String),
}

impl Said {
    /// Reads a printed line; it must have exactly one of the forms.
    pub fn read(line: &[u8]) -> Result<Said, String> {
        let said = std::str::from_utf8(line).ok().and_then(parse);
        said.filter(|said| said.to_string().as_bytes() == line)
            .ok_or_else(|| format!("no explanation: {}", shown(Some(line))))
    }

    /// The number of the refusal, and 0 for accepted.
    pub fn number(&self) -> u8 {
        match self {
            Said::Accepted => 0,
            Said::Missing { number, .. } => *number,
            Said::Fault(fault) => fault.number,
            Said::State(_) => 9,
            Said::Write(_) => 10,
        }
    }

    /// Refusals in the order in which they are looked for: by number, then by place.
    /// Accepted comes last.
    pub fn order(&self) -> (u8, usize) {
        match self {
            Said::Accepted => (u8::MAX, 0),
            Said::Fault(fault) => (fault.number, fault.place),
            _ => (self.number(), 0),
        }
    }
}

fn parse(line: &str) -> Option<Said> {
    let (number, text) = line.split_once(' ')?;
    let number = number.parse().ok()?;
    match number {
        0 if text == "accepted" => Some(Said::Accepted),
        1 | 6 => {
            let words = text.strip_prefix("missing ")?.parse().ok().filter(|&words| words > 0)?;
            Some(Said::Missing { number, words })
        }
        2..=5 | 7 => parse_fault(number, text.strip_prefix("word ")?),
        8 => parse_fault(number, text.strip_prefix("block word ")?),
        9 if STATES.contains(&text) => Some(Said::State(text.to_string())),
        10 if WRITES.contains(&text) => Some(Said::Write(text.to_string())),
        _ => None,
    }
}

fn parse_fault(number: u8, text: &str) -> Option<Said> {
    let (place, text) = text.split_once(" is ")?;
    let (found, allowed) = text.split_once(", allowed ")?;
    let allowed = match allowed.split_once(" to ") {
        Some((first, last)) => {
            let (first, last) = (word(first)?, word(last)?);
            (first <= last).then_some(Allowed::Range(first, last))?
        }
        None => Allowed::Numbers(allowed.split(' ').map(word).collect::<Option<_>>()?),
    };
    let (place, found) = (place.parse().ok()?, word(found)?);
    Some(Said::Fault(Fault { number, place, found, allowed }))
}

fn word(digits: &str) -> Option<u16> {
    u16::from_str_radix(digits, 16).ok()
}

impl fmt::Display for Said {
    fn fmt(&self, f: &mut fmt::Formatter) -> fmt::Result {
        match self {
            Said::Accepted => f.write_str("0 accepted"),
            Said::Missing { number, words } => write!(f, "{number} missing {words}"),
            Said::Fault(fault) => fault.fmt(f),
            Said::State(text) => write!(f, "9 {text}"),
            Said::Write(text) => write!(f, "10 {text}"),
        }
    }
}

impl fmt::Display for Fault {
    fn fmt(&self, f: &mut fmt::Formatter) -> fmt::Result {
        let Fault { number, place, found, allowed } = self;
        let block = if *number == 8 { "block " } else { "" };
        write!(f, "{number} {block}word {place} is {found:04X}, allowed")?;
        match allowed {
            Allowed::Numbers(numbers) => numbers.iter().try_for_each(|n| write!(f, " {n:04X}")),
            Allowed::Range(first, last) => write!(f, " {first:04X} to {last:04X}"),
        }
    }
}

#[cfg(test)]
mod tests {
    use super::*;

    #[test]
    fn lines_of_the_page() {
        let ids = vec![1, 2, 4, 8, 0x10, 0x20];
        let fault =
            |number, place, found, allowed| Said::Fault(Fault { number, place, found, allowed });
        for (line, said) in [
            ("0 accepted", Said::Accepted),
            ("1 missing 2", Said::Missing { number: 1, words: 2 }),
            ("2 word 0 is 0041, allowed 0040", fault(2, 0, 0x41, Allowed::Numbers(vec![0x40]))),
            (
                "3 word 1 is 0003, allowed 0001 0002 0004 0008 0010 0020",
                fault(3, 1, 3, Allowed::Numbers(ids)),
            ),
            ("6 missing 435", Said::Missing { number: 6, words: 435 }),
            ("7 word 5 is 0000, allowed 0001 to FFFF", fault(7, 5, 0, Allowed::Range(1, 0xFFFF))),
            (
                "8 block word 2 is 0400, allowed 0000 to 03FF",
                fault(8, 2, 0x0400, Allowed::Range(0, 0x03FF)),
            ),
            ("9 running and rates", Said::State("running and rates".to_string())),
            ("10 used by a reset", Said::Write("used by a reset".to_string())),
        ] {
            assert_eq!(Said::read(line.as_bytes()), Ok(said));
        }
    }

    #[test]
    fn other_lines() {
        for line in [
            "",
            "0",
            "0 5 ping",
            "0 accepted ",
            "00 accepted",
            "1 missing",
            "1 missing 0",
            "1 missing 02",
            "2 missing 1",
            "2 word 0 is 41, allowed 0040",
            "2 word 0 is 0041, allowed",
            "2 word 0 is 0041,  allowed 0040",
            "2 block word 0 is 0041, allowed 0040",
            "8 word 2 is 0400, allowed 0000 to 03FF",
            "8 block word 2 is 0400, allowed 0000 to 03ff",
            "8 block word 2 is 0400, allowed 0000 to 03FF ",
            "8 block word 2 is 0400, allowed 03FF to 0000",
            "9",
            "9 running and ping",
            "10 fresh",
            "11 idle",
            "?",
        ] {
            assert!(Said::read(line.as_bytes()).is_err(), "{line}");
        }
    }
}
