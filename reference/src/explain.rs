//! Why the board accepts or refuses a command (02, c). The tests are those of
//! 01's table of numbers, in its order: where several apply, the lowest is given.

use std::fmt;

use crate::board::{Board, LastWrite, Mode, PassKind};
use crate::commands::{self, DELIMITER, EVENTS, HEAD};
use crate::{configuration, Refusal};

/// All that is allowed at a place.
#[derive(Clone, Copy, Debug, PartialEq, Eq)]
pub enum Allowed {
    /// These numbers, in the order of 01's table.
    Numbers(&'static [u16]),
    /// Every number from the first to the second.
    Range(u16, u16),
}

impl Allowed {
    pub fn contains(&self, word: u16) -> bool {
        match *self {
            Allowed::Numbers(numbers) => numbers.contains(&word),
            Allowed::Range(first, last) => (first..=last).contains(&word),
        }
    }
}

/// What a refusal comes from.
#[derive(Clone, Copy, Debug, PartialEq, Eq)]
pub enum Why {
    /// 1 and 6: so many words are missing.
    Missing(usize),
    /// 2 to 5, 7 and 8: the lowest word at fault. For 8 its place is in the block.
    Word { place: usize, found: u16, allowed: Allowed },
    /// 9: what the board is doing.
    State(Mode),
    /// 10: what became of the last accepted write.
    LastWrite(LastWrite),
}

/// A refusal and what it comes from.
#[derive(Clone, Copy, Debug, PartialEq, Eq)]
pub struct Reason {
    pub refusal: Refusal,
    pub why: Why,
}

/// The explanation of a command.
#[derive(Clone, Copy, Debug, PartialEq, Eq)]
pub enum Explanation {
    Accepted,
    Refused(Reason),
}

/// Explains what the board would answer to the first command of `words`.
pub fn explain(board: &Board, words: &[u16]) -> Explanation {
    let checked =
        check_head(words).and_then(|()| check_data(words)).and_then(|()| check_state(board, words));
    match checked {
        Ok(()) => Explanation::Accepted,
        Err(reason) => Explanation::Refused(reason),
    }
}

/// 1 to 5: the five words before the data block.
fn check_head(words: &[u16]) -> Result<(), Reason> {
    check_count(words, HEAD, Refusal::FewerThanFiveWords)?;
    check_word(words, 0, &[DELIMITER], Refusal::WrongDelimiter)?;
    check_word(words, 1, &commands::IDS, Refusal::UnknownCommand)?;
    let parameters = commands::parameters(words[1]).expect("an ID of the table");
    check_word(words, 2, parameters, Refusal::UnknownParameter)?;
    check_word(words, 3, &[0], Refusal::SpareWordNotZero)?;
    check_word(words, 4, &[0], Refusal::SpareWordNotZero)
}

/// 6 to 8: the block of a write, or X.
fn check_data(words: &[u16]) -> Result<(), Reason> {
    let data = &words[HEAD..];
    match (words[1], words[2]) {
        (commands::WRITE, _) => check_block(data),
        (commands::START, 2) => check_events(data),
        _ => Ok(()),
    }
}

fn check_block(data: &[u16]) -> Result<(), Reason> {
    check_count(data, configuration::WORDS, Refusal::WrongLength)?;
    for (place, &found) in data[..configuration::WORDS].iter().enumerate() {
        let allowed = Allowed::Range(0, configuration::bound(place));
        if !allowed.contains(found) {
            let why = Why::Word { place, found, allowed };
            return Err(Reason { refusal: Refusal::AboveBound { place }, why });
        }
    }
    Ok(())
}

/// For 7 the word named is X's first, where any but zero is allowed.
fn check_events(data: &[u16]) -> Result<(), Reason> {
    check_count(data, EVENTS, Refusal::WrongLength)?;
    if data[..EVENTS] != [0; EVENTS] {
        return Ok(());
    }
    let why = Why::Word { place: HEAD, found: data[0], allowed: Allowed::Range(1, 0xFFFF) };
    Err(Reason { refusal: Refusal::NoEvents, why })
}

/// 9 and 10, by the column "accepted when" of 01's table of commands.
fn check_state(board: &Board, words: &[u16]) -> Result<(), Reason> {
    let mode = board.mode();
    let accepted = match words[1] {
        commands::READ => true,
        commands::STOP => mode.run.is_some(),
        _ => mode == Mode::IDLE,
    };
    if !accepted {
        return Err(Reason { refusal: Refusal::NotInThisState, why: Why::State(mode) });
    }
    if words[1] == commands::START && !board.fresh() {
        let why = Why::LastWrite(board.last_write());
        return Err(Reason { refusal: Refusal::NotFresh, why });
    }
    Ok(())
}

/// Refuses fewer words than are due.
fn check_count(words: &[u16], due: usize, refusal: Refusal) -> Result<(), Reason> {
    match due.saturating_sub(words.len()) {
        0 => Ok(()),
        missing => Err(Reason { refusal, why: Why::Missing(missing) }),
    }
}

/// Refuses the word at `place` unless it is one of these numbers.
fn check_word(
    words: &[u16],
    place: usize,
    numbers: &'static [u16],
    refusal: Refusal,
) -> Result<(), Reason> {
    let (found, allowed) = (words[place], Allowed::Numbers(numbers));
    if allowed.contains(found) {
        return Ok(());
    }
    Err(Reason { refusal, why: Why::Word { place, found, allowed } })
}

/// The line that a replay program prints (docs/REPLAY.md, Explanations).
impl fmt::Display for Explanation {
    fn fmt(&self, f: &mut fmt::Formatter) -> fmt::Result {
        let Explanation::Refused(Reason { refusal, why }) = self else {
            return f.write_str("0 accepted");
        };
        write!(f, "{} ", refusal.number())?;
        match *why {
            Why::Missing(words) => write!(f, "missing {words}"),
            Why::Word { place, found, allowed } => {
                let block = if refusal.place().is_some() { "block " } else { "" };
                write!(f, "{block}word {place} is {found:04X}, allowed {allowed}")
            }
            Why::State(mode) => f.write_str(&state_text(mode)),
            Why::LastWrite(last_write) => f.write_str(last_write_text(last_write)),
        }
    }
}

impl fmt::Display for Allowed {
    fn fmt(&self, f: &mut fmt::Formatter) -> fmt::Result {
        match *self {
            Allowed::Numbers(numbers) => {
                let numbers: Vec<String> = numbers.iter().map(|n| format!("{n:04X}")).collect();
                f.write_str(&numbers.join(" "))
            }
            Allowed::Range(first, last) => write!(f, "{first:04X} to {last:04X}"),
        }
    }
}

/// The run and the pass that are under way: both, if it is a rate pass (02, i).
fn state_text(mode: Mode) -> String {
    let pass = mode.pass.map(|kind| match kind {
        PassKind::Reprogramming => "reprogramming",
        PassKind::Ping => "ping",
        PassKind::Rates => "rates",
    });
    let under_way: Vec<&str> = mode.run.map(|_| "running").into_iter().chain(pass).collect();
    if under_way.is_empty() {
        return "idle".to_string();
    }
    under_way.join(" and ")
}

fn last_write_text(last_write: LastWrite) -> &'static str {
    match last_write {
        LastWrite::Never => "nothing written",
        // Never a reason: a start is then accepted.
        LastWrite::Fresh => "fresh",
        LastWrite::UsedByRun => "used by a run",
        LastWrite::UsedByReset => "used by a reset",
    }
}

#[cfg(test)]
mod tests {
    use super::*;
    use crate::packets::Trigger;

    const READ: [u16; 5] = [0x40, 1, 1, 0, 0];
    const START: [u16; 5] = [0x40, 4, 1, 0, 0];
    const TAKE_ONE: [u16; 7] = [0x40, 4, 2, 0, 0, 0, 1];
    const STOP: [u16; 5] = [0x40, 8, 0, 0, 0];
    const PING: [u16; 5] = [0x40, 0x10, 0, 0, 0];
    const RESET: [u16; 5] = [0x40, 0x20, 2, 0, 0];
    const NO_CRATE: [u16; 5] = [0x40, 0x20, 3, 0, 0];
    const SHORT: [u16; 6] = [0x40, 2, 1, 0, 0, 0];

    const ACCEPTED: &str = "0 accepted";
    const NOTHING: &str = "10 nothing written";
    const RUN: &str = "10 used by a run";
    const USED_BY_RESET: &str = "10 used by a reset";

    /// A write of zeros with these words of its block.
    fn write(words: &[(usize, u16)]) -> Vec<u16> {
        let mut write = vec![0; 441];
        write[..5].copy_from_slice(&[0x40, 2, 1, 0, 0]);
        for &(place, word) in words {
            write[5 + place] = word;
        }
        write
    }

    fn power_up() -> Board {
        Board::power_up(1, 2).unwrap()
    }

    /// A board that was given these commands, accepted or not.
    fn board(given: &[&[u16]]) -> Board {
        let mut board = power_up();
        for words in given {
            // Some are to be refused.
            let _ = board.obey(words);
        }
        board
    }

    fn run_out(board: &mut Board) {
        for crate_number in 0..4 {
            while board.time_up(crate_number, &mut [0; 28]).is_ok() {}
        }
    }

    /// A board in each state that 9 names, with its text.
    fn states() -> [(&'static str, Board); 6] {
        let active = write(&[(0x1B2, 4)]);
        let reprogramming = board(&[&active]);
        let mut fresh = reprogramming.clone();
        run_out(&mut fresh);
        let mut running = fresh.clone();
        running.obey(&START).unwrap();
        let [mut rates, mut both] = [fresh, running.clone()];
        rates.begin_rate_pass().unwrap();
        both.begin_rate_pass().unwrap();
        [
            ("idle", power_up()),
            ("running", running),
            ("reprogramming", reprogramming),
            ("ping", board(&[&PING])),
            ("rates", rates),
            ("running and rates", both),
        ]
    }

    fn text(board: &Board, words: &[u16]) -> String {
        explain(board, words).to_string()
    }

    #[test]
    fn lines_of_the_page() {
        let board = power_up();
        for (words, expected) in [
            (&READ[..], "0 accepted"),
            (&[0x40, 4, 1], "1 missing 2"),
            (&[0x41, 1, 1, 0, 0], "2 word 0 is 0041, allowed 0040"),
            (&[0x40, 3, 1, 0, 0], "3 word 1 is 0003, allowed 0001 0002 0004 0008 0010 0020"),
            (&NO_CRATE, "4 word 2 is 0003, allowed 0001 0002 0004 0008"),
            (&[0x40, 8, 0, 0, 1], "5 word 4 is 0001, allowed 0000"),
            (&SHORT, "6 missing 435"),
            (&[0x40, 4, 2, 0, 0, 0, 0], "7 word 5 is 0000, allowed 0001 to FFFF"),
            (&write(&[(2, 0x0400)]), "8 block word 2 is 0400, allowed 0000 to 03FF"),
            (&STOP, "9 idle"),
            (&START, "10 nothing written"),
        ] {
            assert_eq!(text(&board, words), expected);
        }
    }

    #[test]
    fn missing_words() {
        let board = power_up();
        for count in 0..5 {
            assert_eq!(text(&board, &[0xFFFF; 5][..count]), format!("1 missing {}", 5 - count));
        }
        let whole = write(&[(0, 0xFFFF)]);
        for count in 0..436 {
            let words = &whole[..5 + count];
            assert_eq!(text(&board, words), format!("6 missing {}", 436 - count));
        }
        let take = [0x40, 4, 2, 0, 0, 0, 0];
        assert_eq!(text(&board, &take[..5]), "6 missing 2");
        assert_eq!(text(&board, &take[..6]), "6 missing 1");
    }

    #[test]
    fn parameters_of_each_command() {
        let board = power_up();
        for (id, allowed) in [
            (1, "0001 0002"),
            (2, "0001"),
            (4, "0001 0002"),
            (8, "0000"),
            (0x10, "0000"),
            (0x20, "0001 0002 0004 0008"),
        ] {
            // Where word 3 is at fault too, the parameter is named.
            for words in [[0x40, id, 0xABCD, 0, 0], [0x40, id, 0xABCD, 7, 7]] {
                let expected = format!("4 word 2 is ABCD, allowed {allowed}");
                assert_eq!(text(&board, &words), expected);
            }
        }
    }

    #[test]
    fn lowest_word_at_fault() {
        let board = power_up();
        for (words, expected) in [
            (&[0x41, 3, 9, 1, 1][..], "2 word 0 is 0041, allowed 0040"),
            (&[0x40, 8, 0, 0x8000, 1], "5 word 3 is 8000, allowed 0000"),
            (&[0x40, 4, 2, 0, 0xFFFF], "5 word 4 is FFFF, allowed 0000"),
            (
                &write(&[(0x1B0, 0x0400), (3, 0x1000)]),
                "8 block word 3 is 1000, allowed 0000 to 0FFF",
            ),
        ] {
            assert_eq!(text(&board, words), expected);
        }
    }

    /// Either word of X is enough.
    #[test]
    fn events() {
        let board = power_up();
        for (x, expected) in [
            ([0, 0], "7 word 5 is 0000, allowed 0001 to FFFF"),
            ([0, 1], NOTHING),
            ([1, 0], NOTHING),
            ([0xFFFF, 0xFFFF], NOTHING),
        ] {
            assert_eq!(text(&board, &[0x40, 4, 2, 0, 0, x[0], x[1]]), expected);
            assert_eq!(text(&board, &[0x40, 4, 2, 0, 0, x[0], x[1], 0]), expected);
        }
    }

    #[test]
    fn every_bound() {
        let board = power_up();
        for place in 0..436 {
            let bound = configuration::bound(place);
            assert_eq!(text(&board, &write(&[(place, bound)])), ACCEPTED);
            for word in [bound.wrapping_add(1), 0xFFFF].into_iter().filter(|&word| word > bound) {
                let fault = format!("{place} is {word:04X}, allowed 0000 to {bound:04X}");
                let expected = format!("8 block word {fault}");
                assert_eq!(text(&board, &write(&[(place, word)])), expected);
            }
        }
    }

    #[test]
    fn states_of_the_board() {
        let write = write(&[]);
        for (state, board) in states() {
            let refused = format!("9 {state}");
            let idle_only = if state == "idle" { ACCEPTED } else { &refused };
            let start = if state == "idle" { NOTHING } else { &refused };
            let stop = if state.starts_with("running") { ACCEPTED } else { &refused };
            for (words, expected) in [
                (&READ[..], ACCEPTED),
                (&[0x40, 1, 2, 0, 0], ACCEPTED),
                (&write, idle_only),
                (&START, start),
                (&TAKE_ONE, start),
                (&STOP, stop),
                (&PING, idle_only),
                (&RESET, idle_only),
            ] {
                assert_eq!(text(&board, words), expected);
                // Words of the next command change nothing.
                assert_eq!(text(&board, &[words, &[0x41, 3]].concat()), expected);
            }
        }
    }

    #[test]
    fn histories_of_a_write() {
        let write: &[u16] = &write(&[]);
        let high: &[u16] = &self::write(&[(0x1B3, 0xFFFF)]);
        for (number, (given, expected)) in [
            (&[][..], NOTHING),
            (&[&RESET[..]], NOTHING),
            (&[&START[..], &STOP], NOTHING),
            (&[&SHORT[..]], NOTHING),
            (&[high], NOTHING),
            (&[&RESET, high, &RESET, &SHORT], NOTHING),
            (&[write], ACCEPTED),
            (&[&RESET, write], ACCEPTED),
            (&[write, &NO_CRATE], ACCEPTED),
            (&[write, high], ACCEPTED),
            (&[write, &START, &STOP], RUN),
            (&[write, &START, &STOP, &RESET], RUN),
            (&[write, &START, &STOP, &START, &STOP], RUN),
            (&[write, &START, &RESET, &STOP], RUN),
            (&[write, &START, &STOP, &RESET, &RESET, &SHORT], RUN),
            (&[write, &RESET], USED_BY_RESET),
            (&[write, &RESET, &RESET], USED_BY_RESET),
            (&[write, &RESET, &START, &STOP], USED_BY_RESET),
            (&[write, &RESET, high, &SHORT], USED_BY_RESET),
            (&[write, &RESET, write], ACCEPTED),
            (&[write, write, &RESET], USED_BY_RESET),
            (&[write, &RESET, write, &START, &STOP], RUN),
            (&[write, &START, &STOP, write], ACCEPTED),
            (&[write, &START, &STOP, write, &RESET], USED_BY_RESET),
        ]
        .into_iter()
        .enumerate()
        {
            for start in [&START[..], &TAKE_ONE] {
                assert_eq!(text(&board(given), start), expected, "history {number}");
            }
        }
    }

    /// The Xth trigger ends a run as a stop does; a pass uses nothing up.
    #[test]
    fn runs_counted_to_their_end_and_passes() {
        let active = write(&[(0x1B0, 1)]);
        let mut board = board(&[&active]);
        run_out(&mut board);
        board.begin_rate_pass().unwrap();
        run_out(&mut board);
        board.obey(&PING).unwrap();
        run_out(&mut board);
        assert_eq!(text(&board, &START), ACCEPTED);
        board.obey(&TAKE_ONE).unwrap();
        assert_eq!(text(&board, &START), "9 running");
        board.trigger(&Trigger::default(), &mut [0; 7]).unwrap();
        assert_eq!(text(&board, &START), RUN);
        board.begin_rate_pass().unwrap();
        run_out(&mut board);
        board.obey(&RESET).unwrap();
        assert_eq!(text(&board, &START), RUN);
    }

    /// What the board itself gives, with 8's place.
    fn refusal_given(board: &Board, words: &[u16]) -> Option<Refusal> {
        board.clone().obey(words).err().map(|refused| refused.refusal)
    }

    /// Streams of which each of the first words has several values, a start cut at
    /// every length, and writes with one or two words at and above their bounds.
    fn streams() -> Vec<Vec<u16>> {
        let mut streams = Vec::new();
        for id in [1, 2, 4, 8, 0x10, 0x20, 0, 3, 0x0101] {
            for parameter in [0, 1, 2, 3, 4, 8, 16, 0x0100] {
                for head in [[0x40, 0, 0], [0x40, 0, 1], [0x40, 2, 0], [0, 1, 1], [0x4000, 0, 0]] {
                    for events in [[0, 0], [0, 1], [1, 0], [0xFFFF, 0]] {
                        let mut words = vec![head[0], id, parameter, head[1], head[2]];
                        words.extend(events);
                        streams.push(words);
                    }
                }
            }
        }
        let cut = (0..7).map(|length| [0x40, 4, 2, 0, 0, 0, 1][..length].to_vec());
        streams.extend(cut);
        for place in [0, 1, 2, 3, 4, 0x1AF, 0x1B0, 0x1B1, 0x1B2, 0x1B3] {
            for word in [0xFF, 0x0100, 0x0400, 0x1000, 0xFFFF] {
                streams.push(write(&[(place, word)]));
                streams.push(write(&[(place, word), (435 - place, word)]));
            }
        }
        streams
    }

    /// In every state, and after every history of a write.
    #[test]
    fn names_the_refusal_that_the_board_gives() {
        let write: &[u16] = &write(&[]);
        let histories = [
            board(&[write]),
            board(&[write, &RESET]),
            board(&[write, &START, &STOP]),
            board(&[&RESET]),
        ];
        let boards: Vec<Board> =
            states().map(|state| state.1).into_iter().chain(histories).collect();
        for words in streams() {
            for board in &boards {
                let explained = match explain(board, &words) {
                    Explanation::Accepted => None,
                    Explanation::Refused(reason) => Some(reason.refusal),
                };
                assert_eq!(explained, refusal_given(board, &words), "{words:04X?}");
            }
        }
    }
}
