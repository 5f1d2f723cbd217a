//! Scripts: one line in, one line of text out, or nothing (docs/REPLAY.md).

use std::io::Write;

use crate::blocks::{self, Kind};
use crate::board::{Answer, Board, Done, Outcome};
use crate::commands::{self, Command, Events, ReadBlock};
use crate::explain::explain;
use crate::frames::{self, Frame};
use crate::packets::{self, Trigger};
use crate::{configuration, Refusal};

/// Hexadecimal digits that a line may have.
pub const MAX_DIGITS: usize = 4096;
/// The kinds of blocks as `Y` has them, from 01 on.
pub const KINDS: [Kind; 4] = [Kind::Static, Kind::Dynamic, Kind::List, Kind::Failure];

/// Obeys a script line by line on its current board.
pub struct Replay {
    board: Board,
    digits: Vec<u8>,
    bytes: Vec<u8>,
    words: Vec<u16>,
    block: [u16; 498],
}

impl Default for Replay {
    fn default() -> Replay {
        Replay::new()
    }
}

impl Replay {
    /// A board of ID 0 and firmware ID 0 stands there before any `P`.
    pub fn new() -> Replay {
        Replay {
            board: Board::power_up(0, 0).expect("0 is below 2^57"),
            digits: Vec::with_capacity(MAX_DIGITS),
            bytes: Vec::with_capacity(MAX_DIGITS / 2),
            words: Vec::with_capacity(MAX_DIGITS / 4),
            block: [0; 498],
        }
    }

    /// The current board.
    pub fn board(&self) -> &Board {
        &self.board
    }

    /// Obeys one line, given without its line feed, and appends what it prints,
    /// with a line feed, to `out`. Gives whether anything was printed.
    pub fn line(&mut self, line: &[u8], out: &mut Vec<u8>) -> bool {
        let Some((&letter, rest)) = line.split_first() else {
            return false;
        };
        if letter == b'#' {
            return false;
        }
        if !self.read_digits(rest) || !self.obey(letter, out) {
            out.push(b'?');
        }
        out.push(b'\n');
        true
    }

    /// Collects the digits after the letter; false if another character stands
    /// there or there are too many digits.
    fn read_digits(&mut self, text: &[u8]) -> bool {
        self.digits.clear();
        for &character in text {
            let digit = match character {
                b' ' => continue,
                b'0'..=b'9' => character - b'0',
                b'A'..=b'F' => character - b'A' + 10,
                b'a'..=b'f' => character - b'a' + 10,
                _ => return false,
            };
            if self.digits.len() == MAX_DIGITS {
                return false;
            }
            self.digits.push(digit);
        }
        true
    }

    /// Obeys the line and appends its answer; false, with nothing appended and
    /// nothing changed, if the line has another form.
    fn obey(&mut self, letter: u8, out: &mut Vec<u8>) -> bool {
        if !right_count(letter, self.digits.len()) {
            return false;
        }
        match letter {
            b'P' => self.power_up(out),
            b'C' => self.command(out),
            b'E' => {
                self.read_words(0);
                print_text(out, format_args!("{}", explain(&self.board, &self.words)));
            }
            b'K' => {
                let ticks = self.number(0, 8) as u32;
                self.board.clock(ticks);
                out.push(b'0');
            }
            b'G' => return self.trigger(out),
            b'R' => self.reply(out),
            b'T' => self.time_up(out),
            b'F' => self.first_frame(out),
            b'B' => match self.board.begin_rate_pass() {
                Ok(()) => out.push(b'0'),
                Err(refusal) => print_refusal(refusal, out),
            },
            b'N' => match self.board.frames_sent(self.byte(0)) {
                Ok(number) => print_text(out, format_args!("0 {number}")),
                Err(refusal) => print_refusal(refusal, out),
            },
            b'W' => return self.write_command(out),
            b'X' => self.read_packet(out),
            b'Y' => return self.read_block(out),
            _ => self.block(letter, out),
        }
        true
    }

    fn power_up(&mut self, out: &mut Vec<u8>) {
        match Board::power_up(self.number(0, 16), self.number(16, 20) as u16) {
            Ok(board) => {
                self.board = board;
                out.push(b'0');
            }
            Err(refusal) => print_refusal(refusal, out),
        }
    }

    fn command(&mut self, out: &mut Vec<u8>) {
        self.read_words(0);
        match self.board.obey(&self.words) {
            Ok((done, used)) => {
                print_text(out, format_args!("0 {used} "));
                match done {
                    Done::Read(ReadBlock::Static) => out.extend_from_slice(b"read static"),
                    Done::Read(ReadBlock::Dynamic) => out.extend_from_slice(b"read dynamic"),
                    Done::Write => out.extend_from_slice(b"write"),
                    Done::Start => out.extend_from_slice(b"start"),
                    Done::Stop => out.extend_from_slice(b"stop"),
                    Done::Ping => out.extend_from_slice(b"ping"),
                    Done::Reset(number) => print_text(out, format_args!("reset {number}")),
                }
            }
            Err(refused) => {
                print_text(out, format_args!("{} {}", refused.refusal.number(), refused.used));
                if let Some(place) = refused.refusal.place() {
                    print_text(out, format_args!(" {place}"));
                }
            }
        }
    }

    fn trigger(&mut self, out: &mut Vec<u8>) -> bool {
        let flag = |place: usize| self.byte(place) == 1;
        if [1, 2, 3, 5, 6, 7].iter().any(|&place| self.byte(place) > 1) {
            return false;
        }
        let trigger = Trigger {
            n: self.byte(0),
            external_1: flag(1),
            external_2: flag(2),
            tim_source: flag(3),
            pulser_setting: self.byte(4),
            pedestal: flag(5),
            lp_2: flag(6),
            lp_1: flag(7),
        };
        let mut packet = [0; packets::BYTES];
        match self.board.trigger(&trigger, &mut packet) {
            Ok(()) => print_bytes(&packet, out),
            Err(refusal) => print_refusal(refusal, out),
        }
        true
    }

    fn reply(&mut self, out: &mut Vec<u8>) {
        self.read_bytes();
        let mut lent = [0; frames::BYTES];
        let answer = self.board.reply(self.bytes[0], &self.bytes[1..], &mut lent);
        print_answer(answer, &lent, out);
    }

    fn time_up(&mut self, out: &mut Vec<u8>) {
        let mut lent = [0; frames::BYTES];
        let answer = self.board.time_up(self.byte(0), &mut lent);
        print_answer(answer, &lent, out);
    }

    fn first_frame(&self, out: &mut Vec<u8>) {
        let mut lent = [0; frames::BYTES];
        match self.board.first_frame(self.byte(0), &mut lent) {
            Ok(()) => print_bytes(&lent, out),
            Err(refusal) => print_refusal(refusal, out),
        }
    }

    fn block(&mut self, letter: u8, out: &mut Vec<u8>) {
        let written = match letter {
            b'S' => self.board.static_block(&mut self.block),
            b'L' => self.board.ftu_list(&mut self.block),
            b'M' => {
                let ordinal = usize::from(self.byte(0));
                self.board.failure_message(ordinal, &mut self.block)
            }
            _ => {
                self.read_words(0);
                self.board.dynamic_block(&self.words, &mut self.block)
            }
        };
        match written {
            Ok(count) => print_words(&self.block[..count], out),
            Err(refusal) => print_refusal(refusal, out),
        }
    }

    /// `W`: the writer of commands; false if the line has another form.
    fn write_command(&mut self, out: &mut Vec<u8>) -> bool {
        let Some(command) = self.far_command() else {
            return false;
        };
        let mut words = [0; commands::HEAD + configuration::WORDS];
        match commands::write(&command, &mut words) {
            Ok(used) => print_words(&words[..used], out),
            Err(refusal) => print_refusal(refusal, out),
        }
        true
    }

    /// The command that a `W` line asks for.
    fn far_command(&mut self) -> Option<Command<'_>> {
        let count = self.digits.len();
        Some(match (self.byte(0), count) {
            (0x01, 4) => match self.byte(1) {
                1 => Command::Read(ReadBlock::Static),
                2 => Command::Read(ReadBlock::Dynamic),
                _ => return None,
            },
            (0x02, _) if count % 4 == 2 => {
                self.read_words(2);
                Command::Write(&self.words)
            }
            (0x04, 2) => Command::Start(Events::Endless),
            (0x04, 10) => Command::Start(Events::Counted(self.number(2, 10) as u32)),
            (0x08, 2) => Command::Stop,
            (0x10, 2) => Command::Ping,
            (0x20, 4) => Command::Reset(self.byte(1)),
            _ => return None,
        })
    }

    /// `X`: the reader of trigger packets.
    fn read_packet(&mut self, out: &mut Vec<u8>) {
        self.read_bytes();
        match packets::read(&self.bytes) {
            Ok((number, trigger)) => {
                print_text(out, format_args!("0 {number} {}", trigger.n));
                let flags = [trigger.external_1, trigger.external_2, trigger.tim_source];
                print_flags(&flags, out);
                print_text(out, format_args!(" {}", trigger.pulser_setting));
                print_flags(&[trigger.pedestal, trigger.lp_2, trigger.lp_1], out);
            }
            Err(refusal) => print_refusal(refusal, out),
        }
    }

    /// `Y`: the reader of blocks; false if there is no such kind.
    fn read_block(&mut self, out: &mut Vec<u8>) -> bool {
        let Some(&kind) = usize::from(self.byte(0)).checked_sub(1).and_then(|i| KINDS.get(i))
        else {
            return false;
        };
        self.read_words(2);
        match blocks::read(kind, &self.words) {
            Ok((header, body)) => {
                let blocks::Header { board_id, firmware_id, trigger_counter, timestamp } = header;
                print_text(out, format_args!("0 {board_id:016X} {firmware_id:04X} "));
                print_text(out, format_args!("{trigger_counter} {timestamp} "));
                push_words(body, out);
            }
            Err(refusal) => print_refusal(refusal, out),
        }
        true
    }

    /// The number in digits `from` to `to`.
    fn number(&self, from: usize, to: usize) -> u64 {
        self.digits[from..to].iter().fold(0, |sum, &digit| sum << 4 | u64::from(digit))
    }

    fn byte(&self, place: usize) -> u8 {
        self.digits[2 * place] << 4 | self.digits[2 * place + 1]
    }

    fn read_bytes(&mut self) {
        self.bytes.clear();
        self.bytes.extend(self.digits.chunks_exact(2).map(|pair| pair[0] << 4 | pair[1]));
    }

    /// Reads the words that stand in the digits from `from` on.
    fn read_words(&mut self, from: usize) {
        self.words.clear();
        self.words.extend(
            self.digits[from..]
                .chunks_exact(4)
                .map(|four| four.iter().fold(0u16, |sum, &digit| sum << 4 | u16::from(digit))),
        );
    }
}

/// Whether a line with this letter may have so many digits.
fn right_count(letter: u8, count: usize) -> bool {
    match letter {
        b'P' => count == 20,
        b'C' | b'E' | b'D' => count.is_multiple_of(4),
        b'K' => count == 8,
        b'G' => count == 16,
        b'R' => count >= 2 && count.is_multiple_of(2),
        b'T' | b'F' | b'N' | b'M' => count == 2,
        b'B' | b'S' | b'L' => count == 0,
        b'W' => count >= 2,
        b'X' => count.is_multiple_of(2),
        b'Y' => count % 4 == 2,
        _ => false,
    }
}

fn print_text(out: &mut Vec<u8>, text: std::fmt::Arguments) {
    out.write_fmt(text).expect("a vector takes all");
}

/// The number, and for 8 the place after it.
fn print_refusal(refusal: Refusal, out: &mut Vec<u8>) {
    print_text(out, format_args!("{}", refusal.number()));
    if let Some(place) = refusal.place() {
        print_text(out, format_args!(" {place}"));
    }
}

/// The answer to a reply or a time-up, with the frame that was handed out where
/// the crate is not done.
fn print_answer(answer: Result<Answer, Refusal>, next: &Frame, out: &mut Vec<u8>) {
    match answer {
        Ok(answer) => {
            out.extend_from_slice(match answer.outcome {
                Outcome::Good => b"0 good ",
                Outcome::Again => b"0 again ",
                Outcome::Failed => b"0 failed ",
            });
            if answer.done {
                out.extend_from_slice(b"done");
            } else {
                push_bytes(next, out);
            }
        }
        Err(refusal) => print_refusal(refusal, out),
    }
}

const DIGITS: &[u8; 16] = b"0123456789ABCDEF";

/// Appends the digits of these bytes.
pub fn push_bytes(bytes: &[u8], out: &mut Vec<u8>) {
    for &byte in bytes {
        out.push(DIGITS[usize::from(byte >> 4)]);
        out.push(DIGITS[usize::from(byte & 0x0F)]);
    }
}

/// Appends the digits of these words.
pub fn push_words(words: &[u16], out: &mut Vec<u8>) {
    for &word in words {
        push_bytes(&word.to_be_bytes(), out);
    }
}

fn print_bytes(bytes: &[u8], out: &mut Vec<u8>) {
    out.extend_from_slice(b"0 ");
    push_bytes(bytes, out);
}

fn print_words(words: &[u16], out: &mut Vec<u8>) {
    out.extend_from_slice(b"0 ");
    push_words(words, out);
}

fn print_flags(flags: &[bool], out: &mut Vec<u8>) {
    for &flag in flags {
        print_text(out, format_args!(" {}", u8::from(flag)));
    }
}

#[cfg(test)]
mod tests {
    use super::*;

    /// All lines of a script, with what they print.
    fn run(script: &str) -> String {
        let mut replay = Replay::new();
        let mut out = Vec::new();
        for line in script.split('\n') {
            replay.line(line.as_bytes(), &mut out);
        }
        String::from_utf8(out).unwrap()
    }

    #[test]
    fn forms_of_lines() {
        assert_eq!(run(""), "");
        assert_eq!(run("# note\n\nK0000000a"), "0\n");
        assert_eq!(run("K 0 0 0 0 0 0 0 1 \n K00000001\nk00000001\nK0000001"), "0\n?\n?\n?\n");
        assert_eq!(run("K00000001\r\nX0\nS0\nC004\nR\nR0\n\t"), "?\n?\n?\n?\n?\n?\n?\n");
        assert_eq!(run("P0200000000000000 0001\nP01FFFFFFFFFFFFFF 0001"), "20\n0\n");
        assert_eq!(run(&format!("C{}", "0".repeat(4096))), "2 0\n");
        assert_eq!(run(&format!("C{}", "0".repeat(4100))), "?\n");
        assert_eq!(run(&format!("D{}", "0".repeat(4096))), "6\n");
        assert_eq!(run("G29 000000 00 000000\nG28 000000 00 000000"), "15\n16\n");
        assert_eq!(run("G29 020000 00 000000"), "?\n");
    }

    #[test]
    fn words_of_commands() {
        let write = format!("C0040 0002 0001 0000 0000 {}", "0000".repeat(436));
        let script = format!(
            "C\nC00400001000100000000\nC004000010002000000000040\nC00400010000000000000\n\
             F00\nN00\nN04\nT00\nT04\nC00400010000000000000\n{write}\nL\nM00\nC00400020000400000000"
        );
        let expected = "1 0\n0 5 read static\n0 5 read dynamic\n0 5 ping\n\
             0 4000C00004000000000000000000000000000000000000000000001B\n0 1\n11\n\
             0 again 4000C00004000000000000000000000000000000000000000000001B\n11\n\
             9 5\n9 441\n9\n9\n9 5\n";
        assert_eq!(run(&script), expected);
        assert_eq!(
            run("C00400020000400000000\nM00\nT00\nF00\nF04\nN03"),
            "0 5 reset 2\n18\n12\n12\n11\n0 0\n"
        );
        let run_script = format!(
            "{write}\nC004000040002000000000000 0001\nG0400000000000000\nG0400000000000000\n\
             C00400004000100000000"
        );
        assert_eq!(run(&run_script), "0 441 write\n0 7 start\n0 010000001000D1\n16\n10 5\n");
    }

    #[test]
    fn explanations() {
        let long = format!("E{}", "0".repeat(4096));
        let write = format!("C0040 0002 0001 0000 0000 {}", "0000".repeat(436));
        check_lines(&[
            ("E", "1 missing 5"),
            ("E ", "1 missing 5"),
            ("E 0 0 4 0 0002", "1 missing 3"),
            ("E00410001000100000000", "2 word 0 is 0041, allowed 0040"),
            (
                "E0040 abcd 0001 0000 0000",
                "3 word 1 is ABCD, allowed 0001 0002 0004 0008 0010 0020",
            ),
            (&long, "2 word 0 is 0000, allowed 0040"),
            (&format!("{long}0000"), "?"),
            ("E004", "?"),
            ("E00400", "?"),
            ("E0040x000", "?"),
            ("e0040", "?"),
            (&write.replacen('C', "E", 1), "0 accepted"),
            ("E00400004000100000000", "10 nothing written"),
            (&write, "0 441 write"),
            ("E00400004000100000000 0040", "0 accepted"),
            ("C00400004000100000000", "0 5 start"),
            ("E00400004000100000000", "9 running"),
        ]);
    }

    /// The digits of the frame to a board whose words are zero.
    fn frame(crate_number: usize, board: usize, code: u8) -> String {
        let mut digits = Vec::new();
        push_bytes(&frames::write(crate_number, board, code, &[0; 10]), &mut digits);
        String::from_utf8(digits).unwrap()
    }

    /// What three time-ups print for each of these boards, the only ones of their
    /// crates.
    fn timed_out(boards: &[(usize, usize, u8)]) -> String {
        let lines = boards.iter().map(|&(crate_number, board, code)| {
            let again = format!("0 again {}\n", frame(crate_number, board, code));
            format!("{again}{again}0 failed done")
        });
        lines.collect::<Vec<_>>().join("\n")
    }

    /// Obeys the lines and compares what each prints.
    fn check_lines(rows: &[(&str, &str)]) {
        let lines: Vec<&str> = rows.iter().map(|row| row.0).collect();
        let printed: String = rows.iter().map(|row| format!("{}\n", row.1)).collect();
        assert_eq!(run(&lines.join("\n")), printed);
    }

    #[test]
    fn replies_and_first_frames() {
        // Board 3 of crate 0 answers, board 5 of crate 2 does not.
        let write = format!("C00400002000100000000{}0008000000200000", "0000".repeat(432));
        let dacs = "4003C00001000000000000000000000000000000000000000000003F";
        let [enables, prescaling] = [2, 3].map(|code| frame(0, 3, code));
        check_lines(&[
            ("F00", "12"),
            (&write, "0 441 write"),
            ("F00", &format!("0 {dacs}")),
            ("F 0 0", &format!("0 {dacs}")),
            ("F01", "12"),
            ("F04", "11"),
            (
                "R0040C00300010000000000000000000000000000000000000000000096",
                &format!("0 good {enables}"),
            ),
            ("F00", "12"),
            ("F02", &format!("0 {}", frame(2, 5, 1))),
            ("T02", &format!("0 again {}", frame(2, 5, 1))),
            ("R02", &format!("0 again {}", frame(2, 5, 1))),
            ("T02", "0 failed done"),
            ("T02", "12"),
            ("R02", "12"),
            ("R04", "11"),
            ("T04", "11"),
            ("T00", &format!("0 again {enables}")),
            (
                "R0040C0030002000000000000000000000000000000000000000000005A",
                &format!("0 good {prescaling}"),
            ),
            ("R0040C003000300000000000000000000000000000000000000000000E3", "0 good done"),
            ("F00", "12"),
        ]);
    }

    #[test]
    fn frames_of_a_ping() {
        let [first, second] = [0, 1].map(|board| frame(3, board, frames::PING));
        check_lines(&[
            ("C00400010000000000000", "0 5 ping"),
            ("F03", &format!("0 {first}")),
            ("R03", &format!("0 again {first}")),
            ("T03", &format!("0 again {first}")),
            ("R0340", &format!("0 failed {second}")),
            ("F03", "12"),
        ]);
    }

    #[test]
    fn places() {
        let mut words = vec!["0000"; 436];
        words[432] = "0400";
        let write = format!("C00400002000100000000{}", words.concat());
        assert_eq!(run(&write), "8 0 432\n");
    }

    #[test]
    fn dynamic_blocks() {
        let printed = run("P00000000000000010002\nK00000003\nD FFFF 4000 8000 3fff");
        let expected = format!(
            "0\n0\n0 0000000000000001000200000000000000000003{}FFFF400080003FFF{}\n",
            "0000".repeat(4),
            "0000".repeat(480)
        );
        assert_eq!(printed, expected);
        for words in (0..=8).chain([483, 484, 485, 487, 1024]).filter(|&words| words != 4) {
            assert_eq!(run(&format!("D{}", "FFFF".repeat(words))), "6\n");
        }
        assert_eq!(run("D 0000 0000 0000 000"), "?\n");
    }

    #[test]
    fn rate_passes() {
        // Board 3 of crate 0 answers, board 5 of crate 2 does not.
        let write = format!("C00400002000100000000{}0008000000200000", "0000".repeat(432));
        let [sound, dead] = [(0, 3), (2, 5)].map(|(c, board)| frame(c, board, frames::RATES));
        let rates = "3FFFFFFF 00000001 00000002 00000003 00011170 FF";
        let reply = format!("R00 40C00309 05 {rates} 07 DD");
        let zeros = format!("0 {}", "0000".repeat(498));
        let dynamic = format!(
            "0 {}3FFFFFFF0000000100000002000000030001117000FF0007{}",
            "0000".repeat(11 + 7 + 36),
            "0000".repeat(36 * 12)
        );
        check_lines(&[
            ("B0", "?"),
            ("B", "0"),
            (&write, "0 441 write"),
            ("B", "9"),
            ("T00\nT00\nT00\nT02\nT02\nT02", &timed_out(&[(0, 3, 1), (2, 5, 1)])),
            ("B ", "0"),
            ("B", "9"),
            ("F00", &format!("0 {sound}")),
            (&reply, "0 good done"),
            ("D0000000000000000", &zeros),
            ("L\nM00\nC00400004000100000000", "9\n9\n9 5"),
            ("T02", &format!("0 again {dead}")),
            ("T02", &format!("0 again {dead}")),
            ("T02", "0 failed done"),
            ("D0000000000000000", &dynamic),
            ("B", "0"),
            ("D0000000000000000", &dynamic),
        ]);
    }

    #[test]
    fn written_commands() {
        let script = "W0101\nW 01 02\nW04\nW04 00011170\nW08\nW10\nW2000\nW2003";
        let expected = "0 00400001000100000000\n0 00400001000200000000\n0 00400004000100000000\n\
             0 0040000400020000000000011170\n0 00400008000000000000\n0 00400010000000000000\n\
             0 00400020000100000000\n0 00400020000800000000\n";
        assert_eq!(run(script), expected);
        assert_eq!(run("W0400000000\nW2004\nW20FF\nW02\nW020000"), "7\n11\n11\n6\n6\n");
        let mut words = vec!["00FF"; 436];
        words[3] = "0fff";
        let block = words.concat();
        let printed = format!("0 00400002000100000000{}\n", block.to_uppercase());
        assert_eq!(run(&format!("W02{block}")), printed);
        words[435] = "0400";
        assert_eq!(run(&format!("W02{}", words.concat())), "8 435\n");
        assert_eq!(run(&format!("W02{}", "0".repeat(4092))), "6\n");
    }

    #[test]
    fn other_forms_of_the_far_end() {
        let lines = "W\nW0\nW00\nW03\nW0100\nW0103\nW01\nW010101\nW02000\nW0400\nW040001117\n\
             W0800\nW1000\nW20\nW200000\nX0\nY\nY0\nY00\nY05\nYFF\nY01000";
        assert_eq!(run(lines), "?\n".repeat(22));
        assert_eq!(run(&format!("W02{}", "0".repeat(4096))), "?\n");
        assert_eq!(run(&format!("X{}", "0".repeat(4096))), "13\n");
    }

    #[test]
    fn packets_of_the_paper() {
        let script = "X01000000000086\nX010000001000D1\nX020000000004E1\nX000000000000AF\nX\n\
             X010000001000\nX010000001000D0";
        let expected = "0 1 0 0 0 0 0 0 0 0\n0 1 4 0 0 0 0 0 0 0\n0 2 0 0 0 0 0 1 0 0\n\
             0 0 0 0 0 0 0 0 0 0\n13\n13\n14\n";
        assert_eq!(run(script), expected);
        // Those of 01, which start at 0x00, and a dead cable (02, g).
        let script = "X01000000000029\nX0100000010007E\nX0200000000044E\nX00000000000000";
        assert_eq!(run(script), "14\n14\n14\n14\n");
        // Each field by itself: byte 4, byte 5, and the number's low byte first.
        for (bytes, printed) in [
            ([1, 2, 3, 4, 0xA0, 0x00], "67305985 40 0 0 0 0 0 0 0"),
            ([0, 0, 0, 0, 0x01, 0x00], "0 0 1 0 0 0 0 0 0"),
            ([0, 0, 0, 0, 0x02, 0x00], "0 0 0 1 0 0 0 0 0"),
            ([0, 0, 0, 0, 0x00, 0x80], "0 0 0 0 1 0 0 0 0"),
            ([0, 0, 0, 0, 0x00, 0x78], "0 0 0 0 0 15 0 0 0"),
            ([0, 0, 0, 0, 0x00, 0x02], "0 0 0 0 0 0 0 1 0"),
            ([0xFF, 0xFF, 0xFF, 0xFF, 0x00, 0x01], "4294967295 0 0 0 0 0 0 0 1"),
        ] {
            let digits: String = bytes.iter().map(|byte| format!("{byte:02X}")).collect();
            let crc = crate::crc::crc8(0xFF, &bytes);
            assert_eq!(run(&format!("X{digits}{crc:02X}")), format!("0 {printed}\n"));
        }
    }

    #[test]
    fn blocks_read_back() {
        let head = "01FFFFFFFFFFFFFF ABCD 00011170 000100000002 0000";
        let fields = "0 01FFFFFFFFFFFFFF ABCD 70000 4294967298";
        for (kind, words) in [("01", 436), ("02", 487), ("03", 249), ("04", 29)] {
            let body = "00ab".repeat(words);
            let printed = format!("{fields} {}\n", body.to_uppercase());
            assert_eq!(run(&format!("Y {kind} {head} {body}")), printed);
            assert_eq!(run(&format!("Y{kind}{head}{body}0000")), "6\n");
            assert_eq!(run(&format!("Y{kind}{}", &head.replace(' ', "")[4..])), "6\n");
            let wide = head.replacen("01", "02", 1);
            assert_eq!(run(&format!("Y{kind}{wide}{body}")), "20\n");
            let high = "4000".repeat(words);
            let expected =
                ["8 0\n", "8 7\n", "20\n", "20\n"][usize::from(kind.as_bytes()[1] - b'1')];
            assert_eq!(run(&format!("Y{kind}{wide}{high}")), expected);
        }
    }
}
