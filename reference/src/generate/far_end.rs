//! Lines of the far end, the writer of commands and the readers of packets and
//! blocks: on what the script's board wrote, and on made-up words and bytes.

use super::{
    bytes_line, clock_line, mend, power_up_line, random_block, random_measurements, serve_pass,
    session_block, suited_command, temperatures_line, trigger_line, wrong_start, Random, Script,
    GROUP, SCRIPTS,
};
use crate::blocks::{Kind, HEADER};
use crate::board::Board;
use crate::commands::{Command, Events, ReadBlock};
use crate::packets;
use crate::replay::{push_words, KINDS, MAX_DIGITS};
use crate::ID_LIMIT;

/// The letters whose answers are blocks, in the order of `KINDS`.
const BLOCK_LETTERS: &[u8; 4] = b"SDLM";
/// X, and numbers of packets, at the edges.
const EDGES: [u32; 12] = [
    0,
    1,
    0x00FF,
    0x0100,
    0xFFFF,
    0x0001_0000,
    70_000,
    0x00FF_FFFF,
    0x0100_0000,
    0x7FFF_FFFF,
    0x8000_0000,
    u32::MAX,
];
/// Scripts that together have every length, or every place of a body.
const STRIDE: usize = 100;
/// Sorts of scripts of the far end, in turn.
const SORTS: usize = 4;
// `lengths` and `fields` need `STRIDE` scripts each: with fewer, the default
// scripts would leave out some lengths and places.
const _: () = assert!(SCRIPTS / GROUP / SORTS >= STRIDE);

/// A line that takes a block: `W 02` or `Y` and a kind.
#[derive(Clone, Copy)]
struct BlockLine {
    letter: u8,
    byte: u8,
    kind: Kind,
    /// Words of the header before the body.
    header: usize,
}

const WRITE: BlockLine = BlockLine { letter: b'W', byte: 2, kind: Kind::Static, header: 0 };
const BLOCK_LINES: [BlockLine; 5] =
    [WRITE, BlockLine::reader(0), BlockLine::reader(1), BlockLine::reader(2), BlockLine::reader(3)];

impl BlockLine {
    /// `Y` with the kind at this place of `KINDS`.
    const fn reader(place: usize) -> BlockLine {
        BlockLine { letter: b'Y', byte: place as u8 + 1, kind: KINDS[place], header: HEADER }
    }

    fn line(self, words: &[u16]) -> Vec<u8> {
        let mut line = bytes_line(self.letter, &[self.byte]);
        push_words(words, &mut line);
        line
    }

    /// The upper bound of the word at `place`, the header counted.
    fn bound(self, place: usize) -> u16 {
        match place.checked_sub(self.header) {
            Some(place) => self.kind.bound(place),
            None if place == 0 => (ID_LIMIT >> 48) as u16 - 1,
            None if place == HEADER - 1 => 0,
            None => 0xFFFF,
        }
    }

    /// A made-up block that is accepted.
    fn made_up(self, random: &mut Random) -> Vec<u16> {
        let mut words = header(random)[..self.header].to_vec();
        match self.kind {
            Kind::Static => words.extend(random_block(random)),
            Kind::Dynamic => {
                words.extend([random.word(), random.word(), random.word()]);
                words.extend(random_measurements(random));
            }
            Kind::List | Kind::Failure => {
                words.extend((0..self.kind.body_words()).map(|_| random.word()))
            }
        }
        words
    }

    /// Sets one to three bounded words of this range at or above their bounds.
    fn exceed(self, random: &mut Random, words: &mut [u16], range: std::ops::Range<usize>) {
        let bounded: Vec<usize> = range.filter(|&place| self.bound(place) < 0xFFFF).collect();
        if bounded.is_empty() {
            return;
        }
        for _ in 0..1 + random.below(3) {
            let place = random.choose(&bounded);
            let bound = self.bound(place);
            let (one_bit, any) = (1 << random.below(16), random.word());
            words[place] = random.choose(&[bound, bound + 1, bound + 1, 0xFFFF, one_bit, any]);
        }
    }

    /// Damages the header, the body or the length of a whole block, or several
    /// of these, so that the lowest number is asked for.
    fn damage(self, random: &mut Random, words: &mut Vec<u16>) {
        let due = words.len();
        if random.chance(45) {
            self.exceed(random, words, 0..self.header);
        }
        if random.chance(45) {
            self.exceed(random, words, self.header..due);
        }
        if random.chance(25) {
            let of_a_kind = random.choose(&KINDS).words();
            let (near, any) = (random.below(601), random.below(MAX_DIGITS / 4));
            let length = random.choose(&[due - 1, due + 1, of_a_kind, 0, near, any]);
            words.resize(length, random.word());
        }
    }
}

/// A header whose fields are zero, one, all ones, one bit or anything.
fn header(random: &mut Random) -> [u16; HEADER] {
    let mut words = [0; HEADER];
    for field in [0..4, 4..5, 5..7, 7..10] {
        match random.below(5) {
            0 => {}
            1 => words[field.end - 1] = 1,
            2 => words[field].fill(0xFFFF),
            3 => words[field.start + random.below(field.len())] = 1 << random.below(16),
            _ => words[field].fill_with(|| random.word()),
        }
    }
    words[0] &= (ID_LIMIT >> 48) as u16 - 1;
    words
}

/// A made-up packet that is accepted.
fn made_up_packet(random: &mut Random) -> [u8; packets::BYTES] {
    let any = random.number() as u32 >> random.below(32);
    let number = if random.chance(40) { random.choose(&EDGES) } else { any };
    let n = random.below(41);
    packet_of(random, number, n)
}

/// A packet with this number, this n of 0 to 63 and a right CRC (02, g).
fn packet_of(random: &mut Random, number: u32, n: usize) -> [u8; packets::BYTES] {
    let [first, second, third, fourth] = number.to_le_bytes();
    let type_1 = (n << 2 | random.below(4)) as u8;
    let mut packet = [first, second, third, fourth, type_1, random.byte(), 0];
    mend(packets::CRC_START, &mut packet);
    packet
}

/// Damages n, the start of the CRC, some bits or the length of a packet, or several
/// of these.
fn damage_packet(random: &mut Random, packet: &mut Vec<u8>) {
    if random.chance(35) {
        packet[4] = ((41 + random.below(23)) << 2 | random.below(4)) as u8;
        mend(packets::CRC_START, packet);
    }
    if random.chance(20) {
        mend(wrong_start(random, packets::CRC_START), packet);
    }
    if random.chance(45) {
        for _ in 0..1 + random.below(3) {
            packet[random.below(packets::BYTES)] ^= 1 << random.below(8);
        }
    }
    if random.chance(25) {
        let length = if random.chance(90) { random.below(21) } else { random.below(300) };
        packet.resize(length, random.byte());
        if random.chance(50) {
            mend(packets::CRC_START, packet);
        }
    }
}

pub(super) fn bytes_of(digits: &[u8]) -> Vec<u8> {
    let value = |digit: u8| char::from(digit).to_digit(16).expect("a hexadecimal digit") as u8;
    digits.chunks_exact(2).map(|pair| value(pair[0]) << 4 | value(pair[1])).collect()
}

fn words_of(digits: &[u8]) -> Vec<u16> {
    let bytes = bytes_of(digits);
    bytes.chunks_exact(2).map(|pair| u16::from_be_bytes([pair[0], pair[1]])).collect()
}

/// The `W` line of a command.
fn writer_line(command: &Command) -> Vec<u8> {
    match *command {
        Command::Read(ReadBlock::Static) => bytes_line(b'W', &[1, 1]),
        Command::Read(ReadBlock::Dynamic) => bytes_line(b'W', &[1, 2]),
        Command::Write(block) => WRITE.line(block),
        Command::Start(Events::Endless) => bytes_line(b'W', &[4]),
        Command::Start(Events::Counted(events)) => {
            let [first, second, third, fourth] = events.to_be_bytes();
            bytes_line(b'W', &[4, first, second, third, fourth])
        }
        Command::Stop => bytes_line(b'W', &[8]),
        Command::Ping => bytes_line(b'W', &[0x10]),
        Command::Reset(crate_number) => bytes_line(b'W', &[0x20, crate_number]),
    }
}

/// A command for the writer that suits the state, or that it refuses, or a
/// line of another form.
fn some_writer_line(random: &mut Random, board: &Board) -> Vec<u8> {
    let mut block = session_block(random).to_vec();
    match random.below(12) {
        0 => writer_line(&Command::Start(Events::Counted(random.choose(&EDGES)))),
        1 => writer_line(&Command::Reset(random.byte())),
        2 | 3 => {
            WRITE.damage(random, &mut block);
            WRITE.line(&block)
        }
        4 => other_form(random),
        _ => writer_line(&suited_command(random, board, &block)),
    }
}

/// A line of which most have no form of the far end.
fn other_form(random: &mut Random) -> Vec<u8> {
    let byte = random.byte();
    let mut line = match random.below(4) {
        0 => bytes_line(b'W', &[random.choose(&[1, 2, 4, 8, 0x10, 0x20, byte])]),
        1 => bytes_line(b'W', &[1, random.choose(&[0, 3, byte])]),
        2 => bytes_line(b'Y', &[random.choose(&[0, 1, 5, byte])]),
        _ => bytes_line(b'X', &[byte]),
    };
    if random.chance(50) {
        line.resize(line.len() + random.below(10), b'0');
    }
    line
}

/// The command that the far end wrote last, obeyed.
fn obeyed_line(script: &Script) -> Option<Vec<u8>> {
    script.written.get(&b'W').map(|digits| [b"C", &digits[..]].concat())
}

/// An `X` line: the packet that the board wrote last, or a made-up one; in
/// `damaged` of 100 cases it is damaged.
fn packet_line(random: &mut Random, packet: Option<&Vec<u8>>, damaged: usize) -> Vec<u8> {
    let mut packet =
        packet.map_or_else(|| made_up_packet(random).to_vec(), |digits| bytes_of(digits));
    if random.chance(damaged) {
        damage_packet(random, &mut packet);
    }
    bytes_line(b'X', &packet)
}

/// A `Y` line of the kind at this place: the block that the board wrote last,
/// or a made-up one; in `damaged` of 100 cases it is damaged, or read as
/// another kind.
fn block_line(
    random: &mut Random,
    place: usize,
    block: Option<&Vec<u8>>,
    damaged: usize,
) -> Vec<u8> {
    let mut reader = BlockLine::reader(place);
    let mut words = block.map_or_else(|| reader.made_up(random), |digits| words_of(digits));
    if random.chance(damaged) {
        if random.chance(80) {
            reader.damage(random, &mut words);
        } else {
            let any = random.byte();
            reader.byte = random.choose(&[0, 1, 2, 3, 4, 5, 255, any]);
        }
    }
    reader.line(&words)
}

/// One line of the far end, or a command of its writer obeyed.
pub(super) fn line(random: &mut Random, script: &Script) -> Vec<u8> {
    let board_wrote = random.chance(60);
    let written = |letter: u8| script.written.get(&letter).filter(|_| board_wrote);
    match random.weighted(&[5, 3, 6, 6]) {
        0 => some_writer_line(random, script.board()),
        1 => obeyed_line(script).unwrap_or_else(|| writer_line(&Command::Ping)),
        2 => packet_line(random, written(b'G'), 50),
        _ => {
            let place = random.weighted(&[2, 2, 3, 5]);
            block_line(random, place, written(BLOCK_LETTERS[place]), 50)
        }
    }
}

/// Adds the line that reads what the board wrote last at this letter.
pub(super) fn read_back(random: &mut Random, script: &mut Script, letter: u8) {
    let Some(digits) = script.written.get(&letter) else {
        return;
    };
    let line = match BLOCK_LETTERS.iter().position(|&other| other == letter) {
        Some(place) => block_line(random, place, Some(digits), 30),
        None => packet_line(random, Some(digits), 30),
    };
    script.push_styled(random, &line);
}

/// Scripts of the far end.
pub(super) fn scripts(random: &mut Random, index: usize) -> Vec<u8> {
    let mut script = Script::new();
    let part = index / SORTS;
    match index % SORTS {
        0 => lengths(random, &mut script, part),
        1 => fields(random, &mut script, part),
        2 => {
            packet_fields(random, &mut script);
            packet_starts(random, &mut script);
            stuck_lines(&mut script);
            forms(random, &mut script, part);
        }
        _ => exchange(random, &mut script),
    }
    script.text
}

/// Blocks and packets of the lengths that `part` stands for, up to one word and
/// one byte more than a line can have; and always those near the right ones.
fn lengths(random: &mut Random, script: &mut Script, part: usize) {
    let longest = MAX_DIGITS / 4;
    for form in BLOCK_LINES {
        let mut words = form.made_up(random);
        let due = words.len();
        words.resize(longest, random.word());
        if random.chance(30) {
            form.exceed(random, &mut words, 0..due);
        }
        let near = [due - 2, due - 1, due, due + 1, due + 2, longest - 1];
        for length in (part % STRIDE..=longest).step_by(STRIDE).chain(near) {
            let mut line = form.line(&words[..length]);
            script.push(&line);
            if random.chance(10) {
                line.truncate(line.len().max(4) - 1 - random.below(3));
                script.push(&line);
            }
        }
    }
    let longest = MAX_DIGITS / 2;
    let near = (0..=20).chain([longest, longest + 1]);
    for length in (part % STRIDE..=longest).step_by(STRIDE).chain(near) {
        let mut packet = made_up_packet(random).to_vec();
        packet.resize(length, random.byte());
        script.push(&bytes_line(b'X', &packet));
        mend(packets::CRC_START, &mut packet);
        let mut line = bytes_line(b'X', &packet);
        script.push(&line);
        line.push(b'0');
        script.push(&line);
    }
}

/// Words at and above their bounds: in the header, at the places of the body
/// that `part` stands for, and several at once.
fn fields(random: &mut Random, script: &mut Script, part: usize) {
    for form in BLOCK_LINES {
        let whole = form.made_up(random);
        let body = (form.header + part % STRIDE..whole.len()).step_by(STRIDE);
        let head = [0, 1 + random.below(HEADER - 2), HEADER - 1];
        let head = head.into_iter().filter(|&place| place < form.header);
        for place in head.chain(body) {
            let bound = form.bound(place);
            for value in [bound, bound.wrapping_add(1), 0xFFFF] {
                let mut words = whole.clone();
                words[place] = value;
                script.push(&form.line(&words));
            }
        }
        for _ in 0..4 {
            let mut words = whole.clone();
            form.damage(random, &mut words);
            script.push(&form.line(&words));
        }
    }
    let shortest = BlockLine::reader(KINDS.len() - 1);
    for place in [0, HEADER - 1] {
        for bit in 0..16 {
            let mut words = shortest.made_up(random);
            words[place] = 1 << bit;
            script.push(&shortest.line(&words));
        }
    }
}

/// Packets with every n, every edge of the number, and every bit changed.
fn packet_fields(random: &mut Random, script: &mut Script) {
    for n in 0..64 {
        let number = random.number() as u32;
        let mut packet = packet_of(random, number, n);
        script.push(&bytes_line(b'X', &packet));
        packet[packets::BYTES - 1] ^= 1 << random.below(8);
        script.push(&bytes_line(b'X', &packet));
    }
    for number in EDGES {
        let n = random.below(41);
        let packet = packet_of(random, number, n);
        script.push(&bytes_line(b'X', &packet));
    }
    let packet = made_up_packet(random);
    for bit in 0..8 * packets::BYTES {
        let mut changed = packet;
        changed[bit / 8] ^= 1 << (bit % 8);
        script.push(&bytes_line(b'X', &changed));
        mend(packets::CRC_START, &mut changed);
        script.push(&bytes_line(b'X', &changed));
    }
}

/// Packets with a CRC from every start (02, g), and with every n and the CRC from
/// 0x00, the start that 01 gives.
fn packet_starts(random: &mut Random, script: &mut Script) {
    for start in 0..=255 {
        let mut packet = made_up_packet(random);
        mend(start, &mut packet);
        script.push(&bytes_line(b'X', &packet));
    }
    for n in 0..64 {
        let number = random.number() as u32 >> random.below(32);
        let mut packet = packet_of(random, number, n);
        mend(0x00, &mut packet);
        script.push(&bytes_line(b'X', &packet));
    }
}

/// What a line that is stuck low, as with its cable pulled (02, g), or high gives,
/// of every length up to 20.
fn stuck_lines(script: &mut Script) {
    for byte in [0x00, 0xFF] {
        for length in 0..=20 {
            script.push(&bytes_line(b'X', &vec![byte; length]));
        }
    }
}

/// The bytes that `part` stands for where an ID, a block, a crate or a kind
/// stands; X at the edges; and each command with 0 to 12 digits after its ID.
fn forms(random: &mut Random, script: &mut Script, part: usize) {
    let failure = BlockLine::reader(KINDS.len() - 1).made_up(random);
    for byte in (part % 16..256).step_by(16).map(|byte| byte as u8) {
        script.push(&bytes_line(b'W', &[byte]));
        script.push(&bytes_line(b'W', &[1, byte]));
        script.push(&bytes_line(b'W', &[0x20, byte]));
        script.push(&bytes_line(b'Y', &[byte]));
        script.push(&BlockLine { byte, ..BlockLine::reader(0) }.line(&failure));
    }
    for events in EDGES {
        script.push(&writer_line(&Command::Start(Events::Counted(events))));
    }
    for id in [0x00, 0x01, 0x02, 0x04, 0x08, 0x10, 0x20, 0x40] {
        let mut line = bytes_line(b'W', &[id]);
        for _ in 0..=12 {
            script.push(&line);
            line.push(random.choose(b"0123"));
        }
    }
    for line in [&b"W"[..], b"W0", b"X", b"X0", b"Y", b"Y0", b"Y0", b"Y010", b"Y0100"] {
        script.push(line);
    }
}

/// A board and its far end: commands written and obeyed, and what the board
/// sends read.
fn exchange(random: &mut Random, script: &mut Script) {
    script.push(&power_up_line(random.number() % ID_LIMIT, random.word()));
    for _ in 0..6 + random.below(10) {
        let block = session_block(random);
        let command = suited_command(random, script.board(), &block);
        script.push(&writer_line(&command));
        let obeyed = obeyed_line(script).expect("the command is valid");
        script.push(&obeyed);
        if random.chance(80) {
            serve_pass(random, script, 85);
        }
        if random.chance(25) {
            script.push(b"B");
            serve_pass(random, script, 85);
        }
        for _ in 0..random.below(12) {
            if !script.is_running() {
                break;
            }
            script.push(&clock_line(random));
            script.push(&trigger_line(random));
            read_back(random, script, b'G');
        }
        for letter in *BLOCK_LETTERS {
            if random.chance(40) {
                let line = match letter {
                    b'M' => bytes_line(b'M', &[random.below(3) as u8]),
                    b'D' => temperatures_line(random),
                    _ => vec![letter],
                };
                script.push(&line);
                read_back(random, script, letter);
            }
        }
    }
}

#[cfg(test)]
mod tests {
    use std::collections::BTreeSet;

    use super::super::words_line;
    use super::*;
    use crate::crc::crc8;

    fn answer(script: &mut Script, line: &[u8]) -> String {
        script.push(line);
        String::from_utf8(script.answers.clone()).expect("answers are text")
    }

    #[test]
    fn made_up_ones_are_accepted() {
        let mut random = Random::new(1);
        let random = &mut random;
        let mut script = Script::new();
        for _ in 0..50 {
            for form in BLOCK_LINES {
                let line = form.line(&form.made_up(random));
                assert!(answer(&mut script, &line).starts_with("0 "));
            }
            let line = bytes_line(b'X', &made_up_packet(random));
            assert!(answer(&mut script, &line).starts_with("0 "));
        }
    }

    /// Only the packets with the right start are read, and no stuck line is.
    #[test]
    fn starts_and_stuck_lines() {
        let mut random = Random::new(5);
        let mut script = Script::new();
        packet_starts(&mut random, &mut script);
        stuck_lines(&mut script);
        let text = String::from_utf8(script.text.clone()).expect("scripts are text");
        let mut read = 0;
        for line in text.lines() {
            let answer = answer(&mut script, line.as_bytes());
            let bytes = bytes_of(&line.as_bytes()[1..]);
            match &bytes[..] {
                [others @ .., last] if bytes.len() == packets::BYTES => {
                    let right = *last == crc8(packets::CRC_START, others);
                    assert_eq!(answer == "14\n", !right, "{line}");
                    read += usize::from(right);
                }
                _ => assert_eq!(answer, "13\n", "{line}"),
            }
        }
        assert_eq!(read, 1);
    }

    /// Over `STRIDE` parts, lines have every count of digits that their letter
    /// can have.
    #[test]
    fn every_length() {
        let mut random = Random::new(3);
        let mut seen = BTreeSet::new();
        for part in 0..STRIDE {
            let text = scripts(&mut random, SORTS * part);
            for line in text.split(|&byte| byte == b'\n').filter(|line| !line.is_empty()) {
                let byte = if line[0] == b'X' { &[][..] } else { line.get(1..3).unwrap_or(&[]) };
                seen.insert((line[0], byte.to_vec(), line.len() - 1));
            }
        }
        for count in 0..=MAX_DIGITS + 3 {
            assert!(seen.contains(&(b'X', vec![], count)), "X with {count} digits");
        }
        for form in BLOCK_LINES {
            let byte = bytes_line(b'0', &[form.byte])[1..].to_vec();
            for count in (2..=MAX_DIGITS + 2).step_by(4) {
                let line = (form.letter, byte.clone(), count);
                assert!(seen.contains(&line), "{line:?}");
            }
        }
    }

    #[test]
    fn written_and_obeyed() {
        let mut random = Random::new(2);
        let random = &mut random;
        let mut script = Script::new();
        let block = random_block(random);
        script.push(&writer_line(&Command::Write(&block)));
        let line = obeyed_line(&script).expect("a command was written");
        assert_eq!(answer(&mut script, &line), "0 441 write\n");
        script.push(b"S");
        let line = block_line(random, 0, script.written.get(&b'S'), 0);
        let body = words_line(b' ', &block);
        let expected = [b"0 0000000000000000 0000 0 0", &body[..], b"\n"].concat();
        assert_eq!(answer(&mut script, &line).as_bytes(), expected);
    }
}
