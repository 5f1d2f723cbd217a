//! The generator of scripts: families of scripts, each determined by a seed
//! and a number. The model runs beside the generator, so that scripts can
//! answer the frames that it handed out.

use std::collections::BTreeMap;

use crate::blocks::{self, RATE_LIMIT, TEMPERATURES};
use crate::board::{Board, Mode, PassKind};
use crate::commands::{self, Command, Events, ReadBlock};
use crate::configuration::{self, ACTIVE};
use crate::crc::crc8;
use crate::frames::{self, Frame};
use crate::replay::{push_bytes, push_words, Replay, MAX_DIGITS};
use crate::{BOARDS, BOARDS_PER_CRATE, CRATES, ID_LIMIT};

mod between;
mod explanations;
mod far_end;
mod rates;

pub use between::{between, Interleaved, Part};
pub use explanations::explained;

/// Scripts compared where no other number is asked for.
pub const SCRIPTS: usize = 4400;
/// Scripts of a group: two sessions and one of each other family.
const GROUP: usize = 11;

/// The splitmix64 random number generator.
pub struct Random(u64);

impl Random {
    pub fn new(seed: u64) -> Random {
        Random(seed)
    }

    pub fn number(&mut self) -> u64 {
        self.0 = self.0.wrapping_add(0x9E37_79B9_7F4A_7C15);
        let mut z = self.0;
        z = (z ^ (z >> 30)).wrapping_mul(0xBF58_476D_1CE4_E5B9);
        z = (z ^ (z >> 27)).wrapping_mul(0x94D0_49BB_1331_11EB);
        z ^ (z >> 31)
    }

    /// A number below `limit`.
    pub fn below(&mut self, limit: usize) -> usize {
        (self.number() % limit as u64) as usize
    }

    pub fn chance(&mut self, percent: usize) -> bool {
        self.below(100) < percent
    }

    pub fn choose<T: Copy>(&mut self, values: &[T]) -> T {
        values[self.below(values.len())]
    }

    pub fn byte(&mut self) -> u8 {
        self.number() as u8
    }

    pub fn word(&mut self) -> u16 {
        self.number() as u16
    }

    /// An index, by weights.
    fn weighted(&mut self, weights: &[usize]) -> usize {
        let mut value = self.below(weights.iter().sum());
        for (index, &weight) in weights.iter().enumerate() {
            if value < weight {
                return index;
            }
            value -= weight;
        }
        unreachable!("the value is below the sum of the weights")
    }
}

/// A line of a letter and bytes.
pub fn bytes_line(letter: u8, bytes: &[u8]) -> Vec<u8> {
    let mut line = vec![letter];
    push_bytes(bytes, &mut line);
    line
}

/// A line of a letter and words.
pub fn words_line(letter: u8, words: &[u16]) -> Vec<u8> {
    let mut line = vec![letter];
    push_words(words, &mut line);
    line
}

/// A line of a letter, a crate byte and a reply's bytes.
fn reply_line(crate_number: u8, reply: &[u8]) -> Vec<u8> {
    let mut line = bytes_line(b'R', &[crate_number]);
    push_bytes(reply, &mut line);
    line
}

/// The words of a command.
fn command_words(command: &Command) -> Vec<u16> {
    let mut words = vec![0; commands::HEAD + configuration::WORDS];
    let used = commands::write(command, &mut words).expect("the command is valid");
    words.truncate(used);
    words
}

/// A line of a command.
pub fn command_line(command: &Command) -> Vec<u8> {
    words_line(b'C', &command_words(command))
}

/// A power-up line.
fn power_up_line(board_id: u64, firmware_id: u16) -> Vec<u8> {
    let mut line = bytes_line(b'P', &board_id.to_be_bytes());
    push_words(&[firmware_id], &mut line);
    line
}

/// The crate of a line that has one below 4: the second digit is its number.
pub fn crate_in(line: &[u8]) -> usize {
    let second = line[1..].iter().filter(|&&byte| byte != b' ').nth(1);
    usize::from(second.expect("two digits of a crate") - b'0')
}

/// The kinds of passes.
const PASS_KINDS: [PassKind; 3] = [PassKind::Reprogramming, PassKind::Ping, PassKind::Rates];
/// The bounded words of the static block.
const BOUNDED: [usize; 8] = [0, 1, 2, 3, 432, 433, 434, 435];
/// The bytes of a trigger that are flags.
const FLAGS: [usize; 6] = [1, 2, 3, 5, 6, 7];

/// A script while it is made, with the model that has obeyed it so far.
struct Script {
    text: Vec<u8>,
    replay: Replay,
    answers: Vec<u8>,
    /// The frame handed out last on each crate, none once it is done: what a bus
    /// driver has in hand (02, d).
    frames: [Option<Frame>; CRATES],
    /// The digits of the last block, packet or command written at each letter.
    written: BTreeMap<u8, Vec<u8>>,
}

impl Script {
    fn new() -> Script {
        Script {
            text: Vec::new(),
            replay: Replay::new(),
            answers: Vec::new(),
            frames: [None; CRATES],
            written: BTreeMap::new(),
        }
    }

    fn board(&self) -> &Board {
        self.replay.board()
    }

    fn mode(&self) -> Mode {
        self.board().mode()
    }

    fn in_pass(&self) -> bool {
        self.mode().pass.is_some()
    }

    fn is_running(&self) -> bool {
        self.mode().run.is_some()
    }

    /// The frame that waits for a reply from this crate.
    fn frame(&self, crate_number: u8) -> Option<&Frame> {
        self.frames.get(usize::from(crate_number))?.as_ref()
    }

    /// Adds a line; it may have line feeds inside.
    fn push(&mut self, line: &[u8]) {
        for part in line.split(|&byte| byte == b'\n') {
            self.answers.clear();
            self.replay.line(part, &mut self.answers);
            self.keep_frames(part);
            self.keep_written(part);
        }
        self.text.extend_from_slice(line);
        self.text.push(b'\n');
    }

    /// Keeps the frame that the answer to this line handed out; where the line
    /// began a pass, or powered up, fetches the first frames.
    fn keep_frames(&mut self, line: &[u8]) {
        let Some(&letter) = line.first() else {
            return;
        };
        let mut fields = self.answers.trim_ascii_end().split(|&byte| byte == b' ');
        let accepted = fields.next() == Some(&b"0"[..]);
        match (letter, fields.next_back()) {
            (b'R' | b'T', Some(b"done")) => self.frames[crate_in(line)] = None,
            (b'R' | b'T', Some(digits)) => {
                let frame = far_end::bytes_of(digits).try_into().expect("28 bytes");
                self.frames[crate_in(line)] = Some(frame);
            }
            (b'C', Some(b"write" | b"ping")) => self.fetch_first_frames(),
            (b'P' | b'B', None) if accepted => self.fetch_first_frames(),
            _ => {}
        }
    }

    fn fetch_first_frames(&mut self) {
        for crate_number in 0..CRATES {
            let mut lent = [0; frames::BYTES];
            let fetched = self.board().first_frame(crate_number as u8, &mut lent);
            self.frames[crate_number] = fetched.ok().map(|()| lent);
        }
    }

    /// Keeps what this line wrote, for the far end or the board to read.
    fn keep_written(&mut self, line: &[u8]) {
        if let (Some(letter @ (b'S' | b'D' | b'L' | b'M' | b'G' | b'W')), Some(digits)) =
            (line.first(), self.answers.strip_prefix(b"0 "))
        {
            let kept = self.written.entry(*letter).or_default();
            kept.clear();
            kept.extend_from_slice(digits.trim_ascii_end());
        }
    }

    /// Adds a line, now and then with spaces and small digits.
    fn push_styled(&mut self, random: &mut Random, line: &[u8]) {
        if random.chance(92) {
            return self.push(line);
        }
        let mut styled = vec![line[0]];
        for &byte in &line[1..] {
            if random.chance(20) {
                styled.resize(styled.len() + 1 + random.below(3), b' ');
            }
            styled.push(if random.chance(50) { byte.to_ascii_lowercase() } else { byte });
        }
        if random.chance(30) {
            styled.push(b' ');
        }
        self.push(&styled);
    }

    fn command(&mut self, command: &Command) {
        self.push(&command_line(command));
    }

    /// Lets the boards time out until no pass is under way.
    fn run_out(&mut self) {
        for crate_number in 0..CRATES as u8 {
            while self.frame(crate_number).is_some() {
                self.push(&bytes_line(b'T', &[crate_number]));
            }
        }
    }
}

/// A block within its bounds.
fn random_block(random: &mut Random) -> [u16; configuration::WORDS] {
    let mut block = [0; configuration::WORDS];
    let few = random.chance(30);
    for (place, word) in block.iter_mut().enumerate() {
        if few && random.chance(80) {
            continue;
        }
        let bound = configuration::bound(place);
        *word = if random.chance(10) { bound } else { random.word() & bound };
    }
    let kind = random.below(6);
    for crate_number in 0..CRATES {
        block[ACTIVE + crate_number] = match kind {
            0 => 0,
            1 => 0x03FF,
            2 => random.word() & 0x03FF,
            3 => 1 << random.below(BOARDS_PER_CRATE),
            4 => random.word() & random.word() & 0x03FF,
            _ => {
                let one = 1 << random.below(BOARDS_PER_CRATE);
                let some = random.word() & 0x03FF;
                random.choose(&[0, one, some, 0x03FF])
            }
        };
    }
    if random.chance(10) {
        block[ACTIVE..].fill(0);
        let crate_number = random.below(CRATES);
        block[ACTIVE + crate_number] = 1 << random.below(BOARDS_PER_CRATE);
    }
    block
}

/// A block of which few or no boards are active, for short passes.
fn quiet_block(random: &mut Random) -> [u16; configuration::WORDS] {
    let mut block = random_block(random);
    block[ACTIVE..].fill(0);
    if random.chance(50) {
        for _ in 0..1 + random.below(2) {
            let crate_number = random.below(CRATES);
            block[ACTIVE + crate_number] |= 1 << random.below(BOARDS_PER_CRATE);
        }
    }
    block
}

/// The temperatures and rates of a dynamic body, within their bounds.
fn random_measurements(random: &mut Random) -> [u16; blocks::MEASUREMENTS] {
    let mut words = [0; blocks::MEASUREMENTS];
    for (place, word) in words.iter_mut().enumerate() {
        *word = random.word() & blocks::measurement_bound(place);
    }
    words
}

/// A crate byte, mostly of a crate that there is.
fn crate_byte(random: &mut Random) -> u8 {
    match random.below(40) {
        0 => 4,
        1 => 255,
        2 => random.byte(),
        _ => random.below(CRATES) as u8,
    }
}

/// A good reply to `sent`.
fn good_reply(random: &mut Random, sent: &Frame) -> Frame {
    let mut reply = *sent;
    reply.swap(1, 2);
    if sent[4] == frames::PING {
        let dna = match random.below(8) {
            0 => 0,
            1 => ID_LIMIT - 1,
            _ => random.number() % ID_LIMIT,
        };
        reply[5..13].copy_from_slice(&dna.to_be_bytes());
    }
    if sent[4] == frames::RATES {
        put_counts(random, &mut reply);
    }
    if random.chance(60) {
        reply[3] = random.byte();
    }
    if random.chance(60) {
        reply[26] = random.byte();
    }
    mend(frames::CRC_START, &mut reply);
    reply
}

/// Puts five counts below 2^30 and an overflow into a reply (02, i); the total is
/// the sum, modulo 2^30, in half of the cases.
fn put_counts(random: &mut Random, reply: &mut Frame) {
    let mut counts = [0; 5];
    for count in &mut counts {
        let any = random.number() as u32 >> random.below(32);
        *count = random.choose(&[0, 1, RATE_LIMIT - 1, any, any, any, any]) % RATE_LIMIT;
    }
    if random.chance(50) {
        let sum = counts[..4].iter().fold(0u32, |sum, &count| sum.wrapping_add(count));
        counts[4] = sum % RATE_LIMIT;
    }
    for (bytes, count) in reply[5..25].chunks_exact_mut(4).zip(counts) {
        bytes.copy_from_slice(&count.to_be_bytes());
    }
    if random.chance(60) {
        reply[25] = random.byte();
    }
}

/// Puts one count at or near 2^30, or high above it, into a reply.
fn put_count_at_its_bound(random: &mut Random, reply: &mut Frame) {
    let any = random.number() as u32 | RATE_LIMIT << random.below(2);
    let count = random.choose(&[
        RATE_LIMIT - 1,
        RATE_LIMIT,
        RATE_LIMIT,
        RATE_LIMIT + 1,
        1 << 31,
        u32::MAX,
        u32::MAX,
        any,
    ]);
    let place = 5 + 4 * random.below(5);
    reply[place..place + 4].copy_from_slice(&count.to_be_bytes());
}

/// Makes the last byte the CRC, from this start, of those before it.
fn mend(start: u8, bytes: &mut [u8]) {
    if let Some((last, others)) = bytes.split_last_mut() {
        *last = crc8(start, others);
    }
}

/// A start of the CRC that is not `right`, 0x00 or 0xFF: mostly the other of these
/// (02, g).
fn wrong_start(random: &mut Random, right: u8) -> u8 {
    if random.chance(60) {
        !right
    } else {
        right ^ (1 + random.below(255)) as u8
    }
}

/// The frame that a reply from this crate is made for: the one handed out, or
/// one of another time where there is none.
fn frame_for(random: &mut Random, script: &Script, crate_number: u8) -> Frame {
    script.frame(crate_number).copied().unwrap_or_else(|| {
        some_frame(random, script.board().block(), usize::from(crate_number) % CRATES)
    })
}

/// A frame of any step of any board of this crate.
fn some_frame(
    random: &mut Random,
    block: &[u16; configuration::WORDS],
    crate_number: usize,
) -> Frame {
    let code = some_code(random);
    let number = random.below(BOARDS_PER_CRATE);
    frames::for_board(block, crate_number, number, code)
}

/// A reply that is probably bad: one thing is wrong in an otherwise good one.
fn odd_reply(random: &mut Random, script: &Script, crate_number: u8) -> Vec<u8> {
    let block = script.board().block();
    let sent = frame_for(random, script, crate_number);
    let mut reply = good_reply(random, &sent);
    if sent[4] == frames::RATES && random.chance(40) {
        put_count_at_its_bound(random, &mut reply);
        mend(frames::CRC_START, &mut reply);
        return reply.to_vec();
    }
    match random.below(15) {
        // One byte changed, the CRC left.
        0 => reply[random.below(28)] ^= 1 << random.below(8),
        1 => reply[random.below(28)] = random.byte(),
        5 => return other_length(random, &reply),
        // Data of another step, or of another board.
        8 => {
            let crate_of = random.below(CRATES);
            reply[5..26].copy_from_slice(&some_frame(random, block, crate_of)[5..26]);
            mend(frames::CRC_START, &mut reply);
        }
        // A whole reply of another step of this board.
        9 => {
            let code = some_code(random);
            let number = usize::from(sent[1] & 15) % BOARDS_PER_CRATE;
            let crate_of = usize::from(sent[1] >> 4) % CRATES;
            let other = frames::for_board(block, crate_of, number, code);
            reply = good_reply(random, &other);
        }
        13 => return some_bytes(random),
        14 => mend(wrong_start(random, frames::CRC_START), &mut reply),
        kind => {
            change(random, &mut reply, kind);
            mend(frames::CRC_START, &mut reply);
        }
    }
    reply.to_vec()
}

fn some_code(random: &mut Random) -> u8 {
    random.choose(&[frames::DACS, frames::ENABLES, frames::PRESCALING, frames::PING, frames::RATES])
}

/// Changes something in a reply; the CRC is to be made right again.
fn change(random: &mut Random, reply: &mut Frame, kind: usize) {
    match kind {
        // One byte.
        2 | 3 => reply[random.below(27)] ^= 1 << random.below(8),
        4 => reply[random.below(27)] = random.byte(),
        // Addresses not exchanged.
        6 => reply.swap(1, 2),
        // Another code.
        7 => reply[4] = random.choose(&[0, 1, 2, 3, 4, 5, 6, 255]),
        // A DNA at its bound, or bytes after it.
        10 => {
            let dna = random.choose(&[ID_LIMIT - 1, ID_LIMIT, ID_LIMIT + 1, u64::MAX, 1 << 63]);
            reply[5..13].copy_from_slice(&dna.to_be_bytes());
        }
        11 => reply[13 + random.below(13)] = 1 << random.below(8),
        // A board of another crate, or another board of this one.
        _ => {
            if random.chance(50) {
                reply[2] = (reply[2] + 16 * (1 + random.below(3)) as u8) & 63;
            } else {
                reply[2] = reply[2] & 0xF0 | random.below(BOARDS_PER_CRATE) as u8;
            }
        }
    }
}

/// A good reply with another length.
fn other_length(random: &mut Random, good: &Frame) -> Vec<u8> {
    let mut reply = good.to_vec();
    if random.chance(30) {
        reply.truncate(random.below(28));
    } else if random.chance(50) {
        reply.truncate(27);
        mend(frames::CRC_START, &mut reply);
    } else {
        reply.resize(29 + random.below(4), 0);
        if random.chance(50) {
            mend(frames::CRC_START, &mut reply);
        }
    }
    reply
}

/// Something that is no reply at all.
fn some_bytes(random: &mut Random) -> Vec<u8> {
    let length = random.choose(&[0, 1, 27, 28, 28, 28, 29, 60]);
    let mut bytes: Vec<u8> = (0..length).map(|_| random.byte()).collect();
    if random.chance(30) {
        bytes.fill(0);
    }
    bytes
}

/// What an item of a pass is, beside its crate (02, d).
pub enum ItemKind {
    Reply(Vec<u8>),
    TimeUp,
    FirstFrame,
}

/// An item of a pass.
pub struct Item {
    pub crate_number: u8,
    pub kind: ItemKind,
}

impl Item {
    pub fn line(&self) -> Vec<u8> {
        match &self.kind {
            ItemKind::Reply(reply) => reply_line(self.crate_number, reply),
            ItemKind::TimeUp => bytes_line(b'T', &[self.crate_number]),
            ItemKind::FirstFrame => bytes_line(b'F', &[self.crate_number]),
        }
    }
}

/// An item for this crate: a fetch of the first frame, more often while it is to
/// be had; otherwise a good reply in `good` of 100 cases.
fn item(random: &mut Random, script: &Script, crate_number: u8, good: usize) -> Item {
    let fetch = if script.board().frames_sent(crate_number) == Ok(1) { 40 } else { 8 };
    let kind = if random.chance(fetch) {
        ItemKind::FirstFrame
    } else if random.chance(good) {
        let sent = frame_for(random, script, crate_number);
        ItemKind::Reply(good_reply(random, &sent).to_vec())
    } else if random.chance(30) {
        ItemKind::TimeUp
    } else {
        ItemKind::Reply(odd_reply(random, script, crate_number))
    };
    Item { crate_number, kind }
}

/// A finished script.
pub struct Generated {
    pub family: &'static str,
    /// The script's number within its family.
    pub index: usize,
    pub text: Vec<u8>,
}

/// Script `number` of the series with this seed.
pub fn script(seed: u64, number: usize) -> Generated {
    let mut random = Random::new(seed ^ (number as u64 + 1).wrapping_mul(0xD134_2543_DE82_EF95));
    let (group, place) = (number / GROUP, number % GROUP);
    let (family, index, make): (_, _, fn(&mut Random, usize) -> Vec<u8>) = match place {
        0 => ("lengths", group, lengths),
        1 => ("damaged", group, damaged),
        2 => ("bounds", group, bounds),
        3 | 4 => ("sessions", 2 * group + place - 3, sessions),
        5 => ("passes", group, passes),
        6 => ("rates", group, rates::scripts),
        7 => ("runs", group, runs),
        8 => ("resets", group, resets),
        9 => ("explanations", group, explanations::scripts),
        _ => ("far end", group, far_end::scripts),
    };
    Generated { family, index, text: make(&mut random, index) }
}

/// Puts the board into one of its states.
fn enter_some_state(random: &mut Random, script: &mut Script) {
    script.push(&power_up_line(random.number() % ID_LIMIT, random.word()));
    let mut block = quiet_block(random);
    match random.below(8) {
        0 => {}
        1 => {
            block[ACTIVE..].fill(0);
            script.command(&Command::Write(&block));
        }
        2 => {
            block[ACTIVE..].fill(0);
            script.command(&Command::Write(&block));
            script.command(&Command::Start(Events::Endless));
        }
        3 => {
            block[ACTIVE] = 0x0201;
            script.command(&Command::Write(&block));
        }
        4 => {
            block[ACTIVE..].fill(0);
            script.command(&Command::Write(&block));
            script.command(&Command::Reset(random.below(CRATES) as u8));
        }
        // In a rate pass, idle or running.
        5 | 6 => {
            block[ACTIVE] = 0x0201;
            script.command(&Command::Write(&block));
            script.run_out();
            if random.chance(50) {
                script.command(&Command::Start(Events::Endless));
            }
            script.push(b"B");
        }
        _ => script.command(&Command::Ping),
    }
}

/// Every length: commands, replies, temperatures and lines.
fn lengths(random: &mut Random, index: usize) -> Vec<u8> {
    let mut script = Script::new();
    let part = index / 5;
    match index % 5 {
        0 | 1 => command_lengths(random, &mut script, 2 * part + index % 5),
        2 => reply_lengths(random, &mut script),
        3 => digit_counts(random, &mut script, part),
        _ => temperature_lengths(random, &mut script, part),
    }
    script.text
}

/// Every command that there is, with this block.
fn all_commands<'a>(random: &mut Random, block: &'a [u16]) -> [Command<'a>; 11] {
    let events = random.choose(&[1, 2, 0xFFFF, 0x0001_0000, 70_000, u32::MAX]);
    [
        Command::Read(ReadBlock::Static),
        Command::Read(ReadBlock::Dynamic),
        Command::Write(block),
        Command::Start(Events::Endless),
        Command::Start(Events::Counted(events)),
        Command::Stop,
        Command::Ping,
        Command::Reset(0),
        Command::Reset(1),
        Command::Reset(2),
        Command::Reset(3),
    ]
}

/// A valid command cut at, and extended to, the lengths `part` stands for.
fn command_lengths(random: &mut Random, script: &mut Script, part: usize) {
    let block = random_block(random);
    let kinds = all_commands(random, &block);
    let command = &kinds[part % kinds.len()];
    let stride = 10;
    let mut whole = [0u16; 460];
    let used = commands::write(command, &mut whole).expect("the command is valid");
    if random.chance(70) {
        whole[used..].fill_with(|| random.word());
    }
    for length in (part / kinds.len() % stride..=450).step_by(stride) {
        if random.chance(40) {
            enter_some_state(random, script);
        }
        script.push(&words_line(b'C', &whole[..length]));
    }
    for events in [0, 1, 70_000, 0xFFFF_FFFFu32] {
        enter_some_state(random, script);
        let words = [0x40, 4, 2, 0, 0, (events >> 16) as u16, events as u16, 0x40];
        script.push(&words_line(b'C', &words[..7 + random.below(2)]));
        script.push(b"G0000000000000000");
        script.push(b"G2801010101010101");
    }
}

/// Replies of 0 to 60 bytes: the good one cut or extended.
fn reply_lengths(random: &mut Random, script: &mut Script) {
    for kind in PASS_KINDS {
        let mut block = random_block(random);
        block[ACTIVE..].fill(0x03FF);
        script.push(&power_up_line(random.number() % ID_LIMIT, random.word()));
        script.command(&Command::Write(&block));
        if kind != PassKind::Reprogramming {
            script.run_out();
        }
        match kind {
            PassKind::Reprogramming => {}
            PassKind::Ping => script.command(&Command::Ping),
            PassKind::Rates => script.push(b"B"),
        }
        for length in 0..=60 {
            let crate_number = (length % CRATES) as u8;
            let sent = frame_for(random, script, crate_number);
            let mut reply = good_reply(random, &sent).to_vec();
            reply.resize(length, 0);
            if length > 28 && random.chance(50) {
                reply[28..].fill_with(|| random.byte());
            }
            if random.chance(30) {
                mend(frames::CRC_START, &mut reply);
            }
            script.push(&bytes_line(b'F', &[crate_number]));
            script.push(&reply_line(crate_number, &reply));
            script.push(&bytes_line(b'N', &[crate_number]));
        }
        script.push(&reply_line(4, &[0; 28]));
        script.push(b"R");
        script.push(b"R0");
        script.push(b"R00");
        script.push(b"R000");
    }
}

/// Every letter with many counts of digits.
fn digit_counts(random: &mut Random, script: &mut Script, part: usize) {
    enter_some_state(random, script);
    let mut digits = |count: usize, zero: bool| -> Vec<u8> {
        (0..count)
            .map(|_| if zero { b'0' } else { random.choose(b"0123456789abcdefABCDEF") })
            .collect()
    };
    for letter in *b"GPKTFNMSLDCERBWXY" {
        for count in 0..=48 {
            let line = [&[letter][..], &digits(count, (count + part).is_multiple_of(2))].concat();
            script.push(&line);
        }
        for count in [63, 64, 65, 127, 128, 255, 256, 257, 511, 512, 1023, 1024, 1935, 1936, 1937] {
            script.push(&[&[letter][..], &digits(count, part.is_multiple_of(2))].concat());
        }
    }
    let longest = MAX_DIGITS;
    for letter in b'A'..=b'Z' {
        if usize::from(letter) % 4 != part % 4 && !b"CDERX".contains(&letter) {
            continue;
        }
        for count in
            [longest - 4, longest - 2, longest - 1, longest, longest + 1, longest + 2, longest + 4]
        {
            script.push(&[&[letter][..], &digits(count, part.is_multiple_of(2))].concat());
        }
    }
    for letter in 0..=255u8 {
        if letter != b'\n' {
            script.push(&[letter]);
            script.push(&[letter, b'0', b'0']);
        }
    }
    script.push(&vec![b' '; 5000]);
    script.push(&[b"K0000".to_vec(), vec![b' '; 9000], b"0001".to_vec()].concat());
    script.push(&[b"#".to_vec(), digits(20_000, false)].concat());
    script.push(&[b"D".to_vec(), digits(20_000, true)].concat());
}

/// Dynamic blocks with all counts of temperatures.
fn temperature_lengths(random: &mut Random, script: &mut Script, part: usize) {
    enter_some_state(random, script);
    let mut words = [0u16; 1025];
    words.fill_with(|| random.word());
    let near = (0..=8).chain([483, 484, 485, 487, 1023, 1024, 1025]);
    for count in (part % 10..=490).step_by(10).chain(near) {
        script.push(&words_line(b'D', &words[..count]));
    }
}

/// Damaged lines.
fn damaged(random: &mut Random, index: usize) -> Vec<u8> {
    if index % 50 == 7 {
        let whole: [&[u8]; 8] =
            [b"", b"\n", b"\n\n\n", b"#", b"S", b" ", b"\r\n", b"# no line\nK00000001\n\n#"];
        return whole[index / 50 % whole.len()].to_vec();
    }
    let mut script = Script::new();
    enter_some_state(random, &mut script);
    for _ in 0..120 {
        let line = session_line(random, &script);
        if random.chance(35) {
            script.push_styled(random, &line);
            continue;
        }
        let line = damage(random, line);
        script.push(&line);
    }
    if random.chance(50) {
        script.text.pop();
    }
    script.text
}

/// The line with one thing changed.
fn damage(random: &mut Random, mut line: Vec<u8>) -> Vec<u8> {
    let place = random.below(line.len().max(1)).min(if random.chance(40) { 6 } else { usize::MAX });
    let odd =
        |random: &mut Random| random.choose(b"\t\r\0 GgXx-+.,:/@`#_\x0B\x0C\x7F\x80\xA0\xFF\n");
    match random.below(15) {
        0 => line[place] = random.choose(b"0123456789ABCDEFabcdef"),
        1 => line[place] = odd(random),
        2 => line[place] = random.byte(),
        3 => {
            line.remove(place);
        }
        4 => line.insert(place, line[place]),
        5 => {
            line.truncate(place);
        }
        6 => line.make_ascii_lowercase(),
        7 => line[1..].make_ascii_lowercase(),
        8 => line.insert(0, random.choose(b" \t0#")),
        9 => {
            let place = 1 + random.below(line.len());
            line.splice(place..place, vec![b' '; 1 + random.below(5)]);
        }
        10 => line.push(random.choose(b" \t\r\0\n0F")),
        11 => line.extend_from_slice(b"\r"),
        12 => line.insert(place, odd(random)),
        13 => line[0] = random.choose(b"ABCDEFGHIJKLMNOPQRSTUVWXYZabcd019"),
        _ => line = random.choose(&[&b""[..], b"#", b"# S", b"   ", b"?", b"\xC3\xA9"]).to_vec(),
    }
    line
}

/// Words at and above their bounds, board IDs, n, settings, flags, crates.
fn bounds(random: &mut Random, index: usize) -> Vec<u8> {
    let mut script = Script::new();
    let stride = 100;
    let first = index % stride;
    let places = (first..configuration::WORDS).step_by(stride);
    for place in places.chain([random.choose(&BOUNDED)]) {
        let bound = configuration::bound(place);
        for value in [bound, bound.wrapping_add(1), 0xFFFF] {
            block_with(random, &mut script, place, value);
        }
    }
    enter_some_state(random, &mut script);
    for place in 0..TEMPERATURES {
        for value in [0, 0x3FFF, 0x4000, 0xFFFF] {
            temperatures_with(random, &mut script, place, value);
        }
    }
    for _ in 0..8 {
        let id = match random.below(4) {
            0 => ID_LIMIT - 1 - random.below(3) as u64,
            1 => ID_LIMIT + random.below(3) as u64,
            2 => 1 << (55 + random.below(9)),
            _ => random.choose(&[0, 1, u64::MAX, u64::MAX >> 7, u64::MAX >> 6]),
        };
        script.push(&power_up_line(id, random.word()));
        script.push(b"S");
    }
    trigger_bounds(random, &mut script);
    enter_some_state(random, &mut script);
    for crate_number in [0, 1, 2, 3, 4, 5, 255] {
        for letter in *b"FFNTFRFM" {
            script.push(&bytes_line(letter, &[crate_number]));
        }
    }
    script.text
}

/// A write of a block with this value at this place, in idle in most cases.
fn block_with(random: &mut Random, script: &mut Script, place: usize, value: u16) {
    let mut block = quiet_block(random);
    block[place] = value;
    if random.chance(20) {
        block[random.choose(&BOUNDED)] = random.word();
    }
    if script.mode() != Mode::IDLE || random.chance(20) {
        if random.chance(50) && script.in_pass() {
            script.run_out();
        } else if !random.chance(10) {
            script.push(&power_up_line(random.number() % ID_LIMIT, random.word()));
        }
    }
    let mut words = vec![0x40, 2, 1, 0, 0];
    words.extend_from_slice(&block);
    script.push(&words_line(b'C', &words));
    script.push(b"S");
    if random.chance(30) {
        far_end::read_back(random, script, b'S');
    }
    for crate_number in 0..4 {
        script.push(&bytes_line(b'F', &[crate_number]));
    }
}

/// A dynamic block with this temperature at this place.
fn temperatures_with(random: &mut Random, script: &mut Script, place: usize, value: u16) {
    let mut words = random_temperatures(random);
    words[place] = value;
    script.push(&words_line(b'D', &words));
    if random.chance(30) {
        far_end::read_back(random, script, b'D');
    }
}

/// Triggers with n, settings and flags at and above their bounds.
fn trigger_bounds(random: &mut Random, script: &mut Script) {
    if random.chance(70) {
        let mut block = random_block(random);
        block[ACTIVE..].fill(0);
        script.command(&Command::Write(&block));
        script.command(&Command::Start(Events::Endless));
    }
    for n in [0, 1, 38, 39, 40, 41, 42, 63, 64, 127, 128, 255] {
        let setting = random.choose(&[0, 14, 15, 16, 17, 31, 32, 255, 7, 8]);
        let mut bytes = trigger_bytes(random, n, setting);
        script.push(&bytes_line(b'G', &bytes));
        bytes[4] = random.below(16) as u8;
        script.push(&bytes_line(b'G', &bytes));
        bytes[random.choose(&FLAGS)] = random.choose(&[2, 3, 16, 128, 255]);
        script.push(&bytes_line(b'G', &bytes));
    }
}

/// Random sessions of all letters in all states.
fn sessions(random: &mut Random, _index: usize) -> Vec<u8> {
    let mut script = Script::new();
    if random.chance(70) {
        script.push(&power_up_line(random.number() % ID_LIMIT, random.word()));
    }
    for _ in 0..100 + random.below(200) {
        let line = session_line(random, &script);
        explanations::push_explained(random, &mut script, &line);
        if script.in_pass() && random.chance(3) {
            script.run_out();
        }
    }
    script.text
}

/// One valid line that suits the state in most cases.
fn session_line(random: &mut Random, script: &Script) -> Vec<u8> {
    let board = script.board();
    let Mode { run, pass } = board.mode();
    // power-up, command, clock, trigger, reply, time-up, frame, number,
    // static, list, message, dynamic, far end, rate pass, explanation
    let weights = match (pass, run) {
        (None, None) => [4, 60, 8, 6, 3, 3, 3, 4, 3, 5, 8, 4, 35, 8, 15],
        (None, Some(_)) => [1, 25, 12, 50, 2, 2, 1, 2, 3, 3, 4, 5, 35, 6, 10],
        (Some(PassKind::Reprogramming), _) => [1, 12, 3, 2, 60, 14, 8, 8, 2, 2, 3, 2, 35, 2, 8],
        (Some(PassKind::Ping), _) => [2, 12, 3, 2, 70, 16, 8, 8, 2, 2, 3, 2, 35, 2, 8],
        (Some(PassKind::Rates), None) => [1, 12, 4, 4, 50, 12, 6, 6, 2, 2, 3, 4, 30, 3, 8],
        (Some(PassKind::Rates), Some(_)) => [1, 12, 8, 25, 50, 12, 6, 6, 2, 2, 3, 4, 30, 3, 8],
    };
    match random.weighted(&weights) {
        0 => {
            let id = if random.chance(80) { random.number() % ID_LIMIT } else { random.number() };
            power_up_line(id, random.word())
        }
        1 => session_command(random, board),
        2 => clock_line(random),
        3 => trigger_line(random),
        4 => {
            let crate_number = busy_crate(random, script);
            item(random, script, crate_number, 75).line()
        }
        5 => bytes_line(b'T', &[busy_crate(random, script)]),
        6 => bytes_line(b'F', &[crate_byte(random)]),
        7 => bytes_line(b'N', &[crate_byte(random)]),
        8 => b"S".to_vec(),
        9 => b"L".to_vec(),
        10 => {
            let ordinal = random.choose(&[0, 0, 1, 2, 39, 40, 255]);
            bytes_line(b'M', &[ordinal])
        }
        11 => dynamic_line(random),
        12 => far_end::line(random, script),
        13 => b"B".to_vec(),
        _ => explanations::line(random),
    }
}

/// Four temperatures, without bounds.
fn random_temperatures(random: &mut Random) -> [u16; TEMPERATURES] {
    [0; TEMPERATURES].map(|_| random.word())
}

/// A dynamic block with some four temperatures.
fn temperatures_line(random: &mut Random) -> Vec<u8> {
    words_line(b'D', &random_temperatures(random))
}

/// The same, now and then with another number of words.
fn dynamic_line(random: &mut Random) -> Vec<u8> {
    if random.chance(80) {
        return temperatures_line(random);
    }
    let mut words = random_temperatures(random).to_vec();
    words.resize(random.choose(&[0, 1, 2, 3, 5, 6, 7, 8, blocks::MEASUREMENTS]), random.word());
    words_line(b'D', &words)
}

fn clock_line(random: &mut Random) -> Vec<u8> {
    let some = random.number() as u32 >> random.below(32);
    let ticks = random.choose(&[0, 1, u32::MAX, some, some, some]);
    bytes_line(b'K', &ticks.to_be_bytes())
}

/// A crate with a frame outstanding, in most cases where there is one.
fn busy_crate(random: &mut Random, script: &Script) -> u8 {
    for _ in 0..6 {
        let crate_number = crate_byte(random);
        if script.frame(crate_number).is_some() {
            return crate_number;
        }
    }
    crate_byte(random)
}

/// A trigger's bytes with flags of all kinds.
fn trigger_bytes(random: &mut Random, n: u8, setting: u8) -> [u8; 8] {
    let mut bytes = [n, 0, 0, 0, setting, 0, 0, 0];
    for flag in FLAGS {
        bytes[flag] = random.below(2) as u8;
    }
    bytes
}

fn trigger_line(random: &mut Random) -> Vec<u8> {
    let n = if random.chance(4) { random.byte() } else { random.below(41) as u8 };
    let setting = if random.chance(4) { random.byte() } else { random.below(16) as u8 };
    bytes_line(b'G', &trigger_bytes(random, n, setting))
}

/// A block for a session: the pass is short in most cases.
fn session_block(random: &mut Random) -> [u16; configuration::WORDS] {
    if random.chance(70) {
        quiet_block(random)
    } else {
        random_block(random)
    }
}

/// A valid command that suits the state in most cases.
fn suited_command<'a>(random: &mut Random, board: &Board, block: &'a [u16]) -> Command<'a> {
    let weights = match board.mode() {
        Mode::IDLE if board.fresh() => [4, 8, 40, 3, 8, 12],
        Mode::IDLE => [4, 40, 12, 3, 10, 10],
        Mode { run: Some(_), pass: None } => [4, 3, 3, 20, 3, 8],
        _ => [4, 4, 4, 4, 4, 8],
    };
    match random.weighted(&weights) {
        0 => Command::Read(random.choose(&[ReadBlock::Static, ReadBlock::Dynamic])),
        1 => Command::Write(block),
        2 => some_start(random),
        3 => Command::Stop,
        4 => Command::Ping,
        _ => Command::Reset(random.below(CRATES) as u8),
    }
}

/// A start, endless or counted; half of the counted ones take few events.
fn some_start(random: &mut Random) -> Command<'static> {
    let few = 1 + random.below(12) as u32;
    // A low word that is zero or small under a high word that counts.
    let events = random.choose(&[few, few, few, few << 16, 1 << 16 | few, u32::MAX]);
    Command::Start(random.choose(&[Events::Endless, Events::Counted(events)]))
}

/// A command, now and then with a wrong word.
fn session_command(random: &mut Random, board: &Board) -> Vec<u8> {
    let block = session_block(random);
    let mut words = command_words(&suited_command(random, board, &block));
    let used = words.len();
    if random.chance(25) {
        match random.below(9) {
            0 => words.truncate(random.below(used)),
            1 => words[0] = random.choose(&[0x0041, 0x4000, 0, 0x0140, 0x0140]),
            2 => words[1] = random.choose(&[0, 3, 5, 0x40, 0x0101, 0x2000, 0xFFFF]),
            3 => words[2] = random.choose(&[0, 1, 2, 3, 4, 5, 8, 9, 16, 0x0101, 0x8000]),
            4 => words[3 + random.below(2)] = random.choose(&[1, 0x0100, 0xFFFF]),
            5 if used == 7 => words[5..].fill(0),
            6 if used > 7 => words[commands::HEAD + random.choose(&BOUNDED)] = random.word(),
            7 => words.resize(used + 1 + random.below(8), 0x40),
            _ => words[random.below(5)] = random.word(),
        }
    }
    words_line(b'C', &words)
}

/// Long passes of all kinds with replies of all kinds.
fn passes(random: &mut Random, _index: usize) -> Vec<u8> {
    let mut script = Script::new();
    script.push(&power_up_line(random.number() % ID_LIMIT, random.word()));
    for _ in 0..1 + random.below(3) {
        if random.chance(50) {
            script.push(&clock_line(random));
        }
        begin_pass(random, &mut script);
        for crate_number in 0..4 {
            if random.chance(50) {
                script.push(&bytes_line(b'F', &[crate_number]));
            }
            script.push(&bytes_line(b'N', &[crate_number]));
        }
        pass_lines(random, &mut script);
        lines_after_pass(random, &mut script);
        if script.is_running() {
            script.command(&Command::Stop);
        }
    }
    script.text
}

/// Begins a pass of some kind: a rate pass over the boards of a new block, idle or
/// in a run.
fn begin_pass(random: &mut Random, script: &mut Script) {
    let block = random_block(random);
    match random.choose(&PASS_KINDS) {
        PassKind::Reprogramming => script.command(&Command::Write(&block)),
        PassKind::Ping => script.command(&Command::Ping),
        PassKind::Rates => {
            script.command(&Command::Write(&block));
            script.run_out();
            if random.chance(50) {
                script.command(&some_start(random));
            }
            script.push(b"B");
        }
    }
}

/// Lines that show what a pass left.
fn lines_after_pass(random: &mut Random, script: &mut Script) {
    for ordinal in 0..=BOARDS as u8 {
        script.push(&bytes_line(b'M', &[ordinal]));
        if random.chance(20) {
            far_end::read_back(random, script, b'M');
        }
    }
    for letter in *b"LS" {
        script.push(&[letter]);
        far_end::read_back(random, script, letter);
    }
    script.push(&temperatures_line(random));
    far_end::read_back(random, script, b'D');
    for crate_number in 0..5 {
        script.push(&bytes_line(b'F', &[crate_number]));
        script.push(&bytes_line(b'N', &[crate_number]));
    }
}

/// The lines of a pass to its end, and some more.
fn pass_lines(random: &mut Random, script: &mut Script) {
    let good = random.choose(&[0, 20, 50, 70, 80, 90, 97, 100]);
    let mut open: Vec<u8> = (0..CRATES as u8).collect();
    let mut extra = random.below(12);
    while script.in_pass() || extra > 0 {
        if !script.in_pass() {
            extra -= 1;
        }
        open.retain(|&crate_number| script.frame(crate_number).is_some());
        let crate_number = match random.below(30) {
            0 => 4 + random.below(252) as u8,
            1 => random.below(CRATES) as u8,
            2 => 4,
            _ if open.is_empty() => random.below(CRATES) as u8,
            // Some crates run ahead of the others.
            3..=12 => open[0],
            _ => open[random.below(open.len())],
        };
        let item = item(random, script, crate_number, good);
        script.push_styled(random, &item.line());
        script.push(&bytes_line(b'N', &[crate_number]));
        if random.chance(25) {
            let other = match random.below(30) {
                0 | 1 => b"L".to_vec(),
                2 | 3 => bytes_line(b'M', &[random.below(3) as u8]),
                4 => b"S".to_vec(),
                5 => clock_line(random),
                6 | 7 => session_command(random, script.board()),
                8 | 9 => trigger_line(random),
                10 => dynamic_line(random),
                11 => b"B".to_vec(),
                12 | 13 => explanations::line(random),
                _ => far_end::line(random, script),
            };
            script.push(&other);
        }
    }
}

/// Runs with clock steps and triggers.
fn runs(random: &mut Random, index: usize) -> Vec<u8> {
    let mut script = Script::new();
    script.push(&power_up_line(random.number() % ID_LIMIT, random.word()));
    let mut block = random_block(random);
    block[ACTIVE..].fill(0);
    let dynamic = temperatures_line(random);
    match index {
        0 => long_time(random, &mut script, &block, &dynamic),
        1 => many_events(random, &mut script, &block, &dynamic),
        _ => {
            for _ in 0..1 + random.below(4) {
                short_run(random, &mut script, &block, &dynamic);
            }
        }
    }
    script.text
}

/// The 48-bit counters pass 2^48: 65,537 steps of 2^32 - 1.
fn long_time(random: &mut Random, script: &mut Script, block: &[u16], dynamic: &[u8]) {
    script.command(&Command::Write(block));
    script.push(b"K00000010");
    script.command(&Command::Start(Events::Endless));
    for step in 0..65_545 {
        script.push(b"KFFFFFFFF");
        if step % 8192 == 0 || step > 65_530 {
            script.push(dynamic);
            far_end::read_back(random, script, b'D');
            script.push(b"S");
            far_end::read_back(random, script, b'S');
        }
    }
    script.push(b"K0000FFFF");
    script.push(dynamic);
    script.command(&Command::Stop);
    script.push(dynamic);
}

/// 70,000 events asked for, all given, and one more.
fn many_events(random: &mut Random, script: &mut Script, block: &[u16], dynamic: &[u8]) {
    script.command(&Command::Write(block));
    script.command(&Command::Start(Events::Counted(70_000)));
    for event in 0..70_001 {
        let line = trigger_line(random);
        script.push(&line);
        if event % 100 == 0 {
            far_end::read_back(random, script, b'G');
        }
        if event % 10_000 == 9_999 || event >= 69_997 {
            script.push(b"K00000064");
            script.push(dynamic);
            script.push(b"L");
        }
    }
    // Refused triggers did not count: give what is left, and one more.
    while script.is_running() {
        script.push(b"G0400000000000000");
    }
    script.push(dynamic);
    script.push(b"G0400000000000000");
}

/// A run of 0 to 200 lines.
fn short_run(random: &mut Random, script: &mut Script, block: &[u16], dynamic: &[u8]) {
    if random.chance(15) {
        script.command(&Command::Ping);
        script.run_out();
    }
    let other = random_block(random);
    let kept = random.chance(80);
    script.command(&Command::Write(if kept { block } else { &other }));
    script.run_out();
    let events = 1 + random.below(150) as u32;
    let counted = random.chance(60);
    script.command(&Command::Start(if counted {
        Events::Counted(events)
    } else {
        Events::Endless
    }));
    for _ in 0..random.below(200) {
        run_line(random, script, dynamic);
        if script.in_pass() && random.chance(30) {
            script.run_out();
        }
    }
    script.run_out();
    script.command(&Command::Start(Events::Endless));
    script.command(&Command::Stop);
    script.push(dynamic);
}

/// One line of a run.
fn run_line(random: &mut Random, script: &mut Script, dynamic: &[u8]) {
    match random.below(24) {
        0 => script.push(dynamic),
        1 => script.push(b"S"),
        2 => script.push(b"L"),
        3 => script.push(&bytes_line(b'M', &[random.below(4) as u8])),
        4..=7 => script.push(&clock_line(random)),
        8 if random.chance(40) => {
            let line = session_command(random, script.board());
            script.push(&line);
        }
        9 | 10 => {
            let line = far_end::line(random, script);
            script.push(&line);
        }
        11 => script.push(b"B"),
        12 if script.in_pass() => pass_line(random, script, 80),
        13 => {
            let line = explanations::line(random);
            explanations::push_explained(random, script, &line);
        }
        _ => {
            let line = trigger_line(random);
            script.push_styled(random, &line);
            if random.chance(20) {
                far_end::read_back(random, script, b'G');
            }
        }
    }
}

/// Crate resets in every state and before starts (02, b).
fn resets(random: &mut Random, _index: usize) -> Vec<u8> {
    let mut script = Script::new();
    script.push(&power_up_line(random.number() % ID_LIMIT, random.word()));
    reset_lines(random, &mut script);
    script.command(&some_start(random));
    for _ in 0..1 + random.below(4) {
        if random.chance(20) {
            ping_with_resets(random, &mut script);
        }
        write_with_resets(random, &mut script);
        match random.below(10) {
            0 | 1 => ping_with_resets(random, &mut script),
            2 | 3 => rates_with_resets(random, &mut script),
            _ => {}
        }
        if random.chance(75) {
            reset_lines(random, &mut script);
            no_accepted_write(random, &mut script);
        }
        script.command(&some_start(random));
        // Refused: the block still reads back, and a start needs a new write.
        if script.mode() == Mode::IDLE {
            if random.chance(80) {
                script.push(b"S");
                far_end::read_back(random, &mut script, b'S');
            }
            write_with_resets(random, &mut script);
            script.command(&some_start(random));
        }
        run_with_resets(random, &mut script);
    }
    script.text
}

/// A crate reset, now and then with a wrong word, and mostly a line that shows
/// something else of the state, or a clock step; one to three times.
fn reset_lines(random: &mut Random, script: &mut Script) {
    for _ in 0..random.choose(&[1, 1, 2, 3]) {
        let line = reset_line(random);
        script.push_styled(random, &line);
        if random.chance(60) {
            let line = match random.below(8) {
                0 => b"S".to_vec(),
                1 => b"L".to_vec(),
                2 => bytes_line(b'M', &[random.below(2) as u8]),
                3 => bytes_line(b'N', &[random.below(CRATES) as u8]),
                4 => bytes_line(b'F', &[random.below(CRATES) as u8]),
                5 => temperatures_line(random),
                6 => explanations::line(random),
                _ => clock_line(random),
            };
            script.push(&line);
        }
    }
}

/// A crate reset that is refused for its words in some 30 of 100 cases.
fn reset_line(random: &mut Random) -> Vec<u8> {
    let mut words = vec![commands::DELIMITER, 0x20, 1 << random.below(CRATES), 0, 0];
    match random.below(20) {
        0 | 1 => words[2] = random.choose(&[0, 3, 5, 6, 7, 10, 15, 16, 0x0102, 0x0200, 0x8000]),
        2 | 3 => words[3 + random.below(2)] = random.choose(&[1, 0x0100, 0xFFFF]),
        4 => words.truncate(random.below(5)),
        5 => words[0] = random.choose(&[0x0041, 0x4000, 0, 0x0140]),
        // Words of the next command.
        6 => words.resize(6 + random.below(4), commands::DELIMITER),
        // A whole next command, which is not obeyed: a ping would show that it
        // was, and in a run a stop.
        7 => {
            let start = some_start(random);
            let next = random.choose(&[start, Command::Ping, Command::Stop]);
            words.extend(command_words(&next));
        }
        _ => {}
    }
    words_line(b'C', &words)
}

/// Now and then a ping or rate pass, or a refused write: a start after a reset
/// still gets 10 (02, b: "no accepted write since").
fn no_accepted_write(random: &mut Random, script: &mut Script) {
    match random.below(7) {
        0 => ping_with_resets(random, script),
        1 => script.push(&refused_write_line(random)),
        2 => rates_with_resets(random, script),
        _ => {}
    }
}

/// A write with one word above its bound, or with too few words.
fn refused_write_line(random: &mut Random) -> Vec<u8> {
    let mut words = command_words(&Command::Write(&quiet_block(random)));
    if random.chance(50) {
        let place = random.choose(&BOUNDED);
        words[commands::HEAD + place] = random.choose(&[configuration::bound(place) + 1, 0xFFFF]);
    } else {
        words.truncate(commands::HEAD + random.below(configuration::WORDS));
    }
    words_line(b'C', &words)
}

/// A ping and its pass.
fn ping_with_resets(random: &mut Random, script: &mut Script) {
    script.command(&Command::Ping);
    pass_with_resets(random, script);
}

/// A rate pass, which leaves fresh alone (02, i).
fn rates_with_resets(random: &mut Random, script: &mut Script) {
    script.push(b"B");
    pass_with_resets(random, script);
}

/// A write with few active boards, and its pass.
fn write_with_resets(random: &mut Random, script: &mut Script) {
    script.command(&Command::Write(&quiet_block(random)));
    pass_with_resets(random, script);
}

/// Serves a pass to its end, with crate resets between the replies.
fn pass_with_resets(random: &mut Random, script: &mut Script) {
    let good = random.choose(&[50, 90, 100]);
    while script.in_pass() {
        if random.chance(15) {
            reset_lines(random, script);
        }
        pass_line(random, script, good);
    }
}

/// A short run to its end, or stopped, with crate resets in it and after it, and
/// mostly a start, which is refused, at the end.
fn run_with_resets(random: &mut Random, script: &mut Script) {
    for _ in 0..random.below(15) {
        if random.chance(30) {
            reset_lines(random, script);
        }
        if random.chance(4) {
            rates_with_resets(random, script);
        }
        let line = trigger_line(random);
        script.push(&line);
    }
    script.command(&Command::Stop);
    if random.chance(60) {
        reset_lines(random, script);
    }
    if random.chance(60) {
        script.command(&some_start(random));
    }
}

/// Serves a pass, if one is under way, to its end: the reply is good in `good`
/// of 100 cases.
fn serve_pass(random: &mut Random, script: &mut Script, good: usize) {
    while script.in_pass() {
        pass_line(random, script, good);
    }
}

/// One item of a pass.
fn pass_line(random: &mut Random, script: &mut Script, good: usize) {
    let crate_number = busy_crate(random, script);
    let item = item(random, script, crate_number, good);
    script.push(&item.line());
}

/// A pass for demand 3: the lines before it, its items in a mixed order, and
/// the lines after it.
pub struct Pass {
    pub before: Vec<Vec<u8>>,
    pub items: Vec<Item>,
    pub after: Vec<Vec<u8>>,
}

/// Pass `number` of the series with this seed.
pub fn pass(seed: u64, number: usize) -> Pass {
    let mut random = Random::new(seed ^ (number as u64 + 1).wrapping_mul(0xA24B_AED4_963E_E407));
    let random = &mut random;
    let mut script = Script::new();
    script.push(&power_up_line(random.number() % ID_LIMIT, random.word()));
    script.push(&clock_line(random));
    match random.choose(&PASS_KINDS) {
        // A write before leaves flags, records and, where no reset comes between, fresh.
        PassKind::Ping => {
            let block = random_block(random);
            earlier_pass(random, &mut script, &Command::Write(&block));
            script.command(&Command::Ping);
        }
        // A ping before leaves a list.
        PassKind::Reprogramming => {
            earlier_pass(random, &mut script, &Command::Ping);
            script.command(&Command::Write(&random_block(random)));
        }
        PassKind::Rates => begin_rates(random, &mut script),
    }
    let before = script.text.split(|&byte| byte == b'\n').map(<[u8]>::to_vec).collect();
    Pass { before, items: pass_items(random, &mut script), after: closing_lines(random) }
}

/// In most cases, a pass that this command begins, then now and then a rate pass
/// or a crate reset.
fn earlier_pass(random: &mut Random, script: &mut Script, command: &Command) {
    if random.chance(40) {
        return;
    }
    script.command(command);
    serve_pass(random, script, 80);
    if random.chance(30) {
        script.push(b"B");
        serve_pass(random, script, 80);
    }
    if random.chance(50) {
        script.command(&Command::Reset(random.below(CRATES) as u8));
    }
}

/// Begins a rate pass over the boards of some block, idle or in a run; now and
/// then a ping and a rate pass before it leave a list and rates (02, i).
fn begin_rates(random: &mut Random, script: &mut Script) {
    if random.chance(30) {
        script.command(&Command::Ping);
        serve_pass(random, script, 90);
    }
    script.command(&Command::Write(&random_block(random)));
    serve_pass(random, script, 90);
    if random.chance(40) {
        script.push(b"B");
        serve_pass(random, script, 80);
    }
    if random.chance(60) {
        script.command(&some_start(random));
        for _ in 0..random.below(3) {
            script.push(&clock_line(random));
            script.push(&trigger_line(random));
        }
    }
    script.push(b"B");
}

/// The items of the pass that is under way, in a mixed order: none, some, or
/// all to its end and some more.
fn pass_items(random: &mut Random, script: &mut Script) -> Vec<Item> {
    let good = random.choose(&[0, 30, 60, 80, 90, 100]);
    let wanted = match random.below(10) {
        0 => 0,
        1..=3 => 1 + random.below(150),
        _ => usize::MAX,
    };
    let mut extra = random.below(20);
    let mut items = Vec::new();
    while items.len() < wanted && (script.in_pass() || extra > 0) {
        if !script.in_pass() {
            extra -= 1;
        }
        let crate_number = match random.below(12) {
            0 => crate_byte(random),
            1 => random.below(256) as u8,
            2..=4 => (0..4).find(|&c| script.frame(c).is_some()).unwrap_or(0),
            _ => busy_crate(random, script),
        };
        let item = item(random, script, crate_number, good);
        script.push(&item.line());
        items.push(item);
    }
    items
}

/// Lines that show all of the state after a pass; where it has not ended they
/// let it run out and show it again.
fn closing_lines(random: &mut Random) -> Vec<Vec<u8>> {
    let mut lines = Vec::new();
    for round in 0..2 {
        for crate_number in 0..5 {
            lines.push(bytes_line(b'F', &[crate_number]));
            lines.push(bytes_line(b'N', &[crate_number]));
        }
        lines.push(b"L".to_vec());
        for ordinal in 0..=BOARDS as u8 {
            lines.push(bytes_line(b'M', &[ordinal]));
        }
        lines.push(b"S".to_vec());
        lines.push(temperatures_line(random));
        lines.push(command_line(&Command::Start(Events::Endless)));
        lines.push(b"G0400000000000000".to_vec());
        lines.push(command_line(&Command::Stop));
        lines.push(command_line(&Command::Reset(1)));
        if round == 0 {
            for crate_number in 0..CRATES as u8 {
                for _ in 0..3 * BOARDS_PER_CRATE {
                    lines.push(bytes_line(b'T', &[crate_number]));
                }
            }
        }
    }
    lines
}

#[cfg(test)]
mod tests {
    use super::*;

    #[test]
    fn same_seed_same_script() {
        for number in 16..32 {
            assert!(script(5, number).text == script(5, number).text);
        }
    }

    /// The frames in hand are those that wait for a reply: good replies to them, and
    /// no others, serve a pass to its end.
    #[test]
    fn replies_to_the_frames_in_hand() {
        let mut random = Random::new(6);
        let random = &mut random;
        let mut script = Script::new();
        let mut block = random_block(random);
        block[ACTIVE..].fill(0x03FF);
        let commands = [&Command::Write(&block), &Command::Ping].map(command_line);
        for begin in [&commands[0][..], &commands[1], b"B", b"B "] {
            script.push(begin);
            for crate_number in (0..CRATES as u8).cycle().take(CRATES * 3 * BOARDS_PER_CRATE) {
                let Some(sent) = script.frame(crate_number).copied() else {
                    continue;
                };
                let reply = good_reply(random, &sent);
                script.push_styled(random, &reply_line(crate_number, &reply));
                assert!(script.answers.starts_with(b"0 good "));
            }
            assert_eq!(script.mode(), Mode::IDLE);
        }
        script.command(&Command::Ping);
        assert!(script.frame(0).is_some());
        script.push(&power_up_line(0, 0));
        assert!(script.frame(0).is_none());
    }

    #[test]
    fn wrong_starts() {
        let mut random = Random::new(4);
        for right in [0x00, 0xFF] {
            let starts: Vec<u8> = (0..10_000).map(|_| wrong_start(&mut random, right)).collect();
            assert!((0..=255).all(|start| starts.contains(&start) == (start != right)));
        }
    }

    #[test]
    fn first_splitmix_numbers() {
        let mut random = Random::new(1234567);
        assert_eq!(random.number(), 6457827717110365317);
        assert_eq!(random.number(), 3203168211198807973);
    }
}
