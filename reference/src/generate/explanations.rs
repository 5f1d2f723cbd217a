//! Explanations of commands (02, c): streams with every defect, in every state and
//! after every history of a write. Many are then given to the board.

use super::{
    all_commands, closing_lines, command_words, damage, power_up_line, quiet_block,
    refused_write_line, session_line, some_start, words_line, Random, Script, BOUNDED,
};
use crate::board::Board;
use crate::commands::{self, Command, Events, DELIMITER, HEAD};
use crate::configuration::{self, ACTIVE};
use crate::replay::MAX_DIGITS;
use crate::{BOARDS_PER_CRATE, CRATES, ID_LIMIT};

/// A step of a board's history. It may be refused where it comes.
#[derive(Clone, Copy)]
enum Step {
    /// A write without an active board.
    Write,
    /// A write with an active board: its pass is then under way.
    WriteActive,
    /// A write that is refused for its words.
    BadWrite,
    Reset,
    /// A crate reset that is refused for its words.
    BadReset,
    Start,
    TakeOne,
    Trigger,
    Stop,
    Ping,
    Rates,
    /// All boards time out.
    RunOut,
}
use Step::*;

/// Histories after power-up that lead to every state, with the write never there,
/// fresh, or used up in every order.
const HISTORIES: &[&[Step]] = &[
    // Never written.
    &[],
    &[BadWrite],
    &[Reset],
    &[Start],
    &[BadReset, Start, Reset],
    &[Ping, RunOut, Rates],
    &[Ping],
    // Fresh.
    &[Write],
    &[WriteActive, RunOut],
    &[Write, BadWrite],
    &[Write, BadReset],
    &[WriteActive, Reset, RunOut],
    &[Write, Reset, Write],
    &[Write, Start, Stop, Write],
    &[WriteActive],
    &[WriteActive, RunOut, Ping],
    &[WriteActive, RunOut, Rates],
    // In a run.
    &[Write, Start],
    &[Write, TakeOne],
    &[Write, Start, Reset, Start, Write],
    &[WriteActive, RunOut, Start, Rates],
    &[WriteActive, RunOut, TakeOne, Rates],
    // Used by a run.
    &[Write, Start, Stop],
    &[Write, TakeOne, Trigger],
    &[Write, Start, Reset, Stop],
    &[Write, Start, Stop, Reset],
    &[Write, TakeOne, Trigger, Reset, Reset],
    &[Write, Start, Stop, Start],
    &[Write, Start, Stop, BadWrite],
    &[Write, Start, Stop, BadReset],
    &[Write, Start, Stop, Ping, RunOut],
    &[Write, Start, Stop, Rates],
    &[Write, Reset, Write, Start, Stop],
    &[Write, Start, Stop, Ping],
    &[WriteActive, RunOut, Start, Rates, Stop],
    &[WriteActive, RunOut, TakeOne, Rates, Trigger],
    // Used by a reset.
    &[Write, Reset],
    &[Write, Reset, Reset],
    &[Write, Reset, Start],
    &[Write, Reset, BadWrite],
    &[Write, Reset, BadReset],
    &[Write, Reset, Ping, RunOut],
    &[WriteActive, RunOut, Reset, Rates, RunOut],
    &[Write, Write, Reset],
    &[Write, Reset, Write, Reset],
    &[Write, Start, Stop, Write, Reset],
    &[WriteActive, RunOut, Reset, Ping],
    &[WriteActive, RunOut, Reset, Rates],
];

fn take(random: &mut Random, script: &mut Script, step: Step) {
    let mut block = quiet_block(random);
    block[ACTIVE..].fill(0);
    match step {
        Write => script.command(&Command::Write(&block)),
        WriteActive => {
            block[ACTIVE + random.below(CRATES)] = 1 << random.below(BOARDS_PER_CRATE);
            script.command(&Command::Write(&block));
        }
        BadWrite => script.push(&refused_write_line(random)),
        Reset => script.command(&Command::Reset(random.below(CRATES) as u8)),
        BadReset => script.push(&words_line(b'C', &[DELIMITER, commands::RESET, 3, 0, 0])),
        Start => script.command(&Command::Start(Events::Endless)),
        TakeOne => script.command(&Command::Start(Events::Counted(1))),
        Trigger => script.push(b"G0400000000000000"),
        Stop => script.command(&Command::Stop),
        Ping => script.command(&Command::Ping),
        Rates => script.push(b"B"),
        RunOut => script.run_out(),
    }
}

/// A step that leads somewhere in most cases.
fn some_step(random: &mut Random, script: &Script) -> Step {
    if script.in_pass() && random.chance(60) {
        return RunOut;
    }
    if script.is_running() && random.chance(60) {
        return random.choose(&[Stop, Trigger, Rates, Reset]);
    }
    random.choose(&[
        Write,
        Write,
        WriteActive,
        BadWrite,
        Reset,
        Reset,
        BadReset,
        Start,
        Start,
        TakeOne,
        Stop,
        Ping,
        Rates,
    ])
}

/// A valid command of any kind, whether it suits the state or not.
fn any_command(random: &mut Random) -> Vec<u16> {
    let block = quiet_block(random);
    let all = all_commands(random, &block);
    let kind = random.weighted(&[2, 2, 5, 3, 8, 3, 3, 1, 1, 1, 1]);
    command_words(&all[kind])
}

/// A valid command of any kind with up to four defects.
fn stream(random: &mut Random) -> Vec<u16> {
    let mut words = any_command(random);
    for _ in 0..random.choose(&[0, 1, 1, 1, 2, 2, 3, 4]) {
        add_defect(random, &mut words);
    }
    words
}

/// One more defect, or words of the next command.
fn add_defect(random: &mut Random, words: &mut Vec<u16>) {
    if words.len() > HEAD && random.chance(50) {
        return add_data_defect(random, words);
    }
    let any = random.word();
    match random.below(9) {
        0 => {
            let (few, some) = (random.below(8), random.below(words.len() + 1));
            words.truncate(random.choose(&[few, some, words.len().saturating_sub(1)]));
        }
        1 => set(words, 0, other_delimiter(random)),
        2 => set(words, 1, other_id(random)),
        3 | 4 => set(words, 2, random.choose(&[0, 1, 2, 3, 4, 5, 8, 9, 16, 0x0101, 0x8000, any])),
        5 | 6 => set(words, 3, random.choose(&[1, 0x0100, 0xFFFF, any])),
        7 => set(words, 4, random.choose(&[1, 0x0100, 0xFFFF, any])),
        _ => words.resize(words.len() + 1 + random.below(8), any),
    }
}

/// One in the block or in X: too few words, X zero, or words above their bounds.
fn add_data_defect(random: &mut Random, words: &mut Vec<u16>) {
    let any = random.word();
    match random.below(4) {
        0 => words.truncate(HEAD + random.below(words.len() - HEAD)),
        _ if words[1] == commands::START => {
            set(words, HEAD, 0);
            set(words, HEAD + 1, random.choose(&[0, 0, 0, 1, any]));
        }
        _ => {
            for _ in 0..random.choose(&[1, 1, 2, 3]) {
                let place = random.choose(&BOUNDED);
                let bound = configuration::bound(place);
                let word = random.choose(&[bound, bound + 1, bound + 1, 0xFFFF, any]);
                set(words, HEAD + place, word);
            }
        }
    }
}

/// Sets the word at this place, where there is one.
fn set(words: &mut [u16], place: usize, word: u16) {
    if let Some(there) = words.get_mut(place) {
        *there = word;
    }
}

fn other_delimiter(random: &mut Random) -> u16 {
    let any = random.word();
    random.choose(&[0, 0x003F, 0x0041, 0x0140, 0x4000, 0x0060, 0xFFFF, any])
}

fn other_id(random: &mut Random) -> u16 {
    let (any, high) = (random.word(), random.choose(&commands::IDS) | 0x0100);
    random.choose(&[0, 3, 5, 6, 0x0018, 0x0040, 0x0080, 0x2000, 0xFFFF, high, any])
}

/// A line that explains some stream, or now and then a start, which shows what
/// became of the last write.
pub(super) fn line(random: &mut Random) -> Vec<u8> {
    let words = if random.chance(30) { start_words(random) } else { stream(random) };
    words_line(b'E', &words)
}

fn start_words(random: &mut Random) -> Vec<u16> {
    command_words(&some_start(random))
}

/// Adds the explanation of these words; then in half of the cases, but more seldom
/// where the command will be accepted, the command itself.
fn ask(random: &mut Random, script: &mut Script, words: &[u16]) {
    let line = words_line(b'E', words);
    script.push_styled(random, &line);
    let changes = script.answers.starts_with(b"0") && words[1] != commands::READ;
    if random.chance(if changes { 12 } else { 50 }) {
        script.push(&words_line(b'C', words));
    }
}

/// Adds the line and in half of the cases, if it explains a command, the command.
pub(super) fn push_explained(random: &mut Random, script: &mut Script, line: &[u8]) {
    script.push_styled(random, line);
    if line.first() == Some(&b'E') && random.chance(50) {
        script.push(&[b"C", &line[1..]].concat());
    }
}

/// A board after one of the histories, which is asked there.
struct Asked {
    script: Script,
    history: &'static [Step],
}

impl Asked {
    fn enter(&mut self, random: &mut Random) {
        self.script.push(&power_up_line(random.number() % ID_LIMIT, random.word()));
        for &step in self.history {
            take(random, &mut self.script, step);
        }
    }

    /// Where the command was given and obeyed, the board goes back to its state.
    fn ask(&mut self, random: &mut Random, words: &[u16]) {
        let before: Board = self.script.board().clone();
        ask(random, &mut self.script, words);
        if *self.script.board() != before {
            self.enter(random);
        }
    }

    /// Three commands cut at, and extended to, 0 to 12 words; a write at the lengths
    /// that `part` stands for, and near its own.
    fn lengths(&mut self, random: &mut Random, part: usize) {
        let block = quiet_block(random);
        let all = all_commands(random, &block);
        for command in (0..3).map(|turn| all[(3 * part + turn) % all.len()]) {
            let words = with_next(random, &command);
            for length in 0..=12 {
                self.ask(random, &words[..length]);
            }
        }
        let words = with_next(random, &Command::Write(&block));
        let due = HEAD + configuration::WORDS;
        for length in (part % 50..=due).step_by(50).chain(due - 2..=due + 2) {
            self.ask(random, &words[..length]);
        }
    }

    /// Each ID with all its parameters and some others, unknown IDs, other
    /// delimiters, and words 3 and 4 that are not zero.
    fn heads(&mut self, random: &mut Random) {
        for id in commands::IDS {
            let some = [0, 1, 2, 3, 4, 5, 8, 9, 16, 0x0100, 0x0101, 0x8000, 0xFFFF];
            let others = [0; 3].map(|_| random.choose(&some));
            let listed = commands::parameters(id).expect("an ID of the table");
            for &parameter in listed.iter().chain(&others) {
                self.head(random, [DELIMITER, id, parameter, 0, 0]);
            }
            let (word, any) = (random.word() | 1, random.word());
            let parameter = random.choose(listed);
            for (third, fourth) in [(word, 0), (0, word), (word, any)] {
                self.head(random, [DELIMITER, id, parameter, third, fourth]);
            }
        }
        for _ in 0..5 {
            let (parameter, spare) = (random.below(3) as u16, random.choose(&[0, 0, 1]));
            let (unknown, delimiter) = (other_id(random), other_delimiter(random));
            let id = random.choose(&commands::IDS);
            self.head(random, [DELIMITER, unknown, parameter, spare, 0]);
            self.head(random, [delimiter, id, parameter, 0, spare]);
        }
    }

    /// These five words and some after them.
    fn head(&mut self, random: &mut Random, head: [u16; HEAD]) {
        let any = random.word();
        let data = random.choose(&[[0, 0, any], [0, 1, any], [1, 0, any], [any, any, 0]]);
        let count = random.choose(&[0, 1, 2, 2, 3]);
        self.ask(random, &[&head, &data[..count]].concat());
    }

    /// X of no, one and two words, zero and not, and words after it.
    fn events(&mut self, random: &mut Random) {
        let any = random.word();
        let head = [DELIMITER, commands::START, 2, 0, 0];
        for data in [[0, 0, any], [0, 1, 0], [1, 0, 0], [0xFFFF, 0xFFFF, any]] {
            for count in 0..=data.len() {
                self.ask(random, &[&head, &data[..count]].concat());
            }
        }
    }

    /// Two bounded words at their bounds and above, several at once, and all words at
    /// their bounds.
    fn blocks(&mut self, random: &mut Random, part: usize) {
        for place in [part, part + 4].map(|turn| BOUNDED[turn % BOUNDED.len()]) {
            let bound = configuration::bound(place);
            for word in [bound, bound + 1, 0xFFFF] {
                self.write(random, &[(place, word)]);
            }
        }
        for _ in 0..3 {
            let places = [0; 3].map(|_| random.choose(&BOUNDED));
            let words = places.map(|place| (place, random.choose(&[0x1000, 0x8000, 0xFFFF])));
            self.write(random, &words);
        }
        let bounds: Vec<_> =
            (0..configuration::WORDS).map(|place| (place, configuration::bound(place))).collect();
        self.write(random, &bounds);
    }

    /// A write without an active board but for these words of its block.
    fn write(&mut self, random: &mut Random, words: &[(usize, u16)]) {
        let mut block = quiet_block(random);
        block[ACTIVE..].fill(0);
        for &(place, word) in words {
            block[place] = word;
        }
        let head = [DELIMITER, commands::WRITE, 1, 0, 0];
        self.ask(random, &[&head[..], &block].concat());
    }

    /// Lines of another form.
    fn damaged(&mut self, random: &mut Random) {
        let whole = words_line(b'E', &any_command(random));
        for cut in 1..=3 {
            self.script.push(&whole[..whole.len() - cut]);
        }
        let mut other = whole.clone();
        other[1 + random.below(whole.len() - 1)] = random.choose(b"Gg-.x\t\r\0\xFF");
        self.script.push(&other);
        for digits in [MAX_DIGITS, MAX_DIGITS + 1, MAX_DIGITS + 4] {
            let mut long = whole.clone();
            long.resize(1 + digits, b'0');
            self.script.push(&long);
        }
        for _ in 0..4 {
            let line = line(random);
            let damaged = damage(random, line);
            self.script.push(&damaged);
        }
    }
}

/// The words of a command and some of the next one.
fn with_next(random: &mut Random, command: &Command) -> Vec<u16> {
    let mut words = command_words(command);
    let any = random.word();
    words.resize(words.len() + 12, random.choose(&[0, DELIMITER, any]));
    words
}

/// Scripts of explanations: one history in each, and then some way on.
pub(super) fn scripts(random: &mut Random, index: usize) -> Vec<u8> {
    let history = HISTORIES[index % HISTORIES.len()];
    // Another part for each script, and in turn all of them for each history.
    let part = index + index / HISTORIES.len();
    let mut asked = Asked { script: Script::new(), history };
    asked.enter(random);
    asked.lengths(random, part);
    asked.heads(random);
    asked.events(random);
    asked.blocks(random, part);
    for _ in 0..25 {
        let words = stream(random);
        asked.ask(random, &words);
    }
    asked.damaged(random);
    let mut script = asked.script;
    for _ in 0..15 {
        walk(random, &mut script);
    }
    script.text
}

/// A step, and then some explanations, of a start in many cases.
fn walk(random: &mut Random, script: &mut Script) {
    let step = some_step(random, script);
    take(random, script, step);
    for _ in 0..1 + random.below(2) {
        let words = if random.chance(45) { start_words(random) } else { stream(random) };
        ask(random, script, &words);
    }
}

/// Session `number` of the series with this seed: its lines, each of which prints
/// one. Explanations are among them, many with the command after them.
pub fn explained(seed: u64, number: usize) -> Vec<Vec<u8>> {
    let mut random = Random::new(seed ^ (number as u64 + 1).wrapping_mul(0xC2B2_AE3D_27D4_EB4F));
    let random = &mut random;
    let mut script = Script::new();
    script.push(&power_up_line(random.number() % ID_LIMIT, random.word()));
    for &step in random.choose(HISTORIES) {
        take(random, &mut script, step);
    }
    for _ in 0..15 {
        walk(random, &mut script);
        for _ in 0..random.below(3) {
            let line = session_line(random, &script);
            push_explained(random, &mut script, &line);
        }
    }
    let text = script.text.trim_ascii_end();
    let lines = text.split(|&byte| byte == b'\n').map(<[u8]>::to_vec);
    lines.chain(closing_lines(random)).collect()
}

#[cfg(test)]
mod tests {
    use std::collections::BTreeSet;

    use super::*;

    /// Over 100 scripts, a write is explained at every length.
    #[test]
    fn every_length_of_a_write() {
        let write = words_line(b'E', &[DELIMITER, commands::WRITE, 1, 0, 0]);
        let mut random = Random::new(7);
        let mut seen = BTreeSet::new();
        for index in 0..100 {
            let mut text = scripts(&mut random, index);
            text.retain(|&byte| byte != b' ');
            for line in text.split(|&byte| byte == b'\n').filter(|line| line.starts_with(&write)) {
                seen.insert((line.len() - 1) / 4);
            }
        }
        for length in HEAD..=HEAD + configuration::WORDS + 2 {
            assert!(seen.contains(&length), "{length} words");
        }
    }

    /// Each line of a session prints one.
    #[test]
    fn every_line_prints_one() {
        for number in 0..50 {
            let mut replay = crate::replay::Replay::new();
            for line in explained(7, number) {
                let mut printed = Vec::new();
                assert!(replay.line(&line, &mut printed));
            }
        }
    }
}
