//! Rate passes, begun idle and in a run, with lines of all kinds between (02, i).

use super::{
    busy_crate, bytes_line, clock_line, dynamic_line, explanations, far_end, item, pass_line,
    power_up_line, random_block, serve_pass, some_start, temperatures_line, trigger_line, Random,
    Script,
};
use crate::commands::{Command, Events, ReadBlock};
use crate::configuration::{self, ACTIVE};
use crate::{BOARDS, BOARDS_PER_CRATE, CRATES, ID_LIMIT};

/// How many of 100 calls each board answers well.
type Habits = [usize; BOARDS];

/// Scripts of rate passes.
pub(super) fn scripts(random: &mut Random, _index: usize) -> Vec<u8> {
    let mut script = Script::new();
    script.push(&power_up_line(random.number() % ID_LIMIT, random.word()));
    if random.chance(30) {
        script.push(&temperatures_line(random));
    }
    if random.chance(20) {
        rate_pass(random, &mut script);
        lines_after(random, &mut script);
    }
    for _ in 0..1 + random.below(3) {
        settings(random, &mut script);
        for _ in 0..1 + random.below(3) {
            if random.chance(60) {
                some_run(random, &mut script);
            }
            rate_pass(random, &mut script);
            lines_after(random, &mut script);
        }
        other_commands(random, &mut script);
    }
    script.text
}

/// A block with few active boards, none, or now and then all.
fn block(random: &mut Random) -> [u16; configuration::WORDS] {
    let mut block = random_block(random);
    block[ACTIVE..].fill(0);
    match random.below(12) {
        0 => {}
        1 => block[ACTIVE..].fill(0x03FF),
        _ => {
            for _ in 0..1 + random.below(7) {
                let crate_number = random.below(CRATES);
                block[ACTIVE + crate_number] |= 1 << random.below(BOARDS_PER_CRATE);
            }
        }
    }
    block
}

/// Dead, slow and sound boards.
fn habits(random: &mut Random) -> Habits {
    let usual = random.choose(&[100, 100, 90, 60]);
    [0; BOARDS].map(|_| random.choose(&[0, 30, usual, usual, usual, usual, usual]))
}

/// A write, and now and then a ping and a crate reset; rate passes are refused in
/// their passes.
fn settings(random: &mut Random, script: &mut Script) {
    if script.is_running() {
        script.command(&Command::Stop);
    }
    script.command(&Command::Write(&block(random)));
    other_pass(random, script);
    if random.chance(25) {
        script.command(&Command::Ping);
        other_pass(random, script);
    }
    if random.chance(15) {
        script.command(&Command::Reset(random.below(CRATES) as u8));
    }
}

/// Serves a reprogramming or a ping to its end, now and then with a rate pass
/// refused or the rates shown between.
fn other_pass(random: &mut Random, script: &mut Script) {
    while script.in_pass() {
        match random.below(25) {
            0 => script.push(b"B"),
            1 => script.push(&temperatures_line(random)),
            _ => pass_line(random, script, 95),
        }
    }
}

/// A start, with few events, many or no end, and some triggers.
fn some_run(random: &mut Random, script: &mut Script) {
    let few = Command::Start(Events::Counted(1 + random.below(15) as u32));
    let start = if random.chance(50) { few } else { some_start(random) };
    script.command(&start);
    for _ in 0..random.below(4) {
        script.push(&clock_line(random));
        script.push(&trigger_line(random));
    }
}

/// A rate pass to its end, with lines of all kinds between its items.
fn rate_pass(random: &mut Random, script: &mut Script) {
    script.push_styled(random, b"B");
    let habits = habits(random);
    let between = random.choose(&[5, 30, 60]);
    while script.in_pass() {
        if random.chance(between) {
            line_between(random, script);
            continue;
        }
        let crate_number = busy_crate(random, script);
        let good = script.frame(crate_number).map_or(50, |sent| habits[board_of(sent[1])]);
        let item = item(random, script, crate_number, good);
        script.push(&item.line());
    }
}

/// The board k with this address.
fn board_of(address: u8) -> usize {
    BOARDS_PER_CRATE * usize::from(address >> 4) + usize::from(address & 15)
}

/// A line between the items of a rate pass: what goes on, and what is refused.
fn line_between(random: &mut Random, script: &mut Script) {
    match random.weighted(&[30, 15, 3, 20, 14, 20, 5, 4]) {
        0 => script.push(&trigger_line(random)),
        1 => script.push(&clock_line(random)),
        2 => script.command(&Command::Stop),
        3 => refused_command(random, script),
        4 => {
            script.push(&dynamic_line(random));
            if random.chance(30) {
                far_end::read_back(random, script, b'D');
            }
        }
        5 => shown_line(random, script),
        6 => {
            let line = explanations::line(random);
            explanations::push_explained(random, script, &line);
        }
        _ => {
            let line = far_end::line(random, script);
            script.push(&line);
        }
    }
}

/// A command that a rate pass refuses, or a second rate pass.
fn refused_command(random: &mut Random, script: &mut Script) {
    match random.below(5) {
        0 => script.command(&Command::Write(&block(random))),
        1 => script.command(&some_start(random)),
        2 => script.command(&Command::Ping),
        3 => script.command(&Command::Reset(random.below(CRATES) as u8)),
        _ => script.push(b"B"),
    }
}

/// A line that changes no state.
fn shown_line(random: &mut Random, script: &mut Script) {
    let crate_number = random.choose(&[0, 1, 2, 3, 4]);
    match random.below(8) {
        0 => script.push(b"S"),
        1 => script.push(b"L"),
        2 => script.push(&bytes_line(b'M', &[random.below(3) as u8])),
        3 | 4 => script.push(&bytes_line(b'F', &[crate_number])),
        5 | 6 => script.push(&bytes_line(b'N', &[crate_number])),
        _ => {
            let block = random.choose(&[ReadBlock::Static, ReadBlock::Dynamic]);
            script.command(&Command::Read(block));
        }
    }
}

/// Lines that show what a rate pass left.
fn lines_after(random: &mut Random, script: &mut Script) {
    script.push(&temperatures_line(random));
    far_end::read_back(random, script, b'D');
    for crate_number in 0..CRATES as u8 {
        script.push(&bytes_line(b'N', &[crate_number]));
        script.push(&bytes_line(b'F', &[crate_number]));
    }
    for ordinal in 0..4 {
        script.push(&bytes_line(b'M', &[ordinal]));
    }
    script.push(b"L");
    script.push(&dynamic_line(random));
}

/// Commands that leave the rates alone, which are shown after each.
fn other_commands(random: &mut Random, script: &mut Script) {
    for _ in 0..random.below(6) {
        match random.below(5) {
            0 => script.command(&Command::Write(&block(random))),
            1 => script.command(&some_start(random)),
            2 => script.command(&Command::Stop),
            3 => script.command(&Command::Ping),
            _ => script.command(&Command::Reset(random.below(CRATES) as u8)),
        }
        script.push(&temperatures_line(random));
        if script.in_pass() {
            serve_pass(random, script, 95);
            script.push(&temperatures_line(random));
        }
    }
}
