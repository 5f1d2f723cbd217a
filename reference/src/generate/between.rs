//! Rate passes with triggers, stops and clock steps between their items (02, i:
//! leaving these out changes nothing of the pass).

use super::{
    begin_rates, busy_crate, bytes_line, clock_line, command_line, item, power_up_line,
    temperatures_line, trigger_line, Random, Script,
};
use crate::commands::Command;
use crate::{BOARDS, BOARDS_PER_CRATE, CRATES, ID_LIMIT};

/// What a line belongs to.
#[derive(Clone, Copy, Debug, PartialEq, Eq)]
pub enum Part {
    /// The pass: its beginning, its items, frame numbers and records.
    Pass,
    /// A trigger, a stop or a clock step between them.
    Between,
    /// A dynamic block, which shows the counters and the rates.
    Dynamic,
}

/// A rate pass with others between: the lines before it, and the lines from its
/// beginning on.
pub struct Interleaved {
    pub before: Vec<Vec<u8>>,
    pub lines: Vec<(Part, Vec<u8>)>,
}

/// Rate pass `number` of the series with this seed.
pub fn between(seed: u64, number: usize) -> Interleaved {
    let mut random = Random::new(seed ^ (number as u64 + 1).wrapping_mul(0x9FB2_1C65_1E98_DF25));
    let random = &mut random;
    let mut script = Script::new();
    script.push(&power_up_line(random.number() % ID_LIMIT, random.word()));
    script.push(&clock_line(random));
    begin_rates(random, &mut script);
    let mut before: Vec<Vec<u8>> =
        script.text.trim_ascii_end().split(|&byte| byte == b'\n').map(<[u8]>::to_vec).collect();
    let begin = before.pop().expect("a line begins the rate pass");
    let mut lines = vec![(Part::Pass, begin)];
    mixed_lines(random, &mut script, &mut lines);
    closing_lines(random, &mut lines);
    Interleaved { before, lines }
}

/// Items, and others between them: to the end of the pass and some more, or not
/// as far.
fn mixed_lines(random: &mut Random, script: &mut Script, lines: &mut Vec<(Part, Vec<u8>)>) {
    let good = random.choose(&[30, 60, 80, 90, 100]);
    let others = random.choose(&[20, 50, 80]);
    let wanted = random.choose(&[0, 5, 30, 400, 400, 400]);
    let mut extra = random.below(10);
    while lines.len() <= wanted && (script.in_pass() || extra > 0) {
        if !script.in_pass() {
            extra -= 1;
        }
        let (part, line) = if random.chance(others) {
            other_line(random)
        } else {
            let crate_number = busy_crate(random, script);
            let item = item(random, script, crate_number, good);
            script.push(&item.line());
            lines.push((Part::Pass, item.line()));
            (Part::Pass, bytes_line(b'N', &[crate_number]))
        };
        script.push(&line);
        lines.push((part, line));
    }
}

/// A trigger, a clock step, a stop or a dynamic block.
fn other_line(random: &mut Random) -> (Part, Vec<u8>) {
    match random.below(40) {
        0..=19 => (Part::Between, trigger_line(random)),
        20..=34 => (Part::Between, clock_line(random)),
        35 => (Part::Between, command_line(&Command::Stop)),
        _ => (Part::Dynamic, temperatures_line(random)),
    }
}

/// Frame numbers, records, counters and rates; where the pass has not ended it
/// runs out, and they are shown again.
fn closing_lines(random: &mut Random, lines: &mut Vec<(Part, Vec<u8>)>) {
    for round in 0..2 {
        for crate_number in 0..CRATES as u8 {
            for _ in 0..round * 3 * BOARDS_PER_CRATE {
                lines.push((Part::Pass, bytes_line(b'T', &[crate_number])));
            }
            lines.push((Part::Pass, bytes_line(b'N', &[crate_number])));
        }
        for ordinal in 0..=BOARDS as u8 {
            lines.push((Part::Pass, bytes_line(b'M', &[ordinal])));
        }
        lines.push((Part::Between, trigger_line(random)));
        lines.push((Part::Dynamic, temperatures_line(random)));
    }
}
