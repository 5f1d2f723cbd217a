// The work of the exported functions by the reference, which a module that includes this file has as `model`.

use self::model::blocks::{self, Header, Kind};
use self::model::board::{Board, Outcome};
use self::model::packets::{self, Trigger};
use self::model::{commands, crc::crc8, frames, Refusal};
use super::{Counted, ITEM};

pub fn crc(start: u8, bytes: &[u8]) -> u8 {
    crc8(start, bytes)
}

pub fn read_command(words: &[u16]) -> u8 {
    commands::read(words).map_or_else(|refusal| refusal.number(), |_| 0)
}

fn fresh() -> Board {
    Board::power_up(0, 0).expect("0 is below 2^57")
}

/// How many of so many commands a fresh board accepts, one after another.
pub fn commands(words: &[u16], count: u64) -> Counted {
    let (mut board, mut at, mut accepted) = (fresh(), 0, 0);
    for _ in 0..count {
        match board.obey(&words[at..]) {
            Ok((_, used)) => {
                at += used;
                accepted += 1;
            }
            Err(refused) => at += refused.used,
        }
    }
    Ok(accepted)
}

/// A fresh board that obeyed so many commands, or the number of the first refusal; and that of
/// another refusal, where that is lower.
fn begun(words: &[u16], count: u64, other: Option<Refusal>) -> Result<Board, u8> {
    let (mut board, mut at, mut first) = (fresh(), 0, None);
    for _ in 0..count {
        match board.obey(&words[at..]) {
            Ok((_, used)) => at += used,
            Err(refused) => {
                at += refused.used;
                first = first.or(Some(refused.refusal));
            }
        }
    }
    match [first, other].into_iter().flatten().map(Refusal::number).min() {
        None => Ok(board),
        Some(number) => Err(number),
    }
}

fn left_over(items: &[u8]) -> Option<Refusal> {
    (items.len() % ITEM != 0).then_some(Refusal::PacketLength)
}

/// How many of the replies are good.
fn good_replies(board: &mut Board, items: &[u8], frame: &mut [u8]) -> u64 {
    let mut good = 0;
    for item in items.chunks_exact(ITEM) {
        let answer = board.reply(item[0], &item[1..], frame);
        if answer.is_ok_and(|answer| answer.outcome == Outcome::Good) {
            good += 1;
        }
    }
    good
}

pub fn pass(words: &[u16], items: &[u8], frame: &mut [u8]) -> Counted {
    let mut board = begun(words, 1, left_over(items))?;
    Ok(good_replies(&mut board, items, frame))
}

/// A rate pass begins, once a pass that is under way has run out on silent boards.
pub fn begin_rates(board: &mut Board) {
    let mut unused = [0; frames::BYTES];
    for crate_number in 0..4 {
        while board.time_up(crate_number, &mut unused).is_ok() {}
    }
    board.begin_rate_pass().expect("no pass is under way");
}

pub fn rate_pass(words: &[u16], items: &[u8], frame: &mut [u8]) -> Counted {
    let mut board = begun(words, 1, left_over(items))?;
    begin_rates(&mut board);
    Ok(good_replies(&mut board, items, frame))
}

pub fn time_ups(words: &[u16], crates: &[u8], frame: &mut [u8]) -> Counted {
    let mut board = begun(words, 1, None)?;
    let served = crates.iter().filter(|&&crate_number| board.time_up(crate_number, frame).is_ok());
    Ok(served.count() as u64)
}

/// The timestamps after clock steps, then the on-time, out of a dynamic block.
pub fn clock_steps(words: &[u16], ticks: &[u32], out: &mut [u64]) -> u8 {
    let short = (out.len() <= ticks.len()).then_some(Refusal::OutputTooShort);
    let mut board = match begun(words, 2, short) {
        Ok(board) => board,
        Err(refusal) => return refusal,
    };
    for (&step, timestamp) in ticks.iter().zip(&mut *out) {
        board.clock(step);
        *timestamp = board.header().timestamp;
    }
    let mut block = [0; 498];
    board.dynamic_block(&[0; 4], &mut block).expect("a dynamic block has 498 words");
    out[ticks.len()] =
        block[11..14].iter().fold(0, |on_time, &word| on_time << 16 | u64::from(word));
    0
}

pub fn triggers(words: &[u16], count: usize, out: &mut [u8]) -> Counted {
    let short = (out.len() / packets::BYTES < count).then_some(Refusal::OutputTooShort);
    let mut board = begun(words, 2, short)?;
    let trigger = Trigger { n: 4, ..Trigger::default() };
    let mut given = 0;
    for packet in out.chunks_exact_mut(packets::BYTES).take(count) {
        if board.trigger(&trigger, packet).is_err() {
            break;
        }
        given += 1;
    }
    Ok(given)
}

pub fn packets(bytes: &[u8]) -> Counted {
    if bytes.len() % packets::BYTES != 0 {
        return Err(Refusal::PacketLength.number());
    }
    let good = bytes.chunks_exact(packets::BYTES).filter(|packet| packets::read(packet).is_ok());
    Ok(good.count() as u64)
}

pub fn static_block(block: &[u16], out: &mut [u16]) -> u8 {
    let mut stored = [0; 436];
    let length = block.len().min(436);
    stored[..length].copy_from_slice(&block[..length]);
    let header = Header { board_id: 0, firmware_id: 0, trigger_counter: 0, timestamp: 0 };
    blocks::write_static(&header, &stored, out)
        .and_then(|length| blocks::read(Kind::Static, &out[..length]).map(|_| 0))
        .unwrap_or_else(|refusal| refusal.number())
}
