//! Times of the proved functions beside the reference's, on the same input in one run.

mod exports;

use std::array::from_fn;
use std::fmt::Debug;
use std::hint::black_box;
use std::time::Instant;

use reference::board::Board;
use reference::{crc::crc8, frames};

use exports::Counted;

/// Bytes of an item of a pass: a crate's number and a reply.
const ITEM: usize = 29;

/// The same work by the reference, with its table of 256 for the CRC.
mod by_256 {
    use reference as model;
    include!("plain.rs");
}

/// The same work by the reference with the table of sixteen, as the proved controller has it (02, e).
mod by_16 {
    use reference_by_16 as model;
    include!("plain.rs");
}

/// Nanoseconds of a call: proved, by the reference, and by the reference with the table of sixteen.
type Times = [f64; 3];

/// The times of calls: the best of many short series, the three by turns. All give the same.
fn times<T: PartialEq + Debug>(
    count: u32,
    mut proved: impl FnMut() -> T,
    mut by_256: impl FnMut() -> T,
    mut by_16: impl FnMut() -> T,
) -> Times {
    fn series<T>(count: u32, work: &mut impl FnMut() -> T) -> f64 {
        let start = Instant::now();
        for _ in 0..count {
            black_box(work());
        }
        start.elapsed().as_secs_f64() * 1e9 / f64::from(count)
    }
    let given = proved();
    assert_eq!([&by_256(), &by_16()], [&given; 2]);
    let mut best = [f64::MAX; 3];
    for _ in 0..200 {
        best[0] = best[0].min(series(count, &mut proved));
        best[1] = best[1].min(series(count, &mut by_256));
        best[2] = best[2].min(series(count, &mut by_16));
    }
    best
}

/// The times of a function of `exports` and of both references on the same arguments.
macro_rules! times_of {
    ($count:expr, $function:ident($($argument:expr),*)) => {
        times(
            $count,
            || exports::$function($($argument),*),
            || by_256::$function($($argument),*),
            || by_16::$function($($argument),*),
        )
    };
}

/// The same of functions that write to what is lent them last. All leave the same there.
macro_rules! times_of_writers {
    ($count:expr, $lent:expr, $function:ident($($argument:expr),*)) => {{
        let [mut lent, mut other, mut third] = [$lent, $lent, $lent];
        let best = times(
            $count,
            || exports::$function($($argument,)* black_box(&mut lent)),
            || by_256::$function($($argument,)* black_box(&mut other)),
            || by_16::$function($($argument,)* black_box(&mut third)),
        );
        assert_eq!([&other, &third], [&lent; 2]);
        best
    }};
}

/// A call that obeys a command, then hands in items, each with the lent bytes for the next frame.
type Pass = fn(&[u16], &[u8], &mut [u8]) -> Counted;

const PASS: [Pass; 3] = [exports::pass, by_256::pass, by_16::pass];
/// The same with each call on the whole board; the references have one board for both.
const REPLIES: [Pass; 3] = [exports::replies, by_256::pass, by_16::pass];
const RATE_PASS: [Pass; 3] = [exports::rate_pass, by_256::rate_pass, by_16::rate_pass];
const TIME_UPS: [Pass; 3] = [exports::time_ups, by_256::time_ups, by_16::time_ups];

/// The times of such calls. All leave the same frame.
fn pass_times(count: u32, calls: [Pass; 3], words: &[u16], items: &[u8]) -> Times {
    let mut lent = [[0; frames::BYTES]; 3];
    let [frame, other, third] = &mut lent;
    let best = times(
        count,
        || calls[0](black_box(words), black_box(items), black_box(frame)),
        || calls[1](black_box(words), black_box(items), black_box(other)),
        || calls[2](black_box(words), black_box(items), black_box(third)),
    );
    assert_eq!([lent[1], lent[2]], [lent[0]; 2]);
    best
}

fn head(what: &str) {
    println!("| {what} | proved, ns | Rust, ns | ratio | Rust by 16, ns | ratio |");
    println!("|---|---|---|---|---|---|");
}

fn row(what: &str, [proved, by_256, by_16]: Times) {
    let shown = |time: f64| if time < 9.95 { format!("{time:.1}") } else { format!("{time:.0}") };
    let beside = |plain: f64| format!("{} | {:.2}", shown(plain), proved / plain);
    println!("| {what} | {} | {} | {} |", shown(proved), beside(by_256), beside(by_16));
}

/// A row for one of the calls of a series: its time without what comes before the calls.
fn single(what: &str, calls: usize, whole: Times, before: Times) {
    row(what, from_fn(|side| (whole[side] - before[side]) / calls as f64));
}

/// A good reply to a frame.
fn good_reply(frame: &[u8; frames::BYTES]) -> [u8; frames::BYTES] {
    let mut reply = *frame;
    reply.swap(1, 2);
    if reply[4] == frames::PING {
        reply[5..13].copy_from_slice(&(0x0123_4567_89AB_CDEF_u64 >> 7).to_be_bytes());
    }
    if reply[4] == frames::RATES {
        for (count, bytes) in (0x0123_4567_u32..).zip(reply[5..25].chunks_exact_mut(4)) {
            bytes.copy_from_slice(&count.to_be_bytes());
        }
    }
    reply[frames::BYTES - 1] = crc8(frames::CRC_START, &reply[..frames::BYTES - 1]);
    reply
}

/// A board that obeyed a command.
fn after(words: &[u16]) -> Board {
    let mut board = Board::power_up(0, 0).expect("0 is below 2^57");
    board.obey(words).expect("an idle board");
    board
}

/// The good replies of a whole pass, the crates by turns: to the first frame of each, then to the one that its last reply gave.
fn good_items(mut board: Board) -> Vec<u8> {
    let first = |c| {
        let mut frame = [0; frames::BYTES];
        board.first_frame(c, &mut frame).is_ok().then_some((c, frame))
    };
    let mut outstanding: Vec<_> = (0..4).filter_map(first).collect();
    let mut items = Vec::new();
    while !outstanding.is_empty() {
        outstanding.retain_mut(|(c, frame)| {
            let reply = good_reply(frame);
            items.push(*c);
            items.extend_from_slice(&reply);
            !board.reply(*c, &reply, frame).expect("a frame is outstanding").done
        });
    }
    items
}

/// A write command whose block has all boards active, and settings.
fn write_command() -> Vec<u16> {
    let mut words = vec![0x0040, 0x0002, 0x0001, 0, 0];
    words.extend((0..436).map(|place| match place {
        0x000..=0x01F => 0,
        0x1B0..=0x1B3 => 0x03FF,
        _ => 1000 + place,
    }));
    words
}

const READ: [u16; 5] = [0x0040, 0x0001, 0x0001, 0, 0];
const STOP: [u16; 5] = [0x0040, 0x0008, 0x0000, 0, 0];
const PING: [u16; 5] = [0x0040, 0x0010, 0x0000, 0, 0];

/// A write with no board active, so that the start after it is accepted at once.
fn run_commands() -> Vec<u16> {
    let mut words = vec![0; 441];
    words[..3].copy_from_slice(&[0x0040, 0x0002, 0x0001]);
    words.extend([0x0040, 0x0004, 0x0001, 0, 0]);
    words
}

fn formats(write: &[u16]) {
    let bytes: Vec<u8> =
        (0..65536u32).map(|i| (i.wrapping_mul(2_654_435_761) >> 24) as u8).collect();
    for (what, bytes, count) in
        [("CRC of 28 bytes", &bytes[..28], 20000), ("CRC of 64 KiB", &bytes[..], 10)]
    {
        row(what, times_of!(count, crc(frames::CRC_START, black_box(bytes))));
    }
    for (what, words) in [("read a command, a read", &READ[..]), ("read a command, a write", write)]
    {
        row(what, times_of!(2000, read_command(black_box(words))));
    }
    let (mut sent, stored) = (vec![0; 7000], &write[5..]);
    exports::triggers(&run_commands(), 1000, &mut sent).expect("room for 1,000 packets");
    row("1,000 packets read", times_of!(20, packets(black_box(&sent))));
    let best = times_of_writers!(2000, vec![0; 447], static_block(black_box(stored)));
    row("a static block, written and read back", best);
}

/// Good replies to the frames of a reprogramming, a ping and a rate pass, each with all boards.
struct Replies {
    writes: Vec<u8>,
    pings: Vec<u8>,
    rates: Vec<u8>,
}

impl Replies {
    fn new(write: &[u16]) -> Self {
        let mut board = after(write);
        by_256::begin_rates(&mut board);
        let [writes, pings, rates] = [after(write), after(&PING), board].map(good_items);
        Self { writes, pings, rates }
    }
}

fn series(write: &[u16], Replies { writes, pings, rates }: &Replies) {
    for (what, words, items, count) in [
        ("an accepted write, from power-up", write, &[][..], 1000),
        ("a whole ping, 40 good replies", &PING, pings, 100),
        ("a whole reprogramming, 120 good replies", write, writes, 100),
    ] {
        row(what, pass_times(count, PASS, words, items));
    }
    let [whole, before] = [rates, &[][..]].map(|items| pass_times(100, RATE_PASS, write, items));
    row("a write, 120 time-ups, a rate pass begun", before);
    single("40 good replies of that rate pass", 1, whole, before);
    let run = run_commands();
    let best = times_of_writers!(20, vec![0; 7000], triggers(black_box(&run), 1000));
    row("1,000 triggers, from power-up", best);
}

fn single_calls(write: &[u16], Replies { writes, pings, rates }: &Replies) {
    let turns: Vec<u8> = (0..120).map(|i| i % 4).collect();
    for (what, calls, size, words, items) in [
        ("a reply good, next frame given", REPLIES, ITEM, write, &writes[..]),
        ("a ping's reply good, next frame given", REPLIES, ITEM, &PING, pings),
        ("a rate reply good, next frame given", RATE_PASS, ITEM, write, rates),
        ("a time-up, next frame given", TIME_UPS, 1, write, &turns),
    ] {
        let [whole, before] = [items, &[][..]].map(|items| pass_times(50, calls, words, items));
        single(what, items.len() / size, whole, before);
    }
    let run = run_commands();
    let ticks: Vec<u32> = (0..1000).collect();
    let [whole, before] = [&ticks[..], &[]].map(|ticks| {
        let lent = vec![0; ticks.len() + 1];
        times_of_writers!(50, lent.clone(), clock_steps(black_box(&run), black_box(ticks)))
    });
    single("a clock step", ticks.len(), whole, before);
    let [whole, before] = [1000, 0]
        .map(|count| times_of_writers!(20, vec![0; 7 * count], triggers(black_box(&run), count)));
    single("a trigger", 1000, whole, before);
    for (what, words, calls) in [
        ("the obeying of a read", &READ.repeat(100)[..], 100),
        ("an accepted write, 40 boards active", write, 1),
        ("an accepted write, no board active", &run[..441].repeat(10), 10),
    ] {
        let [whole, before] =
            [calls, 0].map(|count| times_of!(200, commands(black_box(words), black_box(count))));
        single(what, calls as usize, whole, before);
    }
}

/// However many bytes are lent, all count the same items and leave the same bytes.
fn lent_bytes(write: &[u16], Replies { writes, rates, .. }: &Replies) {
    for lent in [0, 27, 28, 30] {
        for (calls, items) in [(PASS, writes), (REPLIES, writes), (RATE_PASS, rates)] {
            let [proved, by_256, by_16] = calls.map(|call| {
                let mut frame = vec![5; lent];
                (call(write, items, &mut frame), frame)
            });
            assert_eq!([by_256, by_16], [proved.clone(), proved]);
        }
    }
}

/// All give the same CRC from every start, of bytes of every length up to 64.
fn checksums() {
    let bytes: Vec<u8> = (0..64u8).map(|i| i.wrapping_mul(151) ^ 0x5A).collect();
    for start in 0..=u8::MAX {
        for length in 0..=bytes.len() {
            let bytes = &bytes[..length];
            let proved = exports::crc(start, bytes);
            assert_eq!([by_256::crc(start, bytes), by_16::crc(start, bytes)], [proved; 2]);
        }
    }
}

/// All refuse alike, and leave what was lent as it was.
fn refusals(write: &[u16]) {
    let (stop, twice) = (&STOP[..], [&READ[..], &STOP[..]].concat());
    let cut = &write[..440];
    for (words, items, refusal) in
        [(stop, 29, 9), (stop, 28, 9), (cut, 30, 6), (write, 30, 13), (&PING, 28, 13)]
    {
        let (items, mut frame) = (vec![0; items], [5; frames::BYTES]);
        for call in [PASS, REPLIES, RATE_PASS].as_flattened() {
            assert_eq!(call(words, &items, &mut frame), Err(refusal));
        }
        assert_eq!(frame, [5; frames::BYTES]);
        let [proved, by_256, by_16] = TIME_UPS.map(|call| {
            let mut frame = frame;
            (call(words, &items, &mut frame), frame)
        });
        assert_eq!([by_256, by_16], [proved; 2]);
    }
    for packets in [exports::packets, by_256::packets, by_16::packets] {
        assert_eq!([packets(&[0; 8]), packets(&[0; 7])], [Err(13), Ok(0)]);
    }
    let run = run_commands();
    for (words, room, refusal) in [(&run[..], 3, 19), (&twice, 4, 9), (stop, 3, 9)] {
        let (mut numbers, mut packets) = (vec![5; room], vec![5; 7 * room]);
        for clock_steps in [exports::clock_steps, by_256::clock_steps, by_16::clock_steps] {
            assert_eq!(clock_steps(words, &[1; 3], &mut numbers), refusal);
        }
        for triggers in [exports::triggers, by_256::triggers, by_16::triggers] {
            assert_eq!(triggers(words, 4, &mut packets), Err(refusal));
        }
        assert_eq!((numbers, packets), (vec![5; room], vec![5; 7 * room]));
    }
}

fn main() {
    let write = write_command();
    checksums();
    refusals(&write);
    let replies = Replies::new(&write);
    lent_bytes(&write, &replies);
    head("on the same input");
    formats(&write);
    series(&write, &replies);
    println!();
    head("one call on the whole board");
    single_calls(&write, &replies);
}
