//! The functions of the Rattle crate `exports`, each behind a safe one. None has a `requires`; a slice passes as a pointer and a length.
//! A function that can refuse returns 0 or the number of the refusal, and after a refusal all lent memory is as it was.

#[link(name = "exports", kind = "static")]
extern "C" {
    fn ftm_crc(start: u8, bytes: *const u8, length: usize) -> u8;
    fn ftm_read_command(words: *const u16, length: usize) -> u8;
    fn ftm_commands(
        words: *const u16,
        length: usize,
        count: u64,
        accepted: *mut u64,
        accepted_length: usize,
    ) -> u8;
    fn ftm_pass(
        words: *const u16,
        length: usize,
        items: *const u8,
        items_length: usize,
        frame: *mut u8,
        frame_length: usize,
        good: *mut u64,
        good_length: usize,
    ) -> u8;
    fn ftm_replies(
        words: *const u16,
        length: usize,
        items: *const u8,
        items_length: usize,
        frame: *mut u8,
        frame_length: usize,
        good: *mut u64,
        good_length: usize,
    ) -> u8;
    fn ftm_time_ups(
        words: *const u16,
        length: usize,
        crates: *const u8,
        count: usize,
        frame: *mut u8,
        frame_length: usize,
        served: *mut u64,
        served_length: usize,
    ) -> u8;
    fn ftm_rate_pass(
        words: *const u16,
        length: usize,
        items: *const u8,
        items_length: usize,
        frame: *mut u8,
        frame_length: usize,
        good: *mut u64,
        good_length: usize,
    ) -> u8;
    fn ftm_clock_steps(
        words: *const u16,
        length: usize,
        ticks: *const u32,
        count: usize,
        out: *mut u64,
        out_length: usize,
    ) -> u8;
    fn ftm_triggers(
        words: *const u16,
        length: usize,
        count: usize,
        packets: *mut u8,
        packets_length: usize,
        number: *mut u64,
        number_length: usize,
    ) -> u8;
    fn ftm_packets(bytes: *const u8, length: usize, good: *mut u64, good_length: usize) -> u8;
    fn ftm_static(block: *const u16, length: usize, out: *mut u16, out_length: usize) -> u8;
}

/// A count, or the number of the refusal.
pub type Counted = Result<u64, u8>;

/// Lends a call one number, for its count.
fn counted(call: impl FnOnce(*mut u64, usize) -> u8) -> Counted {
    let mut count = 0;
    match call(&mut count, 1) {
        0 => Ok(count),
        refusal => Err(refusal),
    }
}

pub fn crc(start: u8, bytes: &[u8]) -> u8 {
    unsafe { ftm_crc(start, bytes.as_ptr(), bytes.len()) }
}

pub fn read_command(words: &[u16]) -> u8 {
    unsafe { ftm_read_command(words.as_ptr(), words.len()) }
}

pub fn commands(words: &[u16], count: u64) -> Counted {
    let (words, length) = (words.as_ptr(), words.len());
    counted(|accepted, room| unsafe { ftm_commands(words, length, count, accepted, room) })
}

/// Each item lends `frame` for the next frame.
pub fn pass(words: &[u16], items: &[u8], frame: &mut [u8]) -> Counted {
    let (words, length) = (words.as_ptr(), words.len());
    let (items, size) = (items.as_ptr(), items.len());
    let (frame, lent) = (frame.as_mut_ptr(), frame.len());
    counted(|good, room| unsafe { ftm_pass(words, length, items, size, frame, lent, good, room) })
}

/// As `pass`, each item by a call on the whole board.
pub fn replies(words: &[u16], items: &[u8], frame: &mut [u8]) -> Counted {
    let (words, length) = (words.as_ptr(), words.len());
    let (items, size) = (items.as_ptr(), items.len());
    let (frame, lent) = (frame.as_mut_ptr(), frame.len());
    counted(|good, room| unsafe {
        ftm_replies(words, length, items, size, frame, lent, good, room)
    })
}

/// Each time-up lends `frame` for the next frame.
pub fn time_ups(words: &[u16], crates: &[u8], frame: &mut [u8]) -> Counted {
    let (words, length) = (words.as_ptr(), words.len());
    let (crates, count) = (crates.as_ptr(), crates.len());
    let (frame, lent) = (frame.as_mut_ptr(), frame.len());
    counted(|served, room| unsafe {
        ftm_time_ups(words, length, crates, count, frame, lent, served, room)
    })
}

/// As `replies`, in a rate pass that begins once the command's own pass has run out on silent boards.
pub fn rate_pass(words: &[u16], items: &[u8], frame: &mut [u8]) -> Counted {
    let (words, length) = (words.as_ptr(), words.len());
    let (items, size) = (items.as_ptr(), items.len());
    let (frame, lent) = (frame.as_mut_ptr(), frame.len());
    counted(|good, room| unsafe {
        ftm_rate_pass(words, length, items, size, frame, lent, good, room)
    })
}

/// The timestamps after the steps, then the on-time.
pub fn clock_steps(words: &[u16], ticks: &[u32], out: &mut [u64]) -> u8 {
    let (words, length) = (words.as_ptr(), words.len());
    let (steps, count) = (ticks.as_ptr(), ticks.len());
    unsafe { ftm_clock_steps(words, length, steps, count, out.as_mut_ptr(), out.len()) }
}

pub fn triggers(words: &[u16], count: usize, packets: &mut [u8]) -> Counted {
    let (words, length) = (words.as_ptr(), words.len());
    let (packets, size) = (packets.as_mut_ptr(), packets.len());
    counted(|number, room| unsafe {
        ftm_triggers(words, length, count, packets, size, number, room)
    })
}

pub fn packets(bytes: &[u8]) -> Counted {
    let (bytes, length) = (bytes.as_ptr(), bytes.len());
    counted(|good, room| unsafe { ftm_packets(bytes, length, good, room) })
}

pub fn static_block(block: &[u16], out: &mut [u16]) -> u8 {
    unsafe { ftm_static(block.as_ptr(), block.len(), out.as_mut_ptr(), out.len()) }
}
