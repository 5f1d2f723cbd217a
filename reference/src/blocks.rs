//! Data blocks, written and read (01, Blocks sent out).

use crate::{configuration, frames::Frame, Refusal, BOARDS, CRATES, ID_LIMIT};

/// Words of the header.
pub const HEADER: usize = 11;
/// Temperatures lent for a dynamic block.
pub const TEMPERATURES: usize = 4;
/// Words of one board's rates in a dynamic block.
pub const RATES: usize = 12;
/// Words of a dynamic body after the on-time: temperatures, and then the rates.
pub const MEASUREMENTS: usize = TEMPERATURES + RATES * BOARDS;
/// Words of the FTU list's body.
pub const LIST: usize = 249;
/// Words of a failure message's body.
pub const FAILURE: usize = 29;
/// First word of the list's active words, and of its entries.
pub const LIST_ACTIVE: usize = 1 + CRATES;
pub const LIST_ENTRIES: usize = 1 + 2 * CRATES;
/// Words of an entry of the list.
pub const ENTRY: usize = 6;

/// Words of the on-time at the start of a dynamic body.
const ON_TIME: usize = 3;
/// Rates have 30 bits.
pub const RATE_LIMIT: u32 = 1 << 30;
/// Bound of the high words of the rates.
const RATE_HIGH: u16 = (RATE_LIMIT >> 16) as u16 - 1;

/// The four kinds of blocks.
#[derive(Clone, Copy, Debug, PartialEq, Eq)]
pub enum Kind {
    Static,
    Dynamic,
    List,
    Failure,
}

impl Kind {
    /// Words of the body.
    pub fn body_words(self) -> usize {
        match self {
            Kind::Static => configuration::WORDS,
            Kind::Dynamic => ON_TIME + MEASUREMENTS,
            Kind::List => LIST,
            Kind::Failure => FAILURE,
        }
    }

    /// Words of the whole block.
    pub fn words(self) -> usize {
        HEADER + self.body_words()
    }

    /// The upper bound of the body's word at `place`; the words of lists and
    /// failure messages are not checked.
    pub fn bound(self, place: usize) -> u16 {
        match self {
            Kind::Static => configuration::bound(place),
            Kind::Dynamic if place >= ON_TIME => measurement_bound(place - ON_TIME),
            _ => 0xFFFF,
        }
    }
}

/// What the header tells.
#[derive(Clone, Copy, Debug, PartialEq, Eq)]
pub struct Header {
    pub board_id: u64,
    pub firmware_id: u16,
    pub trigger_counter: u32,
    pub timestamp: u64,
}

/// One board's rates (02, i): the counts of patch 0 to 3 and the total, as the
/// board sent them.
#[derive(Clone, Copy, Debug, Default, PartialEq, Eq)]
pub struct BoardRates {
    pub counts: [u32; 5],
    pub overflow: u8,
    pub crc_errors: u8,
}

impl BoardRates {
    /// The twelve words: each count in two, high first, overflow, CRC errors.
    pub fn words(&self) -> [u16; RATES] {
        let mut words = [0; RATES];
        for (pair, count) in words.chunks_exact_mut(2).zip(self.counts) {
            pair.copy_from_slice(&[(count >> 16) as u16, count as u16]);
        }
        words[10..].copy_from_slice(&[self.overflow.into(), self.crc_errors.into()]);
        words
    }
}

/// The upper bound of the word at `place` after the on-time: of a board's twelve
/// words, the high words of the five rates are bounded.
pub fn measurement_bound(place: usize) -> u16 {
    match place.checked_sub(TEMPERATURES).map(|place| place % RATES) {
        Some(0 | 2 | 4 | 6 | 8) => RATE_HIGH,
        _ => 0xFFFF,
    }
}

/// Checks the high words of the rates in a dynamic body: 8 with the lowest place
/// that is above the bound.
fn check_rates(body: &[u16]) -> Result<(), Refusal> {
    let first = ON_TIME + TEMPERATURES;
    for (board, words) in body[first..].chunks_exact(RATES).enumerate() {
        for pair in 0..5 {
            if words[2 * pair] > RATE_HIGH {
                let place = first + RATES * board + 2 * pair;
                return Err(Refusal::AboveBound { place });
            }
        }
    }
    Ok(())
}

/// The high, middle and low word of a 48-bit counter.
fn words_of_48(counter: u64) -> [u16; 3] {
    [(counter >> 32) as u16, (counter >> 16) as u16, counter as u16]
}

fn write_header(header: &Header, out: &mut [u16]) {
    out[0] = (header.board_id >> 48) as u16;
    out[1] = (header.board_id >> 32) as u16;
    out[2] = (header.board_id >> 16) as u16;
    out[3] = header.board_id as u16;
    out[4] = header.firmware_id;
    out[5] = (header.trigger_counter >> 16) as u16;
    out[6] = header.trigger_counter as u16;
    out[7..10].copy_from_slice(&words_of_48(header.timestamp));
    out[10] = 0;
}

/// Lays the header down and gives the words for the body; 20 if the board ID is
/// at or above 2^57 and the output long enough, 19 if it is too short.
fn begin<'a>(kind: Kind, header: &Header, out: &'a mut [u16]) -> Result<&'a mut [u16], Refusal> {
    let out = out.get_mut(..kind.words()).ok_or(Refusal::OutputTooShort)?;
    if header.board_id >= ID_LIMIT {
        return Err(Refusal::BoardIdOrSpare);
    }
    write_header(header, out);
    Ok(&mut out[HEADER..])
}

/// Writes a static block and gives the number of its words.
pub fn write_static(
    header: &Header,
    block: &[u16; configuration::WORDS],
    out: &mut [u16],
) -> Result<usize, Refusal> {
    begin(Kind::Static, header, out)?.copy_from_slice(block);
    Ok(Kind::Static.words())
}

/// Writes a dynamic block with the caller's temperatures, 6 if they are not four,
/// and these rates, each below 2^30.
pub fn write_dynamic(
    header: &Header,
    on_time: u64,
    temperatures: &[u16],
    rates: &[BoardRates; BOARDS],
    out: &mut [u16],
) -> Result<usize, Refusal> {
    let temperatures: &[u16; TEMPERATURES] =
        temperatures.try_into().map_err(|_| Refusal::WrongLength)?;
    let body = begin(Kind::Dynamic, header, out)?;
    let (time, body) = body.split_at_mut(ON_TIME);
    time.copy_from_slice(&words_of_48(on_time));
    let (lent, body) = body.split_at_mut(TEMPERATURES);
    lent.copy_from_slice(temperatures);
    for (words, rates) in body.chunks_exact_mut(RATES).zip(rates) {
        words.copy_from_slice(&rates.words());
    }
    Ok(Kind::Dynamic.words())
}

/// Writes the FTU list.
pub fn write_list(header: &Header, list: &[u16; LIST], out: &mut [u16]) -> Result<usize, Refusal> {
    begin(Kind::List, header, out)?.copy_from_slice(list);
    Ok(Kind::List.words())
}

/// Writes a failure message.
pub fn write_failure(
    header: &Header,
    calls: u16,
    frame: &Frame,
    out: &mut [u16],
) -> Result<usize, Refusal> {
    let body = begin(Kind::Failure, header, out)?;
    body[0] = calls;
    for (word, &byte) in body[1..].iter_mut().zip(frame) {
        *word = u16::from(byte);
    }
    Ok(Kind::Failure.words())
}

/// Reads a block of the kind told: its header and its body. Refuses with 6, 8
/// (the place counts in the body) or 20.
pub fn read(kind: Kind, words: &[u16]) -> Result<(Header, &[u16]), Refusal> {
    if words.len() != kind.words() {
        return Err(Refusal::WrongLength);
    }
    let (head, body) = words.split_at(HEADER);
    match kind {
        Kind::Static => configuration::check(body)?,
        Kind::Dynamic => check_rates(body)?,
        Kind::List | Kind::Failure => {}
    }
    let number = |words: &[u16]| words.iter().fold(0u64, |sum, &word| sum << 16 | u64::from(word));
    let board_id = number(&head[..4]);
    if board_id >= ID_LIMIT || head[10] != 0 {
        return Err(Refusal::BoardIdOrSpare);
    }
    let header = Header {
        board_id,
        firmware_id: head[4],
        trigger_counter: number(&head[5..7]) as u32,
        timestamp: number(&head[7..10]),
    };
    Ok((header, body))
}

#[cfg(test)]
mod tests {
    use super::*;

    const TOP: Header = Header {
        board_id: ID_LIMIT - 1,
        firmware_id: 0xABCD,
        trigger_counter: 0x0102_0304,
        timestamp: 0x1112_1314_1516,
    };

    #[test]
    fn lengths() {
        assert_eq!(Kind::Static.words(), 447);
        assert_eq!(Kind::Dynamic.words(), 498);
        assert_eq!(Kind::List.words(), 260);
        assert_eq!(Kind::Failure.words(), 40);
        assert_eq!(LIST_ENTRIES + ENTRY * BOARDS, LIST);
    }

    #[test]
    fn header_layout() {
        let mut out = [0x7777; 448];
        let block = [0u16; configuration::WORDS];
        assert_eq!(write_static(&TOP, &block, &mut out), Ok(447));
        assert_eq!(
            out[..HEADER],
            [0x01FF, 0xFFFF, 0xFFFF, 0xFFFF, 0xABCD, 0x0102, 0x0304, 0x1112, 0x1314, 0x1516, 0]
        );
        assert_eq!(out[447], 0x7777);
        assert_eq!(read(Kind::Static, &out[..447]), Ok((TOP, &block[..])));
    }

    const ZEROS: [BoardRates; BOARDS] =
        [BoardRates { counts: [0; 5], overflow: 0, crc_errors: 0 }; BOARDS];

    #[test]
    fn dynamic_layout() {
        let mut rates = ZEROS;
        let counts = [0x0001_1170, 0x0002_0020, 0x3FFF_0000, 0x0000_FFFF, RATE_LIMIT - 1];
        rates[23] = BoardRates { counts, overflow: 0x80, crc_errors: 0xFF };
        rates[39] = BoardRates { counts: [0; 5], overflow: 0, crc_errors: 1 };
        let mut out = [0x7777; 499];
        let temperatures = [0xFFFF, 0x4000, 0x8000, 3];
        let written = write_dynamic(&TOP, 0x0004_0005_0006, &temperatures, &rates, &mut out);
        assert_eq!(written, Ok(498));
        let mut body = [0; 487];
        body[..7].copy_from_slice(&[4, 5, 6, 0xFFFF, 0x4000, 0x8000, 3]);
        body[283..295].copy_from_slice(&[
            0x0001, 0x1170, 0x0002, 0x0020, 0x3FFF, 0x0000, 0x0000, 0xFFFF, 0x3FFF, 0xFFFF, 0x0080,
            0x00FF,
        ]);
        body[486] = 1;
        assert_eq!(read(Kind::Dynamic, &out[..498]), Ok((TOP, &body[..])));
        assert_eq!(out[498], 0x7777);
    }

    #[test]
    fn other_numbers_of_temperatures() {
        for lent in [0, 497, 498, 499] {
            for temperatures in (0..=8).chain([483, 484, 485, 487, 498]) {
                let mut out = vec![0x7777; lent];
                let written = write_dynamic(&TOP, 5, &vec![0xFFFF; temperatures], &ZEROS, &mut out);
                let expected = match (temperatures, lent) {
                    (4, 498..) => Ok(498),
                    (4, _) => Err(Refusal::OutputTooShort),
                    _ => Err(Refusal::WrongLength),
                };
                assert_eq!(written, expected);
                let kept = if written.is_ok() { 498 } else { 0 };
                assert!(out[kept..].iter().all(|&word| word == 0x7777));
            }
        }
    }

    #[test]
    fn reader_refusals() {
        let mut out = [0; 498];
        let counts = [RATE_LIMIT - 1; 5];
        let rates = [BoardRates { counts, overflow: 0xFF, crc_errors: 0xFF }; BOARDS];
        assert_eq!(write_dynamic(&TOP, 5, &[0xFFFF; 4], &rates, &mut out), Ok(498));
        assert!(read(Kind::Dynamic, &out).is_ok());
        assert_eq!(read(Kind::Static, &out), Err(Refusal::WrongLength));
        assert_eq!(read(Kind::Dynamic, &out[1..]), Err(Refusal::WrongLength));
        out[0] = 0x0200;
        assert_eq!(read(Kind::Dynamic, &out), Err(Refusal::BoardIdOrSpare));
        out[HEADER + 19] = 0x4000;
        assert_eq!(read(Kind::Dynamic, &out), Err(Refusal::AboveBound { place: 19 }));
        out[HEADER + 7] = 0x4000;
        assert_eq!(read(Kind::Dynamic, &out), Err(Refusal::AboveBound { place: 7 }));
        let mut list = [0; 260];
        list[10] = 1;
        assert_eq!(read(Kind::List, &list), Err(Refusal::BoardIdOrSpare));
    }

    #[test]
    fn bounded_words_of_a_dynamic_body() {
        for place in 0..487 {
            let mut out = [0; 498];
            let value = Kind::Dynamic.bound(place);
            let of_board = (place + 5) % 12;
            let bounded = place >= 7 && of_board < 10 && of_board % 2 == 0;
            assert_eq!(value, if bounded { 0x3FFF } else { 0xFFFF });
            out[HEADER + place] = value;
            assert!(read(Kind::Dynamic, &out).is_ok());
            if bounded {
                out[HEADER + place] += 1;
                assert_eq!(read(Kind::Dynamic, &out), Err(Refusal::AboveBound { place }));
            }
        }
    }
}
