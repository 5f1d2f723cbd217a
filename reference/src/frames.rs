//! Slow-control frames of 28 bytes (01, Slow control).

use crate::blocks::{BoardRates, RATE_LIMIT};
use crate::{configuration, crc::crc8, ID_LIMIT};

/// Bytes of a frame.
pub const BYTES: usize = 28;
/// A frame or a reply of the right length.
pub type Frame = [u8; BYTES];
/// The first byte of every frame.
pub const DELIMITER: u8 = 0x40;
/// The trigger master's own address.
pub const OUR_ADDRESS: u8 = 192;
/// The start of the CRC of frames and replies (01, Trigger packets; 02, g).
pub const CRC_START: u8 = 0x00;

/// Code of the frame with the five DACs.
pub const DACS: u8 = 1;
/// Code of the frame with the four enables.
pub const ENABLES: u8 = 2;
/// Code of the frame with the prescaling.
pub const PRESCALING: u8 = 3;
/// Code of a ping.
pub const PING: u8 = 4;
/// Code of a rate frame (02, i).
pub const RATES: u8 = 5;

/// Address of board `board` of crate `crate_number`.
pub fn address(crate_number: usize, board: usize) -> u8 {
    (16 * crate_number + board) as u8
}

/// The frame with `code` for one board: `words` are the board's ten words.
pub fn write(crate_number: usize, board: usize, code: u8, words: &[u16]) -> Frame {
    let data = match code {
        DACS => &words[4..9],
        ENABLES => &words[0..4],
        PRESCALING => &words[9..10],
        _ => &words[..0],
    };
    let mut frame = [0; BYTES];
    frame[0] = DELIMITER;
    frame[1] = address(crate_number, board);
    frame[2] = OUR_ADDRESS;
    frame[4] = code;
    for (place, word) in data.iter().enumerate() {
        frame[5 + 2 * place..7 + 2 * place].copy_from_slice(&word.to_be_bytes());
    }
    frame[27] = crc8(CRC_START, &frame[..27]);
    frame
}

/// The same for a board of the stored block.
pub fn for_board(
    block: &[u16; configuration::WORDS],
    crate_number: usize,
    board: usize,
    code: u8,
) -> Frame {
    let words = configuration::board_words(block, crate_number, board);
    write(crate_number, board, code, words)
}

/// The DNA in a reply to a ping: bytes 5 to 12, high first.
pub fn dna(reply: &Frame) -> u64 {
    let mut bytes = [0; 8];
    bytes.copy_from_slice(&reply[5..13]);
    u64::from_be_bytes(bytes)
}

/// The rates in a reply to a rate frame: five counts of four bytes from byte 5
/// on, high first, the overflow in byte 25, the CRC errors in byte 26 (02, i).
pub fn rates(reply: &Frame) -> BoardRates {
    let mut counts = [0; 5];
    for (count, bytes) in counts.iter_mut().zip(reply[5..25].chunks_exact(4)) {
        *count = bytes.iter().fold(0, |sum, &byte| sum << 8 | u32::from(byte));
    }
    BoardRates { counts, overflow: reply[25], crc_errors: reply[26] }
}

/// The reply as a frame if it is a good one to `sent`: 28 bytes, byte 0, the
/// addresses exchanged, the same code, a right CRC, and the data as sent; for a
/// ping, a DNA below 2^57 and zeros; for rates, counts below 2^30 (02, i). Bytes
/// 3 and 26 are the FTU's own.
pub fn good_reply<'a>(sent: &Frame, reply: &'a [u8]) -> Option<&'a Frame> {
    let reply: &Frame = reply.try_into().ok()?;
    let head = reply[0] == DELIMITER
        && reply[1] == sent[2]
        && reply[2] == sent[1]
        && reply[4] == sent[4]
        && reply[27] == crc8(CRC_START, &reply[..27]);
    let data = match sent[4] {
        PING => dna(reply) < ID_LIMIT && reply[13..26].iter().all(|&byte| byte == 0),
        RATES => rates(reply).counts.iter().all(|&count| count < RATE_LIMIT),
        _ => reply[5..26] == sent[5..26],
    };
    (head && data).then_some(reply)
}

#[cfg(test)]
mod tests {
    use super::*;

    fn exchange(sent: &Frame) -> Frame {
        let mut reply = *sent;
        reply.swap(1, 2);
        reply[27] = crc8(CRC_START, &reply[..27]);
        reply
    }

    #[test]
    fn layout() {
        let words = [1, 2, 3, 0x0405, 0x1011, 0x1213, 0x1415, 0x1617, 0x1819, 0xABCD];
        let frame = write(2, 3, DACS, &words);
        assert_eq!(frame[..5], [0x40, 0x23, 192, 0, 1]);
        assert_eq!(frame[5..15], [0x10, 0x11, 0x12, 0x13, 0x14, 0x15, 0x16, 0x17, 0x18, 0x19]);
        assert!(frame[15..27].iter().all(|&byte| byte == 0));
        assert_eq!(frame[27], crc8(CRC_START, &frame[..27]));
        let frame = write(0, 0, ENABLES, &words);
        assert_eq!(frame[5..14], [0, 1, 0, 2, 0, 3, 4, 5, 0]);
        let frame = write(0, 0, PRESCALING, &words);
        assert_eq!(frame[5..8], [0xAB, 0xCD, 0]);
        let frame = write(3, 9, PING, &words);
        assert_eq!(frame[..5], [0x40, 57, 192, 0, 4]);
        assert!(frame[5..27].iter().all(|&byte| byte == 0));
        let frame = write(1, 2, RATES, &words);
        assert_eq!(frame[..5], [0x40, 0x12, 192, 0, 5]);
        assert!(frame[5..27].iter().all(|&byte| byte == 0));
        assert_eq!(frame[27], crc8(CRC_START, &frame[..27]));
    }

    #[test]
    fn every_byte_matters_but_two() {
        let sent = write(1, 7, ENABLES, &[9, 8, 7, 6, 5, 4, 3, 2, 1, 0]);
        let reply = exchange(&sent);
        assert!(good_reply(&sent, &reply).is_some());
        assert!(good_reply(&sent, &sent).is_none());
        assert!(good_reply(&sent, &reply[..27]).is_none());
        for place in 0..27 {
            let mut changed = reply;
            changed[place] ^= 0x10;
            assert!(good_reply(&sent, &changed).is_none());
            changed[27] = crc8(CRC_START, &changed[..27]);
            assert_eq!(good_reply(&sent, &changed).is_some(), place == 3 || place == 26);
        }
    }

    /// A reply whose CRC has any start but that of frames is bad, for every code.
    #[test]
    fn start_of_the_crc() {
        for code in [DACS, ENABLES, PRESCALING, PING, RATES] {
            let sent = write(2, 5, code, &[1, 2, 3, 4, 5, 6, 7, 8, 9, 10]);
            for start in 0..=255 {
                let mut reply = exchange(&sent);
                reply[27] = crc8(start, &reply[..27]);
                assert_eq!(good_reply(&sent, &reply).is_some(), start == 0x00);
            }
        }
    }

    #[test]
    fn dna_bound() {
        let sent = write(1, 7, PING, &[0; 10]);
        let mut reply = exchange(&sent);
        reply[5..13].copy_from_slice(&(ID_LIMIT - 1).to_be_bytes());
        reply[27] = crc8(CRC_START, &reply[..27]);
        assert_eq!(good_reply(&sent, &reply).map(dna), Some(ID_LIMIT - 1));
        reply[5..13].copy_from_slice(&ID_LIMIT.to_be_bytes());
        reply[27] = crc8(CRC_START, &reply[..27]);
        assert!(good_reply(&sent, &reply).is_none());
        reply[5..13].fill(0);
        reply[13] = 1;
        reply[27] = crc8(CRC_START, &reply[..27]);
        assert!(good_reply(&sent, &reply).is_none());
    }

    /// A reply to a rate frame with these counts, overflow, byte 3 and byte 26.
    fn rate_reply(sent: &Frame, counts: [u32; 5], free: [u8; 3]) -> Frame {
        let mut reply = exchange(sent);
        for (place, count) in counts.iter().enumerate() {
            reply[5 + 4 * place..9 + 4 * place].copy_from_slice(&count.to_be_bytes());
        }
        [reply[25], reply[3], reply[26]] = free;
        reply[27] = crc8(CRC_START, &reply[..27]);
        reply
    }

    #[test]
    fn bounds_of_counts() {
        let sent = write(1, 7, RATES, &[9; 10]);
        for others in [0, 1, RATE_LIMIT - 1] {
            for place in 0..5 {
                for count in [0, 1, RATE_LIMIT - 1, RATE_LIMIT, RATE_LIMIT + 1, 1 << 31, u32::MAX] {
                    let mut counts = [others; 5];
                    counts[place] = count;
                    for free in [[0; 3], [0xFF, 0, 0], [0, 0xFF, 0], [0, 0, 0xFF], [1, 2, 3]] {
                        let reply = rate_reply(&sent, counts, free);
                        let expected = (count < RATE_LIMIT).then_some(BoardRates {
                            counts,
                            overflow: free[0],
                            crc_errors: free[2],
                        });
                        assert_eq!(good_reply(&sent, &reply).map(rates), expected);
                    }
                }
            }
        }
    }

    #[test]
    fn rate_reply_right_but_for_its_data() {
        let sent = write(3, 0, RATES, &[0; 10]);
        let reply = rate_reply(&sent, [1, 2, 3, 4, 11], [5, 6, 7]);
        assert!(good_reply(&sent, &reply).is_some());
        assert!(good_reply(&sent, &exchange(&sent)).is_some());
        for length in [0, 27] {
            assert!(good_reply(&sent, &reply[..length]).is_none());
        }
        assert!(good_reply(&sent, &[&reply[..], &[0]].concat()).is_none());
        // The low bit of any byte: no count reaches 2^30 by it.
        for place in 0..28 {
            let mut changed = reply;
            changed[place] ^= 1;
            assert!(good_reply(&sent, &changed).is_none());
            changed[27] = crc8(CRC_START, &changed[..27]);
            let free = place == 3 || place >= 5;
            assert_eq!(good_reply(&sent, &changed).is_some(), free, "byte {place}");
        }
    }

    #[test]
    fn rates_are_no_reply_to_other_codes() {
        for code in [DACS, ENABLES, PRESCALING, PING] {
            let sent = write(1, 7, code, &[0; 10]);
            let reply = rate_reply(&sent, [1, 2, 3, 4, 10], [0; 3]);
            assert!(good_reply(&sent, &reply).is_none());
        }
    }
}
