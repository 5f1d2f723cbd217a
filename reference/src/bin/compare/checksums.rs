//! Answers about trigger packets and replies by the start of their CRC (02, g).

use reference::blocks::RATE_LIMIT;
use reference::frames::{self, Frame};
use reference::{packets, ID_LIMIT};

use crate::rates::Answered;

/// Lines stuck low are listed up to so many bytes.
const ZEROS: usize = 20;

/// Packets of seven bytes, stuck lines aside, by the start from which their CRC is
/// right; and a line stuck high.
const PACKETS: &[&str] = &[
    "X 0 with a CRC from 0xFF",
    "X 15 with a CRC from 0xFF",
    "X 14 with a CRC from 0x00",
    "X 14 with a CRC from another start",
    "X 14 of 7 bytes 0xFF",
];

/// Replies that are right in all but their CRC, to each code.
const REPLIES: &[&str] = &[
    "R good with a CRC from 0x00",
    "R bad with a CRC from 0xFF",
    "R bad with a CRC from another start",
];

/// All of these, and a line stuck low.
pub fn listed() -> Vec<String> {
    let zeros = (0..=ZEROS).map(|length| {
        let number = if length == packets::BYTES { 14 } else { 13 };
        format!("X {number} of {length} zero bytes")
    });
    let codes = frames::DACS..=frames::RATES;
    let replies = codes.flat_map(|code| REPLIES.iter().map(move |name| with_code(name, code)));
    let packets = PACKETS.iter().map(|name| name.to_string());
    packets.chain(zeros).chain(replies).collect()
}

fn with_code(name: &str, code: u8) -> String {
    format!("{name} to code {code}")
}

/// The name in these lists of an answer.
pub fn name(answered: &Answered) -> Option<String> {
    match answered.name {
        "X 0" | "X 13" | "X 14" | "X 15" => packet_name(answered),
        name if name.starts_with("R ") => reply_name(answered),
        _ => None,
    }
}

fn packet_name(answered: &Answered) -> Option<String> {
    let (bytes, name) = (answered.bytes()?, answered.name);
    let length = bytes.len();
    if length <= ZEROS && bytes.iter().all(|&byte| byte == 0) {
        return Some(format!("{name} of {length} zero bytes"));
    }
    if length != packets::BYTES {
        return None;
    }
    if bytes.iter().all(|&byte| byte == 0xFF) {
        return Some(format!("{name} of {length} bytes 0xFF"));
    }
    Some(format!("{name} with a CRC from {}", start_name(&bytes)))
}

/// The name of a reply to a frame that a line has shown.
fn reply_name(answered: &Answered) -> Option<String> {
    let (sent, reply) = (answered.sent?, answered.reply()?);
    if !right_but_for_crc(&sent, &reply) {
        return None;
    }
    let verdict = if answered.name.starts_with("R good") { "good" } else { "bad" };
    let name = format!("R {verdict} with a CRC from {}", start_name(&reply));
    Some(with_code(&name, sent[4]))
}

/// Whether a reply is right by 01 and 02, i in all but its CRC.
fn right_but_for_crc(sent: &Frame, reply: &Frame) -> bool {
    let head = [reply[0], reply[2], reply[1], reply[4]] == [sent[0], sent[1], sent[2], sent[4]];
    let data = match sent[4] {
        frames::PING => {
            frames::dna(reply) < ID_LIMIT && reply[13..26].iter().all(|&byte| byte == 0)
        }
        frames::RATES => frames::rates(reply).counts.iter().all(|&count| count < RATE_LIMIT),
        _ => reply[5..26] == sent[5..26],
    };
    head && data
}

fn start_name(bytes: &[u8]) -> &'static str {
    match start(bytes) {
        0x00 => "0x00",
        0xFF => "0xFF",
        _ => "another start",
    }
}

/// The one start from which the last byte is the CRC of those before it: the
/// register is run backwards from it. Its low bit tells whether the polynomial was
/// added last, since that has a 1 there, and a shift leaves a 0.
fn start(bytes: &[u8]) -> u8 {
    let mut bytes = bytes.iter().rev();
    let mut register = *bytes.next().expect("a CRC");
    for byte in bytes {
        for _ in 0..8 {
            let added = register & 1;
            register = (register ^ (0x07 * added)) >> 1 | added << 7;
        }
        register ^= byte;
    }
    register
}

#[cfg(test)]
mod tests {
    use reference::crc::crc8;

    use super::*;
    use crate::tests::{check_names, write_line, PING};

    #[test]
    fn starts_found() {
        assert_eq!(start(&[0; 7]), 0x00);
        assert_eq!(start(&[0, 0, 0, 0, 0, 0, 0xAF]), 0xFF);
        assert_eq!(start(b"123456789\xF4"), 0x00);
        for begin in 0..=255 {
            for bytes in [&[][..], &[begin], b"abcdef", &[begin ^ 0x5A; 27]] {
                let whole = [bytes, &[crc8(begin, bytes)]].concat();
                assert_eq!(start(&whole), begin);
            }
        }
    }

    #[test]
    fn names_of_packets() {
        let zeros = |length: usize| format!("X{}\n", "00".repeat(length));
        check_names(&[
            (&["X 010000001000 d1\n"], &["X 0 with a CRC from 0xFF"]),
            (&["X010000001000 7E\n"], &["X 14 with a CRC from 0x00"]),
            (&["X010000001000 D0\n"], &["X 14 with a CRC from another start"]),
            (&["X01000000A67C93\n"], &["X 15 with a CRC from 0xFF"]),
            (&["X000000000000AF\n"], &["X 0 with a CRC from 0xFF"]),
            (&[&zeros(7), "X\n"], &["X 14 of 7 zero bytes", "X 13 of 0 zero bytes"]),
            (
                &[&zeros(6), &zeros(20), &zeros(21)],
                &["X 13 of 6 zero bytes", "X 13 of 20 zero bytes"],
            ),
            (&["XffFFFFFFFFFFFF\n"], &["X 14 of 7 bytes 0xFF"]),
            (&["XFFFFFFFFFFFF\nX0100000010D1\nX0\nX 0x\n"], &[]),
        ]);
    }

    /// A reply of crate 3: these bytes, and their CRC from `start`.
    fn reply_line(bytes: &[u8], start: u8) -> String {
        let whole = [bytes, &[crc8(start, bytes)]].concat();
        let digits: String = whole.iter().map(|byte| format!("{byte:02X}")).collect();
        format!("R03 {digits}\n")
    }

    /// Only where the outstanding frame was shown, and no other thing is wrong.
    #[test]
    fn names_of_replies() {
        let write: &str = &write_line("0001");
        let mut reply = [0; 27];
        reply[..5].copy_from_slice(&[0x40, 192, 0x30, 0, 1]);
        let line = |start: u8| reply_line(&reply, start);
        let another = "R bad with a CRC from another start to code 1";
        check_names(&[
            (&[write, "F03\n", &line(0x00)], &["R good with a CRC from 0x00 to code 1"]),
            (&[write, "F03\n", &line(0xFF)], &["R bad with a CRC from 0xFF to code 1"]),
            (&[write, "T03\nT03\n", &line(0xFF)], &["R bad with a CRC from 0xFF to code 1"]),
            (&[write, "F03\n", &line(0x01), &line(0x80)], &[another, another]),
            (&[write, &line(0x00)], &[]),
            (&[write, &line(0xFF)], &[]),
            // The frame shown is that of an earlier pass, or of an earlier step.
            (&[write, "F03\nT03\nT03\nT03\n", write, &line(0xFF)], &[]),
            (
                &[write, "F03\n", &line(0x00), &line(0xFF)],
                &["R good with a CRC from 0x00 to code 1"],
            ),
            (&[PING, "F03\n", &line(0xFF)], &[]),
            (&["R03\n", &line(0xFF).replace("R03", "R04")], &[]),
        ]);
        for place in [0, 1, 2, 4, 5, 25] {
            let mut changed = reply;
            changed[place] ^= 1;
            check_names(&[(&[write, "F03\n", &reply_line(&changed, 0xFF)], &[])]);
        }
    }
}
