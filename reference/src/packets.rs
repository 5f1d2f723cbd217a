//! Trigger packets of seven bytes, written and read (01, Trigger packets; 02, g).

use crate::{crc::crc8, Refusal};

/// Bytes of a packet.
pub const BYTES: usize = 7;
/// The start of the CRC of packets (02, g).
pub const CRC_START: u8 = 0xFF;

/// All fields of a packet but the number.
#[derive(Clone, Copy, Debug, Default, PartialEq, Eq)]
pub struct Trigger {
    pub n: u8,
    pub external_1: bool,
    pub external_2: bool,
    pub tim_source: bool,
    pub pulser_setting: u8,
    pub pedestal: bool,
    pub lp_2: bool,
    pub lp_1: bool,
}

impl Trigger {
    /// 15 if n is above 40 or the setting above 15.
    pub fn check(&self) -> Result<(), Refusal> {
        if self.n > 40 || self.pulser_setting > 15 {
            return Err(Refusal::PacketField);
        }
        Ok(())
    }
}

/// Writes a packet into the first seven bytes of `out`. Refuses with 15 or 19.
pub fn write(number: u32, trigger: &Trigger, out: &mut [u8]) -> Result<(), Refusal> {
    trigger.check()?;
    let out = out.get_mut(..BYTES).ok_or(Refusal::OutputTooShort)?;
    out[..4].copy_from_slice(&number.to_le_bytes());
    out[4] = trigger.n << 2 | u8::from(trigger.external_2) << 1 | u8::from(trigger.external_1);
    out[5] = u8::from(trigger.tim_source) << 7
        | trigger.pulser_setting << 3
        | u8::from(trigger.pedestal) << 2
        | u8::from(trigger.lp_2) << 1
        | u8::from(trigger.lp_1);
    out[6] = crc8(CRC_START, &out[..6]);
    Ok(())
}

/// Reads a packet: its number and its other fields. Refuses with 13, 14 or 15.
pub fn read(bytes: &[u8]) -> Result<(u32, Trigger), Refusal> {
    let bytes: &[u8; BYTES] = bytes.try_into().map_err(|_| Refusal::PacketLength)?;
    if crc8(CRC_START, &bytes[..6]) != bytes[6] {
        return Err(Refusal::PacketChecksum);
    }
    let number = u32::from_le_bytes([bytes[0], bytes[1], bytes[2], bytes[3]]);
    let trigger = Trigger {
        n: bytes[4] >> 2,
        external_1: bytes[4] & 1 != 0,
        external_2: bytes[4] & 2 != 0,
        tim_source: bytes[5] & 0x80 != 0,
        pulser_setting: bytes[5] >> 3 & 0x0F,
        pedestal: bytes[5] & 4 != 0,
        lp_2: bytes[5] & 2 != 0,
        lp_1: bytes[5] & 1 != 0,
    };
    trigger.check()?;
    Ok((number, trigger))
}

#[cfg(test)]
mod tests {
    use super::*;

    fn packet(number: u32, trigger: Trigger) -> [u8; 7] {
        let mut out = [0; 7];
        write(number, &trigger, &mut out).unwrap();
        out
    }

    /// Those of 01, with the start of 02, g.
    #[test]
    fn examples_of_the_paper() {
        let zero = Trigger::default();
        assert_eq!(packet(0, zero), [0, 0, 0, 0, 0, 0, 0xAF]);
        assert_eq!(packet(1, zero), [0x01, 0, 0, 0, 0, 0, 0x86]);
        assert_eq!(packet(1, Trigger { n: 4, ..zero }), [0x01, 0, 0, 0, 0x10, 0, 0xD1]);
        assert_eq!(packet(2, Trigger { pedestal: true, ..zero }), [0x02, 0, 0, 0, 0, 4, 0xE1]);
        assert_eq!(read(&[0, 0, 0, 0, 0, 0, 0xAF]), Ok((0, zero)));
        let mut out = [0; 7];
        assert_eq!(write(1, &Trigger { n: 40, ..zero }, &mut out), Ok(()));
        let kept = out;
        assert_eq!(write(1, &Trigger { n: 41, ..zero }, &mut out), Err(Refusal::PacketField));
        assert_eq!(out, kept);
    }

    /// A receiver with its cable pulled reads zeros.
    #[test]
    fn dead_cable() {
        for length in 0..300 {
            let expected =
                if length == BYTES { Refusal::PacketChecksum } else { Refusal::PacketLength };
            assert_eq!(read(&vec![0; length]), Err(expected));
        }
        assert_eq!(read(&[0xFF; BYTES]), Err(Refusal::PacketChecksum));
    }

    /// A packet whose CRC has any start but that of packets is refused with 14,
    /// whatever its fields are.
    #[test]
    fn start_of_the_crc() {
        for number in (0..32).map(|bit| 1 << bit).chain([0, 3, 70_000, 0x0102_0304, u32::MAX]) {
            for type_1 in 0..=255u8 {
                let [first, second, third, fourth] = number.to_le_bytes();
                let type_2 = type_1.wrapping_mul(37).wrapping_add(first);
                let mut bytes = [first, second, third, fourth, type_1, type_2, 0];
                for start in 0..=255 {
                    bytes[6] = crc8(start, &bytes[..6]);
                    let refused = read(&bytes) == Err(Refusal::PacketChecksum);
                    assert_eq!(refused, start != 0xFF);
                }
            }
        }
    }

    #[test]
    fn read_back() {
        for number in [0, 1, 0x0102_0304, u32::MAX] {
            for n in 0..=40 {
                for pulser_setting in 0..=15 {
                    for flags in 0..64u8 {
                        let trigger = Trigger {
                            n,
                            pulser_setting,
                            external_1: flags & 1 != 0,
                            external_2: flags & 2 != 0,
                            tim_source: flags & 4 != 0,
                            pedestal: flags & 8 != 0,
                            lp_2: flags & 16 != 0,
                            lp_1: flags & 32 != 0,
                        };
                        assert_eq!(read(&packet(number, trigger)), Ok((number, trigger)));
                    }
                }
            }
        }
    }

    #[test]
    fn reader_refusals() {
        let mut bytes = packet(77, Trigger { n: 40, ..Trigger::default() });
        assert_eq!(read(&bytes[..6]), Err(Refusal::PacketLength));
        assert_eq!(read(&[0; 8]), Err(Refusal::PacketLength));
        bytes[4] = 41 << 2;
        assert_eq!(read(&bytes), Err(Refusal::PacketChecksum));
        bytes[6] = crc8(CRC_START, &bytes[..6]);
        assert_eq!(read(&bytes), Err(Refusal::PacketField));
    }
}
