//! CRC-8, x^8 + x^2 + x + 1, high bit first, nothing added at the end (01, Trigger
//! packets). The register's start is an input (02, g): frames and packets have
//! different ones. There are two algorithms for it: one lookup a byte in a table of
//! 256, and one lookup a half byte in a table of sixteen (02, e).

// `crc8` is the one that the rest of the reference uses.
#[cfg(feature = "table-of-sixteen")]
pub use self::by_16 as crc8;
#[cfg(not(feature = "table-of-sixteen"))]
pub use self::by_256 as crc8;

const POLYNOMIAL: u8 = 0x07;

const TABLE_OF_256: [u8; 256] = make_table();

const TABLE_OF_SIXTEEN: [u8; 16] = make_table();

/// With 2^n entries: each is the register after n single-bit steps from the entry's
/// number in the high n bits, zeros below.
const fn make_table<const ENTRIES: usize>() -> [u8; ENTRIES] {
    let bits = ENTRIES.ilog2();
    let mut table = [0; ENTRIES];
    let mut value = 0;
    while value < ENTRIES {
        let mut register = (value << (8 - bits)) as u8;
        let mut step = 0;
        while step < bits {
            register =
                if register & 0x80 != 0 { (register << 1) ^ POLYNOMIAL } else { register << 1 };
            step += 1;
        }
        table[value] = register;
        value += 1;
    }
    table
}

/// The CRC of `bytes` with the register starting at `start` (01, Trigger packets;
/// 02, g), eight bits at a step.
pub fn by_256(start: u8, bytes: &[u8]) -> u8 {
    let mut register = start;
    for &byte in bytes {
        register = TABLE_OF_256[(register ^ byte) as usize];
    }
    register
}

/// The same CRC four bits at a step, the high half of each byte first (02, e).
pub fn by_16(start: u8, bytes: &[u8]) -> u8 {
    let mut register = start;
    for &byte in bytes {
        register ^= byte;
        register = TABLE_OF_SIXTEEN[(register >> 4) as usize] ^ (register << 4);
        register = TABLE_OF_SIXTEEN[(register >> 4) as usize] ^ (register << 4);
    }
    register
}

#[cfg(test)]
mod tests {
    use super::*;

    type Algorithm = fn(u8, &[u8]) -> u8;

    const BOTH: [(&str, Algorithm); 2] = [("by_256", by_256), ("by_16", by_16)];

    /// Starts: the two in use, single bits and others.
    const STARTS: [u8; 13] = [0x00, 0xFF, 1, 2, 4, 8, 16, 32, 64, 128, 0x07, 0x55, 0xFE];

    /// Three bytes that depend on one.
    fn bytes_from(first: u8) -> [u8; 3] {
        [first, first.wrapping_mul(31), !first]
    }

    /// One single-bit step that takes in `bit`.
    fn single_step(register: u8, bit: u8) -> u8 {
        let carry = (register >> 7) ^ bit;
        (register << 1) ^ if carry == 1 { 0x07 } else { 0 }
    }

    fn bitwise(start: u8, bytes: &[u8]) -> u8 {
        let bits = bytes.iter().flat_map(|byte| (0..8).rev().map(move |place| byte >> place & 1));
        bits.fold(start, single_step)
    }

    /// 64 bytes each: all equal, one half of each byte zero, rising, and mixed.
    fn contents() -> Vec<[u8; 64]> {
        let equal = [0x00, 0xFF, 0x0F, 0xF0, 0x07, 0x80].map(|byte| [byte; 64]);
        let made: [fn(u8) -> u8; 6] = [
            |place| place & 0x0F,
            |place| place << 4,
            |place| place,
            |place| 255 - place,
            |place| place.wrapping_mul(37).wrapping_add(11),
            |place| place.wrapping_mul(place).rotate_left(3) ^ 0xA5,
        ];
        let made = made.map(|byte_at| std::array::from_fn(|place| byte_at(place as u8)));
        [equal, made].concat()
    }

    /// `crc8` is the one that the feature says.
    #[test]
    fn chosen_algorithm() {
        let expected = if cfg!(feature = "table-of-sixteen") { "::by_16" } else { "::by_256" };
        let name = std::any::type_name_of_val(&crc8);
        assert!(name.ends_with(expected), "{name}");
    }

    #[test]
    fn catalogued_check() {
        for (name, crc) in BOTH {
            assert_eq!(crc(0x00, b"123456789"), 0xF4, "{name}");
            assert_ne!(crc(0xFF, b"123456789"), 0xF4, "{name}");
        }
    }

    /// Those of 01, and those of 02, g.
    #[test]
    fn examples_of_the_papers() {
        for (name, crc) in BOTH {
            assert_eq!(crc(0x00, &[1, 0, 0, 0, 0, 0]), 0x29, "{name}");
            assert_eq!(crc(0x00, &[1, 0, 0, 0, 0x10, 0]), 0x7E, "{name}");
            assert_eq!(crc(0x00, &[2, 0, 0, 0, 0, 4]), 0x4E, "{name}");
            assert_eq!(crc(0xFF, &[0; 6]), 0xAF, "{name}");
            assert_eq!(crc(0xFF, &[1, 0, 0, 0, 0x10, 0]), 0xD1, "{name}");
        }
    }

    #[test]
    fn no_bytes() {
        for (name, crc) in BOTH {
            for start in 0..=255 {
                assert_eq!(crc(start, &[]), start, "{name}");
            }
        }
    }

    #[test]
    fn zeros_from_both_starts() {
        for (name, crc) in BOTH {
            for length in 0..300 {
                let zeros = vec![0; length];
                assert_eq!(crc(0x00, &zeros), 0, "{name}");
                assert_ne!(crc(0xFF, &zeros), 0, "{name}");
            }
        }
    }

    /// Each entry is four single-bit steps of that number in the high half (02, e).
    #[test]
    fn entries_of_the_table_of_sixteen() {
        for value in 0..16 {
            let expected = (0..4).fold(value << 4, |register, _| single_step(register, 0));
            assert_eq!(TABLE_OF_SIXTEEN[usize::from(value)], expected, "{value}");
        }
    }

    #[test]
    fn entries_of_the_table_of_256() {
        for value in 0..=255 {
            let expected = (0..8).fold(value, |register, _| single_step(register, 0));
            assert_eq!(TABLE_OF_256[usize::from(value)], expected, "{value}");
        }
    }

    /// From every start, over every number of bytes up to 64: so they also agree.
    #[test]
    fn both_equal_bitwise() {
        for content in contents() {
            for length in 0..=content.len() {
                let bytes = &content[..length];
                for start in 0..=255 {
                    let expected = bitwise(start, bytes);
                    for (name, crc) in BOTH {
                        assert_eq!(crc(start, bytes), expected, "{name} {start} {bytes:?}");
                    }
                }
            }
        }
    }

    /// From every start, over every byte.
    #[test]
    fn one_byte_equals_bitwise() {
        for start in 0..=255 {
            for byte in 0..=255 {
                let expected = bitwise(start, &[byte]);
                for (name, crc) in BOTH {
                    assert_eq!(crc(start, &[byte]), expected, "{name} {start} {byte}");
                }
            }
        }
    }

    #[test]
    fn three_bytes_equal_bitwise() {
        for start in STARTS {
            for first in 0..=255u8 {
                let bytes = bytes_from(first);
                let expected = bitwise(start, &bytes);
                for (name, crc) in BOTH {
                    assert_eq!(crc(start, &bytes), expected, "{name} {start} {bytes:?}");
                }
            }
        }
    }

    /// The register of an XOR, from the XOR of the starts, is the XOR of the
    /// registers.
    #[test]
    fn linear_over_start_and_bytes() {
        for (name, crc) in BOTH {
            for a in STARTS {
                for b in 0..=255u8 {
                    for first in 0..=255u8 {
                        let (x, y) = (bytes_from(first), bytes_from(first ^ b.rotate_left(3)));
                        let both = [x[0] ^ y[0], x[1] ^ y[1], x[2] ^ y[2]];
                        assert_eq!(crc(a ^ b, &both), crc(a, &x) ^ crc(b, &y), "{name}");
                    }
                }
            }
        }
    }

    /// The start goes in before the first byte, and not after it.
    #[test]
    fn start_is_added_to_the_first_byte() {
        for (name, crc) in BOTH {
            for start in 0..=255 {
                for first in 0..=255 {
                    let [_, second, third] = bytes_from(first);
                    let expected = crc(0x00, &[first ^ start, second, third]);
                    assert_eq!(crc(start, &[first, second, third]), expected, "{name}");
                    let register = crc(start, &[first]);
                    assert_eq!(crc(register, &[second, third]), expected, "{name}");
                }
            }
        }
    }
}
