//! The static block of 436 words (01, The configuration).

use crate::{Refusal, BOARDS_PER_CRATE};

/// Words of the static block.
pub const WORDS: usize = 436;
/// First word of the FTU settings.
pub const SETTINGS: usize = 0x020;
/// First of the four words of active flags.
pub const ACTIVE: usize = 0x1B0;
/// Words of settings for one board.
pub const WORDS_PER_BOARD: usize = 10;

/// The upper bound of the word at `place`.
pub fn bound(place: usize) -> u16 {
    match place {
        0x000 | 0x001 => 0x00FF,
        0x002 => 0x03FF,
        0x003 => 0x0FFF,
        0x1B0..=0x1B3 => 0x03FF,
        _ => 0xFFFF,
    }
}

/// Checks a whole block: 6 unless it has 436 words, 8 with the lowest place
/// that is above its bound.
pub fn check(block: &[u16]) -> Result<(), Refusal> {
    if block.len() != WORDS {
        return Err(Refusal::WrongLength);
    }
    for place in (0..4).chain(ACTIVE..WORDS) {
        if block[place] > bound(place) {
            return Err(Refusal::AboveBound { place });
        }
    }
    Ok(())
}

/// The place of the first of the ten words of board `board` of crate `crate_number`.
pub fn board_place(crate_number: usize, board: usize) -> usize {
    SETTINGS + WORDS_PER_BOARD * (BOARDS_PER_CRATE * crate_number + board)
}

/// The ten words of one board: four enables, five DACs, prescaling.
pub fn board_words(block: &[u16; WORDS], crate_number: usize, board: usize) -> &[u16] {
    let place = board_place(crate_number, board);
    &block[place..place + WORDS_PER_BOARD]
}

/// Whether the board's active flag is set.
pub fn is_active(block: &[u16; WORDS], crate_number: usize, board: usize) -> bool {
    block[ACTIVE + crate_number] >> board & 1 == 1
}

#[cfg(test)]
mod tests {
    use super::*;

    #[test]
    fn last_board() {
        assert_eq!(board_place(3, 9), 0x1A6);
        assert_eq!(board_place(0, 0), 0x020);
        assert_eq!(board_place(0, 1), 0x02A);
    }

    #[test]
    fn frequency_bound() {
        let mut block = [0u16; WORDS];
        block[2] = 1023;
        assert_eq!(check(&block), Ok(()));
        block[2] = 1024;
        assert_eq!(check(&block), Err(Refusal::AboveBound { place: 2 }));
    }

    #[test]
    fn flags_bound() {
        let mut block = [0u16; WORDS];
        block[0x1B3] = 0x0400;
        assert_eq!(check(&block), Err(Refusal::AboveBound { place: 0x1B3 }));
        block[1] = 0x0100;
        assert_eq!(check(&block), Err(Refusal::AboveBound { place: 1 }));
    }

    #[test]
    fn every_bound() {
        for place in 0..WORDS {
            let mut block = [0u16; WORDS];
            block[place] = bound(place);
            assert_eq!(check(&block), Ok(()));
            if bound(place) < 0xFFFF {
                block[place] += 1;
                assert_eq!(check(&block), Err(Refusal::AboveBound { place }));
            }
        }
        assert_eq!(check(&[0; WORDS - 1]), Err(Refusal::WrongLength));
        assert_eq!(check(&[0; WORDS + 1]), Err(Refusal::WrongLength));
    }
}
