//! A plain model of the FTM trigger master's controller and of its far end,
//! written from 01-scope.md, requests b, c, d, e, g and i of 02-change-requests.md
//! and the FTM firmware specifications v3.3 alone.

pub mod blocks;
pub mod board;
pub mod commands;
pub mod configuration;
pub mod crc;
pub mod explain;
pub mod frames;
pub mod generate;
pub mod other;
pub mod packets;
pub mod replay;

/// The numbers given when we say no (01, table of that chapter).
#[derive(Clone, Copy, Debug, PartialEq, Eq)]
pub enum Refusal {
    FewerThanFiveWords,
    WrongDelimiter,
    UnknownCommand,
    UnknownParameter,
    SpareWordNotZero,
    WrongLength,
    NoEvents,
    /// A word above its bound, with the lowest such place.
    AboveBound {
        place: usize,
    },
    NotInThisState,
    NotFresh,
    NoSuchCrate,
    NothingOutstanding,
    PacketLength,
    PacketChecksum,
    PacketField,
    NotRunning,
    CounterFull,
    NoSuchRecord,
    OutputTooShort,
    BoardIdOrSpare,
}

impl Refusal {
    /// The number in 01's table.
    pub fn number(self) -> u8 {
        match self {
            Refusal::FewerThanFiveWords => 1,
            Refusal::WrongDelimiter => 2,
            Refusal::UnknownCommand => 3,
            Refusal::UnknownParameter => 4,
            Refusal::SpareWordNotZero => 5,
            Refusal::WrongLength => 6,
            Refusal::NoEvents => 7,
            Refusal::AboveBound { .. } => 8,
            Refusal::NotInThisState => 9,
            Refusal::NotFresh => 10,
            Refusal::NoSuchCrate => 11,
            Refusal::NothingOutstanding => 12,
            Refusal::PacketLength => 13,
            Refusal::PacketChecksum => 14,
            Refusal::PacketField => 15,
            Refusal::NotRunning => 16,
            Refusal::CounterFull => 17,
            Refusal::NoSuchRecord => 18,
            Refusal::OutputTooShort => 19,
            Refusal::BoardIdOrSpare => 20,
        }
    }

    /// The place that comes with number 8.
    pub fn place(self) -> Option<usize> {
        match self {
            Refusal::AboveBound { place } => Some(place),
            _ => None,
        }
    }
}

/// Number of crates, and of FTU boards in a crate and in all.
pub const CRATES: usize = 4;
pub const BOARDS_PER_CRATE: usize = 10;
pub const BOARDS: usize = CRATES * BOARDS_PER_CRATE;

/// Board IDs and DNAs have 57 bits.
pub const ID_LIMIT: u64 = 1 << 57;
