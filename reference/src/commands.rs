//! Command words, read and written (01, Command words).

use crate::{configuration, Refusal};

/// The first word of every command.
pub const DELIMITER: u16 = 0x0040;
/// Words of a command before its data block.
pub const HEAD: usize = 5;
/// Words of X.
pub const EVENTS: usize = 2;

/// The IDs of commands.
pub const READ: u16 = 0x01;
pub const WRITE: u16 = 0x02;
pub const START: u16 = 0x04;
pub const STOP: u16 = 0x08;
pub const PING: u16 = 0x10;
pub const RESET: u16 = 0x20;
/// All of them, in the order of 01's table.
pub const IDS: [u16; 6] = [READ, WRITE, START, STOP, PING, RESET];

/// The parameters that 01's table lists for an ID, in its order; none if the ID
/// is unknown.
pub fn parameters(id: u16) -> Option<&'static [u16]> {
    match id {
        READ | START => Some(&[1, 2]),
        WRITE => Some(&[1]),
        STOP | PING => Some(&[0]),
        RESET => Some(&[1, 2, 4, 8]),
        _ => None,
    }
}

/// The block that a read command names.
#[derive(Clone, Copy, Debug, PartialEq, Eq)]
pub enum ReadBlock {
    Static,
    Dynamic,
}

/// How many events a start command asks for.
#[derive(Clone, Copy, Debug, PartialEq, Eq)]
pub enum Events {
    Endless,
    Counted(u32),
}

/// A command; a write borrows its block.
#[derive(Clone, Copy, Debug, PartialEq, Eq)]
pub enum Command<'a> {
    Read(ReadBlock),
    Write(&'a [u16]),
    Start(Events),
    Stop,
    Ping,
    /// The crate's number.
    Reset(u8),
}

/// Reads the first command of `words` and gives it with the number of words it
/// takes; the words after these belong to the next command. Refuses with 1 to
/// 8, which use no words.
pub fn read(words: &[u16]) -> Result<(Command<'_>, usize), Refusal> {
    check_head(words)?;
    let data = &words[HEAD..];
    let command = match (words[1], words[2]) {
        (READ, 1) => Command::Read(ReadBlock::Static),
        (READ, _) => Command::Read(ReadBlock::Dynamic),
        (WRITE, _) => {
            let block = data.get(..configuration::WORDS).ok_or(Refusal::WrongLength)?;
            configuration::check(block)?;
            return Ok((Command::Write(block), HEAD + configuration::WORDS));
        }
        (START, 1) => Command::Start(Events::Endless),
        (START, _) => {
            if data.len() < EVENTS {
                return Err(Refusal::WrongLength);
            }
            let events = u32::from(data[0]) << 16 | u32::from(data[1]);
            if events == 0 {
                return Err(Refusal::NoEvents);
            }
            return Ok((Command::Start(Events::Counted(events)), HEAD + EVENTS));
        }
        (STOP, _) => Command::Stop,
        (PING, _) => Command::Ping,
        (_, parameter) => Command::Reset(parameter.trailing_zeros() as u8),
    };
    Ok((command, HEAD))
}

/// Refuses the five words before the data block with 1 to 5.
fn check_head(words: &[u16]) -> Result<(), Refusal> {
    if words.len() < HEAD {
        return Err(Refusal::FewerThanFiveWords);
    }
    if words[0] != DELIMITER {
        return Err(Refusal::WrongDelimiter);
    }
    let parameters = parameters(words[1]).ok_or(Refusal::UnknownCommand)?;
    if !parameters.contains(&words[2]) {
        return Err(Refusal::UnknownParameter);
    }
    if words[3] != 0 || words[4] != 0 {
        return Err(Refusal::SpareWordNotZero);
    }
    Ok(())
}

/// Writes a command into `out` and gives the number of its words. Refuses with
/// 6, 7, 8, 11 or 19.
pub fn write(command: &Command, out: &mut [u16]) -> Result<usize, Refusal> {
    let (id, parameter, data_words) = match *command {
        Command::Read(ReadBlock::Static) => (READ, 1, 0),
        Command::Read(ReadBlock::Dynamic) => (READ, 2, 0),
        Command::Write(block) => {
            configuration::check(block)?;
            (WRITE, 1, configuration::WORDS)
        }
        Command::Start(Events::Endless) => (START, 1, 0),
        Command::Start(Events::Counted(0)) => return Err(Refusal::NoEvents),
        Command::Start(Events::Counted(_)) => (START, 2, EVENTS),
        Command::Stop => (STOP, 0, 0),
        Command::Ping => (PING, 0, 0),
        Command::Reset(crate_number) => {
            if crate_number > 3 {
                return Err(Refusal::NoSuchCrate);
            }
            (RESET, 1 << crate_number, 0)
        }
    };
    let used = HEAD + data_words;
    let out = out.get_mut(..used).ok_or(Refusal::OutputTooShort)?;
    out[..HEAD].copy_from_slice(&[DELIMITER, id, parameter, 0, 0]);
    match *command {
        Command::Write(block) => out[HEAD..].copy_from_slice(block),
        Command::Start(Events::Counted(events)) => {
            out[HEAD] = (events >> 16) as u16;
            out[HEAD + 1] = events as u16;
        }
        _ => {}
    }
    Ok(used)
}

#[cfg(test)]
mod tests {
    use super::*;

    #[test]
    fn examples_of_the_paper() {
        assert_eq!(read(&[0x40, 1, 1, 0]), Err(Refusal::FewerThanFiveWords));
        assert_eq!(read(&[0x41, 1, 1, 0, 0]), Err(Refusal::WrongDelimiter));
        assert_eq!(
            read(&[0x40, 4, 2, 0, 0, 0x0001, 0x1170]),
            Ok((Command::Start(Events::Counted(70_000)), 7))
        );
        assert_eq!(read(&[0x40, 4, 2, 0, 0, 1]), Err(Refusal::WrongLength));
        assert_eq!(read(&[0x40, 4, 2, 0, 0, 0, 0]), Err(Refusal::NoEvents));
        assert_eq!(read(&[0x40, 0x20, 8, 0, 0]), Ok((Command::Reset(3), 5)));
        assert_eq!(read(&[0x40, 0x20, 3, 0, 0]), Err(Refusal::UnknownParameter));
    }

    #[test]
    fn lowest_number() {
        assert_eq!(read(&[0x41, 9, 9, 9]), Err(Refusal::FewerThanFiveWords));
        assert_eq!(read(&[0x41, 9, 9, 9, 9]), Err(Refusal::WrongDelimiter));
        assert_eq!(read(&[0x40, 9, 9, 9, 9]), Err(Refusal::UnknownCommand));
        assert_eq!(read(&[0x40, 2, 2, 9, 9]), Err(Refusal::UnknownParameter));
        assert_eq!(read(&[0x40, 2, 1, 0, 9]), Err(Refusal::SpareWordNotZero));
        assert_eq!(read(&[0x40, 2, 1, 0, 0, 0xFFFF]), Err(Refusal::WrongLength));
        assert_eq!(read(&[0x40, 0x0101, 1, 0, 0]), Err(Refusal::UnknownCommand));
    }

    #[test]
    fn written_commands_read_back() {
        let mut block = [7u16; configuration::WORDS];
        block[0x1B2] = 0x03FF;
        let commands = [
            Command::Read(ReadBlock::Static),
            Command::Read(ReadBlock::Dynamic),
            Command::Write(&block),
            Command::Start(Events::Endless),
            Command::Start(Events::Counted(0xFFFF_FFFF)),
            Command::Start(Events::Counted(1)),
            Command::Stop,
            Command::Ping,
            Command::Reset(0),
            Command::Reset(1),
            Command::Reset(2),
            Command::Reset(3),
        ];
        for command in commands {
            let mut words = [0x5555u16; 450];
            let used = write(&command, &mut words).unwrap();
            assert_eq!(read(&words), Ok((command, used)));
            assert!(words[used..].iter().all(|&word| word == 0x5555));
            let mut short = [0u16; 450];
            assert_eq!(write(&command, &mut short[..used - 1]), Err(Refusal::OutputTooShort));
        }
    }

    #[test]
    fn writer_refusals() {
        let mut words = [0u16; 450];
        let mut block = [0u16; configuration::WORDS];
        assert_eq!(write(&Command::Write(&block[1..]), &mut words), Err(Refusal::WrongLength));
        block[3] = 0x1000;
        assert_eq!(
            write(&Command::Write(&block), &mut words),
            Err(Refusal::AboveBound { place: 3 })
        );
        assert_eq!(write(&Command::Start(Events::Counted(0)), &mut words), Err(Refusal::NoEvents));
        assert_eq!(write(&Command::Reset(4), &mut words), Err(Refusal::NoSuchCrate));
    }
}
