//! The board: its state, the commands it obeys, the passes over the FTU
//! boards, the run, and what it sends out.

use crate::blocks::{self, BoardRates, Header, ENTRY, LIST, LIST_ACTIVE, LIST_ENTRIES};
use crate::commands::{self, Command, Events, ReadBlock};
use crate::configuration::{self, ACTIVE};
use crate::frames::{self, Frame};
use crate::packets::{self, Trigger};
use crate::{Refusal, BOARDS, BOARDS_PER_CRATE, CRATES, ID_LIMIT};

/// Sends of one step before the board has failed.
const SENDS: u8 = 3;
/// Timestamp and on-time have 48 bits.
const TIME_MASK: u64 = (1 << 48) - 1;

/// The kinds of passes.
#[derive(Clone, Copy, Debug, PartialEq, Eq)]
pub enum PassKind {
    Reprogramming,
    Ping,
    Rates,
}

/// What the board is doing (01, Command words): the run and the pass that are
/// under way. Both at once only if it is a rate pass (02, i).
#[derive(Clone, Copy, Debug, PartialEq, Eq)]
pub struct Mode {
    pub run: Option<Events>,
    pub pass: Option<PassKind>,
}

impl Mode {
    pub const IDLE: Mode = Mode { run: None, pass: None };
}

/// What became of the last accepted write (02, c). Only what clears a set fresh
/// uses it up: the first run or crate reset since that write.
#[derive(Clone, Copy, Debug, PartialEq, Eq)]
pub enum LastWrite {
    /// No write was ever accepted.
    Never,
    Fresh,
    UsedByRun,
    UsedByReset,
}

/// What was done on a command.
#[derive(Clone, Copy, Debug, PartialEq, Eq)]
pub enum Done {
    Read(ReadBlock),
    Write,
    Start,
    Stop,
    Ping,
    /// The crate whose boards the caller resets.
    Reset(u8),
}

/// A refused command: why, and the words used.
#[derive(Clone, Copy, Debug, PartialEq, Eq)]
pub struct CommandRefused {
    pub refusal: Refusal,
    pub used: usize,
}

/// What came of a reply or a time-up.
#[derive(Clone, Copy, Debug, PartialEq, Eq)]
pub enum Outcome {
    Good,
    Again,
    Failed,
}

/// The answer to a reply or a time-up, with whether the crate is done.
#[derive(Clone, Copy, Debug, PartialEq, Eq)]
pub struct Answer {
    pub outcome: Outcome,
    pub done: bool,
}

/// The step that a crate is at.
#[derive(Clone, Copy, Debug, PartialEq, Eq)]
struct Step {
    board: usize,
    code: u8,
    sends: u8,
    frame: Frame,
}

/// One crate's place in the pass.
#[derive(Clone, Copy, Debug, Default, PartialEq, Eq)]
struct Bus {
    step: Option<Step>,
    /// Accepted replies and time-ups of this pass.
    accepted: u32,
}

/// A board that failed: the calls of the step and its frame.
#[derive(Clone, Copy, Debug, PartialEq, Eq)]
struct Failure {
    calls: u8,
    frame: Frame,
}

/// The trigger master board.
#[derive(Clone, Debug, PartialEq, Eq)]
pub struct Board {
    board_id: u64,
    firmware_id: u16,
    mode: Mode,
    last_write: LastWrite,
    trigger_counter: u32,
    timestamp: u64,
    on_time: u64,
    block: [u16; configuration::WORDS],
    list: [u16; LIST],
    failures: [Option<Failure>; BOARDS],
    buses: [Bus; CRATES],
    /// The rates of the last finished rate pass (02, i).
    rates: [BoardRates; BOARDS],
    /// Those of the rate pass that is under way, and zeros outside of one.
    fetched: [BoardRates; BOARDS],
}

impl Board {
    /// A board after power-up; 20 if the board ID is at or above 2^57.
    pub fn power_up(board_id: u64, firmware_id: u16) -> Result<Board, Refusal> {
        if board_id >= ID_LIMIT {
            return Err(Refusal::BoardIdOrSpare);
        }
        Ok(Board {
            board_id,
            firmware_id,
            mode: Mode::IDLE,
            last_write: LastWrite::Never,
            trigger_counter: 0,
            timestamp: 0,
            on_time: 0,
            block: [0; configuration::WORDS],
            list: [0; LIST],
            failures: [None; BOARDS],
            buses: [Bus::default(); CRATES],
            rates: [BoardRates::default(); BOARDS],
            fetched: [BoardRates::default(); BOARDS],
        })
    }

    /// What the board is doing.
    pub fn mode(&self) -> Mode {
        self.mode
    }

    /// What became of the last accepted write.
    pub fn last_write(&self) -> LastWrite {
        self.last_write
    }

    /// Whether no start and no crate reset was accepted since the last accepted
    /// write; false before any.
    pub fn fresh(&self) -> bool {
        self.last_write == LastWrite::Fresh
    }

    /// The stored static block.
    pub fn block(&self) -> &[u16; configuration::WORDS] {
        &self.block
    }

    /// Obeys the first command of `words`; gives what was done and the words used.
    pub fn obey(&mut self, words: &[u16]) -> Result<(Done, usize), CommandRefused> {
        let (command, used) =
            commands::read(words).map_err(|refusal| CommandRefused { refusal, used: 0 })?;
        let done = self.carry_out(&command).map_err(|refusal| CommandRefused { refusal, used })?;
        Ok((done, used))
    }

    /// Whether a command is accepted in this state; fresh is not looked at.
    fn accepts(&self, command: &Command) -> bool {
        match command {
            Command::Read(_) => true,
            Command::Stop => self.mode.run.is_some(),
            _ => self.mode == Mode::IDLE,
        }
    }

    fn carry_out(&mut self, command: &Command) -> Result<Done, Refusal> {
        if !self.accepts(command) {
            return Err(Refusal::NotInThisState);
        }
        match *command {
            Command::Read(block) => Ok(Done::Read(block)),
            Command::Write(block) => {
                self.block.copy_from_slice(block);
                self.last_write = LastWrite::Fresh;
                self.begin_pass(PassKind::Reprogramming);
                Ok(Done::Write)
            }
            Command::Start(events) => {
                if !self.fresh() {
                    return Err(Refusal::NotFresh);
                }
                self.last_write = LastWrite::UsedByRun;
                self.zero_counters();
                self.mode.run = Some(events);
                Ok(Done::Start)
            }
            Command::Stop => {
                self.end_run();
                Ok(Done::Stop)
            }
            Command::Ping => {
                self.list = [0; LIST];
                self.list[LIST_ACTIVE..LIST_ENTRIES].copy_from_slice(&self.block[ACTIVE..]);
                self.begin_pass(PassKind::Ping);
                Ok(Done::Ping)
            }
            Command::Reset(crate_number) => {
                // The crate has lost its settings: a start needs a new write (02, b).
                if self.fresh() {
                    self.last_write = LastWrite::UsedByReset;
                }
                Ok(Done::Reset(crate_number))
            }
        }
    }

    fn zero_counters(&mut self) {
        self.trigger_counter = 0;
        self.timestamp = 0;
        self.on_time = 0;
    }

    /// Ends the run; a rate pass goes on (02, i).
    fn end_run(&mut self) {
        self.zero_counters();
        self.mode.run = None;
    }

    /// A clock step.
    pub fn clock(&mut self, ticks: u32) {
        self.timestamp = (self.timestamp + u64::from(ticks)) & TIME_MASK;
        if self.mode.run.is_some() {
            self.on_time = (self.on_time + u64::from(ticks)) & TIME_MASK;
        }
    }

    /// A trigger: writes its packet into the first seven bytes of `packet`.
    /// Refuses with 15, 16, 17 or 19.
    pub fn trigger(&mut self, trigger: &Trigger, packet: &mut [u8]) -> Result<(), Refusal> {
        trigger.check()?;
        let events = self.mode.run.ok_or(Refusal::NotRunning)?;
        let number = self.trigger_counter.checked_add(1).ok_or(Refusal::CounterFull)?;
        packets::write(number, trigger, packet)?;
        if events == Events::Counted(number) {
            self.end_run();
        } else {
            self.trigger_counter = number;
        }
        Ok(())
    }

    /// Begins a rate pass, while idle or running (02, i). Refuses with 9.
    pub fn begin_rate_pass(&mut self) -> Result<(), Refusal> {
        self.check_no_pass()?;
        self.begin_pass(PassKind::Rates);
        Ok(())
    }

    /// Begins a pass: clears the records, and puts each crate at its first step.
    fn begin_pass(&mut self, kind: PassKind) {
        self.mode.pass = Some(kind);
        self.failures = [None; BOARDS];
        for crate_number in 0..CRATES {
            let step = self.first_step(crate_number, 0);
            self.buses[crate_number] = Bus { step, accepted: 0 };
        }
        self.end_pass_if_done();
    }

    /// Once all four crates are done the pass has ended; the rates of a rate pass
    /// are then the finished ones (02, i).
    fn end_pass_if_done(&mut self) {
        if self.buses.iter().any(|bus| bus.step.is_some()) {
            return;
        }
        if self.mode.pass.take() == Some(PassKind::Rates) {
            self.rates = self.fetched;
            self.fetched = [BoardRates::default(); BOARDS];
        }
    }

    /// The first step of the first board, from `board` on, that the pass serves.
    fn first_step(&self, crate_number: usize, board: usize) -> Option<Step> {
        let (code, all) = match self.mode.pass? {
            PassKind::Reprogramming => (frames::DACS, false),
            PassKind::Ping => (frames::PING, true),
            PassKind::Rates => (frames::RATES, false),
        };
        (board..BOARDS_PER_CRATE)
            .find(|&board| all || configuration::is_active(&self.block, crate_number, board))
            .map(|board| self.step(crate_number, board, code))
    }

    fn step(&self, crate_number: usize, board: usize, code: u8) -> Step {
        let frame = frames::for_board(&self.block, crate_number, board, code);
        Step { board, code, sends: 1, frame }
    }

    /// A reply of any length from a crate. The next frame goes into the first 28
    /// bytes of `lent`; where the crate is done they keep what they held (02, d).
    /// Refuses with 11, 12 or 19.
    pub fn reply(
        &mut self,
        crate_number: u8,
        bytes: &[u8],
        lent: &mut [u8],
    ) -> Result<Answer, Refusal> {
        self.serve(crate_number, Some(bytes), lent)
    }

    /// The time for a reply from a crate is up; `lent` and the refusals are those
    /// of a reply.
    pub fn time_up(&mut self, crate_number: u8, lent: &mut [u8]) -> Result<Answer, Refusal> {
        self.serve(crate_number, None, lent)
    }

    /// Copies the frame with which this pass began on a crate into the first 28
    /// bytes of `lent` (02, d). Refuses with 11, with 12 also once a reply or
    /// time-up was counted, or with 19.
    pub fn first_frame(&self, crate_number: u8, lent: &mut [u8]) -> Result<(), Refusal> {
        let (crate_number, step) = self.outstanding_step(crate_number)?;
        if self.buses[crate_number].accepted > 0 {
            return Err(Refusal::NothingOutstanding);
        }
        *place_of_frame(lent)? = step.frame;
        Ok(())
    }

    /// A reply, or a time-up where there are no bytes.
    fn serve(
        &mut self,
        crate_number: u8,
        bytes: Option<&[u8]>,
        lent: &mut [u8],
    ) -> Result<Answer, Refusal> {
        let (crate_number, &step) = self.outstanding_step(crate_number)?;
        // Also where no frame will be due (02, d: "whenever").
        let lent = place_of_frame(lent)?;
        let answer = match bytes.and_then(|bytes| frames::good_reply(&step.frame, bytes)) {
            Some(reply) => self.answered(crate_number, &step, reply),
            None => self.missed(crate_number),
        };
        if let Some(next) = &self.buses[crate_number].step {
            *lent = next.frame;
        }
        Ok(answer)
    }

    fn outstanding_step(&self, crate_number: u8) -> Result<(usize, &Step), Refusal> {
        let crate_number = usize::from(crate_number);
        let bus = self.buses.get(crate_number).ok_or(Refusal::NoSuchCrate)?;
        let step = bus.step.as_ref().ok_or(Refusal::NothingOutstanding)?;
        Ok((crate_number, step))
    }

    /// A good reply: moves to the next step.
    fn answered(&mut self, crate_number: usize, step: &Step, reply: &Frame) -> Answer {
        let Step { board, code, sends, .. } = *step;
        match code {
            frames::PING => self.enter(crate_number, board, sends, reply),
            frames::RATES => {
                let k = BOARDS_PER_CRATE * crate_number + board;
                self.fetched[k] = frames::rates(reply);
            }
            _ => {}
        }
        let next = match code {
            frames::DACS | frames::ENABLES => Some(self.step(crate_number, board, code + 1)),
            _ => self.first_step(crate_number, board + 1),
        };
        self.proceed(crate_number, Outcome::Good, next)
    }

    /// A bad reply or a time-up: sends again, or the board has failed.
    fn missed(&mut self, crate_number: usize) -> Answer {
        let bus = &mut self.buses[crate_number];
        let step = bus.step.as_mut().expect("a step is outstanding");
        if step.sends < SENDS {
            step.sends += 1;
            bus.accepted += 1;
            return Answer { outcome: Outcome::Again, done: false };
        }
        let board = step.board;
        let failure = Failure { calls: step.sends, frame: step.frame };
        self.failures[BOARDS_PER_CRATE * crate_number + board] = Some(failure);
        let next = self.first_step(crate_number, board + 1);
        self.proceed(crate_number, Outcome::Failed, next)
    }

    fn proceed(&mut self, crate_number: usize, outcome: Outcome, next: Option<Step>) -> Answer {
        let done = next.is_none();
        let bus = &mut self.buses[crate_number];
        bus.step = next;
        bus.accepted += 1;
        if done {
            self.end_pass_if_done();
        }
        Answer { outcome, done }
    }

    /// Enters a board that answered into the list (01, Blocks sent out).
    fn enter(&mut self, crate_number: usize, board: usize, calls: u8, reply: &Frame) {
        self.list[0] += 1;
        self.list[1 + crate_number] += 1;
        let dna = frames::dna(reply);
        let place = LIST_ENTRIES + ENTRY * (BOARDS_PER_CRATE * crate_number + board);
        self.list[place..place + ENTRY].copy_from_slice(&[
            u16::from(frames::address(crate_number, board)) + 256 * u16::from(calls),
            (dna >> 48) as u16,
            (dna >> 32) as u16,
            (dna >> 16) as u16,
            dna as u16,
            u16::from(reply[26]),
        ]);
    }

    /// The number of frames sent on a crate in this pass or, outside of a pass,
    /// in the last one. Refuses with 11.
    pub fn frames_sent(&self, crate_number: u8) -> Result<u32, Refusal> {
        let bus = self.buses.get(usize::from(crate_number)).ok_or(Refusal::NoSuchCrate)?;
        Ok(bus.accepted + u32::from(bus.step.is_some()))
    }

    /// The header of a block sent now.
    pub fn header(&self) -> Header {
        Header {
            board_id: self.board_id,
            firmware_id: self.firmware_id,
            trigger_counter: self.trigger_counter,
            timestamp: self.timestamp,
        }
    }

    /// Writes the static block. Refuses with 19.
    pub fn static_block(&self, out: &mut [u16]) -> Result<usize, Refusal> {
        blocks::write_static(&self.header(), &self.block, out)
    }

    /// Writes a dynamic block with these temperatures and the rates of the last
    /// finished rate pass (02, i). Refuses with 6 or 19.
    pub fn dynamic_block(&self, temperatures: &[u16], out: &mut [u16]) -> Result<usize, Refusal> {
        blocks::write_dynamic(&self.header(), self.on_time, temperatures, &self.rates, out)
    }

    /// Writes the FTU list. Refuses with 9 or 19.
    pub fn ftu_list(&self, out: &mut [u16]) -> Result<usize, Refusal> {
        self.check_no_pass()?;
        blocks::write_list(&self.header(), &self.list, out)
    }

    /// Writes the failure message of this ordinal, from 0 in rising k. Refuses
    /// with 9, 18 or 19.
    pub fn failure_message(&self, ordinal: usize, out: &mut [u16]) -> Result<usize, Refusal> {
        self.check_no_pass()?;
        let failure = self.failures.iter().flatten().nth(ordinal).ok_or(Refusal::NoSuchRecord)?;
        blocks::write_failure(&self.header(), u16::from(failure.calls), &failure.frame, out)
    }

    fn check_no_pass(&self) -> Result<(), Refusal> {
        match self.mode.pass {
            Some(_) => Err(Refusal::NotInThisState),
            None => Ok(()),
        }
    }
}

/// The part of lent bytes that a frame goes into; 19 if they are fewer.
fn place_of_frame(lent: &mut [u8]) -> Result<&mut Frame, Refusal> {
    lent.first_chunk_mut().ok_or(Refusal::OutputTooShort)
}

#[cfg(test)]
mod tests {
    use super::*;
    use crate::crc::crc8;

    fn write_words(edit: impl Fn(&mut [u16])) -> Vec<u16> {
        let mut words = vec![0u16; 441];
        words[..5].copy_from_slice(&[0x40, 2, 1, 0, 0]);
        edit(&mut words[5..]);
        words
    }

    fn is_open(board: &Board, crate_number: u8) -> bool {
        board.outstanding_step(crate_number).is_ok()
    }

    /// A good reply to the frame that is outstanding.
    fn good(board: &Board, crate_number: u8) -> Frame {
        let mut reply = board.outstanding_step(crate_number).unwrap().1.frame;
        reply.swap(1, 2);
        reply[27] = crc8(frames::CRC_START, &reply[..27]);
        reply
    }

    /// What is handed in on a crate.
    #[derive(Clone, Copy, Debug)]
    enum Given {
        Right,
        Wrong,
        TimeUp,
    }
    use Given::{Right, TimeUp, Wrong};

    fn hand_in(
        board: &mut Board,
        crate_number: u8,
        given: Given,
        lent: &mut [u8],
    ) -> Result<Answer, Refusal> {
        match given {
            Right => {
                let reply = good(board, crate_number);
                board.reply(crate_number, &reply, lent)
            }
            Wrong => board.reply(crate_number, &[], lent),
            TimeUp => board.time_up(crate_number, lent),
        }
    }

    /// The same with 28 bytes lent; no refusal is expected.
    fn count(board: &mut Board, crate_number: u8, given: Given) -> Answer {
        hand_in(board, crate_number, given, &mut [0; 28]).unwrap()
    }

    const START: [u16; 5] = [0x40, 4, 1, 0, 0];
    const STOP: [u16; 5] = [0x40, 8, 0, 0, 0];
    const PING: [u16; 5] = [0x40, 0x10, 0, 0, 0];

    fn reset_words(crate_number: u8) -> [u16; 5] {
        [0x40, 0x20, 1 << crate_number, 0, 0]
    }

    /// Lets the boards time out until no pass is under way.
    fn run_out(board: &mut Board) {
        for crate_number in 0..4 {
            while board.time_up(crate_number, &mut [0; 28]).is_ok() {}
        }
    }

    /// A fresh, idle board with words, a time, a list, records and frame numbers
    /// that are not zero.
    fn used_board() -> Board {
        let mut board = Board::power_up(1, 2).unwrap();
        board.obey(&PING).unwrap();
        for crate_number in 0..4 {
            while is_open(&board, crate_number) {
                count(&mut board, crate_number, Right);
            }
        }
        let words = write_words(|block| {
            block.fill(5);
            block[0x1B0..].copy_from_slice(&[1, 2, 0, 8]);
        });
        board.obey(&words).unwrap();
        run_out(&mut board);
        board.clock(9);
        board
    }

    #[test]
    fn silent_board_gets_three_frames() {
        let mut board = Board::power_up(1, 2).unwrap();
        let words = write_words(|block| block[0x1B2] = 1 << 4);
        assert_eq!(board.obey(&words), Ok((Done::Write, 441)));
        assert_eq!(board.obey(&START).unwrap_err().refusal, Refusal::NotInThisState);
        let again = Answer { outcome: Outcome::Again, done: false };
        let failed = Answer { outcome: Outcome::Failed, done: true };
        assert_eq!(count(&mut board, 2, TimeUp), again);
        assert_eq!(count(&mut board, 2, Wrong), again);
        assert_eq!(board.failure_message(0, &mut [0; 40]), Err(Refusal::NotInThisState));
        assert_eq!(count(&mut board, 2, TimeUp), failed);
        assert_eq!(board.frames_sent(2), Ok(3));
        assert_eq!(board.frames_sent(0), Ok(0));
        let done = Err(Refusal::NothingOutstanding);
        assert_eq!(board.time_up(2, &mut [0; 28]), done);
        assert_eq!(board.reply(2, &[], &mut [0; 28]), done);
        let mut out = [0; 40];
        assert_eq!(board.failure_message(0, &mut out), Ok(40));
        assert_eq!(out[11..17], [3, 0x40, 0x24, 192, 0, 1]);
        assert_eq!(board.failure_message(1, &mut out), Err(Refusal::NoSuchRecord));
        assert_eq!(board.mode(), Mode::IDLE);
    }

    #[test]
    fn third_try_good_gets_nine_frames() {
        let mut board = Board::power_up(1, 2).unwrap();
        board.obey(&write_words(|block| block[0x1B0] = 1 << 9)).unwrap();
        for step in 0..3 {
            count(&mut board, 0, TimeUp);
            count(&mut board, 0, TimeUp);
            assert_eq!(good(&board, 0)[4], step + 1);
            let answer = Answer { outcome: Outcome::Good, done: step == 2 };
            assert_eq!(count(&mut board, 0, Right), answer);
        }
        assert_eq!(board.frames_sent(0), Ok(9));
        assert_eq!(board.mode(), Mode::IDLE);
    }

    #[test]
    fn no_active_board_is_idle_at_once() {
        let mut board = Board::power_up(1, 2).unwrap();
        board.obey(&write_words(|_| ())).unwrap();
        assert_eq!(board.mode(), Mode::IDLE);
        assert_eq!(board.obey(&START), Ok((Done::Start, 5)));
        assert_eq!(board.obey(&START).unwrap_err().refusal, Refusal::NotInThisState);
        assert_eq!(board.obey(&STOP), Ok((Done::Stop, 5)));
        assert_eq!(board.obey(&START).unwrap_err().refusal, Refusal::NotFresh);
    }

    #[test]
    fn counted_run_ends_with_zero_counters() {
        let mut board = Board::power_up(1, 2).unwrap();
        board.obey(&write_words(|_| ())).unwrap();
        assert_eq!(board.obey(&[0x40, 4, 2, 0, 0, 0, 2, 9]), Ok((Done::Start, 7)));
        board.clock(7);
        let trigger = Trigger::default();
        let mut packet = [0; 8];
        assert_eq!(board.trigger(&trigger, &mut packet[..6]), Err(Refusal::OutputTooShort));
        board.trigger(&trigger, &mut packet).unwrap();
        assert_eq!(packet[0], 1);
        assert_eq!((board.trigger_counter, board.timestamp, board.on_time), (1, 7, 7));
        board.trigger(&trigger, &mut packet).unwrap();
        assert_eq!(packet[0], 2);
        assert_eq!((board.trigger_counter, board.timestamp, board.on_time), (0, 0, 0));
        assert_eq!(board.trigger(&trigger, &mut packet), Err(Refusal::NotRunning));
        let wide = Trigger { n: 41, ..trigger };
        assert_eq!(board.trigger(&wide, &mut packet), Err(Refusal::PacketField));
        board.clock(7);
        assert_eq!((board.timestamp, board.on_time), (7, 0));
    }

    #[test]
    fn full_counter() {
        let mut board = Board::power_up(1, 2).unwrap();
        board.obey(&write_words(|_| ())).unwrap();
        board.obey(&START).unwrap();
        board.trigger_counter = u32::MAX - 1;
        let mut packet = [0; 7];
        board.trigger(&Trigger::default(), &mut packet).unwrap();
        assert_eq!(packet[..4], [0xFF; 4]);
        assert_eq!(board.trigger(&Trigger::default(), &mut packet), Err(Refusal::CounterFull));
    }

    #[test]
    fn time_wraps() {
        let mut board = Board::power_up(1, 2).unwrap();
        board.timestamp = TIME_MASK;
        board.clock(1);
        assert_eq!(board.timestamp, 0);
    }

    #[test]
    fn ping_fills_the_list() {
        let mut board = Board::power_up(1, 2).unwrap();
        board.obey(&write_words(|block| block[0x1B1] = 0)).unwrap();
        board.obey(&PING).unwrap();
        for crate_number in [3u8, 1, 0, 2] {
            for number in 0..10u8 {
                if number == 4 {
                    for _ in 0..3 {
                        count(&mut board, crate_number, TimeUp);
                    }
                    continue;
                }
                if number == 5 {
                    count(&mut board, crate_number, TimeUp);
                }
                let mut reply = good(&board, crate_number);
                reply[12] = number;
                reply[26] = 0xEE;
                reply[27] = crc8(frames::CRC_START, &reply[..27]);
                board.reply(crate_number, &reply, &mut [0; 28]).unwrap();
            }
        }
        assert_eq!(board.mode(), Mode::IDLE);
        let mut out = [0; 260];
        board.ftu_list(&mut out).unwrap();
        let list = &out[11..];
        assert_eq!(list[..9], [36, 9, 9, 9, 9, 0, 0, 0, 0]);
        let entry = |k: usize| &list[9 + 6 * k..15 + 6 * k];
        assert_eq!(entry(34), [0; 6]);
        assert_eq!(entry(35), [0x35 + 512, 0, 0, 0, 5, 0xEE]);
        assert_eq!(entry(0), [256, 0, 0, 0, 0, 0xEE]);
        assert_eq!(board.frames_sent(1), Ok(13));
        let mut message = [0; 40];
        for crate_number in 0..4 {
            board.failure_message(crate_number, &mut message).unwrap();
            assert_eq!(message[13], 16 * crate_number as u16 + 4);
        }
    }

    /// What lent bytes hold before a call.
    const HELD: u8 = 0xA5;

    /// A board in a reprogramming pass, with boards 2 and 7 of crate 1 and board 0
    /// of crate 3 active.
    fn reprogramming() -> Board {
        let mut board = Board::power_up(1, 2).unwrap();
        let words = write_words(|block| {
            for (place, word) in block.iter_mut().enumerate().skip(0x20) {
                *word = place as u16;
            }
            block[0x1B0..].copy_from_slice(&[0, 1 << 2 | 1 << 7, 0, 1]);
        });
        board.obey(&words).unwrap();
        board
    }

    /// A board in a ping.
    fn pinging() -> Board {
        let mut board = Board::power_up(1, 2).unwrap();
        board.obey(&PING).unwrap();
        board
    }

    /// The same boards in a rate pass, begun idle or in a run (02, i).
    fn fetching(running: bool) -> Board {
        let mut board = reprogramming();
        run_out(&mut board);
        if running {
            board.obey(&START).unwrap();
        }
        board.begin_rate_pass().unwrap();
        board
    }

    /// What is handed in, its outcome, and the board and code of the next frame,
    /// none where the crate is done.
    type Row = (Given, Outcome, Option<(usize, u8)>);

    /// Hands the rows in on crate 1, to its end, with 28 and with 40 bytes lent.
    fn check_handed_out(begun: &Board, rows: &[Row]) {
        for length in [28, 40] {
            let mut board = begun.clone();
            for &(given, outcome, next) in rows {
                let (mut lent, mut expected) = ([HELD; 40], [HELD; 40]);
                if let Some((number, code)) = next {
                    let frame = frames::for_board(&board.block, 1, number, code);
                    expected[..28].copy_from_slice(&frame);
                }
                let answer = hand_in(&mut board, 1, given, &mut lent[..length]);
                assert_eq!(answer, Ok(Answer { outcome, done: next.is_none() }), "{given:?}");
                assert_eq!(lent, expected, "{given:?}");
            }
            assert!(!is_open(&board, 1));
        }
    }

    #[test]
    fn answers_hand_out_the_next_frame() {
        use Outcome::{Again, Failed, Good};
        check_handed_out(
            &reprogramming(),
            &[
                (TimeUp, Again, Some((2, 1))),
                (Right, Good, Some((2, 2))),
                (Wrong, Again, Some((2, 2))),
                (TimeUp, Again, Some((2, 2))),
                (Wrong, Failed, Some((7, 1))),
                (Right, Good, Some((7, 2))),
                (Right, Good, Some((7, 3))),
                (Right, Good, None),
            ],
        );
        for last in [Wrong, TimeUp] {
            check_handed_out(
                &reprogramming(),
                &[
                    (Right, Good, Some((2, 2))),
                    (Right, Good, Some((2, 3))),
                    (Right, Good, Some((7, 1))),
                    (last, Again, Some((7, 1))),
                    (last, Again, Some((7, 1))),
                    (last, Failed, None),
                ],
            );
        }
        let pings = [1, 2, 3, 4, 5, 6, 7, 8, 9].map(|number| (Right, Good, Some((number, 4))));
        check_handed_out(&pinging(), &[&pings[..], &[(Right, Good, None)]].concat());
    }

    #[test]
    fn answers_hand_out_the_next_rate_frame() {
        use Outcome::{Again, Failed, Good};
        for running in [false, true] {
            let begun = fetching(running);
            check_handed_out(&begun, &[(Right, Good, Some((7, 5))), (Right, Good, None)]);
            check_handed_out(
                &begun,
                &[
                    (TimeUp, Again, Some((2, 5))),
                    (Wrong, Again, Some((2, 5))),
                    (TimeUp, Failed, Some((7, 5))),
                    (Wrong, Again, Some((7, 5))),
                    (Wrong, Again, Some((7, 5))),
                    (Wrong, Failed, None),
                ],
            );
        }
    }

    /// The first frame, with 40 bytes lent; those that it does not fill stay.
    fn first_frame(board: &Board, crate_number: u8) -> Result<Frame, Refusal> {
        let mut lent = [HELD; 40];
        let fetched = board.first_frame(crate_number, &mut lent);
        let filled = if fetched.is_ok() { 28 } else { 0 };
        assert!(lent[filled..].iter().all(|&byte| byte == HELD));
        fetched.map(|()| *lent.first_chunk().unwrap())
    }

    #[test]
    fn too_few_lent_bytes_count_nothing() {
        for (mut board, turns) in [
            (reprogramming(), &[Right][..]),
            (reprogramming(), &[TimeUp, Wrong, TimeUp, Right]),
            (pinging(), &[Right]),
            (pinging(), &[Wrong, TimeUp, Wrong, Right]),
            (fetching(false), &[Right]),
            (fetching(true), &[TimeUp, Wrong, Right]),
        ] {
            let mut counted = 0;
            // At every step, the last one too, after which no frame would be due.
            while is_open(&board, 1) {
                let before = board.clone();
                for (given, length) in
                    [Right, Wrong, TimeUp].into_iter().flat_map(|given| [(given, 0), (given, 27)])
                {
                    let mut lent = [HELD; 27];
                    let refused = hand_in(&mut board, 1, given, &mut lent[..length]);
                    assert_eq!(refused, Err(Refusal::OutputTooShort), "{given:?}");
                    assert_eq!((&board, lent), (&before, [HELD; 27]), "{given:?}");
                    assert_eq!(first_frame(&board, 1).is_ok(), counted == 0);
                }
                count(&mut board, 1, turns[counted % turns.len()]);
                counted += 1;
            }
            assert_eq!(board.frames_sent(1), Ok(counted as u32));
        }
    }

    #[test]
    fn lowest_refusal_on_a_crate() {
        for (board, code) in [(reprogramming(), 1), (fetching(false), 5), (fetching(true), 5)] {
            check_lowest_refusal(board, code);
        }
    }

    /// With the boards of `reprogramming` in a pass that begins with this code.
    fn check_lowest_refusal(mut board: Board, code: u8) {
        count(&mut board, 3, TimeUp);
        let before = board.clone();
        for length in [0, 27, 28, 40] {
            let mut lent = [HELD; 40];
            for (crate_number, refusal) in [
                (4, Refusal::NoSuchCrate),
                (255, Refusal::NoSuchCrate),
                (0, Refusal::NothingOutstanding),
            ] {
                let lent = &mut lent[..length];
                assert_eq!(board.reply(crate_number, &[], lent), Err(refusal));
                assert_eq!(board.time_up(crate_number, lent), Err(refusal));
                assert_eq!(board.first_frame(crate_number, lent), Err(refusal));
            }
            let lent = &mut lent[..length];
            assert_eq!(board.first_frame(3, lent), Err(Refusal::NothingOutstanding));
            if length < 28 {
                assert_eq!(board.first_frame(1, lent), Err(Refusal::OutputTooShort));
            }
            assert!(lent.iter().all(|&byte| byte == HELD));
        }
        assert_eq!(board, before);
        let mut lent = [HELD; 28];
        assert_eq!(board.first_frame(1, &mut lent), Ok(()));
        assert_eq!(lent, frames::for_board(&board.block, 1, 2, code));
    }

    #[test]
    fn first_frame_until_one_is_counted() {
        let refused = Err(Refusal::NothingOutstanding);
        assert_eq!(first_frame(&Board::power_up(1, 2).unwrap(), 1), refused);
        for given in [Right, Wrong, TimeUp] {
            let mut board = reprogramming();
            let block = *board.block();
            let [first, other] =
                [(1, 2), (3, 0)].map(|(c, number)| Ok(frames::for_board(&block, c, number, 1)));
            assert_eq!(
                [0, 1, 1, 2].map(|c| first_frame(&board, c)),
                [refused, first, first, refused]
            );
            // Then on crate 1 alone, to its end.
            while is_open(&board, 1) {
                count(&mut board, 1, given);
                assert_eq!([1, 3].map(|c| first_frame(&board, c)), [refused, other]);
            }
            run_out(&mut board);
            assert_eq!(board.mode(), Mode::IDLE);
            assert_eq!([0, 1, 2, 3].map(|c| first_frame(&board, c)), [refused; 4]);
            // What was refused before a pass does not count in it.
            assert!(board.time_up(1, &mut [0; 28]).is_err());
            board.obey(&PING).unwrap();
            for crate_number in 0..4 {
                let ping = frames::for_board(&block, usize::from(crate_number), 0, 4);
                assert_eq!(first_frame(&board, crate_number), Ok(ping));
                count(&mut board, crate_number, given);
                assert_eq!(first_frame(&board, crate_number), refused);
            }
        }
    }

    #[test]
    fn reset_clears_fresh_and_nothing_else() {
        for crate_number in 0..4 {
            let mut board = used_board();
            let before = board.clone();
            assert!(before.fresh() && before.timestamp == 9 && before.list[0] == 40);
            assert_eq!(before.failures.iter().flatten().count(), 3);
            assert_eq!([0, 1, 2, 3].map(|c| before.frames_sent(c)), [Ok(3), Ok(3), Ok(0), Ok(3)]);
            let done = Done::Reset(crate_number);
            assert_eq!(board.obey(&reset_words(crate_number)), Ok((done, 5)));
            let last_write = LastWrite::UsedByReset;
            assert_eq!(board, Board { last_write, ..before.clone() });
            let mut out = [0; 447];
            board.static_block(&mut out).unwrap();
            assert_eq!(&out[11..], before.block());
            let refused = CommandRefused { refusal: Refusal::NotFresh, used: 5 };
            assert_eq!(board.obey(&START), Err(refused));
            assert_eq!(board.obey(&reset_words(crate_number)), Ok((done, 5)));
            assert_eq!(board, Board { last_write, ..before });
            board.obey(&write_words(|_| ())).unwrap();
            assert_eq!(board.obey(&START), Ok((Done::Start, 5)));
        }
    }

    #[test]
    fn reset_of_a_board_that_is_not_fresh_changes_nothing() {
        let mut never_written = Board::power_up(1, 2).unwrap();
        never_written.clock(5);
        let mut after_a_run = used_board();
        after_a_run.obey(&START).unwrap();
        after_a_run.obey(&STOP).unwrap();
        for mut board in [never_written, after_a_run] {
            let before = board.clone();
            assert_eq!(board.obey(&reset_words(1)), Ok((Done::Reset(1), 5)));
            assert_eq!(board, before);
            assert_eq!(board.obey(&START).unwrap_err().refusal, Refusal::NotFresh);
        }
    }

    #[test]
    fn reset_refused_in_its_state_leaves_fresh() {
        // In the pass of the write that set fresh, then in a ping.
        let mut board = Board::power_up(1, 2).unwrap();
        board.obey(&write_words(|block| block[0x1B1] = 1)).unwrap();
        let refused = CommandRefused { refusal: Refusal::NotInThisState, used: 5 };
        for pass in [PassKind::Reprogramming, PassKind::Ping] {
            if pass == PassKind::Ping {
                board.obey(&PING).unwrap();
            }
            assert_eq!(board.mode().pass, Some(pass));
            for crate_number in 0..4 {
                let before = board.clone();
                assert_eq!(board.obey(&reset_words(crate_number)), Err(refused));
                assert_eq!(board, before);
            }
            run_out(&mut board);
            assert_eq!(board.mode(), Mode::IDLE);
            let mut started = board.clone();
            assert_eq!(started.obey(&START), Ok((Done::Start, 5)));
            let running = started.clone();
            assert_eq!(started.obey(&reset_words(1)), Err(refused));
            assert_eq!(started, running);
        }
    }

    #[test]
    fn reset_refused_for_its_words_leaves_fresh() {
        let board = used_board();
        for (words, refusal) in [
            (&[0x41, 0x20, 2, 0, 0][..], Refusal::WrongDelimiter),
            (&[0x40, 0x20, 3, 0, 0], Refusal::UnknownParameter),
            (&[0x40, 0x20, 2, 0, 1], Refusal::SpareWordNotZero),
            (&[0x40, 0x20, 2, 1, 0], Refusal::SpareWordNotZero),
            (&[0x40, 0x20, 2, 0], Refusal::FewerThanFiveWords),
        ] {
            let mut reset = board.clone();
            assert_eq!(reset.obey(words), Err(CommandRefused { refusal, used: 0 }));
            assert_eq!(reset, board);
            assert_eq!(reset.obey(&START), Ok((Done::Start, 5)));
        }
    }

    #[test]
    fn refusals_change_nothing() {
        let mut board = Board::power_up(1, 2).unwrap();
        board.obey(&PING).unwrap();
        board.clock(5);
        let before = board.clone();
        assert!(board.obey(&write_words(|_| ())).is_err());
        assert!(board.obey(&write_words(|block| block[435] = 0xFFFF)).is_err());
        assert!(board.obey(&STOP).is_err());
        assert!(board.obey(&PING).is_err());
        assert!(board.trigger(&Trigger::default(), &mut [0; 7]).is_err());
        assert!(board.reply(4, &[], &mut [0; 28]).is_err());
        assert!(board.ftu_list(&mut [0; 260]).is_err());
        assert_eq!(board, before);
    }

    const RESET: [u16; 5] = [0x40, 0x20, 2, 0, 0];
    const NOT_NOW: Refusal = Refusal::NotInThisState;

    /// Rates of board k, and a good reply that carries them.
    fn rates_of(k: u32) -> BoardRates {
        let counts = [k + 1, 0x1_0000 * k, blocks::RATE_LIMIT - 1 - k, 0, 0x1234 + k];
        BoardRates { counts, overflow: 200 + k as u8, crc_errors: 100 + k as u8 }
    }

    fn rate_reply(board: &Board, crate_number: u8, rates: &BoardRates) -> Frame {
        let mut reply = good(board, crate_number);
        for (bytes, count) in reply[5..25].chunks_exact_mut(4).zip(rates.counts) {
            bytes.copy_from_slice(&count.to_be_bytes());
        }
        reply[25] = rates.overflow;
        reply[26] = rates.crc_errors;
        reply[27] = crc8(frames::CRC_START, &reply[..27]);
        reply
    }

    /// Hands in the rates of the board that is asked on a crate.
    fn give_rates(board: &mut Board, crate_number: u8) -> Answer {
        let number = board.outstanding_step(crate_number).unwrap().1.board;
        let k = BOARDS_PER_CRATE * usize::from(crate_number) + number;
        let reply = rate_reply(board, crate_number, &rates_of(k as u32));
        board.reply(crate_number, &reply, &mut [0; 28]).unwrap()
    }

    /// The rates in the dynamic block, twelve words for each board.
    fn shown_rates(board: &Board) -> Vec<[u16; 12]> {
        let mut out = [0x7777; 499];
        assert_eq!(board.dynamic_block(&[1, 0xFFFF, 0x4000, 3], &mut out), Ok(498));
        assert_eq!(out[14..18], [1, 0xFFFF, 0x4000, 3]);
        assert_eq!(out[498], 0x7777);
        out[18..498].chunks_exact(12).map(|words| words.try_into().unwrap()).collect()
    }

    /// Those of these boards, and zeros for the others.
    fn rates_with(boards: &[usize]) -> Vec<[u16; 12]> {
        let words = |k: usize| rates_of(k as u32).words();
        (0..BOARDS).map(|k| if boards.contains(&k) { words(k) } else { [0; 12] }).collect()
    }

    /// An idle board, boards 12, 17 and 30 active, with rates of 12 and 30: board 17
    /// is dead, board 30 slow.
    fn board_with_rates() -> Board {
        let mut board = fetching(false);
        give_rates(&mut board, 1);
        for given in [TimeUp, Wrong, TimeUp] {
            count(&mut board, 1, given);
        }
        count(&mut board, 3, Wrong);
        count(&mut board, 3, TimeUp);
        assert_eq!(shown_rates(&board), rates_with(&[]));
        assert_eq!(give_rates(&mut board, 3), Answer { outcome: Outcome::Good, done: true });
        assert_eq!(board.mode(), Mode::IDLE);
        assert_eq!(shown_rates(&board), rates_with(&[12, 30]));
        board
    }

    #[test]
    fn rates_with_a_dead_and_a_slow_board() {
        let board = board_with_rates();
        assert_eq!([0, 1, 2, 3].map(|c| board.frames_sent(c)), [Ok(0), Ok(4), Ok(0), Ok(3)]);
        let mut message = [0; 40];
        board.failure_message(0, &mut message).unwrap();
        assert_eq!(message[11..17], [3, 0x40, 0x17, 192, 0, 5]);
        assert!(message[17..39].iter().all(|&word| word == 0));
        assert_eq!(board.failure_message(1, &mut message), Err(Refusal::NoSuchRecord));
    }

    #[test]
    fn counts_at_their_bound() {
        for place in 0..5 {
            for count in [blocks::RATE_LIMIT - 1, blocks::RATE_LIMIT, u32::MAX] {
                let mut board = fetching(true);
                let mut rates = rates_of(12);
                rates.counts[place] = count;
                let reply = rate_reply(&board, 1, &rates);
                let answer = board.reply(1, &reply, &mut [0; 28]).unwrap();
                let right = count < blocks::RATE_LIMIT;
                let outcome = if right { Outcome::Good } else { Outcome::Again };
                assert_eq!(answer, Answer { outcome, done: false });
                run_out(&mut board);
                let expected = if right { rates.words() } else { [0; 12] };
                assert_eq!(shown_rates(&board)[12], expected);
                assert_eq!(board.frames_sent(1), Ok(if right { 4 } else { 6 }));
            }
        }
    }

    #[test]
    fn rate_pass_begins_idle_or_running_alone() {
        for running in [false, true] {
            let board = fetching(running);
            let run = running.then_some(Events::Endless);
            assert_eq!(board.mode(), Mode { run, pass: Some(PassKind::Rates) });
        }
        for mut board in [reprogramming(), pinging(), fetching(false), fetching(true)] {
            let before = board.clone();
            assert_eq!(board.begin_rate_pass(), Err(NOT_NOW));
            assert_eq!(board, before);
        }
    }

    #[test]
    fn commands_in_a_rate_pass() {
        let write = write_words(|_| ());
        for running in [false, true] {
            let mut board = fetching(running);
            let before = board.clone();
            for words in [&write[..], &START, &[0x40, 4, 2, 0, 0, 0, 1], &PING, &RESET] {
                let refused = CommandRefused { refusal: NOT_NOW, used: words.len() };
                assert_eq!(board.obey(words), Err(refused));
            }
            for (parameter, block) in [(1, ReadBlock::Static), (2, ReadBlock::Dynamic)] {
                assert_eq!(board.obey(&[0x40, 1, parameter, 0, 0]), Ok((Done::Read(block), 5)));
            }
            assert_eq!(board.ftu_list(&mut [0; 260]), Err(NOT_NOW));
            assert_eq!(board.failure_message(0, &mut [0; 40]), Err(NOT_NOW));
            assert_eq!(board, before);
            let stopped = board.obey(&STOP);
            if running {
                assert_eq!(stopped, Ok((Done::Stop, 5)));
                assert_eq!(board, Board { mode: fetching(false).mode(), ..before });
            } else {
                assert_eq!(stopped, Err(CommandRefused { refusal: NOT_NOW, used: 5 }));
                assert_eq!(board, before);
            }
        }
    }

    #[test]
    fn rate_pass_goes_on_when_the_run_ends() {
        let mut board = fetching(false);
        run_out(&mut board);
        board.obey(&write_words(|block| block[0x1B0] = 3)).unwrap();
        run_out(&mut board);
        board.obey(&[0x40, 4, 2, 0, 0, 0, 2]).unwrap();
        let mut packet = [0; 7];
        board.trigger(&Trigger::default(), &mut packet).unwrap();
        board.begin_rate_pass().unwrap();
        board.clock(5);
        assert_eq!((board.timestamp, board.on_time), (5, 5));
        give_rates(&mut board, 0);
        board.trigger(&Trigger::default(), &mut packet).unwrap();
        assert_eq!(packet[..4], [2, 0, 0, 0]);
        assert_eq!(board.mode(), Mode { run: None, pass: Some(PassKind::Rates) });
        assert_eq!((board.trigger_counter, board.timestamp, board.on_time), (0, 0, 0));
        assert_eq!(board.trigger(&Trigger::default(), &mut packet), Err(Refusal::NotRunning));
        board.clock(7);
        assert_eq!(give_rates(&mut board, 0), Answer { outcome: Outcome::Good, done: true });
        assert_eq!((board.mode(), board.timestamp, board.on_time), (Mode::IDLE, 7, 0));
        assert_eq!(shown_rates(&board), rates_with(&[0, 1]));
    }

    #[test]
    fn run_goes_on_when_the_rate_pass_ends() {
        let mut board = fetching(true);
        board.clock(5);
        run_out(&mut board);
        assert_eq!(board.mode(), Mode { run: Some(Events::Endless), pass: None });
        assert_eq!((board.timestamp, board.on_time), (5, 5));
        assert_eq!(board.failure_message(2, &mut [0; 40]), Ok(40));
        assert_eq!(board.ftu_list(&mut [0; 260]), Ok(260));
        assert_eq!(board.obey(&STOP), Ok((Done::Stop, 5)));
    }

    #[test]
    fn nothing_else_changes_the_rates() {
        let mut board = board_with_rates();
        let expected = rates_with(&[12, 30]);
        let write = write_words(|block| block[0x1B0..].fill(0x03FF));
        for words in [&RESET[..], &PING, &write, &START, &STOP] {
            board.obey(words).unwrap();
            assert_eq!(shown_rates(&board), expected);
            for crate_number in 0..4 {
                while is_open(&board, crate_number) {
                    count(&mut board, crate_number, Right);
                }
            }
            board.clock(1);
            assert_eq!(board.mode().pass, None);
            assert_eq!(shown_rates(&board), expected);
        }
        // A later rate pass, until it has ended: all 40 boards, of which one answers.
        board.begin_rate_pass().unwrap();
        give_rates(&mut board, 2);
        run_out_but_one(&mut board);
        assert_eq!(shown_rates(&board), expected);
        count(&mut board, 3, TimeUp);
        assert_eq!(shown_rates(&board), rates_with(&[20]));
        assert_eq!(shown_rates(&Board::power_up(1, 2).unwrap()), rates_with(&[]));
    }

    /// Lets the boards time out until one item is left, on crate 3.
    fn run_out_but_one(board: &mut Board) {
        for crate_number in 0..3 {
            while is_open(board, crate_number) {
                count(board, crate_number, TimeUp);
            }
        }
        while board.frames_sent(3) != Ok(30) {
            count(board, 3, TimeUp);
        }
    }

    #[test]
    fn rate_pass_without_an_active_board() {
        for running in [false, true] {
            let mut board = board_with_rates();
            board.obey(&write_words(|_| ())).unwrap();
            if running {
                board.obey(&START).unwrap();
            }
            let before = board.clone();
            assert_eq!(board.begin_rate_pass(), Ok(()));
            assert_eq!(shown_rates(&board), rates_with(&[]));
            assert_eq!(board, Board { rates: [BoardRates::default(); BOARDS], ..before });
        }
    }

    #[test]
    fn rate_pass_clears_records_and_frame_numbers_alone() {
        for running in [false, true] {
            let mut board = used_board();
            if running {
                board.obey(&START).unwrap();
                board.clock(9);
            }
            let before = board.clone();
            board.begin_rate_pass().unwrap();
            assert_eq!([0, 1, 2, 3].map(|c| board.frames_sent(c)), [Ok(1), Ok(1), Ok(0), Ok(1)]);
            let mode = Mode { pass: Some(PassKind::Rates), ..before.mode };
            let (failures, buses) = ([None; BOARDS], board.buses);
            assert_eq!(board, Board { mode, failures, buses, ..before.clone() });
            for crate_number in [0, 1, 3] {
                give_rates(&mut board, crate_number);
            }
            assert_eq!(
                (board.mode, board.list, board.fresh()),
                (before.mode, before.list, !running)
            );
            assert_eq!(board.failure_message(0, &mut [0; 40]), Err(Refusal::NoSuchRecord));
            assert_eq!(shown_rates(&board), rates_with(&[0, 11, 33]));
        }
    }

    /// Leaving out triggers, a stop and clock steps changes no item's answer or
    /// bytes, and nothing that belongs to the pass; leaving out the pass changes no
    /// packet and no counter.
    #[test]
    fn nothing_between_matters() {
        let items = [TimeUp, Right, Wrong, TimeUp, Wrong].map(|given| (1, given));
        let items = [&items[..], &[(3, Wrong), (3, Right), (3, Right)]].concat();
        for stop_at in 0..=items.len() {
            let [mut whole, mut alone] = [true, true].map(fetching);
            let mut run = reprogramming();
            run_out(&mut run);
            run.obey(&START).unwrap();
            for (place, &(crate_number, given)) in items.iter().enumerate() {
                let got = [&mut whole, &mut run].map(|b| go_on(b, place as u32, place == stop_at));
                assert_eq!(got[0], got[1]);
                for length in [0, 27, 28, 40] {
                    let got = [&mut whole, &mut alone]
                        .map(|b| serve_open(b, crate_number, given, length));
                    assert_eq!(got[0], got[1]);
                }
            }
            assert_eq!(
                (whole.buses, whole.failures, whole.rates, whole.fetched),
                (alone.buses, alone.failures, alone.rates, alone.fetched)
            );
            assert_eq!(whole.header(), run.header());
            assert_eq!((whole.on_time, whole.mode.run), (run.on_time, run.mode.run));
        }
    }

    /// A stop where it is wanted, a clock step and a trigger.
    fn go_on(board: &mut Board, ticks: u32, stop: bool) -> (Result<(), Refusal>, [u8; 7]) {
        if stop {
            board.obey(&STOP).unwrap();
        }
        board.clock(ticks);
        let mut packet = [HELD; 7];
        (board.trigger(&Trigger::default(), &mut packet), packet)
    }

    /// Hands something in with so many bytes lent, while the crate is not done.
    fn serve_open(
        board: &mut Board,
        crate_number: u8,
        given: Given,
        length: usize,
    ) -> (Option<Result<Answer, Refusal>>, [u8; 40]) {
        let mut lent = [HELD; 40];
        let open = is_open(board, crate_number);
        (open.then(|| hand_in(board, crate_number, given, &mut lent[..length])), lent)
    }
}
