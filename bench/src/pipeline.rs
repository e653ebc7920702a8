//! The pipeline, clock by clock.
use crate::isa::{self, Decoded, NO_REGISTER, Op, cause};
use crate::memory::{Memory, Reply};
use crate::predictor::Predictor;

/// What happened in a clock.
#[derive(Clone, Copy, PartialEq, Eq, Debug, Default)]
pub struct Notes(u8);

impl Notes {
    pub const FETCH_WAIT: Notes = Notes(1);
    pub const HAZARD: Notes = Notes(2);
    pub const DATA_WAIT: Notes = Notes(4);
    pub const ROLLBACK: Notes = Notes(8);
    pub const STOP: Notes = Notes(16);

    #[inline]
    pub fn has(self, note: Notes) -> bool {
        self.0 & note.0 != 0
    }

    #[inline]
    fn add(&mut self, note: Notes) {
        self.0 |= note.0;
    }
}

/// F and the addresses in D, X, M and W at the beginning of a clock, and what happened in it.
#[derive(Clone, Copy, Debug, Default)]
pub struct ClockRecord {
    pub number: u32,
    pub fetch: u32,
    stages: [u32; 4],
    /// A bit for each of the four that is not empty.
    full: u8,
    pub notes: Notes,
}

impl ClockRecord {
    /// The address in latch D, X, M or W (0 to 3), or none.
    pub fn stage(&self, latch: usize) -> Option<u32> {
        (self.full >> latch & 1 != 0).then_some(self.stages[latch])
    }
}

/// A retired instruction with its clock.
#[derive(Clone, Copy, Debug, Default)]
pub struct Retirement {
    pub clock: u32,
    pub address: u32,
    pub word: u32,
    pub rd: Option<u8>,
    pub value: u32,
}

/// Takes records into lent slots, in order.
pub struct Log<'a, T> {
    slots: &'a mut [T],
    filled: usize,
}

impl<'a, T: Copy> Log<'a, T> {
    pub fn new(slots: &'a mut [T]) -> Log<'a, T> {
        Log { slots, filled: 0 }
    }

    #[inline]
    pub fn room(&self) -> usize {
        self.slots.len() - self.filled
    }

    pub fn records(&self) -> &[T] {
        &self.slots[..self.filled]
    }
}

/// What stands in a latch: nothing, an instruction, or one with a cause.
#[derive(Clone, Copy, PartialEq, Eq)]
struct Status(u8);

impl Status {
    const EMPTY: Status = Status(0xff);
    const FULL: Status = Status(0xfe);

    #[inline]
    fn fault(cause: u8) -> Status {
        Status(cause)
    }

    #[inline]
    fn is_empty(self) -> bool {
        self == Status::EMPTY
    }
}

#[derive(Clone, Copy)]
struct DecodeLatch {
    status: Status,
    address: u32,
    word: u32,
    guess: u32,
    decoded: Decoded,
}

#[derive(Clone, Copy)]
struct ExecuteLatch {
    status: Status,
    op: Op,
    rd: u8,
    address: u32,
    word: u32,
    guess: u32,
    imm: u32,
    a: u32,
    b: u32,
}

#[derive(Clone, Copy)]
struct DataLatch {
    status: Status,
    op: Op,
    rd: u8,
    taken: bool,
    address: u32,
    word: u32,
    result: u32,
    b: u32,
    target: u32,
}

#[derive(Clone, Copy)]
struct WriteBackLatch {
    status: Status,
    op: Op,
    rd: u8,
    taken: bool,
    address: u32,
    word: u32,
    value: u32,
    target: u32,
}

/// What the data stage did.
#[derive(Clone, Copy, PartialEq, Eq)]
enum Data {
    Passed,
    Stayed,
    RolledBack,
}

#[derive(Clone, Copy, PartialEq, Eq, Debug)]
pub struct Stop {
    pub cause: u8,
    pub address: u32,
}

#[derive(Clone, Copy, PartialEq, Eq, Debug)]
pub struct Counts {
    pub clocks: u32,
    pub fetched: u32,
    pub retired: u32,
    pub dropped: u32,
    pub in_flight: u32,
}

/// Why a run made no more clocks.
#[derive(Clone, Copy, PartialEq, Eq, Debug)]
pub enum Refusal {
    Stopped,
    LogFull,
    ClocksSpent,
}

#[derive(Clone, Copy, PartialEq, Eq, Debug)]
pub struct Run {
    pub made: u32,
    pub why: Option<Refusal>,
}

pub struct Machine<P, I, D> {
    fetch: u32,
    decode: DecodeLatch,
    execute: ExecuteLatch,
    data: DataLatch,
    write_back: WriteBackLatch,
    /// The last is written by what writes no register, and never read.
    registers: [u32; 33],
    clocks: u32,
    fetched: u32,
    retired: u32,
    dropped: u32,
    stop: Option<Stop>,
    predictor: P,
    instructions: I,
    memory: D,
}

impl<P: Predictor, I: Memory, D: Memory> Machine<P, I, D> {
    /// A machine that begins at `start`, which is a multiple of 4 inside the instruction memory.
    pub fn load(start: u32, predictor: P, instructions: I, memory: D) -> Self {
        Machine {
            fetch: start,
            decode: DecodeLatch {
                status: Status::EMPTY,
                address: 0,
                word: 0,
                guess: 0,
                decoded: Decoded::NOTHING,
            },
            execute: ExecuteLatch {
                status: Status::EMPTY,
                op: Op::Add,
                rd: NO_REGISTER,
                address: 0,
                word: 0,
                guess: 0,
                imm: 0,
                a: 0,
                b: 0,
            },
            data: DataLatch {
                status: Status::EMPTY,
                op: Op::Add,
                rd: NO_REGISTER,
                taken: false,
                address: 0,
                word: 0,
                result: 0,
                b: 0,
                target: 0,
            },
            write_back: WriteBackLatch {
                status: Status::EMPTY,
                op: Op::Add,
                rd: NO_REGISTER,
                taken: false,
                address: 0,
                word: 0,
                value: 0,
                target: 0,
            },
            registers: [0; 33],
            clocks: 0,
            fetched: 0,
            retired: 0,
            dropped: 0,
            stop: None,
            predictor,
            instructions,
            memory,
        }
    }

    pub fn stopped(&self) -> Option<Stop> {
        self.stop
    }

    pub fn counts(&self) -> Counts {
        let latches = [
            self.decode.status,
            self.execute.status,
            self.data.status,
            self.write_back.status,
        ];
        Counts {
            clocks: self.clocks,
            fetched: self.fetched,
            retired: self.retired,
            dropped: self.dropped,
            in_flight: latches.iter().filter(|s| !s.is_empty()).count() as u32,
        }
    }

    pub fn register(&self, number: usize) -> Option<u32> {
        self.registers[..32].get(number).copied()
    }

    pub fn byte(&self, address: u32) -> Option<u8> {
        self.memory.peek(address)
    }

    fn refusal(&self, retired: &Log<Retirement>, clocks: &Log<ClockRecord>) -> Option<Refusal> {
        if self.stop.is_some() {
            Some(Refusal::Stopped)
        } else if retired.room() == 0 || clocks.room() == 0 {
            Some(Refusal::LogFull)
        } else if self.clocks == u32::MAX {
            Some(Refusal::ClocksSpent)
        } else {
            None
        }
    }

    /// Makes up to `n` clocks.
    pub fn run(
        &mut self,
        n: u32,
        retired: &mut Log<Retirement>,
        clocks: &mut Log<ClockRecord>,
    ) -> Run {
        if let Some(why) = self.refusal(retired, clocks) {
            return Run {
                made: 0,
                why: Some(why),
            };
        }
        let room = retired
            .room()
            .min(clocks.room())
            .min((u32::MAX - self.clocks) as usize);
        let most = (n as usize).min(room);
        let mut made = 0;
        for slot in &mut clocks.slots[clocks.filled..clocks.filled + most] {
            made += 1;
            self.clock(
                slot,
                &mut retired.slots[retired.filled..],
                &mut retired.filled,
            );
            if self.stop.is_some() {
                break;
            }
        }
        clocks.filled += made as usize;
        Run {
            made,
            why: if made == n {
                None
            } else {
                self.refusal(retired, clocks)
            },
        }
    }

    /// One clock. `retired` begins with a free slot.
    #[inline(always)]
    fn clock(&mut self, record: &mut ClockRecord, retired: &mut [Retirement], filled: &mut usize) {
        self.clocks += 1;
        let mut notes = Notes::default();
        let full = !self.decode.status.is_empty() as u8
            | (!self.execute.status.is_empty() as u8) << 1
            | (!self.data.status.is_empty() as u8) << 2
            | (!self.write_back.status.is_empty() as u8) << 3;
        *record = ClockRecord {
            number: self.clocks,
            fetch: self.fetch,
            stages: [
                self.decode.address,
                self.execute.address,
                self.data.address,
                self.write_back.address,
            ],
            full,
            notes,
        };
        if self.write_back_stage(retired, filled) {
            notes.add(Notes::STOP);
        } else {
            match self.data_stage() {
                Data::RolledBack => {
                    self.dropped += !self.execute.status.is_empty() as u32
                        + !self.decode.status.is_empty() as u32;
                    self.empty_data();
                    self.execute.status = Status::EMPTY;
                    self.decode.status = Status::EMPTY;
                    self.instructions.idle();
                    notes.add(Notes::ROLLBACK);
                }
                data => {
                    if data == Data::Stayed {
                        notes.add(Notes::DATA_WAIT);
                    }
                    self.front_end(data == Data::Stayed, &mut notes);
                }
            }
        }
        record.notes = notes;
    }

    /// Retires what stands in W. True if the machine stops.
    #[inline(always)]
    fn write_back_stage(&mut self, retired: &mut [Retirement], filled: &mut usize) -> bool {
        let w = &mut self.write_back;
        match w.status {
            Status::EMPTY => false,
            Status::FULL => {
                self.registers[w.rd as usize] = w.value;
                self.retired += 1;
                *filled += 1;
                let writes = w.rd != NO_REGISTER;
                retired[0] = Retirement {
                    clock: self.clocks,
                    address: w.address,
                    word: w.word,
                    rd: writes.then_some(w.rd),
                    value: if writes { w.value } else { 0 },
                };
                if w.op.is_branch() {
                    self.predictor.update(w.address, w.target, w.taken);
                }
                false
            }
            Status(cause) => {
                self.stop = Some(Stop {
                    cause,
                    address: w.address,
                });
                w.status = Status::EMPTY;
                self.memory.idle();
                self.instructions.idle();
                true
            }
        }
    }

    #[inline(always)]
    fn data_stage(&mut self) -> Data {
        let m = self.data;
        let status = if m.status == Status::FULL {
            self.access_cause(&m)
        } else {
            m.status
        };
        let value = match status {
            Status::EMPTY => {
                self.memory.idle();
                self.empty_write_back();
                return Data::Passed;
            }
            Status::FULL => {
                if m.op.is_load() {
                    match self.memory.read(m.result & !3) {
                        Reply::Word(word) => isa::loaded(m.op, m.result, word),
                        _ => {
                            self.empty_write_back();
                            return Data::Stayed;
                        }
                    }
                } else if m.op.is_store() {
                    let (word, mask) = isa::stored(m.op, m.result, m.b);
                    if self.memory.write(m.result & !3, word, mask) != Reply::Done {
                        self.empty_write_back();
                        return Data::Stayed;
                    }
                    0
                } else {
                    self.memory.idle();
                    m.result
                }
            }
            fault => {
                self.memory.idle();
                self.empty_write_back();
                self.write_back.status = fault;
                self.write_back.address = m.address;
                return Data::RolledBack;
            }
        };
        self.write_back = WriteBackLatch {
            status: Status::FULL,
            op: m.op,
            rd: m.rd,
            taken: m.taken,
            address: m.address,
            word: m.word,
            value,
            target: m.target,
        };
        Data::Passed
    }

    /// The cause that a load or a store has by its address, or full.
    #[inline(always)]
    fn access_cause(&self, m: &DataLatch) -> Status {
        let load = m.op.is_load();
        if !load && !m.op.is_store() {
            Status::FULL
        } else if m.result & m.op.alignment() != 0 {
            Status::fault(if load {
                cause::MISALIGNED_LOAD
            } else {
                cause::MISALIGNED_STORE
            })
        } else if m.result >= self.memory.size() {
            Status::fault(if load {
                cause::LOAD_OUTSIDE
            } else {
                cause::STORE_OUTSIDE
            })
        } else {
            Status::FULL
        }
    }

    #[inline(always)]
    fn empty_write_back(&mut self) {
        self.write_back.status = Status::EMPTY;
        self.write_back.rd = NO_REGISTER;
    }

    #[inline(always)]
    fn empty_data(&mut self) {
        self.data.status = Status::EMPTY;
        self.data.rd = NO_REGISTER;
    }

    /// Execute, decode and fetch, where there was no rollback from data.
    #[inline(always)]
    fn front_end(&mut self, data_stayed: bool, notes: &mut Notes) {
        if data_stayed {
            if !self.execute.status.is_empty() {
                if self.decode.status.is_empty() {
                    self.fetch_stage(notes);
                } else {
                    self.instructions.idle();
                }
                return;
            }
        } else if self.execute_stage() {
            self.dropped += !self.decode.status.is_empty() as u32;
            self.decode.status = Status::EMPTY;
            self.execute.status = Status::EMPTY;
            self.instructions.idle();
            notes.add(Notes::ROLLBACK);
            return;
        }
        if self.decode_stage() {
            self.fetch_stage(notes);
        } else {
            notes.add(Notes::HAZARD);
            self.execute.status = Status::EMPTY;
            self.instructions.idle();
        }
    }

    /// X goes to M. True if that is a rollback.
    #[inline(always)]
    fn execute_stage(&mut self) -> bool {
        let x = &self.execute;
        match x.status {
            Status::EMPTY => {
                self.empty_data();
                false
            }
            Status::FULL => {
                let done = isa::execute(x.op, x.address, x.imm, x.a, x.b);
                let bad = done.jumps && !done.next.is_multiple_of(4);
                let wrong = done.next != x.guess;
                self.data = DataLatch {
                    status: if bad {
                        Status::fault(cause::MISALIGNED_JUMP)
                    } else {
                        Status::FULL
                    },
                    op: x.op,
                    rd: if bad { NO_REGISTER } else { x.rd },
                    taken: done.taken,
                    address: x.address,
                    word: x.word,
                    result: done.result,
                    b: x.b,
                    target: x.address.wrapping_add(x.imm),
                };
                if wrong && !bad {
                    self.fetch = done.next;
                }
                wrong && !bad
            }
            fault => {
                self.data.status = fault;
                self.data.rd = NO_REGISTER;
                self.data.address = x.address;
                false
            }
        }
    }

    /// D goes to X, with its operands. False on a hazard.
    ///
    /// W as it was stands in the register file by now, M as it was in W, and X as it was in M; or M
    /// stands where it was, told Wait. A load in M has no value yet in either case.
    #[inline(always)]
    fn decode_stage(&mut self) -> bool {
        let d = &self.decode;
        let status = match d.status {
            Status::FULL => match d.decoded.op {
                Op::Illegal => Status::fault(cause::ILLEGAL),
                Op::Ebreak => Status::fault(cause::EBREAK),
                Op::Ecall => Status::fault(cause::ECALL),
                _ => Status::FULL,
            },
            other => other,
        };
        if status != Status::FULL {
            self.execute.status = status;
            self.execute.address = d.address;
            return true;
        }
        let Decoded {
            op,
            rd,
            rs1,
            rs2,
            imm,
        } = d.decoded;
        if self.data.op.is_load() && (self.data.rd == rs1 || self.data.rd == rs2) {
            return false;
        }
        self.execute = ExecuteLatch {
            status: Status::FULL,
            op,
            rd,
            address: d.address,
            word: d.word,
            guess: d.guess,
            imm,
            a: self.operand(rs1),
            b: self.operand(rs2),
        };
        true
    }

    #[inline(always)]
    fn operand(&self, register: u8) -> u32 {
        if self.data.rd == register {
            self.data.result
        } else if self.write_back.rd == register {
            self.write_back.value
        } else {
            self.registers[register as usize]
        }
    }

    /// Fetches into D, which is free.
    #[inline(always)]
    fn fetch_stage(&mut self, notes: &mut Notes) {
        let address = self.fetch;
        let straight = address.wrapping_add(4);
        let fault = if !address.is_multiple_of(4) {
            cause::MISALIGNED_JUMP
        } else if address >= self.instructions.size() {
            cause::OUTSIDE
        } else {
            match self.instructions.read(address) {
                Reply::Word(word) => {
                    let decoded = isa::decode(word);
                    let target = address.wrapping_add(decoded.imm);
                    let leads_there = decoded.op == Op::Jal
                        || decoded.op.is_branch() && self.predictor.guess(address, target);
                    let guess = if leads_there { target } else { straight };
                    self.decode = DecodeLatch {
                        status: Status::FULL,
                        address,
                        word,
                        guess,
                        decoded,
                    };
                    self.fetch = guess;
                    self.fetched += 1;
                }
                _ => {
                    self.decode.status = Status::EMPTY;
                    notes.add(Notes::FETCH_WAIT);
                }
            }
            return;
        };
        self.instructions.idle();
        self.decode.status = Status::fault(fault);
        self.decode.address = address;
        self.fetch = straight;
        self.fetched += 1;
    }
}
