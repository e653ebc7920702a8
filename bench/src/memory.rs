//! Memories: flat, wait states, write buffer, and stacks of them.

/// What a memory says to a request.
#[derive(Clone, Copy, PartialEq, Eq, Debug)]
pub enum Reply {
    Word(u32),
    Done,
    Wait,
    Outside,
}

/// A read of a word, or a write of the bits that the mask has.
#[derive(Clone, Copy, PartialEq, Eq, Debug)]
pub enum Request {
    Read { address: u32 },
    Write { address: u32, word: u32, mask: u32 },
}

/// One call a clock: a read, a write or idle.
pub trait Memory {
    fn size(&self) -> u32;
    fn longest(&self) -> u32;
    fn read(&mut self, address: u32) -> Reply;
    fn write(&mut self, address: u32, word: u32, mask: u32) -> Reply;
    fn idle(&mut self);
    /// The byte at an address. It takes no clock.
    fn peek(&self, address: u32) -> Option<u8>;

    #[inline]
    fn is_outside(&self, address: u32) -> bool {
        !address.is_multiple_of(4) || address >= self.size()
    }
}

/// Words that are answered at once.
pub struct Flat {
    words: Box<[u32]>,
}

impl Flat {
    /// The bytes, the lowest of each word first. Their number is a multiple of 4.
    pub fn new(bytes: &[u8]) -> Flat {
        let words = bytes
            .chunks_exact(4)
            .map(|b| u32::from_le_bytes([b[0], b[1], b[2], b[3]]))
            .collect();
        Flat { words }
    }
}

impl Memory for Flat {
    #[inline]
    fn size(&self) -> u32 {
        self.words.len() as u32 * 4
    }

    #[inline]
    fn longest(&self) -> u32 {
        0
    }

    #[inline]
    fn read(&mut self, address: u32) -> Reply {
        match self.words.get(address as usize / 4) {
            Some(word) if address.is_multiple_of(4) => Reply::Word(*word),
            _ => Reply::Outside,
        }
    }

    #[inline]
    fn write(&mut self, address: u32, word: u32, mask: u32) -> Reply {
        match self.words.get_mut(address as usize / 4) {
            Some(old) if address.is_multiple_of(4) => {
                *old = *old & !mask | word & mask;
                Reply::Done
            }
            _ => Reply::Outside,
        }
    }

    #[inline]
    fn idle(&mut self) {}

    fn peek(&self, address: u32) -> Option<u8> {
        let word = self.words.get(address as usize / 4)?;
        Some(word.to_le_bytes()[address as usize % 4])
    }
}

/// Says Wait so many times to a request before it passes it down.
pub struct WaitStates<M> {
    below: M,
    states: u32,
    /// The request that is counted, and how often it was told Wait here.
    counted: Option<(Request, u32)>,
}

impl<M: Memory> WaitStates<M> {
    pub fn new(below: M, states: u32) -> WaitStates<M> {
        WaitStates {
            below,
            states,
            counted: None,
        }
    }

    /// Whether the request has to wait here.
    #[inline]
    fn holds_up(&mut self, request: Request) -> bool {
        let told = match self.counted {
            Some((counted, told)) if counted == request => told,
            _ => 0,
        };
        if told < self.states {
            self.counted = Some((request, told + 1));
            true
        } else {
            false
        }
    }

    #[inline]
    fn passed_down(&mut self, reply: Reply) -> Reply {
        if reply != Reply::Wait {
            self.counted = None;
        }
        reply
    }
}

impl<M: Memory> Memory for WaitStates<M> {
    #[inline]
    fn size(&self) -> u32 {
        self.below.size()
    }

    #[inline]
    fn longest(&self) -> u32 {
        self.states + self.below.longest()
    }

    #[inline]
    fn read(&mut self, address: u32) -> Reply {
        if self.is_outside(address) {
            self.counted = None;
            return Reply::Outside;
        }
        if self.holds_up(Request::Read { address }) {
            self.below.idle();
            return Reply::Wait;
        }
        let reply = self.below.read(address);
        self.passed_down(reply)
    }

    #[inline]
    fn write(&mut self, address: u32, word: u32, mask: u32) -> Reply {
        if self.is_outside(address) {
            self.counted = None;
            return Reply::Outside;
        }
        if self.holds_up(Request::Write {
            address,
            word,
            mask,
        }) {
            self.below.idle();
            return Reply::Wait;
        }
        let reply = self.below.write(address, word, mask);
        self.passed_down(reply)
    }

    #[inline]
    fn idle(&mut self) {
        self.counted = None;
        self.below.idle();
    }

    fn peek(&self, address: u32) -> Option<u8> {
        self.below.peek(address)
    }
}

#[derive(Clone, Copy)]
struct Held {
    address: u32,
    word: u32,
    mask: u32,
}

/// Takes up to four writes without waiting.
pub struct WriteBuffer<M> {
    below: M,
    /// A ring: the oldest stands at `oldest`.
    held: [Held; 4],
    oldest: u32,
    count: u32,
}

impl<M: Memory> WriteBuffer<M> {
    pub fn new(below: M) -> WriteBuffer<M> {
        WriteBuffer {
            below,
            held: [Held {
                address: 0,
                word: 0,
                mask: 0,
            }; 4],
            oldest: 0,
            count: 0,
        }
    }

    /// Sends the oldest held write below.
    #[inline]
    fn drain(&mut self) {
        let Held {
            address,
            word,
            mask,
        } = self.held[self.oldest as usize % 4];
        if self.below.write(address, word, mask) != Reply::Wait {
            self.oldest = (self.oldest + 1) % 4;
            self.count -= 1;
        }
    }
}

impl<M: Memory> Memory for WriteBuffer<M> {
    #[inline]
    fn size(&self) -> u32 {
        self.below.size()
    }

    #[inline]
    fn longest(&self) -> u32 {
        5 * self.below.longest() + 4
    }

    #[inline]
    fn read(&mut self, address: u32) -> Reply {
        if self.is_outside(address) {
            Reply::Outside
        } else if self.count == 0 {
            self.below.read(address)
        } else {
            self.drain();
            Reply::Wait
        }
    }

    #[inline]
    fn write(&mut self, address: u32, word: u32, mask: u32) -> Reply {
        if self.is_outside(address) {
            Reply::Outside
        } else if self.count < 4 {
            self.held[(self.oldest + self.count) as usize % 4] = Held {
                address,
                word,
                mask,
            };
            self.count += 1;
            self.below.idle();
            Reply::Done
        } else {
            self.drain();
            Reply::Wait
        }
    }

    #[inline]
    fn idle(&mut self) {
        if self.count == 0 {
            self.below.idle();
        } else {
            self.drain();
        }
    }

    fn peek(&self, address: u32) -> Option<u8> {
        let mut byte = self.below.peek(address)?;
        let lane = address % 4;
        for i in 0..self.count {
            let held = self.held[(self.oldest + i) as usize % 4];
            if held.address == address - lane && held.mask >> (8 * lane) & 0xff != 0 {
                byte = (held.word >> (8 * lane)) as u8;
            }
        }
        Some(byte)
    }
}

/// A layer that is chosen at run time.
pub enum Layer<M> {
    Plain(M),
    WaitStates(WaitStates<M>),
    WriteBuffer(WriteBuffer<M>),
}

macro_rules! each {
    ($layer:expr, $m:ident => $e:expr) => {
        match $layer {
            Layer::Plain($m) => $e,
            Layer::WaitStates($m) => $e,
            Layer::WriteBuffer($m) => $e,
        }
    };
}

impl<M: Memory> Memory for Layer<M> {
    #[inline]
    fn size(&self) -> u32 {
        each!(self, m => m.size())
    }

    #[inline]
    fn longest(&self) -> u32 {
        each!(self, m => m.longest())
    }

    #[inline]
    fn read(&mut self, address: u32) -> Reply {
        each!(self, m => m.read(address))
    }

    #[inline]
    fn write(&mut self, address: u32, word: u32, mask: u32) -> Reply {
        each!(self, m => m.write(address, word, mask))
    }

    #[inline]
    fn idle(&mut self) {
        each!(self, m => m.idle())
    }

    fn peek(&self, address: u32) -> Option<u8> {
        each!(self, m => m.peek(address))
    }
}

/// Up to three layers over flat; those that are not wanted are plain and stand on top.
pub type Stack = Layer<Layer<Layer<Flat>>>;

#[cfg(test)]
mod tests {
    use super::*;

    const ALL: u32 = 0xffff_ffff;

    fn waits_of_read<M: Memory>(memory: &mut M, address: u32) -> (u32, Reply) {
        let mut waits = 0;
        loop {
            match memory.read(address) {
                Reply::Wait => waits += 1,
                reply => return (waits, reply),
            }
        }
    }

    fn buffer_over_two() -> WriteBuffer<WaitStates<Flat>> {
        WriteBuffer::new(WaitStates::new(Flat::new(&[0; 64]), 2))
    }

    fn filled(writes: u32) -> WriteBuffer<WaitStates<Flat>> {
        let mut memory = buffer_over_two();
        for i in 0..writes {
            assert_eq!(memory.write(4 * i, 0x100 + i, ALL), Reply::Done);
        }
        memory
    }

    #[test]
    fn buffer_over_two_wait_states_has_longest_14() {
        assert_eq!(buffer_over_two().longest(), 14);
    }

    #[test]
    fn a_read_behind_four_writes_waits_14_times() {
        assert_eq!(waits_of_read(&mut filled(4), 12), (14, Reply::Word(0x103)));
        assert_eq!(waits_of_read(&mut filled(1), 12), (5, Reply::Word(0)));
        assert_eq!(waits_of_read(&mut filled(0), 12), (2, Reply::Word(0)));
    }

    #[test]
    fn a_fifth_write_waits_three_times() {
        let mut memory = filled(4);
        for _ in 0..3 {
            assert_eq!(memory.write(16, 7, ALL), Reply::Wait);
        }
        assert_eq!(memory.write(16, 7, ALL), Reply::Done);
        assert_eq!(memory.below.peek(0), Some(0));
        assert_eq!(memory.below.peek(1), Some(1));
        assert_eq!(memory.peek(16), Some(7));
        assert_eq!(memory.below.peek(16), Some(0));
    }

    #[test]
    fn three_idle_clocks_send_one_held_write() {
        let mut memory = filled(2);
        memory.idle();
        memory.idle();
        assert_eq!(memory.below.peek(1), Some(0));
        assert_eq!(memory.peek(1), Some(1));
        memory.idle();
        assert_eq!(memory.below.peek(1), Some(1));
        assert_eq!(memory.count, 1);
    }

    #[test]
    fn wait_states_restart() {
        let mut memory = WaitStates::new(Flat::new(&[9; 16]), 2);
        assert_eq!(memory.read(0), Reply::Wait);
        assert_eq!(memory.read(4), Reply::Wait);
        assert_eq!(memory.read(4), Reply::Wait);
        memory.idle();
        assert_eq!(waits_of_read(&mut memory, 4), (2, Reply::Word(0x0909_0909)));
        assert_eq!(memory.read(4), Reply::Wait);
        assert_eq!(memory.write(4, 1, 0xff), Reply::Wait);
        assert_eq!(memory.read(16), Reply::Outside);
        assert_eq!(memory.write(4, 1, 0xff), Reply::Wait);
        assert_eq!(memory.write(4, 1, 0xff), Reply::Wait);
        assert_eq!(memory.write(4, 1, 0xff), Reply::Done);
        assert_eq!(memory.peek(4), Some(1));
        assert_eq!(memory.peek(5), Some(9));
        assert_eq!(memory.peek(16), None);
    }

    #[test]
    fn outside() {
        let mut memory = filled(1);
        assert_eq!(memory.read(64), Reply::Outside);
        assert_eq!(memory.read(2), Reply::Outside);
        assert_eq!(memory.write(64, 0, ALL), Reply::Outside);
        assert_eq!(memory.count, 1);
    }
}
