//! Branch predictors.

pub trait Predictor {
    /// Whether the branch at `address` to `target` is guessed taken.
    fn guess(&self, address: u32, target: u32) -> bool;
    fn update(&mut self, address: u32, target: u32, taken: bool);
}

pub struct Never;

impl Predictor for Never {
    #[inline]
    fn guess(&self, _address: u32, _target: u32) -> bool {
        false
    }

    #[inline]
    fn update(&mut self, _address: u32, _target: u32, _taken: bool) {}
}

pub struct Backward;

impl Predictor for Backward {
    #[inline]
    fn guess(&self, address: u32, target: u32) -> bool {
        target <= address
    }

    #[inline]
    fn update(&mut self, _address: u32, _target: u32, _taken: bool) {}
}

/// 256 counters from 0 to 3, at first 1.
struct Counters([u8; 256]);

impl Counters {
    fn new() -> Counters {
        Counters([1; 256])
    }

    #[inline]
    fn is_high(&self, number: u8) -> bool {
        self.0[number as usize] >= 2
    }

    #[inline]
    fn step(&mut self, number: u8, up: bool) {
        let counter = &mut self.0[number as usize];
        *counter = if up {
            (*counter + 1).min(3)
        } else {
            counter.saturating_sub(1)
        };
    }
}

#[inline]
fn number(address: u32) -> u8 {
    (address / 4) as u8
}

pub struct Bimodal {
    counters: Counters,
}

impl Bimodal {
    #[expect(clippy::new_without_default)]
    pub fn new() -> Bimodal {
        Bimodal {
            counters: Counters::new(),
        }
    }
}

impl Predictor for Bimodal {
    #[inline]
    fn guess(&self, address: u32, _target: u32) -> bool {
        self.counters.is_high(number(address))
    }

    #[inline]
    fn update(&mut self, address: u32, _target: u32, taken: bool) {
        self.counters.step(number(address), taken);
    }
}

pub struct Gshare {
    counters: Counters,
    history: u8,
}

impl Gshare {
    #[expect(clippy::new_without_default)]
    pub fn new() -> Gshare {
        Gshare {
            counters: Counters::new(),
            history: 0,
        }
    }
}

impl Predictor for Gshare {
    #[inline]
    fn guess(&self, address: u32, _target: u32) -> bool {
        self.counters.is_high(number(address) ^ self.history)
    }

    #[inline]
    fn update(&mut self, address: u32, _target: u32, taken: bool) {
        self.counters.step(number(address) ^ self.history, taken);
        self.history = self.history << 1 | taken as u8;
    }
}

/// Follows the one of two that was right more often.
pub struct Tournament<A, B> {
    first: A,
    second: B,
    choosers: Counters,
}

impl<A: Predictor, B: Predictor> Tournament<A, B> {
    pub fn new(first: A, second: B) -> Tournament<A, B> {
        Tournament {
            first,
            second,
            choosers: Counters::new(),
        }
    }
}

impl<A: Predictor, B: Predictor> Predictor for Tournament<A, B> {
    #[inline]
    fn guess(&self, address: u32, target: u32) -> bool {
        if self.choosers.is_high(number(address)) {
            self.second.guess(address, target)
        } else {
            self.first.guess(address, target)
        }
    }

    #[inline]
    fn update(&mut self, address: u32, target: u32, taken: bool) {
        let second = self.second.guess(address, target);
        if self.first.guess(address, target) != second {
            self.choosers.step(number(address), second == taken);
        }
        self.first.update(address, target, taken);
        self.second.update(address, target, taken);
    }
}

/// One of the four that stand alone, chosen at run time.
pub enum Simple {
    Never(Never),
    Backward(Backward),
    Bimodal(Bimodal),
    Gshare(Gshare),
}

macro_rules! each {
    ($predictor:expr, $p:ident => $e:expr) => {
        match $predictor {
            Simple::Never($p) => $e,
            Simple::Backward($p) => $e,
            Simple::Bimodal($p) => $e,
            Simple::Gshare($p) => $e,
        }
    };
}

impl Predictor for Simple {
    #[inline]
    fn guess(&self, address: u32, target: u32) -> bool {
        each!(self, p => p.guess(address, target))
    }

    #[inline]
    fn update(&mut self, address: u32, target: u32, taken: bool) {
        each!(self, p => p.update(address, target, taken))
    }
}

#[cfg(test)]
mod tests {
    use super::*;

    const T: bool = true;
    const N: bool = false;

    /// The guesses before each outcome of the loop T T N, closed by a branch at 20 back to 10.
    fn guesses<P: Predictor>(mut predictor: P, count: usize) -> Vec<bool> {
        let outcomes = [T, T, N].into_iter().cycle();
        outcomes
            .take(count)
            .map(|taken| {
                let guess = predictor.guess(0x20, 0x10);
                predictor.update(0x20, 0x10, taken);
                guess
            })
            .collect()
    }

    #[test]
    fn three_taken_bring_a_counter_to_2_3_3() {
        let mut bimodal = Bimodal::new();
        let mut seen = Vec::new();
        for _ in 0..3 {
            bimodal.update(0x420, 0, true);
            seen.push(bimodal.counters.0[8]);
        }
        assert_eq!(seen, [2, 3, 3]);
        assert_eq!(bimodal.counters.0.iter().filter(|c| **c != 1).count(), 1);
    }

    #[test]
    fn backward_is_unsigned() {
        assert!(Backward.guess(8, 8));
        assert!(Backward.guess(8, 0));
        assert!(!Backward.guess(0, 0xffff_fffc));
    }

    #[test]
    fn the_loop_by_bimodal() {
        assert_eq!(guesses(Bimodal::new(), 6), [N, T, T, T, T, T]);
    }

    #[test]
    fn the_loop_by_gshare() {
        assert_eq!(
            guesses(Gshare::new(), 15),
            [N, N, N, N, N, N, N, N, N, N, T, N, T, T, N]
        );
    }

    #[test]
    fn the_loop_by_a_tournament() {
        let tournament = Tournament::new(Bimodal::new(), Gshare::new());
        assert_eq!(
            guesses(tournament, 18),
            [N, T, T, T, T, T, T, T, T, T, T, T, T, T, T, T, T, N]
        );
    }
}
