//! Runs random images on the proved program and on the plain model, and compares all that they print.
use plain_model::isa::{cause, word};
use plain_model::options::{LayerChoice, Options, PredictorChoice, SimpleChoice, StackChoice};
use plain_model::report::{clocklog, timing};
use std::collections::BTreeMap;
use std::io::{self, Write};
use std::process::{Command, ExitCode, Stdio};
use std::time::Instant;

/// Numbers that look random and are the same for the same seed (xorshift64*).
struct Random(u64);

impl Random {
    fn new(seed: u64) -> Random {
        // Neighbouring seeds are scattered first, and the state must not be 0.
        let mut z = seed.wrapping_add(0x9e37_79b9_7f4a_7c15);
        z = (z ^ z >> 30).wrapping_mul(0xbf58_476d_1ce4_e5b9);
        z = (z ^ z >> 27).wrapping_mul(0x94d0_49bb_1331_11eb);
        Random((z ^ z >> 31) | 1)
    }

    fn next(&mut self) -> u32 {
        self.0 ^= self.0 >> 12;
        self.0 ^= self.0 << 25;
        self.0 ^= self.0 >> 27;
        (self.0.wrapping_mul(0x2545_f491_4f6c_dd1d) >> 32) as u32
    }

    fn below(&mut self, n: u32) -> u32 {
        (self.next() as u64 * n as u64 >> 32) as u32
    }

    /// From `low` to `high`, both included.
    fn between(&mut self, low: i32, high: i32) -> i32 {
        low + self.below((high - low + 1) as u32) as i32
    }

    /// True in one of `n` cases.
    fn one_in(&mut self, n: u32) -> bool {
        self.below(n) == 0
    }

    fn pick<T: Copy>(&mut self, from: &[T]) -> T {
        from[self.below(from.len() as u32) as usize]
    }
}

/// What the instructions of an image are made of. It differs from image to image, so that some are
/// full of loads, others of branches, and some stop early.
struct Flavour {
    /// The registers that are used. With few, every instruction waits for the one before it.
    registers: u32,
    /// The weights of the kinds of instruction.
    arithmetic: u32,
    memory: u32,
    branches: u32,
    jumps: u32,
    /// One in so many instructions may stop the machine.
    stops: u32,
    /// One in so many accesses is not aligned, or outside.
    bad_accesses: u32,
    data_size: u32,
}

impl Flavour {
    fn random(random: &mut Random, data_size: u32) -> Flavour {
        Flavour {
            registers: random.pick(&[2, 3, 4, 8, 31]),
            arithmetic: random.pick(&[1, 4, 10]),
            memory: random.pick(&[0, 2, 6, 20]),
            branches: random.pick(&[0, 2, 5, 10]),
            jumps: random.pick(&[0, 1, 1, 3]),
            stops: random.pick(&[10, 60, 1000, 100_000]),
            bad_accesses: random.pick(&[10, 200, 100_000]),
            data_size,
        }
    }
}

struct Program<'a> {
    random: &'a mut Random,
    flavour: Flavour,
    words: Vec<u32>,
    /// How many words the image will have.
    length: usize,
}

impl Program<'_> {
    fn source(&mut self) -> u32 {
        self.random.below(self.flavour.registers + 1)
    }

    /// Any of the registers in use, or a register that holds a base address and is hardly ever written.
    fn target(&mut self) -> u32 {
        if self.random.one_in(40) {
            self.random.below(32)
        } else {
            self.random.below(self.flavour.registers + 1)
        }
    }

    /// The distance in bytes from the next word to another of the image.
    fn distance(&mut self, most: i32) -> i32 {
        let here = self.words.len() as i32;
        let to = if self.random.one_in(3) {
            self.random.below(self.length as u32) as i32
        } else {
            here + self.random.between(-8, 8)
        };
        (4 * (to - here)).clamp(-most, most)
    }

    fn arithmetic(&mut self) -> u32 {
        let (rd, rs1, rs2) = (self.target(), self.source(), self.source());
        match self.random.below(8) {
            0 => word::u(self.random.next(), rd, self.random.pick(&[0x37, 0x17])),
            1 => {
                let (f7, f3) = self.random.pick(&[(0, 1), (0, 5), (0x20, 5)]);
                word::i((f7 << 5 | self.random.below(32)) as i32, rs1, f3, rd, 0x13)
            }
            2 | 3 => {
                let f3 = self.random.pick(&[0, 2, 3, 4, 6, 7]);
                let imm = if self.random.one_in(3) {
                    self.random.between(-2048, 2047)
                } else {
                    self.random.between(-8, 8)
                };
                word::i(imm, rs1, f3, rd, 0x13)
            }
            4 => {
                // small numbers, so that comparisons go both ways
                word::i(self.random.between(-3, 3), 0, 0, rd, 0x13)
            }
            5 if self.random.one_in(4) => self.random.next() & 0xffff_8f80 | 0x0f,
            _ => {
                let f3 = self.random.below(8);
                let f7 = if matches!(f3, 0 | 5) && self.random.one_in(2) {
                    0x20
                } else {
                    0
                };
                word::r(f7, rs2, rs1, f3, rd)
            }
        }
    }

    fn access(&mut self) -> u32 {
        let bad = self.random.one_in(self.flavour.bad_accesses);
        let store = self.random.one_in(2);
        let f3 = if store {
            self.random.below(3)
        } else {
            self.random.pick(&[0, 1, 2, 4, 5])
        };
        let near = if self.random.one_in(2) {
            16
        } else {
            self.flavour.data_size.clamp(1, 2048)
        };
        let mut offset = self.random.below(near) as i32;
        if !bad {
            offset &= match f3 & 3 {
                0 => !0,
                1 => !1,
                _ => !3,
            };
        } else if self.random.one_in(2) {
            offset = self.random.between(-2048, 2047);
        }
        // x0 for a base is always good; another holds what the program left there
        let base = if bad || self.random.one_in(30) {
            self.source()
        } else {
            0
        };
        if store {
            word::s(offset, self.source(), base, f3)
        } else {
            word::i(offset, base, f3, self.target(), 0x03)
        }
    }

    fn branch(&mut self) -> u32 {
        let f3 = self.random.pick(&[0, 1, 4, 5, 6, 7]);
        let (rs1, rs2) = (self.source(), self.source());
        let mut distance = self.distance(4092);
        if self.random.one_in(4 * self.flavour.stops) {
            distance += 2;
        }
        word::b(distance, rs2, rs1, f3)
    }

    fn jump(&mut self) -> u32 {
        let rd = self.target();
        let awry = self.random.one_in(4 * self.flavour.stops);
        if self.random.one_in(3) {
            let base = if self.random.one_in(8) {
                self.source()
            } else {
                0
            };
            let to = 4 * self.random.below(self.length.min(512) as u32) as i32;
            word::i(
                if awry {
                    to + self.random.between(1, 3)
                } else {
                    to
                },
                base,
                0,
                rd,
                0x67,
            )
        } else {
            let distance = self.distance(1 << 19);
            word::j(if awry { distance + 2 } else { distance }, rd)
        }
    }

    fn stop(&mut self) -> u32 {
        match self.random.below(6) {
            0 => 0x0000_0073,
            1 => 0x0010_0073,
            2 => self.random.next(),
            3 => word::j(0x4000, 0),
            4 => word::i(self.random.between(-2048, -1), 0, 0, 1, 0x67),
            _ => 0,
        }
    }

    /// A loop of a few rounds: a counter, a body and a branch back.
    fn counted_loop(&mut self) {
        let counter = 1 + self.random.below(self.flavour.registers);
        self.words
            .push(word::i(self.random.between(1, 9), 0, 0, counter, 0x13));
        let body = 1 + self.random.below(6) as usize;
        for _ in 0..body {
            let next = if self.random.one_in(2) {
                self.access()
            } else {
                self.arithmetic()
            };
            // the body leaves the counter alone, mostly
            let rd = next >> 7 & 31;
            let writes = !matches!(next & 0x7f, 0x23 | 0x63);
            let next = if writes && rd == counter {
                next & !0xf80
            } else {
                next
            };
            self.words.push(next);
        }
        self.words.push(word::i(-1, counter, 0, counter, 0x13));
        self.words
            .push(word::b(-4 * (body as i32 + 1), 0, counter, 1));
    }

    /// A store, and loads of what it wrote, perhaps at another width.
    fn store_and_load(&mut self) {
        let offset = 4 * self.random.below(4) as i32;
        for _ in 0..1 + self.random.below(6) {
            let (from, f3) = (self.source(), self.random.below(3));
            self.words.push(word::s(offset, from, 0, f3));
        }
        let (rd, f3) = (self.target(), self.random.pick(&[0, 1, 2, 4, 5]));
        self.words.push(word::i(offset, 0, f3, rd, 0x03));
        if self.random.one_in(2) {
            let second = self.target();
            self.words.push(word::r(0, rd, rd, 0, second));
        }
    }

    /// A branch that is always taken, over words that would stop the machine.
    fn wrong_path(&mut self) {
        let skipped = 1 + self.random.below(3) as i32;
        self.words.push(word::b(4 * (skipped + 1), 0, 0, 0));
        for _ in 0..skipped {
            let fault = match self.random.below(3) {
                0 => self.stop(),
                1 => word::i(1, 0, 2, 1, 0x03),
                _ => word::s(-1, 0, 0, 2),
            };
            self.words.push(fault);
        }
    }

    fn fill(&mut self) {
        while self.words.len() < self.length {
            let f = &self.flavour;
            let (arithmetic, memory, branches, jumps) =
                (f.arithmetic, f.memory, f.branches, f.jumps);
            let stops = f.stops;
            if self.random.one_in(stops) {
                let next = self.stop();
                self.words.push(next);
                continue;
            }
            match self.random.below(60) {
                0 | 1 => self.counted_loop(),
                2 if memory > 0 => self.store_and_load(),
                3 => self.wrong_path(),
                _ => {
                    let k = self.random.below(arithmetic + memory + branches + jumps);
                    let next = if k < arithmetic {
                        self.arithmetic()
                    } else if k < arithmetic + memory {
                        self.access()
                    } else if k < arithmetic + memory + branches {
                        self.branch()
                    } else {
                        self.jump()
                    };
                    self.words.push(next);
                }
            }
        }
        self.words.truncate(self.length);
        // mostly the end leads back to the beginning, so that a run lasts
        if self.length > 1 && !self.random.one_in(4) {
            self.words[self.length - 1] = word::j(-4 * (self.length as i32 - 1), 0);
        }
    }
}

fn image(random: &mut Random, data_size: u32) -> Vec<u8> {
    let length = match random.below(20) {
        0 => random.below(5),
        1..=13 => 4 + random.below(40),
        14..=18 => 40 + random.below(400),
        _ => random.below(16500),
    } as usize;
    let words = if random.one_in(12) {
        (0..length).map(|_| random.next()).collect()
    } else {
        let flavour = Flavour::random(random, data_size);
        let mut program = Program {
            random,
            flavour,
            words: Vec::new(),
            length,
        };
        program.fill();
        program.words
    };
    let mut bytes: Vec<u8> = words.iter().flat_map(|word| word.to_le_bytes()).collect();
    if random.one_in(20) {
        bytes.truncate(bytes.len().saturating_sub(random.below(4) as usize));
    }
    bytes
}

fn predictor(random: &mut Random) -> PredictorChoice {
    let one = random.pick(&SimpleChoice::ALL);
    if random.one_in(3) {
        PredictorChoice::Tournament(one, random.pick(&SimpleChoice::ALL))
    } else {
        PredictorChoice::Simple(one)
    }
}

fn stack(random: &mut Random) -> StackChoice {
    let layers = random.pick(&[0, 1, 1, 2, 2, 3, 3]);
    let layer = |random: &mut Random| match random.below(2) {
        0 => LayerChoice::WriteBuffer,
        _ => LayerChoice::WaitStates(random.pick(&[0, 1, 1, 2, 3, 4, 7, 15])),
    };
    StackChoice((0..layers).map(|_| layer(random)).collect())
}

fn options(random: &mut Random) -> Options {
    let data_size = match random.below(40) {
        0 => random.below(70_000),
        1..=10 => 16,
        11..=20 => 16 * (1 + random.below(16)),
        21..=30 => 4096,
        _ => 16 * (1 + random.below(4096)),
    };
    Options {
        predictor: predictor(random),
        instructions: if random.one_in(3) {
            StackChoice::default()
        } else {
            stack(random)
        },
        data: if random.one_in(5) {
            StackChoice::default()
        } else {
            stack(random)
        },
        data_size,
        start: 0,
        clocks: match random.below(8) {
            0 => 1 + random.below(30),
            7 => 1 + random.below(20_000),
            _ => 200 + random.below(3000),
        },
        log: true,
    }
}

/// A good start mostly, else any.
fn start(random: &mut Random, image: &[u8]) -> u32 {
    let size = image.len().next_multiple_of(16).max(16) as u32;
    match random.below(12) {
        0..=7 => 0,
        8 => random.below(size + 8),
        _ => 4 * random.below(size / 4),
    }
}

/// Runs the proved program.
fn proved(path: &str, words: &[String], image: &[u8]) -> io::Result<(String, Option<i32>)> {
    let mut child = Command::new(path)
        .args(words)
        .stdin(Stdio::piped())
        .stdout(Stdio::piped())
        .stderr(Stdio::null())
        .spawn()?;
    child.stdin.take().unwrap().write_all(image)?;
    let output = child.wait_with_output()?;
    Ok((
        String::from_utf8_lossy(&output.stdout).into_owned(),
        output.status.code(),
    ))
}

/// What was compared.
#[derive(Default)]
struct Tally {
    images: u64,
    refused: u64,
    clocks: u64,
    retired: u64,
    hazards: u64,
    fetch_waits: u64,
    data_waits: u64,
    rollbacks: u64,
    limits: u64,
    /// Gaps as long as the bound allows.
    at_bound: u64,
    over_bound: u64,
    stops: BTreeMap<String, u64>,
    predictors: BTreeMap<String, u64>,
    stacks: BTreeMap<String, u64>,
    pairs: BTreeMap<String, u64>,
}

impl Tally {
    fn add(&mut self, options: &Options, text: &str) {
        self.images += 1;
        *self
            .predictors
            .entry(options.predictor.to_string())
            .or_default() += 1;
        *self
            .stacks
            .entry(options.instructions.to_string())
            .or_default() += 1;
        *self.stacks.entry(options.data.to_string()).or_default() += 1;
        *self
            .pairs
            .entry(format!("{} {}", options.instructions, options.data))
            .or_default() += 1;
        let mut lines = text.lines();
        lines.next();
        let waits = options.instructions.longest() + options.data.longest();
        let (mut last, mut bound) = (0, waits + 5);
        for line in lines
            .by_ref()
            .take_while(|line| !line.starts_with("clock IF"))
        {
            self.retired += 1;
            let clock: u32 = line
                .split(' ')
                .nth(1)
                .and_then(|text| text.parse().ok())
                .unwrap_or(0);
            self.gap(clock - last, bound);
            (last, bound) = (clock, waits + 3);
        }
        let mut made = 0;
        for line in lines {
            if !line.starts_with(|c: char| c.is_ascii_digit()) {
                continue;
            }
            self.clocks += 1;
            made += 1;
            let note = line.rsplit(' ').next().unwrap();
            self.fetch_waits += note.contains('f') as u64;
            self.hazards += note.contains('h') as u64;
            self.data_waits += note.contains('d') as u64;
            self.rollbacks += note.contains('r') as u64;
        }
        let mut end = text.lines().next_back().unwrap_or("").split(' ');
        match end.next() {
            Some("stop") => {
                *self
                    .stops
                    .entry(end.next().unwrap_or("").into())
                    .or_default() += 1;
                self.gap(made - last, bound);
            }
            Some("limit") => {
                self.limits += 1;
                // the next clock at the earliest ends this gap
                self.over_bound += (made - last >= bound) as u64;
            }
            _ => self.refused += 1,
        }
    }

    /// Clocks from loading or a retirement to the next retirement or the stop.
    fn gap(&mut self, clocks: u32, bound: u32) {
        self.at_bound += (clocks == bound) as u64;
        self.over_bound += (clocks > bound) as u64;
    }

    fn print(&self) {
        println!("images {} of which refused {}", self.images, self.refused);
        println!("clocks {} retired {}", self.clocks, self.retired);
        println!(
            "clocks with: rollback {} hazard {} fetch wait {} data wait {}",
            self.rollbacks, self.hazards, self.fetch_waits, self.data_waits
        );
        let stops: Vec<String> = cause::ALL
            .iter()
            .map(|cause| cause.to_string())
            .map(|cause| format!("{cause}: {}", self.stops.get(&cause).unwrap_or(&0)))
            .collect();
        println!(
            "stops by cause: {}; at the limit: {}",
            stops.join(", "),
            self.limits
        );
        println!(
            "gaps as long as the bound: {}, longer: {}",
            self.at_bound, self.over_bound
        );
        println!(
            "predictors {}, stacks {}, pairs of stacks {}",
            self.predictors.len(),
            self.stacks.len(),
            self.pairs.len()
        );
    }
}

fn differ(one: &str, other: &str) -> Option<(usize, String, String)> {
    let (mut a, mut b) = (one.lines(), other.lines());
    for number in 1.. {
        match (a.next(), b.next()) {
            (None, None) => break,
            (x, y) if x == y => {}
            (x, y) => {
                return Some((
                    number,
                    x.unwrap_or("(no line)").into(),
                    y.unwrap_or("(no line)").into(),
                ));
            }
        }
    }
    (one != other).then(|| (0, "(line ends)".into(), "(line ends)".into()))
}

struct Arguments {
    seed: u64,
    images: u64,
    program: Option<String>,
    clocklog: bool,
}

const HELP: &str = "\
compare [--seed N] [--images N] [--clocklog] [PROGRAM]
PROGRAM is the proved one: ../crates/timing/out/timing, or with --clocklog ../crates/clocklog/out/clocklog.
";

fn arguments() -> Option<Arguments> {
    let mut arguments = Arguments {
        seed: 1,
        images: 1000,
        program: None,
        clocklog: false,
    };
    let mut words = std::env::args().skip(1);
    while let Some(word) = words.next() {
        match word.as_str() {
            "--seed" => arguments.seed = words.next()?.parse().ok()?,
            "--images" => arguments.images = words.next()?.parse().ok()?,
            "--clocklog" => arguments.clocklog = true,
            path if !path.starts_with('-') => arguments.program = Some(word),
            _ => return None,
        }
    }
    Some(arguments)
}

fn main() -> io::Result<ExitCode> {
    let Some(arguments) = arguments() else {
        print!("{HELP}");
        return Ok(ExitCode::from(2));
    };
    let default = if arguments.clocklog {
        "../crates/clocklog/out/clocklog"
    } else {
        "../crates/timing/out/timing"
    };
    let path = arguments.program.as_deref().unwrap_or(default);
    let mut tally = Tally::default();
    let begun = Instant::now();
    for number in 0..arguments.images {
        let random = &mut Random::new(arguments.seed.wrapping_mul(1_000_003).wrapping_add(number));
        let mut options = if arguments.clocklog {
            Options::default()
        } else {
            options(random)
        };
        let image = image(random, options.data_size);
        if !arguments.clocklog {
            options.start = start(random, &image);
        }
        let plain = if arguments.clocklog {
            clocklog(&image)
        } else {
            timing(&options, &image)
        };
        let (plain, status) = match plain {
            Ok(text) => (text, 0),
            Err(refused) => (
                format!("refused {}\n", refused.0),
                if arguments.clocklog { 0 } else { 1 },
            ),
        };
        let words = if arguments.clocklog {
            Vec::new()
        } else {
            options.words()
        };
        let (text, code) = proved(path, &words, &image)?;
        if let Some((line, ours, theirs)) = differ(&plain, &text) {
            let file = format!("differs-{}-{number}.bin", arguments.seed);
            std::fs::write(&file, &image)?;
            for (i, word) in image.chunks(4).enumerate() {
                println!(
                    "{:4x} {}",
                    4 * i,
                    word.iter()
                        .rev()
                        .map(|b| format!("{b:02x}"))
                        .collect::<String>()
                );
            }
            println!("image {number} of seed {}, in {file}", arguments.seed);
            println!("{path} {} < {file}", words.join(" "));
            println!("line {line}\nplain  {ours}\nproved {theirs}");
            return Ok(ExitCode::FAILURE);
        }
        if code != Some(status) {
            println!(
                "image {number} of seed {}: status {code:?}, not {status}",
                arguments.seed
            );
            return Ok(ExitCode::FAILURE);
        }
        tally.add(&options, &text);
    }
    tally.print();
    if tally.over_bound > 0 {
        println!("a gap is longer than its bound");
        return Ok(ExitCode::FAILURE);
    }
    println!("no difference, in {:.1} s", begun.elapsed().as_secs_f64());
    Ok(ExitCode::SUCCESS)
}
