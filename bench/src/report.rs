//! A run from its options and its image to its print.
use crate::memory::{Flat, Layer, Memory, Stack, WaitStates, WriteBuffer};
use crate::options::{LayerChoice, Options, PredictorChoice, SimpleChoice, StackChoice};
use crate::pipeline::{ClockRecord, Counts, Log, Machine, Notes, Retirement, Stop};
use crate::predictor::{Backward, Bimodal, Gshare, Never, Predictor, Simple, Tournament};
use std::fmt::Write;
use std::hint::black_box;

/// The most bytes of a memory.
const MOST_BYTES: usize = 65536;

/// How many records a log takes before it is read and used again.
const SLOTS: usize = 256;

/// The number of the check that refuses a set-up.
#[derive(Clone, Copy, PartialEq, Eq, Debug)]
pub struct Refused(pub u32);

/// The image with zeros up to a multiple of 16, at least 16.
pub fn padded(image: &[u8]) -> Result<Vec<u8>, Refused> {
    if image.len() > MOST_BYTES {
        return Err(Refused(1));
    }
    let mut bytes = image.to_vec();
    bytes.resize(image.len().next_multiple_of(16).max(16), 0);
    Ok(bytes)
}

/// What a run leaves.
#[derive(Clone, Copy, PartialEq, Eq, Debug)]
pub struct Summary {
    pub counts: Counts,
    pub stop: Option<Stop>,
    pub longest_gap: u32,
}

/// Takes the records of a run, a few at a time.
pub trait Sink {
    fn take(&mut self, retired: &[Retirement], clocks: &[ClockRecord]);
}

/// Forgets them. They are made all the same: the compiler is not told that nobody reads them.
pub struct Nowhere;

impl Sink for Nowhere {
    fn take(&mut self, retired: &[Retirement], clocks: &[ClockRecord]) {
        black_box((retired, clocks));
    }
}

/// All records, for the two tables.
#[derive(Default)]
pub struct Tables {
    pub retired: Vec<Retirement>,
    pub clocks: Vec<ClockRecord>,
}

impl Sink for Tables {
    fn take(&mut self, retired: &[Retirement], clocks: &[ClockRecord]) {
        self.retired.extend_from_slice(retired);
        self.clocks.extend_from_slice(clocks);
    }
}

fn drive<P: Predictor, I: Memory, D: Memory>(
    mut machine: Machine<P, I, D>,
    limit: u32,
    sink: &mut impl Sink,
) -> Summary {
    let mut retired_slots = [Retirement::default(); SLOTS];
    let mut clock_slots = [ClockRecord::default(); SLOTS];
    let mut left = limit;
    let mut last = 0;
    let mut longest_gap = 0;
    while left > 0 && machine.stopped().is_none() {
        let mut retired = Log::new(&mut retired_slots);
        let mut clocks = Log::new(&mut clock_slots);
        left -= machine.run(left, &mut retired, &mut clocks).made;
        for record in retired.records() {
            longest_gap = longest_gap.max(record.clock - last);
            last = record.clock;
        }
        sink.take(retired.records(), clocks.records());
    }
    Summary {
        counts: machine.counts(),
        stop: machine.stopped(),
        longest_gap,
    }
}

fn simple(choice: SimpleChoice) -> Simple {
    match choice {
        SimpleChoice::Never => Simple::Never(Never),
        SimpleChoice::Backward => Simple::Backward(Backward),
        SimpleChoice::Bimodal => Simple::Bimodal(Bimodal::new()),
        SimpleChoice::Gshare => Simple::Gshare(Gshare::new()),
    }
}

fn layer<M: Memory>(below: M, choice: Option<&LayerChoice>) -> Layer<M> {
    match choice {
        None => Layer::Plain(below),
        Some(LayerChoice::WaitStates(s)) => Layer::WaitStates(WaitStates::new(below, *s)),
        Some(LayerChoice::WriteBuffer) => Layer::WriteBuffer(WriteBuffer::new(below)),
    }
}

fn stack(bytes: &[u8], choice: &StackChoice) -> Stack {
    let mut upwards = choice.0.iter().rev();
    let bottom = layer(Flat::new(bytes), upwards.next());
    let middle = layer(bottom, upwards.next());
    layer(middle, upwards.next())
}

/// Each kind of predictor and each of flat, and stacked memories has a loop of its own.
fn with_memories<P: Predictor>(
    options: &Options,
    image: &[u8],
    predictor: P,
    sink: &mut impl Sink,
) -> Summary {
    let data = vec![0; options.data_size as usize];
    let (start, limit) = (options.start, options.clocks);
    match (options.instructions.0.is_empty(), options.data.0.is_empty()) {
        (true, true) => drive(
            Machine::load(start, predictor, Flat::new(image), Flat::new(&data)),
            limit,
            sink,
        ),
        (true, false) => drive(
            Machine::load(
                start,
                predictor,
                Flat::new(image),
                stack(&data, &options.data),
            ),
            limit,
            sink,
        ),
        (false, true) => drive(
            Machine::load(
                start,
                predictor,
                stack(image, &options.instructions),
                Flat::new(&data),
            ),
            limit,
            sink,
        ),
        (false, false) => {
            let instructions = stack(image, &options.instructions);
            drive(
                Machine::load(start, predictor, instructions, stack(&data, &options.data)),
                limit,
                sink,
            )
        }
    }
}

/// Runs a padded image.
pub fn run(options: &Options, image: &[u8], sink: &mut impl Sink) -> Result<Summary, Refused> {
    let size = options.data_size;
    if !options.instructions.is_good() {
        return Err(Refused(2));
    }
    if !size.is_multiple_of(16) || size < 16 || size as usize > MOST_BYTES {
        return Err(Refused(1));
    }
    if !options.data.is_good() {
        return Err(Refused(2));
    }
    if !options.start.is_multiple_of(4) || options.start as usize >= image.len() {
        return Err(Refused(3));
    }
    Ok(match options.predictor {
        PredictorChoice::Simple(SimpleChoice::Never) => with_memories(options, image, Never, sink),
        PredictorChoice::Simple(SimpleChoice::Backward) => {
            with_memories(options, image, Backward, sink)
        }
        PredictorChoice::Simple(SimpleChoice::Bimodal) => {
            with_memories(options, image, Bimodal::new(), sink)
        }
        PredictorChoice::Simple(SimpleChoice::Gshare) => {
            with_memories(options, image, Gshare::new(), sink)
        }
        PredictorChoice::Tournament(first, second) => with_memories(
            options,
            image,
            Tournament::new(simple(first), simple(second)),
            sink,
        ),
    })
}

fn note(notes: Notes) -> String {
    let letters = [
        ('f', Notes::FETCH_WAIT),
        ('h', Notes::HAZARD),
        ('d', Notes::DATA_WAIT),
        ('r', Notes::ROLLBACK),
        ('s', Notes::STOP),
    ];
    let text: String = letters
        .iter()
        .filter(|(_, n)| notes.has(*n))
        .map(|(letter, _)| *letter)
        .collect();
    if text.is_empty() { "-".into() } else { text }
}

impl Tables {
    /// What retired, and the clocks, a line each.
    pub fn print(&self, out: &mut String) {
        out.push_str("retired clock address word rd value\n");
        for (i, r) in self.retired.iter().enumerate() {
            let rd = r.rd.map_or("-".into(), |rd| rd.to_string());
            writeln!(
                out,
                "{} {} {:x} {:x} {rd} {:x}",
                i + 1,
                r.clock,
                r.address,
                r.word,
                r.value
            )
            .unwrap();
        }
        out.push_str("clock IF ID EX MEM WB note\n");
        for c in &self.clocks {
            write!(out, "{} {:x}", c.number, c.fetch).unwrap();
            for latch in 0..4 {
                match c.stage(latch) {
                    Some(address) => write!(out, " {address:x}").unwrap(),
                    None => out.push_str(" -"),
                }
            }
            writeln!(out, " {}", note(c.notes)).unwrap();
        }
    }
}

/// The summary as `timing` prints it.
pub fn print_summary(options: &Options, summary: &Summary, out: &mut String) {
    let Counts {
        clocks,
        fetched,
        retired,
        dropped,
        in_flight,
    } = summary.counts;
    let (wi, wd) = (options.instructions.longest(), options.data.longest());
    writeln!(out, "predictor {}", options.predictor).unwrap();
    writeln!(out, "instructions {} longest {wi}", options.instructions).unwrap();
    writeln!(out, "data {} longest {wd}", options.data).unwrap();
    writeln!(
        out,
        "first retirement within {} clocks, each next within {}",
        wi + wd + 5,
        wi + wd + 3
    )
    .unwrap();
    writeln!(out, "clocks {clocks} fetched {fetched} retired {retired} dropped {dropped} in flight {in_flight}").unwrap();
    writeln!(out, "longest gap {}", summary.longest_gap).unwrap();
    match summary.stop {
        Some(Stop { cause, address }) => writeln!(out, "stop {cause} {address:x}").unwrap(),
        None => out.push_str("limit\n"),
    }
}

/// All that `timing` prints for an image as it was read.
pub fn timing(options: &Options, image: &[u8]) -> Result<String, Refused> {
    let image = padded(image)?;
    let mut out = String::new();
    let summary = if options.log {
        let mut tables = Tables::default();
        let summary = run(options, &image, &mut tables)?;
        tables.print(&mut out);
        summary
    } else {
        run(options, &image, &mut Nowhere)?
    };
    print_summary(options, &summary, &mut out);
    Ok(out)
}

/// All that `clocklog` prints for an image as it was read.
pub fn clocklog(image: &[u8]) -> Result<String, Refused> {
    let image = padded(image)?;
    let mut tables = Tables::default();
    let summary = run(&Options::default(), &image, &mut tables)?;
    let mut out = String::new();
    tables.print(&mut out);
    match summary.stop {
        Some(Stop { cause, address }) => write!(out, "stop {cause} {address:x}").unwrap(),
        None => out.push_str("limit"),
    }
    let Counts {
        fetched,
        retired,
        dropped,
        ..
    } = summary.counts;
    writeln!(
        out,
        " fetched {fetched} retired {retired} dropped {dropped}"
    )
    .unwrap();
    Ok(out)
}

#[cfg(test)]
mod tests {
    use super::*;
    use crate::options::Command;

    fn image(words: &[u32]) -> Vec<u8> {
        words.iter().flat_map(|word| word.to_le_bytes()).collect()
    }

    #[test]
    fn the_print_of_clocklog() {
        let expected = "\
retired clock address word rd value
1 5 0 200093 1 2
2 6 4 9463 - 0
clock IF ID EX MEM WB note
1 0 - - - - -
2 4 0 - - - -
3 8 4 0 - - -
4 c 8 4 0 - r
5 c - - 4 0 -
6 10 c - - 4 -
7 14 10 c - - -
8 18 14 10 c - r
9 18 - - - c s
stop 11 c fetched 6 retired 2 dropped 3
";
        assert_eq!(
            clocklog(&image(&[0x0020_0093, 0x0000_9463, 0, 0x73])).unwrap(),
            expected
        );
    }

    #[test]
    fn a_rollback_from_data() {
        let expected = "\
retired clock address word rd value
1 5 0 100293 5 1
clock IF ID EX MEM WB note
1 0 - - - - -
2 4 0 - - - -
3 8 4 0 - - -
4 c 8 4 0 - -
5 10 c 8 4 0 r
6 10 - - - 4 s
stop 4 4 fetched 4 retired 1 dropped 2
";
        assert_eq!(
            clocklog(&image(&[
                0x0010_0293,
                0x0010_2083,
                0x0050_0113,
                0x0060_0193
            ]))
            .unwrap(),
            expected
        );
    }

    #[test]
    fn a_load_hazard() {
        let expected = "\
retired clock address word rd value
1 5 0 2083 1 0
2 7 4 108133 2 0
clock IF ID EX MEM WB note
1 0 - - - - -
2 4 0 - - - -
3 8 4 0 - - h
4 8 4 - 0 - -
5 c 8 4 - 0 -
6 10 c 8 4 - -
7 14 10 c 8 4 r
8 14 - - - 8 s
stop 11 8 fetched 5 retired 2 dropped 2
";
        assert_eq!(
            clocklog(&image(&[0x0000_2083, 0x0010_8133, 0x73, 0])).unwrap(),
            expected
        );
    }

    #[test]
    fn a_data_wait_with_a_full_pipeline_behind_it() {
        let expected = "\
retired clock address word rd value
1 6 0 2083 1 0
2 7 4 500113 2 5
3 8 8 600193 3 6
clock IF ID EX MEM WB note
1 0 - - - - -
2 4 0 - - - -
3 8 4 0 - - -
4 c 8 4 0 - d
5 c 8 4 0 - -
6 10 c 8 4 0 -
7 14 10 c 8 4 -
8 18 14 10 c 8 r
9 18 - - - c s
predictor never
instructions flat longest 0
data wait:1/flat longest 1
first retirement within 6 clocks, each next within 4
clocks 9 fetched 6 retired 3 dropped 2 in flight 0
longest gap 6
stop 11 c
";
        let Ok(Command::Run(options)) = Options::parse(&["--data", "wait:1", "--log"]) else {
            panic!("refused")
        };
        assert_eq!(
            timing(
                &options,
                &image(&[0x0000_2083, 0x0050_0113, 0x0060_0193, 0x73])
            )
            .unwrap(),
            expected
        );
    }

    #[test]
    fn refusals() {
        assert_eq!(clocklog(&[0; 65537]), Err(Refused(1)));
        let with = |change: fn(&mut Options)| {
            let mut options = Options::default();
            change(&mut options);
            timing(&options, &[]).err()
        };
        assert_eq!(with(|_| ()), None);
        assert_eq!(with(|o| o.data_size = 8), Some(Refused(1)));
        assert_eq!(with(|o| o.data_size = 16), None);
        assert_eq!(
            with(|o| o.data.0.push(LayerChoice::WaitStates(16))),
            Some(Refused(2))
        );
        assert_eq!(with(|o| o.data.0.push(LayerChoice::WaitStates(15))), None);
        assert_eq!(with(|o| o.start = 2), Some(Refused(3)));
        assert_eq!(with(|o| o.start = 16), Some(Refused(3)));
    }

    #[test]
    fn a_word_at_the_end_of_the_data() {
        // lui x1,1; lw x2,-4(x1); lw x3,0(x1)
        let words = [0x0000_10b7, 0xffc0_a103, 0x0000_a183, 0x73];
        assert!(
            clocklog(&image(&words))
                .unwrap()
                .ends_with("stop 5 8 fetched 5 retired 2 dropped 2\n")
        );
    }
}
