//! The command line: a predictor, two stacks of memories and a few numbers.
use std::fmt;

#[derive(Clone, Copy, PartialEq, Eq, Debug)]
pub enum SimpleChoice {
    Never,
    Backward,
    Bimodal,
    Gshare,
}

impl SimpleChoice {
    pub const ALL: [SimpleChoice; 4] = [
        SimpleChoice::Never,
        SimpleChoice::Backward,
        SimpleChoice::Bimodal,
        SimpleChoice::Gshare,
    ];

    fn parse(text: &str) -> Option<SimpleChoice> {
        SimpleChoice::ALL
            .into_iter()
            .find(|choice| choice.to_string() == text)
    }
}

impl fmt::Display for SimpleChoice {
    fn fmt(&self, f: &mut fmt::Formatter) -> fmt::Result {
        f.write_str(match self {
            SimpleChoice::Never => "never",
            SimpleChoice::Backward => "backward",
            SimpleChoice::Bimodal => "bimodal",
            SimpleChoice::Gshare => "gshare",
        })
    }
}

#[derive(Clone, Copy, PartialEq, Eq, Debug)]
pub enum PredictorChoice {
    Simple(SimpleChoice),
    Tournament(SimpleChoice, SimpleChoice),
}

impl PredictorChoice {
    pub fn parse(text: &str) -> Option<PredictorChoice> {
        match text.strip_prefix("tournament:") {
            Some(both) => {
                let (first, second) = both.split_once(',')?;
                Some(PredictorChoice::Tournament(
                    SimpleChoice::parse(first)?,
                    SimpleChoice::parse(second)?,
                ))
            }
            None => SimpleChoice::parse(text).map(PredictorChoice::Simple),
        }
    }
}

impl fmt::Display for PredictorChoice {
    fn fmt(&self, f: &mut fmt::Formatter) -> fmt::Result {
        match self {
            PredictorChoice::Simple(one) => write!(f, "{one}"),
            PredictorChoice::Tournament(first, second) => write!(f, "tournament:{first},{second}"),
        }
    }
}

#[derive(Clone, Copy, PartialEq, Eq, Debug)]
pub enum LayerChoice {
    WaitStates(u32),
    WriteBuffer,
}

impl fmt::Display for LayerChoice {
    fn fmt(&self, f: &mut fmt::Formatter) -> fmt::Result {
        match self {
            LayerChoice::WaitStates(s) => write!(f, "wait:{s}"),
            LayerChoice::WriteBuffer => f.write_str("buffer"),
        }
    }
}

/// The most wait states of a layer.
const MOST_WAIT_STATES: u32 = 15;

/// Up to three layers over flat, from the top down.
#[derive(Clone, PartialEq, Eq, Debug, Default)]
pub struct StackChoice(pub Vec<LayerChoice>);

impl StackChoice {
    pub const MOST: usize = 3;

    pub fn parse(text: &str) -> Option<StackChoice> {
        let mut parts: Vec<&str> = text.split('/').collect();
        parts.pop_if(|last| *last == "flat");
        let layers = parts
            .into_iter()
            .map(|part| match part {
                "buffer" => Some(LayerChoice::WriteBuffer),
                _ => {
                    let states = number(part.strip_prefix("wait:")?)?;
                    (states <= MOST_WAIT_STATES).then_some(LayerChoice::WaitStates(states))
                }
            })
            .collect::<Option<Vec<LayerChoice>>>()?;
        (layers.len() <= StackChoice::MOST).then_some(StackChoice(layers))
    }

    pub fn longest(&self) -> u32 {
        self.0.iter().rev().fold(0, |below, layer| match layer {
            LayerChoice::WaitStates(s) => s + below,
            LayerChoice::WriteBuffer => 5 * below + 4,
        })
    }

    /// Whether each layer is within its limits.
    pub fn is_good(&self) -> bool {
        let short = |layer: &LayerChoice| !matches!(layer, LayerChoice::WaitStates(s) if *s > MOST_WAIT_STATES);
        self.0.iter().all(short) && self.longest() <= 4095
    }
}

impl fmt::Display for StackChoice {
    fn fmt(&self, f: &mut fmt::Formatter) -> fmt::Result {
        for layer in &self.0 {
            write!(f, "{layer}/")?;
        }
        f.write_str("flat")
    }
}

/// All that a run is made of, besides its image.
#[derive(Clone, PartialEq, Eq, Debug)]
pub struct Options {
    pub predictor: PredictorChoice,
    pub instructions: StackChoice,
    pub data: StackChoice,
    pub data_size: u32,
    pub start: u32,
    pub clocks: u32,
    pub log: bool,
}

impl Default for Options {
    fn default() -> Options {
        Options {
            predictor: PredictorChoice::Simple(SimpleChoice::Never),
            instructions: StackChoice::default(),
            data: StackChoice::default(),
            data_size: 4096,
            start: 0,
            clocks: 1000,
            log: false,
        }
    }
}

/// A command line as it was understood.
#[derive(Clone, PartialEq, Eq, Debug)]
pub enum Command {
    Help,
    Run(Options),
}

/// The most clocks that are printed one by one.
pub const MOST_LOGGED: u32 = 65536;

pub const HELP: &str = "\
timing [OPTIONS] < IMAGE
  --predictor NAME       never, backward, bimodal, gshare, or tournament:A,B with A and B of the first four (default never)
  --instructions STACK   the instruction memory (default flat)
  --data STACK           the data memory (default flat)
  --data-size BYTES      zero bytes of data (default 4096)
  --start ADDRESS        (default 0)
  --clocks N             at most so many clocks, 1 to 4294967295 (default 1000)
  --log                  first print the two tables that clocklog prints (N up to 65536)
  --help
STACK is layers from the top down joined by '/', up to three over flat: wait:S (0 to 15), buffer; 'flat' may be left out under a layer.
Numbers are decimal, or hexadecimal after 0x.
";

fn number(text: &str) -> Option<u32> {
    let (digits, radix) = match text.strip_prefix("0x") {
        Some(digits) => (digits, 16),
        None => (text, 10),
    };
    if digits.starts_with('+') {
        return None;
    }
    u32::from_str_radix(digits, radix).ok()
}

impl Options {
    /// Reads a command line, without the program's name.
    pub fn parse<S: AsRef<str>>(words: &[S]) -> Result<Command, String> {
        let mut options = Options::default();
        let mut words = words.iter().map(AsRef::as_ref);
        while let Some(name) = words.next() {
            match name {
                "--help" => return Ok(Command::Help),
                "--log" => {
                    options.log = true;
                    continue;
                }
                "--predictor" | "--instructions" | "--data" | "--data-size" | "--start"
                | "--clocks" => {}
                _ => return Err(format!("no such option: {name}")),
            }
            let value = words
                .next()
                .ok_or_else(|| format!("{name} wants a value"))?;
            let bad = || format!("{name} {value}: not understood");
            match name {
                "--predictor" => {
                    options.predictor = PredictorChoice::parse(value).ok_or_else(bad)?
                }
                "--instructions" => {
                    options.instructions = StackChoice::parse(value).ok_or_else(bad)?
                }
                "--data" => options.data = StackChoice::parse(value).ok_or_else(bad)?,
                "--data-size" => options.data_size = number(value).ok_or_else(bad)?,
                "--start" => options.start = number(value).ok_or_else(bad)?,
                _ => options.clocks = number(value).filter(|n| *n > 0).ok_or_else(bad)?,
            }
        }
        if options.log && options.clocks > MOST_LOGGED {
            return Err(format!("--log takes at most {MOST_LOGGED} clocks"));
        }
        Ok(Command::Run(options))
    }

    /// The command line that gives these options.
    pub fn words(&self) -> Vec<String> {
        let mut words: Vec<String> = vec!["--predictor".into(), self.predictor.to_string()];
        words.extend(["--instructions".into(), self.instructions.to_string()]);
        words.extend(["--data".into(), self.data.to_string()]);
        words.extend(["--data-size".into(), self.data_size.to_string()]);
        words.extend(["--start".into(), self.start.to_string()]);
        words.extend(["--clocks".into(), self.clocks.to_string()]);
        if self.log {
            words.push("--log".into());
        }
        words
    }
}

#[cfg(test)]
mod tests {
    use super::*;

    #[test]
    fn a_command_line_and_back() {
        let line = "--predictor tournament:bimodal,gshare --instructions wait:2 --data buffer/wait:0x3/flat --data-size 64 --start 0x10 --clocks 7 --log";
        let words: Vec<&str> = line.split(' ').collect();
        let Ok(Command::Run(options)) = Options::parse(&words) else {
            panic!("refused")
        };
        assert_eq!(options.instructions.to_string(), "wait:2/flat");
        assert_eq!(options.instructions.longest(), 2);
        assert_eq!(options.data.to_string(), "buffer/wait:3/flat");
        assert_eq!(options.data.longest(), 19);
        assert_eq!(
            (
                options.data_size,
                options.start,
                options.clocks,
                options.log
            ),
            (64, 16, 7, true)
        );
        assert_eq!(Options::parse(&options.words()), Ok(Command::Run(options)));
    }

    #[test]
    fn what_is_not_understood() {
        for line in [
            "--clocks 0",
            "--clocks",
            "--data wait",
            "--data wait:16",
            "--data flat/buffer",
            "--data buffer/buffer/buffer/buffer",
            "--predictor gshare2",
            "--start 0x",
            "x",
        ] {
            let words: Vec<&str> = line.split(' ').collect();
            assert!(Options::parse(&words).is_err(), "{line}");
        }
    }
}
