//! Runs long runs on the proved program and on the plain model in turn, and prints clocks per second and the ratio.
use plain_model::isa::word;
use std::io::{self, Write};
use std::path::Path;
use std::process::{Command, ExitCode, Stdio};

/// A loop of four instructions without memory or branches.
fn tight() -> Vec<u32> {
    vec![
        word::i(1, 1, 0, 1, 0x13), // addi x1,x1,1
        word::r(0, 1, 2, 0, 2),    // add x2,x2,x1
        word::r(0, 2, 3, 4, 3),    // xor x3,x3,x2
        word::j(-12, 0),           // jal x0,-12
    ]
}

/// A loop over an array that loads, adds and stores, with a hazard.
fn memory() -> Vec<u32> {
    vec![
        word::i(4, 1, 0, 1, 0x13),     // addi x1,x1,4
        word::i(0x7fc, 1, 7, 1, 0x13), // andi x1,x1,0x7fc
        word::i(0, 1, 2, 5, 0x03),     // lw x5,0(x1)
        word::r(0, 5, 6, 0, 6),        // add x6,x6,x5
        word::s(0, 6, 1, 2),           // sw x6,0(x1)
        word::i(4, 1, 5, 7, 0x03),     // lhu x7,4(x1)
        word::s(8, 7, 1, 0),           // sb x7,8(x1)
        word::b(-28, 0, 0, 0),         // beq x0,x0,-28
    ]
}

/// A loop whose branches go by the bits of a number that looks random, and a counted inner loop.
fn branchy() -> Vec<u32> {
    vec![
        word::u(0x1234_5000, 1, 0x37), //  0 lui x1,0x12345
        word::i(1, 1, 0, 1, 0x13),     //  4 addi x1,x1,1
        word::i(13, 1, 1, 2, 0x13),    //  8 slli x2,x1,13        xorshift
        word::r(0, 2, 1, 4, 1),        //  c xor x1,x1,x2
        word::i(17, 1, 5, 2, 0x13),    // 10 srli x2,x1,17
        word::r(0, 2, 1, 4, 1),        // 14 xor x1,x1,x2
        word::i(5, 1, 1, 2, 0x13),     // 18 slli x2,x1,5
        word::r(0, 2, 1, 4, 1),        // 1c xor x1,x1,x2
        word::i(1, 1, 7, 3, 0x13),     // 20 andi x3,x1,1
        word::b(8, 0, 3, 0),           // 24 beq x3,x0,8          one in two
        word::i(1, 4, 0, 4, 0x13),     // 28 addi x4,x4,1
        word::i(6, 1, 7, 3, 0x13),     // 2c andi x3,x1,6
        word::b(8, 0, 3, 1),           // 30 bne x3,x0,8          three in four
        word::i(1, 5, 0, 5, 0x13),     // 34 addi x5,x5,1
        word::i(3, 0, 0, 6, 0x13),     // 38 addi x6,x0,3
        word::i(-1, 6, 0, 6, 0x13),    // 3c addi x6,x6,-1
        word::b(-4, 0, 6, 1),          // 40 bne x6,x0,-4         twice, then not
        word::b(-60, 0, 1, 4),         // 44 blt x1,x0,-60        one in two
        word::j(-64, 0),               // 48 jal x0,-64
    ]
}

const IMAGES: [(&str, fn() -> Vec<u32>); 3] =
    [("tight", tight), ("memory", memory), ("branchy", branchy)];

const SETUPS: [(&str, &str, &str); 5] = [
    ("never", "flat", "flat"),
    ("gshare", "flat", "flat"),
    ("tournament:bimodal,gshare", "flat", "flat"),
    ("gshare", "wait:1", "buffer/wait:1"),
    (
        "tournament:bimodal,gshare",
        "buffer/wait:1",
        "wait:1/buffer/wait:2",
    ),
];

/// The processor time of the children that have ended, in hundredths of a second.
fn children_ticks() -> io::Result<u64> {
    let stat = std::fs::read_to_string("/proc/self/stat")?;
    let after_name = stat.rsplit(')').next().unwrap_or("");
    let fields: Vec<&str> = after_name.split_whitespace().collect();
    // fields 16 and 17 of the line, of which two stand before this rest: user and system time
    Ok([13, 14]
        .iter()
        .filter_map(|i| fields.get(*i)?.parse::<u64>().ok())
        .sum())
}

/// One run: seconds of processor time, and what it printed.
fn run(program: &Path, words: &[String], image: &[u8]) -> io::Result<(f64, String)> {
    let before = children_ticks()?;
    let mut child = Command::new(program)
        .args(words)
        .stdin(Stdio::piped())
        .stdout(Stdio::piped())
        .stderr(Stdio::null())
        .spawn()?;
    child.stdin.take().unwrap().write_all(image)?;
    let output = child.wait_with_output()?;
    let seconds = (children_ticks()? - before) as f64 / 100.0;
    Ok((
        seconds,
        String::from_utf8_lossy(&output.stdout).into_owned(),
    ))
}

const HELP: &str = "\
speed [--clocks N] [--rounds N] [PROGRAM]
PROGRAM is the proved one: ../crates/timing/out/timing.
";

fn arguments() -> Option<(u32, u32, String)> {
    let (mut clocks, mut rounds, mut program) = (50_000_000, 3, "../crates/timing/out/timing".to_string());
    let mut words = std::env::args().skip(1);
    while let Some(word) = words.next() {
        match word.as_str() {
            "--clocks" => clocks = words.next()?.parse().ok()?,
            "--rounds" => rounds = words.next()?.parse().ok()?,
            path if !path.starts_with('-') => program = word,
            _ => return None,
        }
    }
    Some((clocks, rounds, program))
}

fn main() -> io::Result<ExitCode> {
    let Some((clocks, rounds, proved)) = arguments() else {
        print!("{HELP}");
        return Ok(ExitCode::from(2));
    };
    let plain = std::env::current_exe()?.with_file_name("plain");
    println!(
        "{clocks} clocks a run, best of {rounds}, processor time; millions of clocks a second"
    );
    println!(
        "{:8} {:26} {:14} {:21} {:>7} {:>7} {:>13}",
        "image", "predictor", "instructions", "data", "proved", "plain", "proved/plain"
    );
    for (name, words) in IMAGES {
        let image: Vec<u8> = words().iter().flat_map(|word| word.to_le_bytes()).collect();
        for (predictor, instructions, data) in SETUPS {
            let clocks_text = clocks.to_string();
            let words: Vec<String> = [
                "--predictor",
                predictor,
                "--instructions",
                instructions,
                "--data",
                data,
                "--clocks",
                &clocks_text,
            ]
            .iter()
            .map(|word| word.to_string())
            .collect();
            let mut best = [f64::INFINITY; 2];
            for _ in 0..rounds {
                let (time, text) = run(Path::new(&proved), &words, &image)?;
                best[0] = best[0].min(time);
                let (time, other) = run(&plain, &words, &image)?;
                best[1] = best[1].min(time);
                if text != other {
                    println!("the prints differ:\n{text}\n{other}");
                    return Ok(ExitCode::FAILURE);
                }
            }
            let rates = best.map(|seconds| clocks as f64 / seconds / 1e6);
            println!(
                "{name:8} {predictor:26} {instructions:14} {data:21} {:7.1} {:7.1} {:13.2}",
                rates[0],
                rates[1],
                rates[0] / rates[1]
            );
        }
    }
    Ok(ExitCode::SUCCESS)
}
