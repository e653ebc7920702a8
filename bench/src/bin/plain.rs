//! The plain model behind the command line of `timing`.
use plain_model::options::{Command, HELP, Options};
use plain_model::report::timing;
use std::io::{self, Read, Write};
use std::process::ExitCode;

fn main() -> io::Result<ExitCode> {
    let words: Vec<String> = std::env::args().skip(1).collect();
    let options = match Options::parse(&words) {
        Ok(Command::Run(options)) => options,
        Ok(Command::Help) => {
            print!("{HELP}");
            return Ok(ExitCode::SUCCESS);
        }
        Err(why) => {
            eprint!("{why}\n{HELP}");
            return Ok(ExitCode::from(2));
        }
    };
    let mut image = Vec::new();
    io::stdin().read_to_end(&mut image)?;
    match timing(&options, &image) {
        Ok(text) => {
            io::stdout().write_all(text.as_bytes())?;
            Ok(ExitCode::SUCCESS)
        }
        Err(refused) => {
            println!("refused {}", refused.0);
            Ok(ExitCode::FAILURE)
        }
    }
}
