//! Writes replay programs.
//!
//!     generate [--seed S] [--first I] [--count N] [--slip] DIR
//!     generate [--seed S] --speed STEPS > LOG
//!
//! Programs I to I + N - 1 of seed S go to DIR/NUMBER.log, with the Lifo threads, if any, in
//! DIR/NUMBER.lifo. A program depends on the seed and its number alone.

mod author;
mod families;
mod malformed;
mod pushers;
mod random;
mod schedule;
mod speed;
mod thieves;

use std::fs;
use std::io::{self, BufWriter};
use std::path::Path;
use std::process::ExitCode;

use author::Author;
use random::Random;

fn main() -> ExitCode {
    match run() {
        Ok(()) => ExitCode::SUCCESS,
        Err(error) => {
            eprintln!("generate: {error}");
            ExitCode::FAILURE
        }
    }
}

fn run() -> io::Result<()> {
    let (mut seed, mut first, mut count, mut slips) = (1, 0, 1, false);
    let (mut steps, mut folder) = (None, None);
    let mut words = std::env::args().skip(1);
    while let Some(word) = words.next() {
        let mut number = || {
            let value = words.next().and_then(|word| word.parse::<u64>().ok());
            value.ok_or_else(|| io::Error::other(format!("{word} needs a number")))
        };
        match word.as_str() {
            "--seed" => seed = number()?,
            "--first" => first = number()?,
            "--count" => count = number()?,
            "--speed" => steps = Some(number()?),
            "--slip" => slips = true,
            _ => folder = Some(word),
        }
    }
    if let Some(steps) = steps {
        return speed::write(seed, steps, BufWriter::new(io::stdout().lock()));
    }
    let folder = folder.ok_or_else(|| io::Error::other("no folder to write to"))?;
    for program in first..first + count {
        write_program(seed, program, slips, folder.as_ref())?;
    }
    Ok(())
}

fn write_program(seed: u64, program: u64, slips: bool, folder: &Path) -> io::Result<()> {
    let mut random = Random::of_program(seed, program);
    let log = folder.join(format!("{program:06}.log"));
    if random.percent(1) {
        return fs::write(log, malformed::first(&mut random));
    }
    let (size, family) = families::choose(&mut random);
    let lifo: Vec<u64> = match random.below(3) {
        0 => (0..size.threads as u64)
            .filter(|_| random.percent(50))
            .collect(),
        _ => Vec::new(),
    };
    let mut author = Author::new(random, size, &lifo, slips);
    family(&mut author);
    if author.random.percent(5) {
        let line = malformed::line(&mut author.random);
        author.text.extend_from_slice(&line);
        // What follows a malformed line must not be read.
        if line.ends_with(b"\n") {
            author.write(format_args!("step\t0"));
        }
    }
    if !lifo.is_empty() {
        let list: Vec<String> = lifo.iter().map(u64::to_string).collect();
        fs::write(log.with_extension("lifo"), list.join(","))?;
    }
    fs::write(log, author.text)
}
