//! Replay text through a plain model of document 01's step table.
//!
//!     plain [--dump] [--slip] [--lifo 0,2] [--coverage FILE] < LOG
//!     plain [--dump] [--slip] [--coverage FILE] --many DIR OUT
//!
//! `--many` replays each DIR/NAME.log into OUT/NAME.out; the Lifo threads are in DIR/NAME.lifo if
//! there is one. `--coverage` writes, tab-parted: the steps made, then for each branch of the table
//! in how many programs it was reached, how often in all, and its name.

use std::fs;
use std::io::{self, Write};
use std::path::Path;
use std::process::ExitCode;

use plain::coverage::{Branch, Counts, Unwatched};
use plain::replay::{replay, Options};

fn main() -> ExitCode {
    match run() {
        Ok(()) => ExitCode::SUCCESS,
        Err(error) => {
            eprintln!("plain: {error}");
            ExitCode::FAILURE
        }
    }
}

fn run() -> io::Result<()> {
    let mut options = Options::default();
    let mut many = None;
    let mut coverage = None;
    let mut words = std::env::args().skip(1);
    while let Some(word) = words.next() {
        let mut next = || words.next().ok_or_else(|| usage(&word));
        match word.as_str() {
            "--dump" => options.dump = true,
            "--slip" => options.slips = true,
            "--lifo" => options.lifo = lifo(&next()?)?,
            "--many" => many = Some((next()?, next()?)),
            "--coverage" => coverage = Some(next()?),
            _ => return Err(usage(&word)),
        }
    }
    let mut tally = coverage.as_ref().map(|_| Tally::default());
    match many {
        Some((logs, outs)) => replay_many(logs.as_ref(), outs.as_ref(), &options, &mut tally)?,
        None => replay_one(
            io::stdin().lock(),
            io::stdout().lock(),
            &options,
            &mut tally,
        )?,
    }
    match (coverage, tally) {
        (Some(file), Some(tally)) => tally.write(&mut fs::File::create(file)?),
        _ => Ok(()),
    }
}

fn usage(word: &str) -> io::Error {
    io::Error::other(format!("cannot make sense of {word}"))
}

fn lifo(list: &str) -> io::Result<Vec<u64>> {
    let threads = list.trim().split(',').map(|thread| thread.parse().ok());
    threads.collect::<Option<_>>().ok_or_else(|| usage(list))
}

/// Over several programs: the steps made, and for each branch the programs and the times.
struct Tally {
    steps: u64,
    branches: Vec<(u64, u64)>,
}

impl Default for Tally {
    fn default() -> Self {
        Tally {
            steps: 0,
            branches: vec![(0, 0); Branch::ALL.len()],
        }
    }
}

impl Tally {
    fn add(&mut self, counts: &Counts) {
        self.steps += counts.steps;
        for (total, (_, times)) in self.branches.iter_mut().zip(counts.reached()) {
            total.0 += u64::from(times > 0);
            total.1 += times;
        }
    }

    fn write(&self, to: &mut impl Write) -> io::Result<()> {
        writeln!(to, "steps\t{}", self.steps)?;
        for ((programs, times), branch) in self.branches.iter().zip(Branch::ALL) {
            writeln!(to, "{programs}\t{times}\t{}", branch.text())?;
        }
        Ok(())
    }
}

fn replay_one(
    input: impl io::Read,
    output: impl Write,
    options: &Options,
    tally: &mut Option<Tally>,
) -> io::Result<()> {
    let Some(tally) = tally else {
        return replay(input, output, options, &mut Unwatched);
    };
    let mut counts = Counts::default();
    replay(input, output, options, &mut counts)?;
    tally.add(&counts);
    Ok(())
}

fn replay_many(
    logs: &Path,
    outs: &Path,
    options: &Options,
    tally: &mut Option<Tally>,
) -> io::Result<()> {
    let mut names: Vec<_> = fs::read_dir(logs)?
        .map(|entry| entry.map(|entry| entry.path()))
        .collect::<io::Result<_>>()?;
    names.retain(|name| name.extension().is_some_and(|kind| kind == "log"));
    names.sort();
    for name in names {
        let mut options = options.clone();
        if let Ok(list) = fs::read_to_string(name.with_extension("lifo")) {
            options.lifo = lifo(&list)?;
        }
        let stem = name.file_stem().expect("a log has a name");
        let output = fs::File::create(outs.join(stem).with_extension("out"))?;
        replay_one(fs::File::open(&name)?, output, &options, tally)?;
    }
    Ok(())
}
