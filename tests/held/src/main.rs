//! Replay text through the published Injector, held before each shared access.
//!
//!     held [--dump] [--slip] [--lifo 0,2] < LOG
//!     held [--dump] [--slip] [--sources FILE] --many DIR OUT
//!
//! `--many` replays each DIR/NAME.log into OUT/NAME.out; the Lifo threads are in DIR/NAME.lifo if
//! there is one. `--sources` writes which lines of the published file were met as which lines of the
//! table (a drop has no line of its own there).

mod dump;
mod replay;
mod text;

use std::fs;
use std::io::{self, BufWriter, Read, Write};
use std::path::Path;
use std::process::ExitCode;

use held_injector::gate;
use held_injector::hall::Hall;
use replay::Options;

fn main() -> ExitCode {
    match run() {
        Ok(()) => ExitCode::SUCCESS,
        Err(error) => {
            eprintln!("held: {error}");
            ExitCode::FAILURE
        }
    }
}

fn run() -> io::Result<()> {
    let mut options = Options::default();
    let (mut many, mut sources) = (None, None);
    let mut words = std::env::args().skip(1);
    while let Some(word) = words.next() {
        let mut next = || words.next().ok_or_else(|| usage(&word));
        match word.as_str() {
            "--dump" => options.dump = true,
            "--slip" => options.slips = true,
            "--lifo" => options.lifo = lifo(&next()?)?,
            "--sources" => sources = Some(next()?),
            "--many" => many = Some((next()?, next()?)),
            _ => return Err(usage(&word)),
        }
    }
    if sources.is_some() {
        gate::note_sources();
    }
    stay_on_one_core();
    let hall = Hall::open();
    match many {
        Some((logs, outs)) => replay_many(&hall, &options, logs.as_ref(), outs.as_ref())?,
        None => replay_input(&hall, &options)?,
    }
    hall.close();
    match sources {
        Some(file) => write_sources(&mut fs::File::create(file)?),
        None => Ok(()),
    }
}

fn write_sources(to: &mut impl Write) -> io::Result<()> {
    for (line, source) in gate::sources() {
        writeln!(to, "{line}\t{source}")?;
    }
    Ok(())
}

fn usage(word: &str) -> io::Error {
    io::Error::other(format!("cannot make sense of {word}"))
}

fn lifo(list: &str) -> io::Result<Vec<u64>> {
    let threads = list.trim().split(',').map(|thread| thread.parse().ok());
    threads.collect::<Option<_>>().ok_or_else(|| usage(list))
}

fn replay_input(hall: &Hall, options: &Options) -> io::Result<()> {
    let mut text = Vec::new();
    io::stdin().lock().read_to_end(&mut text)?;
    let mut out = BufWriter::new(io::stdout().lock());
    replay::replay(hall, &text, options, &mut out)?;
    out.flush()
}

fn replay_many(hall: &Hall, options: &Options, logs: &Path, outs: &Path) -> io::Result<()> {
    let mut names: Vec<_> = fs::read_dir(logs)?
        .map(|entry| entry.map(|entry| entry.path()))
        .collect::<io::Result<_>>()?;
    names.retain(|name| name.extension().is_some_and(|kind| kind == "log"));
    names.sort();
    for name in names {
        let mut options = options.clone();
        if let Ok(list) = fs::read_to_string(name.with_extension("lifo")) {
            options.lifo = lifo(&list)?;
        }
        let stem = name.file_stem().expect("a log has a name");
        let file = fs::File::create(outs.join(stem).with_extension("out"))?;
        let mut out = BufWriter::new(file);
        replay::replay(hall, &fs::read(&name)?, &options, &mut out)?;
        out.flush()?;
    }
    Ok(())
}

extern "C" {
    fn sched_getcpu() -> i32;
    fn sched_setaffinity(pid: i32, size: usize, mask: *const u64) -> i32;
}

/// On one core a hand-over is several times cheaper than between two. If it can't be had, the
/// answers are the same and only come later.
fn stay_on_one_core() {
    const WORDS: usize = 16;
    let core = unsafe { sched_getcpu() }.max(0) as usize;
    let mut mask = [0u64; WORDS];
    if let Some(word) = mask.get_mut(core / 64) {
        *word = 1 << (core % 64);
        unsafe { sched_setaffinity(0, size_of_val(&mask), mask.as_ptr()) };
    }
}
