//! Random interleavings: who moves next, how far, and who is left standing for a while.

use plain::machine::{Call, Line};

use crate::author::Author;

/// How a stretch of a program goes.
#[derive(Clone)]
pub struct Style {
    /// Push, steal, batch, take, len, empty, pop; all 0: no call is begun.
    pub calls: [usize; 7],
    /// In so many of a hundred moves: a run, staying with the last thread, a thread left standing
    /// at one of `stalls`, a thread preferred that clashes with another, a refusal.
    pub runs: usize,
    pub stays: usize,
    pub stalled: usize,
    pub clashes: usize,
    pub refused: usize,
    /// The lines at which a thread may be left standing, for up to so many moves.
    pub stalls: Vec<Line>,
    pub stall_moves: usize,
    /// Whether a budget may be so large that the step count stops.
    pub huge: bool,
}

/// Lines in which another thread's progress shows.
const TELLING: [Line; 16] = [
    Line::P2,
    Line::P4,
    Line::P5,
    Line::P6,
    Line::P7,
    Line::P8,
    Line::P9,
    Line::P10,
    Line::S4,
    Line::S5,
    Line::S7,
    Line::S9,
    Line::S11,
    Line::S12,
    Line::S13,
    Line::L3,
];

impl Style {
    /// Any style at all.
    pub fn random(author: &mut Author) -> Style {
        let random = &mut author.random;
        let calls = random.pick(&[
            [8, 8, 2, 2, 1, 1, 2],
            [8, 2, 4, 4, 1, 1, 6],
            [12, 4, 1, 1, 1, 1, 1],
            [3, 10, 2, 2, 1, 1, 2],
            [1, 1, 1, 1, 1, 1, 1],
            [6, 0, 0, 6, 2, 2, 4],
        ]);
        let stalls = (0..random.between(0, 4))
            .map(|_| random.pick(&TELLING))
            .collect();
        Style {
            calls,
            runs: random.pick(&[0, 5, 25, 60]),
            stays: random.pick(&[0, 30, 70, 90]),
            stalled: random.pick(&[20, 60, 100]),
            clashes: random.pick(&[0, 30, 60]),
            refused: random.pick(&[0, 1, 2]),
            stalls,
            stall_moves: random.pick(&[10, 50, 200]),
            huge: random.percent(6),
        }
    }

    /// The open calls go on, no other is begun.
    pub fn settling(author: &mut Author) -> Style {
        Style {
            calls: [0; 7],
            refused: 0,
            stall_moves: 30,
            ..Style::random(author)
        }
    }

    fn begins(&self) -> bool {
        self.calls.iter().sum::<usize>() > 0
    }
}

/// Who is left standing, and until which move.
struct Turns {
    until: Vec<usize>,
    last: usize,
}

/// So many moves of whoever comes.
pub fn mix(author: &mut Author, style: &Style, moves: usize) {
    let mut turns = Turns {
        until: vec![0; author.threads()],
        last: 0,
    };
    for now in 0..moves {
        if author.random.percent(style.refused) {
            refusal(author);
        }
        if !style.begins() && author.open().is_empty() {
            return;
        }
        let thread = choose(author, style, &mut turns, now);
        if author.line(thread).is_some() {
            advance(author, style, thread);
        } else if style.begins() {
            begin(author, style, thread);
        }
        stall(author, style, &mut turns, thread, now);
    }
}

/// Moves until no call is open, as far as that comes within the bound that settling has.
pub fn settle(author: &mut Author) {
    let style = Style::settling(author);
    mix(author, &style, 1500);
    for _ in 0..3 {
        for thread in author.open() {
            author.run(thread, 500);
        }
    }
}

fn choose(author: &mut Author, style: &Style, turns: &mut Turns, now: usize) -> usize {
    if author.random.percent(style.stays) && turns.until[turns.last] <= now {
        return turns.last;
    }
    let awake: Vec<usize> = (0..author.threads())
        .filter(|&thread| turns.until[thread] <= now)
        .filter(|&thread| style.begins() || author.line(thread).is_some())
        .collect();
    if awake.is_empty() {
        // Everyone stands: wake one.
        let candidates = author.open();
        turns.last = if candidates.is_empty() {
            0
        } else {
            author.random.pick(&candidates)
        };
        turns.until[turns.last] = now;
        return turns.last;
    }
    turns.last = author.random.pick(&awake);
    if author.random.percent(style.clashes) {
        if let Some(rival) = rival(author, turns.last) {
            turns.last = rival;
        }
    }
    turns.last
}

/// Another thread about to change what this one is about to look at.
fn rival(author: &Author, thread: usize) -> Option<usize> {
    let mine = author.thread(thread);
    (0..author.threads()).find(|&other| {
        let theirs = author.thread(other);
        let same_slot = theirs.block == mine.block && theirs.slot == mine.slot;
        other != thread
            && match (mine.line, theirs.line) {
                (Some(Line::S13), Some(Line::S11)) => same_slot,
                (Some(Line::P4), Some(Line::P4)) | (Some(Line::S4), Some(Line::S4)) => true,
                (Some(Line::L2 | Line::L3), Some(Line::P4 | Line::P6)) => true,
                (Some(Line::P3), Some(Line::P3 | Line::P4)) => true,
                _ => false,
            }
    })
}

fn advance(author: &mut Author, style: &Style, thread: usize) {
    if !author.random.percent(style.runs) {
        author.step(thread);
        return;
    }
    let budget = match author.random.below(8) {
        0 => 0,
        1 => 1,
        2 if style.huge => author.random.pick(&[u64::MAX, u64::MAX - 1, 1 << 63]),
        3 => 200 + author.random.next() % 800,
        _ => author.random.next() % 40,
    };
    author.run(thread, budget);
}

fn begin(author: &mut Author, style: &Style, thread: usize) {
    match author.random.weighted(&style.calls) {
        0 => {
            author.push(thread);
        }
        1 => {
            author.begin(thread, Call::Steal);
        }
        2 => {
            let limit = limit(author, thread, 0);
            author.begin(thread, Call::Batch(limit));
        }
        3 => {
            let limit = limit(author, thread, 1);
            author.begin(thread, Call::Take(limit));
        }
        4 => {
            author.begin(thread, Call::Length);
        }
        5 => {
            author.begin(thread, Call::Empty);
        }
        _ => author.pop(thread),
    }
}

/// Mostly one that the ring has room for.
fn limit(author: &mut Author, thread: usize, extra: u64) -> u64 {
    let room = 64 - author.thread(thread).ring.len() as u64 + extra;
    let limit = match author.random.below(8) {
        0 => author.random.pick(&[63, 64, 1000, u64::MAX]),
        1 => room,
        2 => 1,
        _ => 1 + author.random.next() % 12,
    };
    if author.random.percent(95) {
        limit.min(room.max(1))
    } else {
        limit
    }
}

fn stall(author: &mut Author, style: &Style, turns: &mut Turns, thread: usize, now: usize) {
    let here = author
        .line(thread)
        .is_some_and(|line| style.stalls.contains(&line));
    if here && author.random.percent(style.stalled) {
        turns.until[thread] = now + author.random.between(1, style.stall_moves);
    }
}

/// A command that is refused, or nearly.
fn refusal(author: &mut Author) {
    let threads = author.threads() as u64;
    let too_high = author
        .random
        .pick(&[threads, threads + 1, 8, 255, 256, 1 << 32, u64::MAX]);
    let too_high = too_high.max(threads);
    let thread = author.any_thread();
    match author.random.below(10) {
        0 => author.write(format_args!("step\t{too_high}")),
        1 => author.write(format_args!("run\t{too_high}\t7")),
        2 => author.write(format_args!("push\t{too_high}\t1")),
        3 => author.write(format_args!("pop\t{too_high}")),
        4 => author.write(format_args!("batch\t{thread}\t0")),
        5 => author.write(format_args!("take\t{thread}\t0")),
        6 => author.pop(thread),
        7 if author.line(thread).is_none() => author.write(format_args!("step\t{thread}")),
        8 if author.line(thread).is_none() => author.write(format_args!("run\t{thread}\t0")),
        _ if author.line(thread).is_some() => author.write(format_args!("len\t{thread}")),
        _ => author.write(format_args!("take\t{thread}\t0")),
    }
}
