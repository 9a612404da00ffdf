//! Families of programs, each aimed at some of the hard places.

use plain::machine::{Call, Line};

use crate::author::{Author, Size};
use crate::pushers::{held, late, near_lap_end, some_drained};
use crate::random::Random;
use crate::schedule::{mix, settle, Style};
use crate::thieves::{claim, end_head, walk};

type Sizes = fn(&mut Random) -> Size;
type Family = fn(&mut Author);

/// How often, how large, and what.
const FAMILIES: [(usize, Sizes, Family); 10] = [
    (20, any_size, mixed),
    (16, any_size, lap_end),
    (14, any_size, held),
    (18, crowded_size, walk),
    (12, any_size, late),
    (10, any_size, ends_seen),
    (4, any_size, one_after_another),
    (3, lasting_size, laps),
    (9, scarce_size, scarce),
    (6, scarce_size, held),
];

/// A size and a family by weight.
pub fn choose(random: &mut Random) -> (Size, Family) {
    let weights = FAMILIES.map(|(weight, _, _)| weight);
    let (_, size, family) = FAMILIES[random.weighted(&weights)];
    (size(random), family)
}

fn any_size(random: &mut Random) -> Size {
    Size {
        threads: random.pick(&[1, 2, 2, 3, 3, 4, 4, 5, 6, 7, 8, 8]),
        blocks: random.pick(&[3, 4, 5, 6, 8, 12, 31, 32]),
        ceiling: random.pick(&[3, 9, 1000, 4_294_967_295]),
    }
}

fn crowded_size(random: &mut Random) -> Size {
    Size {
        threads: random.between(2, 8),
        ..any_size(random)
    }
}

fn lasting_size(random: &mut Random) -> Size {
    Size {
        ceiling: 4_294_967_295,
        ..any_size(random)
    }
}

/// Few blocks and few laps: NO_BLOCK and SPENT are near.
fn scarce_size(random: &mut Random) -> Size {
    Size {
        threads: random.between(2, 8),
        blocks: random.pick(&[2, 2, 3, 4, 6, 10]),
        ceiling: random.pick(&[1, 1, 2, 3]),
    }
}

fn mixed(author: &mut Author) {
    if author.random.percent(40) {
        let pushes = author.random.below(70);
        author.fill(pushes);
    }
    for _ in 0..author.random.between(1, 3) {
        let style = Style::random(author);
        let moves = author.random.between(50, 300);
        mix(author, &style, moves);
    }
    if author.random.percent(70) {
        settle(author);
    }
}

fn lap_end(author: &mut Author) {
    let before = author.random.below(6);
    near_lap_end(author, before);
    if author.random.percent(60) {
        some_drained(author);
    }
    let mut style = Style::random(author);
    style.calls = author.random.pick(&[
        [12, 2, 1, 1, 1, 1, 0],
        [10, 0, 0, 0, 1, 1, 0],
        [10, 6, 3, 3, 1, 1, 3],
    ]);
    style.runs = author.random.pick(&[0, 5, 10]);
    let moves = author.random.between(60, 250);
    mix(author, &style, moves);
    settle(author);
}

/// The tail, or the head, stands at offset 63 while everybody looks at it.
fn ends_seen(author: &mut Author) {
    near_lap_end(author, 0);
    if author.random.percent(60) {
        some_drained(author);
    }
    let pusher = author.any_thread();
    author.push(pusher);
    let stop = author
        .random
        .pick(&[Line::P5, Line::P6, Line::P7, Line::P8]);
    author.bring_to(pusher, stop);
    if author.random.percent(50) {
        end_head(author);
    }
    let mut style = Style::random(author);
    style.calls = author
        .random
        .pick(&[[2, 2, 1, 1, 4, 4, 0], [1, 3, 2, 2, 2, 2, 1]]);
    for watcher in author.idle() {
        for _ in 0..author.random.below(3) {
            let call = author
                .random
                .pick(&[Call::Length, Call::Empty, Call::Steal, Call::Push(7)]);
            if author.begin(watcher, call) {
                let budget = author.random.between(1, 9) as u64;
                author.run(watcher, budget);
            }
        }
    }
    let moves = author.random.between(20, 120);
    mix(author, &style, moves);
    settle(author);
}

/// Calls run one after another, as demand 2's first half has it.
fn one_after_another(author: &mut Author) {
    let calls = author.random.between(50, 250);
    let pushes = author.random.between(20, 70);
    for _ in 0..calls {
        let thread = author.any_thread();
        if author.random.percent(pushes) {
            author.whole(Call::Push(0));
        } else if author.random.percent(30) {
            author.pop(thread);
        } else {
            let call = match author.random.below(4) {
                0 => author.random.pick(&[Call::Length, Call::Empty]),
                _ => claim(author, thread),
            };
            if author.begin(thread, call) {
                author.run(thread, 1000);
            }
        }
    }
}

/// Many laps, so that every block is used again and again.
fn laps(author: &mut Author) {
    let laps = author
        .random
        .pick(&[12, 15, 20, 30, 50, 105, 120, 305, 320, 400]);
    while author.tail_lap() < laps {
        let ahead = author.random.below(150);
        author.fill(ahead);
        let lag = author.random.next() % 2;
        let at = author.random.below(63);
        author.drain_until(|author| {
            author.head_lap() + lag > author.tail_lap()
                || (author.head_lap() + lag == author.tail_lap() && author.head_offset() >= at)
        });
        if author.random.percent(10) {
            let style = Style::random(author);
            mix(author, &style, 60);
            settle(author);
        }
        for thread in author.idle() {
            while author.thread(thread).ring.len() > 50 {
                author.pop(thread);
            }
        }
    }
}

/// The pool or the laps run out, and some come back.
fn scarce(author: &mut Author) {
    let before = author.random.below(3);
    author.fill_until(|author| author.tail_offset() + before >= 62);
    for _ in 0..author.random.between(1, 3) {
        let mut style = Style::random(author);
        style.calls = author
            .random
            .pick(&[[10, 1, 1, 1, 1, 1, 1], [10, 4, 4, 4, 0, 0, 3]]);
        let moves = author.random.between(30, 150);
        mix(author, &style, moves);
        if author.random.percent(50) {
            some_drained(author);
        }
        author.fill_until(|author| author.tail_offset() + before >= 62);
    }
    settle(author);
}
