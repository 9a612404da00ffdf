//! Programs about lap ends, held blocks and late pushers.

use plain::machine::Line;

use crate::author::Author;
use crate::schedule::{mix, settle, Style};
use crate::thieves::claim;

/// The head anywhere behind the tail.
pub fn some_drained(author: &mut Author) {
    let laps = author.tail_lap();
    let goal = author.random.next() % (laps + 1);
    let at = author.random.below(63);
    author.drain_until(|author| {
        author.head_lap() > goal || (author.head_lap() == goal && author.head_offset() >= at)
    });
}

/// The tail some slots before the end of a lap, often of the first.
pub fn near_lap_end(author: &mut Author, before: usize) {
    let laps = author.random.pick(&[0, 0, 0, 0, 1, 2]);
    author.fill_until(|author| author.tail_lap() == laps && author.tail_offset() + before >= 62);
}

/// Several pushers take a block for the same lap end; the losers keep theirs for a while.
pub fn held(author: &mut Author) {
    near_lap_end(author, 0);
    let racers = author.random.between(2, 4).min(author.threads());
    let first = author.any_thread();
    let racers: Vec<usize> = (0..racers)
        .map(|i| (first + i) % author.threads())
        .collect();
    let winner = race(author, &racers);
    if author.random.percent(60) {
        author.run(winner, 20);
        if author.random.percent(50) {
            some_drained(author);
        }
        let before = author.random.below(2);
        author.fill_until(|author| author.tail_offset() + before >= 62);
    }
    let style = Style::random(author);
    let moves = author.random.between(20, 120);
    mix(author, &style, moves);
    settle(author);
}

/// All come to the compare, one of them wins, the others see a little of it.
fn race(author: &mut Author, racers: &[usize]) -> usize {
    for &racer in racers {
        if author.line(racer).is_none() && author.push(racer) {
            let stops = [Line::P4, Line::P4, Line::P4, Line::P3, Line::P2];
            let stop = author.random.pick(&stops);
            author.bring_to(racer, stop);
        }
    }
    let winner = author.random.pick(racers);
    let stops = [Line::P5, Line::P6, Line::P7, Line::P8, Line::P10];
    let stop = author.random.pick(&stops);
    author.bring_to(winner, stop);
    for &racer in racers {
        for _ in 0..author.random.below(5) {
            if author.line(racer).is_some() {
                author.step(racer);
            }
        }
    }
    winner
}

/// Pushers stand before P5 to P9 while thieves come to their slots.
pub fn late(author: &mut Author) {
    if author.random.percent(60) {
        let before = author.random.below(3);
        near_lap_end(author, before);
    } else {
        let pushes = author.random.below(10);
        author.fill(pushes);
    }
    if author.random.percent(70) {
        author.drain_until(|author| author.head_offset() >= author.tail_offset().saturating_sub(3));
    }
    let pushers = author
        .random
        .between(1, author.threads().saturating_sub(1).max(1));
    for pusher in 0..pushers {
        if author.line(pusher).is_none() && author.push(pusher) {
            let past_p4 = [Line::P5, Line::P6, Line::P7, Line::P8, Line::P9];
            let stop = author.random.pick(&past_p4);
            author.bring(pusher, |call| {
                call.line == Some(stop) || matches!(call.line, Some(Line::P8 | Line::P9))
            });
        }
    }
    let huge = author.random.percent(10);
    for thief in author.idle() {
        let call = claim(author, thief);
        if author.begin(thief, call) {
            let budget = author.random.pick(&[3, 5, 9, 30, 300, 301]);
            author.run(thief, if huge { u64::MAX - budget } else { budget });
        }
    }
    let style = Style::random(author);
    let moves = author.random.between(20, 150);
    mix(author, &style, moves);
    settle(author);
}
