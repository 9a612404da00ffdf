//! More than the text: lines that start with `#`, the same from every program of these tests.
//!
//! After each command: `#`, line number, thread, the table line where its call stands (`-` if
//! none), steps made, head index, head block, tail index, tail block, blocks taken, tokens in its
//! ring. After `end`: each taken block with its next, slot states and tokens, then each ring.

use std::io::Write;

use crate::machine::Machine;
use crate::replay::Output;

pub fn after<O: Write>(out: &mut Output<O>, machine: &Machine, line: u64, steps: u64, thread: u64) {
    let record = machine.threads.get(thread as usize);
    let stands = record.and_then(|record| record.line);
    out.text("#\t").number(line).text("\t").number(thread);
    match stands {
        Some(stands) => out.text(&format!("\t{stands:?}")),
        None => out.text("\t-"),
    };
    let numbers = [
        steps,
        machine.head.index,
        u64::from(machine.head.block),
        machine.tail.index,
        u64::from(machine.tail.block),
        machine.pool.taken_count(),
        record.map_or(0, |record| record.ring.len() as u64),
    ];
    for number in numbers {
        out.text("\t").number(number);
    }
    out.text("\n");
}

pub fn memory<O: Write>(out: &mut Output<O>, machine: &Machine) {
    for number in machine.pool.taken() {
        let block = &machine.pool[number];
        out.text("#block\t").number(u64::from(number)).text("\t");
        match block.next {
            Some(next) => out.number(u64::from(next)),
            None => out.text("-"),
        };
        out.text("\t");
        for &state in &block.states {
            out.number(u64::from(state));
        }
        for &token in &block.tokens {
            out.text("\t").number(token);
        }
        out.text("\n");
    }
    for (thread, record) in machine.threads.iter().enumerate() {
        out.text("#ring\t").number(thread as u64);
        for token in record.ring.tokens() {
            out.text("\t").number(token);
        }
        out.text("\n");
    }
}
