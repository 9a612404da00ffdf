//! Lines that end a replay, and first lines that don't start one.

use crate::random::Random;

const LINES: [&[u8]; 33] = [
    b"step\t00\n",
    b"step\t01\n",
    b"step\t+1\n",
    b"step\t-1\n",
    b"push\t0\t18446744073709551616\n",
    b"push\t0\t99999999999999999999999\n",
    b"step\t\t0\n",
    b"\tstep\t0\n",
    b"step\t0\t\n",
    b"step 0\n",
    b"step\t0\r\n",
    b"step\t0\0\n",
    b"Step\t0\n",
    b"STEP\t0\n",
    b"step\n",
    b"step\t\n",
    b"push\t0\n",
    b"run\t0\n",
    b"step\t0\t0\n",
    b"run\t0\t1\t1\n",
    b"steps\t0\n",
    b"ste\t0\n",
    b"\n",
    b"step\t0",
    b"queue\t1\t2\t1\n",
    b"push\t0\t0x1\n",
    b"push\t0\t1 \n",
    b"empty\t0\t1\n",
    b"\xff\n",
    b"pop\t\xc3\xa4\n",
    b" step\t0\n",
    b"end\t0\n",
    b"step\t0\xc2\xa0\n",
];

/// A malformed line, with its line feed or without.
pub fn line(random: &mut Random) -> Vec<u8> {
    match random.below(LINES.len() + 3) {
        0 => long(random.between(81, 83)),
        1 => long(random.between(200, 200_000)),
        2 => (0..random.between(1, 90))
            .map(|_| random.next() as u8)
            .chain([b'\n'])
            .collect(),
        other => LINES[other - 3].to_vec(),
    }
}

/// A line of so many bytes, well-formed but for its length or its number.
fn long(bytes: usize) -> Vec<u8> {
    let mut line = b"push\t0\t".to_vec();
    line.resize(bytes, b'1');
    line.push(b'\n');
    line
}

const FIRST_LINES: [&[u8]; 20] = [
    b"",
    b"\n",
    b"queue\t1\t2\t1",
    b"queue\t9\t2\t1",
    b"queue\t0\t2\t1\n",
    b"queue\t9\t2\t1\n",
    b"queue\t1\t1\t1\n",
    b"queue\t1\t33\t1\n",
    b"queue\t1\t0\t1\n",
    b"queue\t1\t2\t0\n",
    b"queue\t1\t2\t4294967296\n",
    b"queue\t18446744073709551615\t2\t1\n",
    b"queue\t1\t18446744073709551615\t18446744073709551615\n",
    b"queue\t4294967297\t2\t1\n",
    b"queue\t1\t2\n",
    b"queue\t1\t2\t1\t1\n",
    b"queue\t01\t2\t1\n",
    b"queue\t1\t2\t18446744073709551616\n",
    b"step\t0\n",
    b"Queue\t1\t2\t1\n",
];

/// A first line that is malformed or has a count out of range, or no line at all.
pub fn first(random: &mut Random) -> Vec<u8> {
    random.pick(&FIRST_LINES).to_vec()
}
