//! Holds the copy of the published file to its bytes, and the replay to document 01's whole
//! example.

use std::io::Write;
use std::process::{Command, Stdio};

const PUBLISHED: &[u8] = include_bytes!("../src/published/deque.rs");

#[test]
fn published_file_is_unchanged() {
    assert_eq!(PUBLISHED.len(), 75_738);
    let sum = "a27666f94a281fc34337b60f86ea67838575546ce7ce9c2a89c7cb176034ddfe";
    assert_eq!(sha256(PUBLISHED), sum);
}

#[test]
fn sum_of_three_letters() {
    let sum = "ba7816bf8f01cfea414140de5dae2223b00361a396177a9cb410ff61f20015ad";
    assert_eq!(sha256(b"abc"), sum);
}

#[test]
fn whole_example() {
    let log =
        "queue\t1\t2\t1\npush\t0\t17\nrun\t0\t100\nsteal\t0\nrun\t0\t100\nsteal\t0\nrun\t0\t100\n";
    let mut held = Command::new(env!("CARGO_BIN_EXE_held"))
        .stdin(Stdio::piped())
        .stdout(Stdio::piped())
        .spawn()
        .expect("held was built for this test");
    let mut input = held.stdin.take().expect("its input is a pipe");
    input.write_all(log.as_bytes()).expect("held reads it all");
    drop(input);
    let output = held.wait_with_output().expect("held ends");
    let expected = "queue\t1\t2\t1\n3\t0\tpushed\n5\t0\ttask\t17\n7\t0\tempty\nend\t15\n";
    assert_eq!(String::from_utf8_lossy(&output.stdout), expected);
}

/// SHA-256, so that the sum can be had with any tool and no crate is needed.
fn sha256(bytes: &[u8]) -> String {
    let mut state = first_32_bits(|root| root.sqrt(), 8);
    let constants = first_32_bits(|root| root.cbrt(), 64);
    let mut message = bytes.to_vec();
    message.push(0x80);
    while message.len() % 64 != 56 {
        message.push(0);
    }
    message.extend_from_slice(&(bytes.len() as u64 * 8).to_be_bytes());
    for chunk in message.chunks(64) {
        compress(&mut state, &constants, chunk);
    }
    state.iter().map(|word| format!("{word:08x}")).collect()
}

/// The first 32 bits of the fractional parts of a root of the first primes.
fn first_32_bits(root: fn(f64) -> f64, count: usize) -> Vec<u32> {
    let is_prime = |n: &u32| (2..*n).all(|d| n % d != 0);
    let primes = (2..).filter(is_prime).take(count);
    primes
        .map(|prime| (root(f64::from(prime)).fract() * 4_294_967_296.0) as u32)
        .collect()
}

fn compress(state: &mut [u32], constants: &[u32], chunk: &[u8]) {
    let word = |bytes: &[u8]| u32::from_be_bytes(bytes.try_into().expect("four bytes"));
    let mut w: Vec<u32> = chunk.chunks(4).map(word).collect();
    for i in 16..64 {
        let s0 = w[i - 15].rotate_right(7) ^ w[i - 15].rotate_right(18) ^ (w[i - 15] >> 3);
        let s1 = w[i - 2].rotate_right(17) ^ w[i - 2].rotate_right(19) ^ (w[i - 2] >> 10);
        let sum = w[i - 16].wrapping_add(s0).wrapping_add(w[i - 7]);
        w.push(sum.wrapping_add(s1));
    }
    let mut v: Vec<u32> = state.to_vec();
    for i in 0..64 {
        let s1 = v[4].rotate_right(6) ^ v[4].rotate_right(11) ^ v[4].rotate_right(25);
        let choice = (v[4] & v[5]) ^ (!v[4] & v[6]);
        let t1 = [s1, choice, constants[i], w[i]]
            .iter()
            .fold(v[7], |sum, x| sum.wrapping_add(*x));
        let s0 = v[0].rotate_right(2) ^ v[0].rotate_right(13) ^ v[0].rotate_right(22);
        let majority = (v[0] & v[1]) ^ (v[0] & v[2]) ^ (v[1] & v[2]);
        v.rotate_right(1);
        v[4] = v[4].wrapping_add(t1);
        v[0] = t1.wrapping_add(s0).wrapping_add(majority);
    }
    for (old, new) in state.iter_mut().zip(v) {
        *old = old.wrapping_add(new);
    }
}
