//! Dwombarine against plain Rust on the same 16 MiB, turn and turn about in one process; of each the best turn counts, in processor time.
mod clock;
mod message;
mod plain;

use clock::timed;
use message::message;
use std::time::Duration;

extern "C" {
    // crate capi; a slice is a pointer and a length
    fn dw_hash(edition: u64, message: *const u8, count: usize, closing: u8, bits: u64, out: *mut u8, room: usize) -> u64;
    fn dw_lay_out(table: *mut u64, words: usize, bays: u64) -> u64;
    fn dw_open(table: *mut u64, words: usize, bay: u64, edition: u64) -> u64;
    fn dw_add(table: *mut u64, words: usize, bay: u64, piece: *const u8, count: usize) -> u64;
}

fn dwombarine(edition: u64, message: &[u8], out: &mut [u8]) {
    let number = unsafe { dw_hash(edition, message.as_ptr(), message.len(), 0, 0, out.as_mut_ptr(), out.len()) };
    assert_eq!(number, 0, "hash at once answered {number}");
}

/// The whole message through a bay, in pieces of that size.
fn in_pieces(size: usize, edition: u64, message: &[u8], table: &mut [u64; 30]) {
    let numbers = unsafe {
        [
            dw_lay_out(table.as_mut_ptr(), table.len(), 1),
            dw_open(table.as_mut_ptr(), table.len(), 0, edition),
        ]
    };
    assert_eq!(numbers, [0, 0], "a bay is not opened");
    for piece in message.chunks(size) {
        let number = unsafe { dw_add(table.as_mut_ptr(), table.len(), 0, piece.as_ptr(), piece.len()) };
        assert_eq!(number, 0, "add answered {number}");
    }
}

/// Pieces of 4,096 bytes, each hashed at once by itself.
fn each_at_once(edition: u64, message: &[u8], out: &mut [u8]) {
    for piece in message.chunks(4096) {
        dwombarine(edition, piece, out);
    }
}

/// Measures both on the same work, each `turns` times, in alternating order, and answers the best time of each.
fn race(turns: usize, mut ours: impl FnMut(), mut theirs: impl FnMut()) -> (Duration, Duration) {
    let (mut us, mut them) = (Duration::MAX, Duration::MAX);
    for turn in 0..turns {
        if turn % 2 == 0 {
            us = us.min(timed(&mut ours));
            them = them.min(timed(&mut theirs));
        } else {
            them = them.min(timed(&mut theirs));
            us = us.min(timed(&mut ours));
        }
    }
    (us, them)
}

fn report(name: &str, ours: &str, theirs: &str, bytes: usize, (us, them): (Duration, Duration)) {
    let rate = |t: Duration| bytes as f64 / t.as_secs_f64() / 1e6;
    println!(
        "{name}: {ours} {:.2} ms ({:.0} MB/s), {theirs} {:.2} ms ({:.0} MB/s), ratio {:.3}",
        us.as_secs_f64() * 1e3,
        rate(us),
        them.as_secs_f64() * 1e3,
        rate(them),
        us.as_secs_f64() / them.as_secs_f64()
    );
}

fn main() {
    let number = |i: usize, other: usize| std::env::args().nth(i).map_or(other, |n| n.parse().expect("a number"));
    let turns = number(1, 21);
    let data = message(number(2, 16 << 20));
    let mut out = [0u8; 64];

    dwombarine(2, &data, &mut out[..32]);
    assert_eq!(out[..32], plain::sha256(&data), "the two digests of SHA-256 differ");
    dwombarine(4, &data, &mut out);
    assert_eq!(out, plain::sha512(&data), "the two digests of SHA-512 differ");

    println!("{} bytes, best of {turns} turns", data.len());
    let keep = |d: &[u8]| assert_ne!(d[0..8], [0; 8]);
    let (us, rust) = ("dwombarine", "plain Rust");
    report("SHA-256", us, rust, data.len(), race(turns, || dwombarine(2, &data, &mut out[..32]), || keep(&plain::sha256(&data))));
    report("SHA-512", us, rust, data.len(), race(turns, || dwombarine(4, &data, &mut out), || keep(&plain::sha512(&data))));

    let (once, pieces) = ("the whole at once", "each piece at once");
    let (mut table, mut other) = ([0u64; 30], [0u8; 64]);
    // whole blocks, one byte less than them, and a length that begins and ends inside a block
    for size in [4096, 4095, 1000, 100] {
        let adds = format!("adds of {size} bytes");
        let mut through = |edition| in_pieces(size, edition, &data, &mut table);
        report("SHA-256", &adds, once, data.len(), race(turns, || through(2), || dwombarine(2, &data, &mut out[..32])));
        report("SHA-512", &adds, once, data.len(), race(turns, || through(4), || dwombarine(4, &data, &mut out)));
    }
    let (adds, mut through) = ("adds of 4096 bytes", |edition| in_pieces(4096, edition, &data, &mut table));
    report("SHA-256", adds, pieces, data.len(), race(turns, || through(2), || each_at_once(2, &data, &mut other[..32])));
    report("SHA-512", adds, pieces, data.len(), race(turns, || through(4), || each_at_once(4, &data, &mut other)));
}
