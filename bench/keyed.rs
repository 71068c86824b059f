//! A keyed hash in pieces against a bay that is given the same pieces, in one process and in processor time.
//!
//! The message is cut into slices of one MiB, and both ways do their share of a slice before the next slice is begun: what disturbs the
//! machine for longer than a slice disturbs them alike. Of each slice of a way the median of the turns counts, and the time of a way is the
//! sum over its slices; the first slice begins the hash, the last one ends it. Which way comes first in a slice, and finds its bytes
//! further away, changes from turn to turn.
mod clock;
mod message;
mod plain;

use clock::timed;
use message::message;
use std::time::Duration;

const SLICE: usize = 1 << 20;
const SLICES: usize = 16;
const PIECE: usize = 4096;
const WORDS: usize = 34;
const KEY: usize = 32; // bytes
const LIMIT: f64 = 1.03;

extern "C" {
    // crate capi; a slice is a pointer and a length
    fn dw_hash(edition: u64, message: *const u8, count: usize, closing: u8, bits: u64, out: *mut u8, room: usize) -> u64;
    fn dw_lay_out(table: *mut u64, words: usize, bays: u64) -> u64;
    fn dw_open(table: *mut u64, words: usize, bay: u64, edition: u64) -> u64;
    fn dw_add(table: *mut u64, words: usize, bay: u64, piece: *const u8, count: usize) -> u64;
    fn dw_close(table: *mut u64, words: usize, bay: u64, closing: u8, bits: u64, out: *mut u8, room: usize) -> u64;
    fn dw_tag(edition: u64, key: *const u8, key_count: usize, message: *const u8, count: usize, out: *mut u8, room: usize) -> u64;
    fn dw_keyed_start(keyed: *mut u64, words: usize, edition: u64, key: *const u8, key_count: usize) -> u64;
    fn dw_keyed_add(keyed: *mut u64, words: usize, piece: *const u8, count: usize) -> u64;
    fn dw_keyed_tag(keyed: *const u64, words: usize, out: *mut u8, room: usize) -> u64;
}

fn done(what: &str, number: u64) {
    assert_eq!(number, 0, "{what} answered {number}");
}

/// A slice's share of a keyed hash.
fn keyed_share(words: &mut [u64; WORDS], edition: u64, key: &[u8], data: &[u8], slice: usize, out: &mut [u8]) {
    let w = words.as_mut_ptr();
    if slice == 0 {
        done("keyed start", unsafe { dw_keyed_start(w, WORDS, edition, key.as_ptr(), key.len()) });
    }
    for piece in data[slice * SLICE..(slice + 1) * SLICE].chunks(PIECE) {
        done("keyed add", unsafe { dw_keyed_add(w, WORDS, piece.as_ptr(), piece.len()) });
    }
    if slice + 1 == SLICES {
        done("keyed tag", unsafe { dw_keyed_tag(w, WORDS, out.as_mut_ptr(), out.len()) });
    }
}

/// A slice's share of a bay.
fn bay_share(table: &mut [u64; 30], edition: u64, data: &[u8], slice: usize, out: &mut [u8]) {
    let (t, n) = (table.as_mut_ptr(), table.len());
    if slice == 0 {
        done("open", unsafe { dw_open(t, n, 0, edition) });
    }
    for piece in data[slice * SLICE..(slice + 1) * SLICE].chunks(PIECE) {
        done("add", unsafe { dw_add(t, n, 0, piece.as_ptr(), piece.len()) });
    }
    if slice + 1 == SLICES {
        done("close", unsafe { dw_close(t, n, 0, 0, 0, out.as_mut_ptr(), out.len()) });
    }
}

fn tag(edition: u64, key: &[u8], data: &[u8], out: &mut [u8]) {
    done("tag", unsafe { dw_tag(edition, key.as_ptr(), key.len(), data.as_ptr(), data.len(), out.as_mut_ptr(), out.len()) });
}

fn hash(edition: u64, data: &[u8], out: &mut [u8]) {
    done("hash", unsafe { dw_hash(edition, data.as_ptr(), data.len(), 0, 0, out.as_mut_ptr(), out.len()) });
}

/// The digest by the plain program.
fn plainly(edition: u64, data: &[u8]) -> Vec<u8> {
    if edition == 2 { plain::sha256(data).to_vec() } else { plain::sha512(data).to_vec() }
}

/// FIPS 198-1 over the plain program, for a key that is no longer than a block.
fn plain_tag(edition: u64, key: &[u8], data: &[u8]) -> Vec<u8> {
    let block = if edition == 2 { 64 } else { 128 };
    let padded = |pad: u8| (0..block).map(|i| key.get(i).unwrap_or(&0) ^ pad).collect::<Vec<u8>>();
    let inner = plainly(edition, &[&padded(0x36), data].concat());
    plainly(edition, &[padded(0x5c), inner].concat())
}

fn median(times: &mut [Duration]) -> f64 {
    times.sort();
    times[times.len() / 2].as_secs_f64()
}

/// Measures both ways, and answers the ratio.
fn in_pieces(name: &str, edition: u64, size: usize, turns: usize, key: &[u8], data: &[u8]) -> f64 {
    let (mut words, mut table, mut made, mut digest) = ([0u64; WORDS], [0u64; 30], [0u8; 64], [0u8; 64]);
    let mut times = [vec![vec![]; SLICES], vec![vec![]; SLICES]];
    done("lay out", unsafe { dw_lay_out(table.as_mut_ptr(), table.len(), 1) });
    for turn in 0..turns {
        for slice in 0..SLICES {
            for way in [turn % 2, (turn + 1) % 2] {
                times[way][slice].push(if way == 0 {
                    timed(|| keyed_share(&mut words, edition, key, data, slice, &mut made[..size]))
                } else {
                    timed(|| bay_share(&mut table, edition, data, slice, &mut digest[..size]))
                });
            }
        }
    }
    assert!(made[..size] == plain_tag(edition, key, data), "{name}: the tag is another than the plain program makes");
    assert!(digest[..size] == plainly(edition, data), "{name}: the digest is another than the plain program makes");
    let [keyed, bay] = times.map(|mut way| way.iter_mut().map(|slice| median(slice)).sum::<f64>());
    println!(
        "{name}: through a keyed hash {:.2} ms, through a bay {:.2} ms, ratio {:.3}, of {LIMIT} allowed",
        keyed * 1e3,
        bay * 1e3,
        keyed / bay
    );
    keyed / bay
}

/// A tag against a hash of the same bytes, at once: a tag takes three blocks more, two of the key and one of the inner digest.
fn at_once(name: &str, edition: u64, size: usize, turns: usize, key: &[u8], data: &[u8]) {
    const CALLS: u32 = 1024; // in a turn: one by itself is too short to be timed well
    let mut out = [0u8; 64];
    let (mut tags, mut hashes) = (vec![], vec![]);
    for _ in 0..turns {
        tags.push(timed(|| (0..CALLS).for_each(|_| tag(edition, key, data, &mut out[..size]))) / CALLS);
        hashes.push(timed(|| (0..CALLS).for_each(|_| hash(edition, data, &mut out[..size]))) / CALLS);
    }
    let (tagged, hashed) = (median(&mut tags) * 1e6, median(&mut hashes) * 1e6);
    println!("{name}, {} bytes at once: tag {tagged:.3} us, hash {hashed:.3} us, ratio {:.2}", data.len(), tagged / hashed);
}

fn main() {
    let turns = std::env::args().nth(1).map_or(21, |n| n.parse::<usize>().expect("a number")) | 1;
    let data = message(SLICES * SLICE);
    let key = message(KEY);
    println!("{} bytes in pieces of {PIECE}, medians of {turns} turns", data.len());
    let editions = [("SHA-256", 2, 32), ("SHA-512", 4, 64)];
    let mut most = 0.0f64;
    for (name, edition, size) in editions {
        most = most.max(in_pieces(name, edition, size, turns, &key, &data));
    }
    for (name, edition, size) in editions {
        for count in [64, 1000] {
            at_once(name, edition, size, turns, &key, &data[..count]);
        }
    }
    if most > LIMIT {
        std::process::exit(1);
    }
}
