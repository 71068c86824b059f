//! The tree over a stream against the hashes alone that it stands on, in one process and in processor time.
//!
//! Each way through the bytes is cut into slices of one MiB, and every way does its share of a slice before the next slice is begun: what
//! disturbs the machine for longer than a slice disturbs them alike. What is shorter is left out: of each slice of a way the best turn
//! counts, and the time of a way is the sum over its slices. Which way comes first in a slice, and finds its bytes further away, changes
//! from turn to turn.
mod clock;
mod message;

use clock::timed;
use message::message;
use std::time::Duration;

const CHUNK: usize = 1024;
const SLICE: usize = 1 << 20;
const SLICES: usize = 64;
const FEW: usize = 4; // slices of the way that takes long: its ratio is to the same slices of the hashes
const WORDS: usize = 258;

extern "C" {
    // crate capi; a slice is a pointer and a length
    fn dw_hash(edition: u64, message: *const u8, count: usize, closing: u8, bits: u64, out: *mut u8, room: usize) -> u64;
    fn dw_stream_begin(stream: *mut u64, words: usize) -> u64;
    fn dw_stream_add(stream: *mut u64, words: usize, piece: *const u8, count: usize) -> u64;
    fn dw_stream_root(stream: *const u64, words: usize, out: *mut u8, room: usize) -> u64;
}

type Node = [u8; 32];

fn sha256(message: &[u8]) -> Node {
    let mut out = [0; 32];
    let number = unsafe { dw_hash(2, message.as_ptr(), message.len(), 0, 0, out.as_mut_ptr(), out.len()) };
    assert_eq!(number, 0, "hash at once answered {number}");
    out
}

/// The root by levels, of nothing but hashes: what the streams must come to.
fn tree(data: &[u8]) -> Node {
    let mut nodes: Vec<Node> = data.chunks(CHUNK).map(|chunk| sha256(&[&[0], chunk].concat())).collect();
    while nodes.len() > 1 {
        nodes = nodes.chunks(2).map(|two| if two.len() == 2 { sha256(&[&[1], &two[0][..], &two[1]].concat()) } else { two[0] }).collect();
    }
    nodes[0]
}

/// A slice's share of the hashes: of each chunk and one byte more, and of 65 bytes as many times, but for the last, since a tree has one
/// parent less than leaves. The bytes are taken where they lie, so that nothing but hashing is counted.
fn hashes(data: &[u8], slice: usize) {
    for chunk in slice * SLICE / CHUNK..(slice + 1) * SLICE / CHUNK {
        let from = chunk * CHUNK;
        let mut made = sha256(&data[from..from + CHUNK + 1])[0];
        if chunk + 1 < SLICES * SLICE / CHUNK {
            made ^= sha256(&data[from..from + 65])[0];
        }
        std::hint::black_box(made);
    }
}

/// A stream that is fed with pieces of one size, the first piece being so many bytes.
struct Feed {
    name: &'static str,
    first: usize,
    size: usize,
    slices: usize,
    words: [u64; WORDS],
    at: usize,
    root: Node,
}

impl Feed {
    fn new(name: &'static str, first: usize, size: usize, slices: usize) -> Feed {
        Feed { name, first, size, slices, words: [0; WORDS], at: 0, root: [0; 32] }
    }

    fn add(&mut self, data: &[u8], size: usize) {
        let piece = &data[self.at..(self.at + size).min(self.slices * SLICE)];
        let number = unsafe { dw_stream_add(self.words.as_mut_ptr(), WORDS, piece.as_ptr(), piece.len()) };
        assert_eq!(number, 0, "add answered {number}");
        self.at += piece.len();
    }

    /// A slice's share: the pieces that begin in it. The first begins the stream, the last tells its root.
    fn share(&mut self, data: &[u8], slice: usize) {
        if slice == 0 {
            let number = unsafe { dw_stream_begin(self.words.as_mut_ptr(), WORDS) };
            assert_eq!(number, 0, "begin answered {number}");
            self.at = 0;
            self.add(data, self.first);
        }
        while self.at < (slice + 1) * SLICE {
            self.add(data, self.size);
        }
        if slice + 1 == self.slices {
            let number = unsafe { dw_stream_root(self.words.as_ptr(), WORDS, self.root.as_mut_ptr(), self.root.len()) };
            assert_eq!(number, 0, "root answered {number}");
        }
    }
}

fn main() {
    let turns = std::env::args().nth(1).map_or(21, |n| n.parse::<usize>().expect("a number")).max(1);
    let data = message(SLICES * SLICE + 1);
    let mut feeds = [
        Feed::new("pieces of 4,096 bytes", 4096, 4096, SLICES),
        Feed::new("pieces of 4,096 bytes after one byte", 1, 4096, SLICES),
        Feed::new("pieces of 64 bytes", 64, 64, FEW),
    ];
    // the hashes alone, and then the feeds
    let ways = 1 + feeds.len();
    let mut best = vec![[Duration::MAX; SLICES]; ways];
    for turn in 0..turns {
        for slice in 0..SLICES {
            for way in (0..ways).map(|way| (way + turn) % ways) {
                let time = match way.checked_sub(1).map(|feed| &mut feeds[feed]) {
                    None => timed(|| hashes(&data, slice)),
                    Some(feed) if slice < feed.slices => timed(|| feed.share(&data, slice)),
                    Some(_) => continue,
                };
                best[way][slice] = best[way][slice].min(time);
            }
        }
    }
    println!("{} bytes, each slice the best of {turns} turns", SLICES * SLICE);
    for (feed, times) in feeds.iter().zip(&best[1..]) {
        assert!(feed.root == tree(&data[..feed.slices * SLICE]), "{}: the root is another than the hashes make", feed.name);
        let sum = |of: &[Duration]| of[..feed.slices].iter().sum::<Duration>().as_secs_f64();
        let (ours, alone) = (sum(times), sum(&best[0]));
        println!(
            "{}, {} MiB: {:.2} ms, the hashes alone {:.2} ms, ratio {:.3}",
            feed.name,
            feed.slices * SLICE >> 20,
            ours * 1e3,
            alone * 1e3,
            ours / alone
        );
    }
}
