//! The 256 puts that make a digest list against one judge of that list, in one process and in processor time; the median of the turns
//! counts.
mod clock;

use clock::timed;
use std::time::Duration;

const ENTRIES: usize = 256;
const JUDGES: u32 = 64; // in a turn: one by itself is too short to be timed well
const MOST: f64 = 512.0; // judges that the puts may take

extern "C" {
    // crate capi; a slice is a pointer and a length
    fn dw_list_start(edition: u64, buffer: *mut u8, count: usize) -> u64;
    fn dw_list_put(
        buffer: *mut u8,
        count: usize,
        name: *const u8,
        name_count: usize,
        digest: *const u8,
        digest_count: usize,
    ) -> u64;
    fn dw_judge(
        list: *const u8,
        count: usize,
        name: *const u8,
        name_count: usize,
        digest: *const u8,
        digest_count: usize,
    ) -> u64;
}

type Pair = (Vec<u8>, Vec<u8>);

fn start(edition: u64, buffer: &mut [u8]) {
    let number = unsafe { dw_list_start(edition, buffer.as_mut_ptr(), buffer.len()) };
    assert_eq!(number, 0, "start answered {number}");
}

fn put(buffer: &mut [u8], (name, digest): &Pair) {
    let (b, n) = (buffer.as_mut_ptr(), buffer.len());
    let number = unsafe { dw_list_put(b, n, name.as_ptr(), name.len(), digest.as_ptr(), digest.len()) };
    assert_eq!(number, 0, "put answered {number}");
}

fn judge(list: &[u8], (name, digest): &Pair) {
    let (l, n) = (list.as_ptr(), list.len());
    let number = unsafe { dw_judge(l, n, name.as_ptr(), name.len(), digest.as_ptr(), digest.len()) };
    assert_eq!(number, 0, "judge answered {number}");
}

/// Numbers that follow no pattern, the same at every run.
fn next(x: &mut u64) -> u64 {
    *x ^= *x << 13;
    *x ^= *x >> 7;
    *x ^= *x << 17;
    *x
}

fn median(mut times: Vec<Duration>) -> Duration {
    times.sort();
    times[times.len() / 2]
}

/// Measures lists of an edition with these names, which ascend, and answers how many judges the puts of the slowest order take.
fn measure(turns: usize, what: &str, edition: u64, digest: usize, names: Vec<Vec<u8>>) -> f64 {
    let mut x = 0x9e37_79b9_7f4a_7c15;
    let bytes = 16 + names.iter().map(|name| 8 + digest + name.len()).sum::<usize>();
    let ascending: Vec<Pair> = names.into_iter().map(|name| (name, (0..digest).map(|_| next(&mut x) as u8).collect())).collect();
    let descending: Vec<Pair> = ascending.iter().rev().cloned().collect();
    let mut random = ascending.clone();
    for i in (1..random.len()).rev() {
        random.swap(i, next(&mut x) as usize % (i + 1));
    }
    let orders = [("ascending", &ascending), ("descending", &descending), ("random", &random)];

    // the list, and that every order makes it
    let (mut list, mut buffer) = (vec![0; bytes], vec![0; bytes]);
    start(edition, &mut list);
    ascending.iter().for_each(|pair| put(&mut list, pair));
    ascending.iter().for_each(|pair| judge(&list, pair));

    let (mut firsts, mut lasts, mut puts) = (vec![], vec![], [vec![], vec![], vec![]]);
    for _ in 0..turns {
        firsts.push(timed(|| (0..JUDGES).for_each(|_| judge(&list, &ascending[0]))) / JUDGES);
        lasts.push(timed(|| (0..JUDGES).for_each(|_| judge(&list, &ascending[ENTRIES - 1]))) / JUDGES);
        for ((_, pairs), times) in orders.iter().zip(&mut puts) {
            start(edition, &mut buffer);
            times.push(timed(|| pairs.iter().for_each(|pair| put(&mut buffer, pair))));
            assert!(buffer == list, "the orders do not make one list");
        }
    }
    let (first, last) = (median(firsts).as_secs_f64(), median(lasts).as_secs_f64());
    let (one, other) = (first * 1e6, last * 1e6);
    println!("edition {edition}, {what}: {bytes} bytes; one judge of the first name {one:.2} us, of the last {other:.2} us");
    let mut most = 0.0f64;
    for ((order, _), times) in orders.iter().zip(puts) {
        let time = median(times).as_secs_f64();
        let (firsts, lasts) = (time / first, time / last);
        println!("  256 puts, {order}: {:.3} ms, as {firsts:.1} judges of the first name, {lasts:.1} of the last", time * 1e3);
        most = most.max(firsts).max(lasts);
    }
    most
}

fn main() {
    let turns = std::env::args().nth(1).map_or(51, |n| n.parse::<usize>().expect("a number")) | 1;
    let names = |form: &dyn Fn(usize) -> String| (0..ENTRIES).map(|i| form(i).into_bytes()).collect::<Vec<_>>();
    let alike = "n".repeat(61);
    println!("{ENTRIES} entries, medians of {turns} turns");
    let most = [
        measure(turns, "names of 64 bytes that end differently", 4, 64, names(&|i| format!("{alike}{i:03}"))),
        measure(turns, "names of 64 bytes that begin differently", 4, 64, names(&|i| format!("{i:03}{alike}"))),
        measure(turns, "names of 3 bytes", 2, 32, names(&|i| format!("{i:03}"))),
    ];
    let most = most.into_iter().fold(0.0, f64::max);
    println!("at most {most:.1} judges; {MOST} are allowed");
    if most > MOST {
        std::process::exit(1);
    }
}
