//! file WHICH EDITION PATH: the digest of one file in edition 2 or 4, by Dwombarine through a bay (WHICH ours) or by plain Rust (WHICH plain).
//! A process of its own, so that bench/peers can set its time beside other programs'.
mod plain;

use std::io::Read;

extern "C" {
    // crate capi; a slice is a pointer and a length
    fn dw_lay_out(table: *mut u64, words: usize, bays: u64) -> u64;
    fn dw_open(table: *mut u64, words: usize, bay: u64, edition: u64) -> u64;
    fn dw_add(table: *mut u64, words: usize, bay: u64, piece: *const u8, count: usize) -> u64;
    fn dw_close(table: *mut u64, words: usize, bay: u64, closing: u8, bits: u64, out: *mut u8, room: usize) -> u64;
}

/// In pieces of 64 KiB, as they are read.
fn ours(edition: u64, mut file: std::fs::File) -> Vec<u8> {
    let mut table = [0u64; 30];
    let (t, n) = (table.as_mut_ptr(), table.len());
    assert_eq!(unsafe { [dw_lay_out(t, n, 1), dw_open(t, n, 0, edition)] }, [0, 0]);
    let mut piece = vec![0u8; 1 << 16];
    loop {
        let got = file.read(&mut piece).expect("the file is read");
        if got == 0 {
            break;
        }
        assert_eq!(unsafe { dw_add(t, n, 0, piece.as_ptr(), got) }, 0);
    }
    let mut out = vec![0u8; if edition == 2 { 32 } else { 64 }];
    assert_eq!(unsafe { dw_close(t, n, 0, 0, 0, out.as_mut_ptr(), out.len()) }, 0);
    out
}

fn plain(edition: u64, mut file: std::fs::File) -> Vec<u8> {
    let mut bytes = Vec::new();
    file.read_to_end(&mut bytes).expect("the file is read");
    if edition == 2 { plain::sha256(&bytes).to_vec() } else { plain::sha512(&bytes).to_vec() }
}

fn main() {
    let words: Vec<String> = std::env::args().skip(1).collect();
    let edition: u64 = words[1].parse().expect("an edition");
    let file = std::fs::File::open(&words[2]).expect("the file is there");
    let digest = if words[0] == "ours" { ours(edition, file) } else { plain(edition, file) };
    let hex: String = digest.iter().map(|b| format!("{b:02x}")).collect();
    println!("{hex}");
}
