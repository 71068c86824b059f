//! half_read FILE: the SHA-256 of a file that is read in two halves, with a restart between them. Prints the digest, two blanks and the
//! name, as sha256sum does of a plain name; one with a backslash or a line break sha256sum would write with escapes.
//!
//! First half: open a bay, add pieces, save the record. Then all memory is lost but the record, which a real program keeps on a disk.
//! Second half: lay the table out anew, load the record, ask how far the message was read, read on from there, close.

/// The table of bays of include/dwombarine.h as a type of Rust. Whatever is passed, a call is done or refused: no method can be misused.
mod dwombarine {
    use std::ffi::{c_char, CStr};
    use std::fmt;

    extern "C" {
        fn dw_lay_out(table: *mut u64, words: usize, bays: u64) -> u64;
        fn dw_open(table: *mut u64, words: usize, bay: u64, edition: u64) -> u64;
        fn dw_add(table: *mut u64, words: usize, bay: u64, piece: *const u8, n: usize) -> u64;
        fn dw_close(table: *mut u64, words: usize, bay: u64, closing: u8, bits: u64, out: *mut u8, out_n: usize) -> u64;
        fn dw_save(table: *const u64, words: usize, bay: u64, out: *mut u8, out_n: usize) -> u64;
        fn dw_load(table: *mut u64, words: usize, bay: u64, record: *const u8, n: usize) -> u64;
        fn dw_ask(table: *const u64, words: usize, bay: u64, edition: *mut u64, count: *mut u64) -> u64;
        fn dw_answer_text(number: u64) -> *const c_char;
    }

    pub const SHA256: u64 = 2;
    const LONGEST_RECORD: usize = 215;

    /// How many words a table of that many bays takes.
    pub const fn table_words(bays: usize) -> usize {
        4 + 26 * bays
    }

    /// The number of a refused call, 1 to 14. The call has changed nothing.
    #[derive(Debug)]
    pub struct Refused(pub u64);

    impl fmt::Display for Refused {
        fn fmt(&self, f: &mut fmt::Formatter) -> fmt::Result {
            // the text is constant, plain ASCII, and never null
            let meaning = unsafe { CStr::from_ptr(dw_answer_text(self.0)) }.to_string_lossy();
            write!(f, "refused with number {}: {meaning}", self.0)
        }
    }

    impl std::error::Error for Refused {}

    fn done(number: u64) -> Result<(), Refused> {
        if number == 0 {
            Ok(())
        } else {
            Err(Refused(number))
        }
    }

    /// Bays that hold half-read messages. The words are the table's own until `into_words` gives them back.
    pub struct Table {
        words: Vec<u64>,
    }

    // Every pointer below comes from a slice or a variable, with its true length, and lives for the call alone. What is written is borrowed
    // with &mut, so it overlaps nothing. The pointer of an empty slice is not null. That is all that the header asks.
    impl Table {
        /// Makes a table of that many empty bays, counted from 0, over words that held anything.
        pub fn lay_out(mut words: Vec<u64>, bays: u64) -> Result<Table, Refused> {
            done(unsafe { dw_lay_out(words.as_mut_ptr(), words.len(), bays) })?;
            Ok(Table { words })
        }

        pub fn into_words(self) -> Vec<u64> {
            self.words
        }

        /// Begins a message.
        pub fn open(&mut self, bay: u64, edition: u64) -> Result<(), Refused> {
            done(unsafe { dw_open(self.words.as_mut_ptr(), self.words.len(), bay, edition) })
        }

        /// Takes a piece of it.
        pub fn add(&mut self, bay: u64, piece: &[u8]) -> Result<(), Refused> {
            done(unsafe { dw_add(self.words.as_mut_ptr(), self.words.len(), bay, piece.as_ptr(), piece.len()) })
        }

        /// Writes the digest at the front of `out` and empties the bay. The message is of whole bytes: no closing bits.
        pub fn close(&mut self, bay: u64, out: &mut [u8]) -> Result<(), Refused> {
            done(unsafe { dw_close(self.words.as_mut_ptr(), self.words.len(), bay, 0, 0, out.as_mut_ptr(), out.len()) })
        }

        /// The bay's record; the bay stays as it is.
        pub fn save(&self, bay: u64) -> Result<Vec<u8>, Refused> {
            let mut record = vec![0; LONGEST_RECORD];
            done(unsafe { dw_save(self.words.as_ptr(), self.words.len(), bay, record.as_mut_ptr(), record.len()) })?;
            record.truncate(u16::from_be_bytes([record[18], record[19]]).into());
            Ok(record)
        }

        /// Puts what was saved into an empty bay.
        pub fn load(&mut self, bay: u64, record: &[u8]) -> Result<(), Refused> {
            done(unsafe { dw_load(self.words.as_mut_ptr(), self.words.len(), bay, record.as_ptr(), record.len()) })
        }

        /// The bay's edition and the count of bytes taken, both 0 for an empty bay.
        pub fn ask(&self, bay: u64) -> Result<(u64, u64), Refused> {
            let (mut edition, mut count) = (0, 0);
            done(unsafe { dw_ask(self.words.as_ptr(), self.words.len(), bay, &mut edition, &mut count) })?;
            Ok((edition, count))
        }
    }
}

use dwombarine::{table_words, Table, SHA256};
use std::error::Error;
use std::fmt::Display;
use std::fs::File;
use std::io::{self, Read, Seek, SeekFrom, Write};
use std::path::Path;
use std::process::ExitCode;

const BAY: u64 = 0;
const PIECE: usize = 4096;

/// Adds the next bytes of the file, at most `most` of them, in pieces.
fn add_from(file: &mut File, table: &mut Table, mut most: u64) -> Result<(), Box<dyn Error>> {
    let mut piece = [0; PIECE];
    while most > 0 {
        let want = most.min(PIECE as u64) as usize;
        let got = match file.read(&mut piece[..want]) {
            Ok(0) => break,
            Ok(got) => got,
            Err(error) if error.kind() == io::ErrorKind::Interrupted => continue,
            Err(error) => return Err(error.into()),
        };
        table.add(BAY, &piece[..got])?;
        most -= got as u64;
    }
    Ok(())
}

/// Reads half of the file and answers the record of that.
fn first_half(name: &Path, table: &mut Table) -> Result<Vec<u8>, Box<dyn Error>> {
    let mut file = File::open(name)?;
    let size = file.metadata()?.len();
    table.open(BAY, SHA256)?;
    // an odd count ends inside a block, so the record also holds the beginning of that block
    add_from(&mut file, table, size / 2 | 1)?;
    Ok(table.save(BAY)?)
}

/// Goes on from the record to the end of the file and answers the digest.
fn second_half(name: &Path, table: &mut Table, record: &[u8]) -> Result<[u8; 32], Box<dyn Error>> {
    table.load(BAY, record)?;
    let (_edition, count) = table.ask(BAY)?;
    let mut file = File::open(name)?;
    file.seek(SeekFrom::Start(count))?;
    add_from(&mut file, table, u64::MAX)?;
    let mut digest = [0; 32];
    table.close(BAY, &mut digest)?;
    Ok(digest)
}

fn half_read(name: &Path) -> Result<[u8; 32], Box<dyn Error>> {
    let mut table = Table::lay_out(vec![0; table_words(1)], 1)?;
    let record = first_half(name, &mut table)?;
    // the restart: the table's memory now holds anything
    let mut words = table.into_words();
    words.fill(0xa5a5_a5a5_a5a5_a5a5);
    let mut table = Table::lay_out(words, 1)?;
    second_half(name, &mut table, &record)
}

fn print(digest: &[u8], name: &Path) -> io::Result<()> {
    let mut line: Vec<u8> = digest.iter().flat_map(|byte| format!("{byte:02x}").into_bytes()).collect();
    line.extend_from_slice(b"  ");
    line.extend_from_slice(name.as_os_str().as_encoded_bytes());
    line.push(b'\n');
    io::stdout().write_all(&line)
}

fn failed(what: impl Display, error: impl Display) -> ExitCode {
    eprintln!("half_read: {what}: {error}");
    ExitCode::FAILURE
}

fn main() -> ExitCode {
    let arguments: Vec<_> = std::env::args_os().skip(1).collect();
    let [name] = &arguments[..] else {
        eprintln!("usage: half_read FILE");
        return ExitCode::FAILURE;
    };
    let name = Path::new(name);
    match half_read(name) {
        Err(error) => failed(name.display(), error),
        Ok(digest) => match print(&digest, name) {
            Err(error) => failed("standard output", error),
            Ok(()) => ExitCode::SUCCESS,
        },
    }
}
