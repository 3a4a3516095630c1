//! The call of the archive `reactive` that posts a file and gives its totals.
use bench::book::Sums;
use oracle::book::{PLACES, POINT_PLACES};

/// Bytes of an answer: number, length of the journal's list, and the figures of 8 places.
pub const ANSWER_SIZE: usize = 8 * (2 + 8 * PLACES);

/// Places of an index for the most points (02, Tickets 6 and 7).
const INDEX_PLACES: usize = POINT_PLACES * PLACES;

/// What is lent to either side for a book.
pub struct Lent {
    pub journal: Vec<u8>,
    pub index: Vec<u16>,
}

impl Lent {
    /// A journal of so many bytes, and an index for the most points.
    pub fn of(bytes: usize) -> Lent {
        Lent { journal: vec![0; bytes], index: vec![0; INDEX_PLACES] }
    }
}

#[link(name = "reactive", kind = "static")]
extern "C" {
    fn reactive_post_totals(
        file: *const u8,
        file_length: usize,
        journal: *mut u8,
        journal_length: usize,
        index: *mut u16,
        index_length: usize,
        rounds: u32,
        answer: *mut u8,
        answer_length: usize,
    ) -> u32;
}

/// Posts the file, then calls totals so many times; the last answer stays in the slice. Gives post's number.
pub fn post_totals(file: &[u8], lent: &mut Lent, rounds: u32, answer: &mut [u8]) -> u32 {
    let Lent { journal, index } = lent;
    // Each pointer and length are those of one slice, and what is written to is lent to nobody else.
    unsafe {
        reactive_post_totals(
            file.as_ptr(),
            file.len(),
            journal.as_mut_ptr(),
            journal.len(),
            index.as_mut_ptr(),
            index.len(),
            rounds,
            answer.as_mut_ptr(),
            answer.len(),
        )
    }
}

/// The numbers of an answer: that of totals, the length of the list, and the figures.
pub fn numbers(answer: &[u8]) -> Vec<i64> {
    answer.chunks_exact(8).map(|bytes| i64::from_be_bytes(bytes.try_into().expect("8 bytes"))).collect()
}

/// The same numbers as plain Rust has them.
pub fn expected(length: usize, totals: &Sums) -> Vec<i64> {
    [0, length as i64].into_iter().chain(totals.concat()).collect()
}
