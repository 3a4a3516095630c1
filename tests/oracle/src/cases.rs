//! The text that the programs `book_cases` and `posting_cases` print for their standard input.
//! docs/book_cases.md has the language of the cases.
use crate::bits::pack;
use crate::book::{open, post};
use crate::held::Held;
use crate::month_file::{Point, Transformer, ENTRY, ENTRY_SIZE, HEADER_SIZE, POINT, POINT_SIZE};
use crate::trial::hex;

const FILE_MOST: usize = 256;
const JOURNAL_MOST: usize = 60;
const INDEX_MOST: usize = 27_000;
const NUMBERS_MOST: usize = 24;

/// Widths of a header's fields, the two opening bytes apart.
const HEADER: [usize; 6] = [8, 8, 12, 4, 4, 20];

#[derive(Clone)]
struct Desk {
    file: Vec<u8>,
    size: usize,
    book: Held,
    journal: Vec<u8>,
    lent: usize,
    index: Vec<u16>,
    places: usize,
}

/// The numbers behind a command's name.
struct Row(Vec<u64>);

pub fn text(cases: &str) -> String {
    let mut desk = Desk::of_zeros();
    let mut start = desk.clone();
    let mut lines: Vec<String> = Vec::new();
    let mut rest = Reader { text: cases };
    while let Some(name) = rest.word() {
        match name {
            "case" => {
                lines.push(rest.label().to_string());
                desk = start.clone();
            }
            "start" => {
                rest.numbers();
                start = desk.clone();
            }
            _ => {
                let answer = desk.obey(name, &rest.numbers()).unwrap_or(" ?".to_string());
                lines.last_mut().expect("the text begins with a case").push_str(&answer);
            }
        }
    }
    lines.join("\n") + "\n"
}

struct Reader<'a> {
    text: &'a str,
}

impl<'a> Reader<'a> {
    /// Past blanks and comments.
    fn skip(&mut self) {
        self.text = self.text.trim_start();
        while self.text.starts_with('#') {
            let end = self.text.find('\n').unwrap_or(self.text.len());
            self.text = self.text[end..].trim_start();
        }
    }

    fn word(&mut self) -> Option<&'a str> {
        self.skip();
        let end = self.text.find(char::is_whitespace).unwrap_or(self.text.len());
        let (word, rest) = self.text.split_at(end);
        self.text = rest;
        Some(word).filter(|word| !word.is_empty())
    }

    /// Up to a colon or the end of the line.
    fn label(&mut self) -> &'a str {
        self.skip();
        let (label, rest) = self.text.split_once([':', '\n']).unwrap_or((self.text, ""));
        self.text = rest;
        label
    }

    fn numbers(&mut self) -> Row {
        let mut numbers = Vec::new();
        self.skip();
        while numbers.len() < NUMBERS_MOST && self.text.starts_with(|first: char| first.is_ascii_digit()) {
            let word = self.word().expect("a digit at least");
            let digits: String = word.chars().filter(char::is_ascii_digit).collect();
            numbers.push(digits.parse().unwrap_or(u64::MAX));
            self.skip();
        }
        Row(numbers)
    }
}

impl Row {
    /// A number; one that is left out is 0.
    fn at(&self, index: usize) -> u64 {
        self.0.get(index).copied().unwrap_or(0)
    }

    fn signed(&self, index: usize) -> i64 {
        i64::try_from(self.at(index)).unwrap_or(i64::MAX)
    }

    /// One of the eight places of a book.
    fn place(&self) -> Option<usize> {
        Some(self.at(0) as usize).filter(|&place| place < 8)
    }

    /// The record that the numbers from this one on make, if each fits its field.
    fn record(&self, first: usize, widths: &[usize]) -> Option<Vec<u8>> {
        let fields: Vec<i64> = (0..widths.len()).map(|index| self.signed(first + index)).collect();
        let fits = fields.iter().zip(widths).all(|(&field, &width)| field < 1 << width);
        fits.then(|| pack(&fields, widths))
    }

    /// Puts the record of this row where its first number says.
    fn put(&self, bytes: &mut [u8], widths: &[usize]) -> Option<String> {
        let record = self.record(1, widths)?;
        let at = usize::try_from(self.at(0)).ok().filter(|&at| at < bytes.len())?;
        bytes[at..].get_mut(..record.len())?.copy_from_slice(&record);
        Some(String::new())
    }

    fn point(&self) -> Point {
        let place = |n: usize| Transformer { uk: self.signed(7 + 2 * n), sn: self.signed(8 + 2 * n) };
        Point {
            role: self.signed(1),
            level: self.signed(2),
            transformers: self.signed(3),
            payment: self.signed(4),
            billing: self.signed(5),
            penalty: self.signed(6),
            places: [0, 1, 2, 3].map(place),
        }
    }
}

impl Desk {
    fn of_zeros() -> Desk {
        Desk {
            file: vec![0; FILE_MOST],
            size: 0,
            book: Held { closed: false, ..Held::void() },
            journal: vec![0; JOURNAL_MOST],
            lent: JOURNAL_MOST,
            index: vec![0; INDEX_MOST],
            places: INDEX_MOST,
        }
    }

    /// What a command prints, or nothing where it is not understood.
    fn obey(&mut self, name: &str, row: &Row) -> Option<String> {
        match name {
            "header" => return row.put(&mut self.file, &HEADER),
            "point" => return row.put(&mut self.file, &POINT),
            "entry" => return row.put(&mut self.file, &ENTRY),
            "stored" => return row.put(&mut self.journal, &ENTRY),
            "size" => self.size = row.at(0).min(FILE_MOST as u64) as usize,
            "lent" => self.lent = row.at(0).min(JOURNAL_MOST as u64) as usize,
            "fill" => self.journal.fill(row.at(0) as u8),
            "blank" => self.file.fill(row.at(0) as u8),
            "places" => self.places = row.at(0).min(INDEX_MOST as u64) as usize,
            "paint" => self.index.fill(row.at(0) as u16),
            "place" => *self.index.get_mut(row.at(0) as usize)? = u16::try_from(row.at(1)).ok()?,
            "book" => self.forge(row),
            "record" => self.book.points[row.place()?] = row.point(),
            "figures" => self.book.totals[row.place()?] = [1, 2, 3, 4, 5, 6, 7, 8].map(|index| row.at(index)),
            _ => return self.call(name, row),
        }
        Some(String::new())
    }

    fn forge(&mut self, row: &Row) {
        self.book.year = row.at(0);
        self.book.month = row.at(1);
        self.book.count = row.at(2);
        self.book.length = row.at(3);
        self.book.closed = row.at(4) == 1;
    }

    fn call(&mut self, name: &str, row: &Row) -> Option<String> {
        let (lent, index) = (&mut self.journal[..self.lent], &mut self.index[..self.places]);
        let answer = match name {
            "open" => return Some(self.open()),
            "totals" => return Some(self.totals()),
            "post" => return Some(self.post()),
            "write" => return Some(self.write(row.at(0).min(FILE_MOST as u64) as usize)),
            "show" => return Some(groups(&self.journal)),
            "index" => return Some(runs(&self.index)),
            "file" => return self.file.get(..row.at(0) as usize).map(groups),
            "deliver" => ("deliver", self.book.deliver(lent, index, &row.record(0, &ENTRY)?)),
            "bytes" => {
                let bytes: Vec<u8> = row.0.iter().map(|&byte| byte as u8).collect();
                ("deliver", self.book.deliver(lent, index, &bytes))
            }
            "back" => ("take-back", self.book.take_back(lent, index)),
            "close" => ("close", self.book.close(lent, index)),
            _ => return None,
        };
        Some(match answer {
            (call, 0) => format!(" {call} 0"),
            (call, number) => format!(" {call} {number} kept"),
        })
    }

    fn open(&mut self) -> String {
        let opened = open(&self.file[..self.size], self.lent, self.places);
        match opened {
            Ok(book) => {
                self.book = Held::fresh(&book);
                book.set_index(&mut self.index);
                " open 0".to_string()
            }
            Err(number) => {
                self.book = Held::void();
                format!(" open {number} void")
            }
        }
    }

    /// The entries that are posted lie in the journal as they lay in the file; beside a refused opening
    /// nothing is posted.
    fn post(&mut self) -> String {
        let file = &self.file[..self.size];
        let posted = post(file, self.lent, self.places);
        let (number, index) = (posted.number, posted.index);
        let Some(book) = posted.book else {
            self.book = Held::void();
            return format!(" post {number} {index} void");
        };
        let start = HEADER_SIZE + POINT_SIZE * book.points.len();
        let length = ENTRY_SIZE * book.entries.len();
        self.journal[..length].copy_from_slice(&file[start..][..length]);
        self.book = Held::fresh(&book);
        book.set_index(&mut self.index);
        format!(" post {number} {index}")
    }

    fn write(&mut self, room: usize) -> String {
        match self.book.write(&self.journal[..self.lent], &self.index[..self.places], room) {
            Ok(bytes) => {
                self.file[..bytes.len()].copy_from_slice(&bytes);
                format!(" write 0 {}", bytes.len())
            }
            Err(number) => format!(" write {number} 0"),
        }
    }

    fn totals(&self) -> String {
        let (number, length, places) = self.book.totals(&self.journal[..self.lent], &self.index[..self.places]);
        let mut text = format!(" totals {number} {length}");
        for (place, figures) in places.iter().enumerate().filter(|(_, figures)| figures.iter().any(|&f| f != 0)) {
            let figures: Vec<String> = figures.iter().map(i64::to_string).collect();
            text += &format!(" [{place} {}]", figures.join(" "));
        }
        text
    }
}

/// Bytes in hexadecimal, 12 to a group.
fn groups(bytes: &[u8]) -> String {
    bytes.chunks(12).map(|group| format!(" {}", hex(group))).collect()
}

/// An index as runs of equal places, each as their value and their count.
fn runs(index: &[u16]) -> String {
    index.chunk_by(|one, next| one == next).map(|run| format!(" {}*{}", run[0], run.len())).collect()
}
