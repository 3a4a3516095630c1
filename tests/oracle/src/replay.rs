//! The text that the program `replay` prints for its standard input: a file, the lengths of a journal and
//! of an index, and calls.
use crate::book::{open, Book};

/// What the program takes at most: bytes of input and of a journal, places of an index, bytes of answers.
pub const INPUT_MOST: usize = 1_600_000;
pub const JOURNAL_MOST: usize = 786_432;
pub const INDEX_MOST: usize = 32_768;
pub const ANSWERS_MOST: usize = 1_600_000;

/// Bytes of the answer to totals, and to any other call.
pub const TOTALS_SIZE: usize = 528;
pub const NUMBER_SIZE: usize = 8;

/// What the calls begin with: a file, and the lengths of journal and index.
struct Start<'a> {
    file: &'a [u8],
    journal: usize,
    index: usize,
}

enum Call<'a> {
    Deliver(&'a [u8]),
    TakeBack,
    Close,
    Totals,
}

pub fn text(input: &[u8]) -> String {
    if input.len() > INPUT_MOST {
        return "input too long\n".to_string();
    }
    let mut rest = input;
    let Some(start) = start(&mut rest) else {
        return "input too short\n".to_string();
    };
    if start.journal > JOURNAL_MOST {
        return "journal too long\n".to_string();
    }
    if start.index > INDEX_MOST {
        return "index too long\n".to_string();
    }
    let calls = calls(&mut rest);
    if calls.iter().map(Call::answer_size).sum::<usize>() > ANSWERS_MOST {
        return "answers too long\n".to_string();
    }
    match open(start.file, start.journal, start.index) {
        Ok(mut book) => calls.iter().fold("open 0\n".to_string(), |text, call| text + &call.made_on(&mut book)),
        Err(number) => format!("open {number}\n"),
    }
}

fn start<'a>(rest: &mut &'a [u8]) -> Option<Start<'a>> {
    let length = number(rest)?;
    let file = cut(rest, length)?;
    Some(Start { file, journal: number(rest)?, index: number(rest)? })
}

/// Ends at the first thing that is no whole call.
fn calls<'a>(rest: &mut &'a [u8]) -> Vec<Call<'a>> {
    std::iter::from_fn(|| call(rest)).collect()
}

fn cut<'a>(rest: &mut &'a [u8], length: usize) -> Option<&'a [u8]> {
    if rest.len() < length {
        return None;
    }
    let (front, back) = rest.split_at(length);
    *rest = back;
    Some(front)
}

fn number(rest: &mut &[u8]) -> Option<usize> {
    let bytes = cut(rest, 4)?;
    Some(bytes.iter().fold(0, |sum, &byte| sum * 256 + usize::from(byte)))
}

fn call<'a>(rest: &mut &'a [u8]) -> Option<Call<'a>> {
    match cut(rest, 1)?[0] {
        0 => {
            let length = cut(rest, 1)?[0];
            cut(rest, usize::from(length)).map(Call::Deliver)
        }
        1 => Some(Call::TakeBack),
        2 => Some(Call::Close),
        3 => Some(Call::Totals),
        _ => None,
    }
}

impl Call<'_> {
    fn answer_size(&self) -> usize {
        match self {
            Call::Totals => TOTALS_SIZE,
            _ => NUMBER_SIZE,
        }
    }

    fn made_on(&self, book: &mut Book) -> String {
        match self {
            Call::Deliver(bytes) => format!("deliver {}\n", book.deliver(bytes)),
            Call::TakeBack => format!("take_back {}\n", book.take_back()),
            Call::Close => format!("close {}\n", book.close()),
            Call::Totals => totals(book),
        }
    }
}

fn totals(book: &Book) -> String {
    let mut text = format!("totals 0 {}\n", book.entries.len());
    for (place, figures) in book.totals().iter().enumerate() {
        text += &place.to_string();
        for figure in figures {
            text += &format!(" {figure}");
        }
        text += "\n";
    }
    text
}
