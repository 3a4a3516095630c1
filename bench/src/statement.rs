//! The statement of a month file, as text.
use crate::book::{post, Book};
use oracle::book::{Figures, PLACES, POINT_PLACES};
use oracle::statement::rappen;
use std::fmt::{Display, Write};

const INPUT_MOST: usize = 65_536;
const JOURNAL: usize = 65_532;

/// The text for what standard input holds.
pub fn text(input: &[u8]) -> String {
    match posted(input) {
        Ok(book) => lines(&book),
        Err(number) => format!("refused {number}\n"),
    }
}

/// The book, or the number that refuses the input.
fn posted(input: &[u8]) -> Result<Book, u32> {
    if input.len() > INPUT_MOST {
        return Err(12);
    }
    let mut journal = [0; JOURNAL];
    let mut index = [0; POINT_PLACES * PLACES];
    post(input, &mut journal, &mut index)
}

/// The month's line, one for each point, and the total.
fn lines(book: &Book) -> String {
    let mut text = format!("{}-{:02} {} {}\n", book.year, book.month, book.quarters, book.length);
    let mut total = Figures::default();
    for (point, figures) in book.sums.iter().take(book.points.len()).enumerate() {
        let [absolute, paid, free, billed, allowance, disconnected, credit, debit] = *figures;
        let printed = [absolute, paid, free, billed, allowance, disconnected, rappen(credit), rappen(debit)];
        for (sum, figure) in total.iter_mut().zip(printed) {
            *sum += figure;
        }
        add_line(&mut text, point, &printed);
    }
    add_line(&mut text, "total", &total);
    text
}

/// A line's first word, and its columns.
fn add_line(text: &mut String, first: impl Display, figures: &Figures) {
    write!(text, "{first}").expect("a string takes any text");
    for figure in figures {
        write!(text, " {figure}").expect("a string takes any text");
    }
    text.push('\n');
}
