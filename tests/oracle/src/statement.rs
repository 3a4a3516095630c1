//! The text that the program `statement` prints for its standard input, with the last line of document 02,
//! Ticket 1.
use crate::book::{post, Book, Figures, PLACES, POINT_PLACES};
use crate::month_file::quarters;

const INPUT_MOST: usize = 65_536;
const JOURNAL: usize = 65_532;

/// The program's own, so that no file gets 17.
const INDEX: usize = POINT_PLACES * PLACES;

pub fn text(input: &[u8]) -> String {
    if input.len() > INPUT_MOST {
        return "refused 12\n".to_string();
    }
    let posted = post(input, JOURNAL, INDEX);
    match posted.book {
        Some(book) if posted.number == 0 => lines(&book),
        _ => format!("refused {}\n", posted.number),
    }
}

/// The month's line, one for each point, and the total.
fn lines(book: &Book) -> String {
    let count = quarters(book.year, book.month);
    let first = format!("{}-{:02} {} {}\n", book.year, book.month, count, book.entries.len());
    let mut points = String::new();
    for (point, figures) in book.totals().iter().take(book.points.len()).enumerate() {
        let mut printed = *figures;
        for amount in &mut printed[6..] {
            *amount = rappen(*amount);
        }
        points += &line(&point.to_string(), &printed);
    }
    first + &points + &line("total", &sums(&points))
}

/// A line's first word, and its columns.
fn line(first: &str, figures: &Figures) -> String {
    let columns: String = figures.iter().map(|figure| format!(" {figure}")).collect();
    format!("{first}{columns}\n")
}

/// "Each figure is the sum of the figures printed above it": what a member adds up, read from the text.
fn sums(points: &str) -> Figures {
    let mut sums = Figures::default();
    for line in points.lines() {
        for (sum, figure) in sums.iter_mut().zip(line.split(' ').skip(1)) {
            *sum += figure.parse::<i64>().expect("a printed figure");
        }
    }
    sums
}

pub fn rappen(amount: i64) -> i64 {
    (amount + 800_000) / 1_600_000
}
