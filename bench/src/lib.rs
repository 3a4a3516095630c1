//! Document 01's posting, totals and statement as one would write them in Rust, without hints to the compiler, to be
//! measured beside the library. Fields are cut by shifts. Journal and index are lent, as they are to the library,
//! and the index says which entry stands. A point's band is worked out once. Posting keeps the sums up to date at
//! each delivery; totals go through the journal again as if each entry were delivered, and compare what that gives
//! with the index and the stored sums: the library's test of number 7, month and points apart, which nobody can
//! change in this book.
//!
//! The oracle gives the records, their ranges, the calendar and the shares of a quarter-hour. Its own book is not
//! measured: it reads fields from digits as text and searches the whole list for each entry, which no program in use
//! would do.

pub mod book;
pub mod months;
pub mod records;
pub mod statement;
