//! The limits of the ratios: one that is missed fails the command.
use std::fmt::{self, Display, Formatter};

/// What a ratio is held to.
#[derive(Clone, Copy)]
pub enum Limit {
    AtMost(f64),
    Below(f64),
}

/// 02, Ticket 5: "totals on a book of 60,000 entries takes less than 20 times as long as on one of 6,000".
pub const TOTALS_GROWTH: Limit = Limit::Below(20.0);

/// Our own aim for 02, Ticket 6, which has no figure: with an index post takes about as long for each entry on a
/// long journal as on a short one, so at 60,000 entries at most this many times as long as at 600.
pub const POST_GROWTH: Limit = Limit::AtMost(1.5);

/// The statement of a full file, as a whole process: most of its time is the start of a process, so ours may take
/// little longer than plain Rust's.
pub const STATEMENT: Limit = Limit::AtMost(1.2);

/// Post for each entry, with no process within the time: proved code may take up to twice as long as plain Rust that
/// does the same.
pub const POST: Limit = Limit::AtMost(2.0);

/// Totals for each entry, for the same reason.
pub const TOTALS: Limit = Limit::AtMost(2.0);

impl Limit {
    /// Whether a ratio keeps to it.
    pub fn allows(self, ratio: f64) -> bool {
        match self {
            Limit::AtMost(most) => ratio <= most,
            Limit::Below(bound) => ratio < bound,
        }
    }
}

impl Display for Limit {
    /// As the table has it.
    fn fmt(&self, text: &mut Formatter) -> fmt::Result {
        match self {
            Limit::AtMost(most) => write!(text, "at most {most}"),
            Limit::Below(bound) => write!(text, "below {bound}"),
        }
    }
}
