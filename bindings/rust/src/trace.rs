//! Verdicts on traces.

use crate::calls;
use crate::faults::{Refused, TraceFault};
use crate::raw;
use std::fmt;

/// The verdict on a trace, shown as the first line that `bully check` writes for it.
#[derive(Clone, Copy, Debug, PartialEq, Eq, Hash)]
pub enum Verdict {
    /// The rows are a run of the algorithm.
    Lawful {
        /// How many events were counted.
        events: u32,
    },
    /// An event is refused.
    Refused {
        /// The number of its row, from 1.
        row: u32,
        /// Why.
        cause: Refused,
    },
    /// A claim is false, or what a row says beside its event isn't so.
    Differs {
        /// The number of the row, from 1.
        row: u32,
    },
}

/// Judges a trace, as `bully check` does.
///
/// ```
/// use bully::{check, Refused, Verdict};
///
/// assert_eq!(check(b"bully,1,2,2\nrecover,1\n"), Ok(Verdict::Lawful { events: 1 }));
///
/// let verdict = check(b"bully,1,2,2\ncrash,1\n").unwrap();
/// assert_eq!(verdict, Verdict::Refused { row: 2, cause: Refused::IsDown });
/// assert_eq!(verdict.to_string(), "refused 2 IsDown");
///
/// let fault = check(b"bully,1,2,2\nrecover,65\n").unwrap_err();
/// assert_eq!(fault.to_string(), "trace row 2: BadRow");
/// ```
pub fn check(trace: &[u8]) -> Result<Verdict, TraceFault> {
    let verdict = calls::check(trace).map_err(|(status, row)| TraceFault::told(status, row))?;
    Ok(match verdict.kind {
        raw::BULLY_LAWFUL => Verdict::Lawful {
            events: verdict.number,
        },
        raw::BULLY_REFUSED => Verdict::Refused {
            row: verdict.number,
            cause: Refused::told(verdict.cause),
        },
        raw::BULLY_DIFFERS => Verdict::Differs {
            row: verdict.number,
        },
        kind => calls::unexpected_number(kind),
    })
}

impl fmt::Display for Verdict {
    fn fmt(&self, formatter: &mut fmt::Formatter<'_>) -> fmt::Result {
        match self {
            Verdict::Lawful { events } => write!(formatter, "lawful {events}"),
            Verdict::Refused { row, cause } => {
                write!(formatter, "refused {row} {}", cause.name())
            }
            Verdict::Differs { row } => write!(formatter, "differs {row}"),
        }
    }
}
