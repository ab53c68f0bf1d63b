//! Planned tables.

use crate::calls;
use crate::faults::MembersError;
use crate::setup::Setup;

/// A table that was planned.
#[derive(Clone, Debug, PartialEq, Eq, Hash)]
pub struct PlannedTable {
    /// The owner of each partition.
    pub owners: Vec<u16>,
    /// How many partitions change their owner: all, if there is no old table.
    pub moves: u16,
}

/// Plans the table over these members, balanced, with the fewest moves from the old table, if any. An empty old table
/// is none.
///
/// ```
/// use bully::{plan_table, Setup};
///
/// let setup = Setup::new(3, 7, 1000).with_weights([1, 2, 1]);
/// let first = plan_table(&setup, &[1, 2, 3], None)?;
/// assert_eq!(first.owners, [1, 1, 2, 2, 2, 2, 3]);
///
/// let next = plan_table(&setup, &[1, 2, 3], Some(&[3, 3, 3, 2, 2, 2, 2]))?;
/// assert_eq!(next.owners, [3, 3, 1, 2, 2, 2, 2]);
/// assert_eq!(next.moves, 1);
/// # Ok::<(), bully::MembersError>(())
/// ```
pub fn plan_table(
    setup: &Setup,
    members: &[u16],
    old: Option<&[u16]>,
) -> Result<PlannedTable, MembersError> {
    let (owners, moves) =
        calls::table(setup, members, old.unwrap_or_default()).map_err(MembersError::told)?;
    Ok(PlannedTable { owners, moves })
}
