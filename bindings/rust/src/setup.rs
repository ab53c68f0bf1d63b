//! What a group is set up with.

use crate::calls;
use crate::faults::HeaderError;

/// The most nodes that a setup may have.
pub const NODES_MAX: u16 = crate::raw::BULLY_NODES_MAX as u16;
/// The most partitions that a setup may have.
pub const PARTITIONS_MAX: u16 = crate::raw::BULLY_PARTITIONS_MAX as u16;
/// The highest weight of a node.
pub const WEIGHT_MAX: u16 = crate::raw::BULLY_WEIGHT_MAX as u16;
/// The most events that a setup may bound.
pub const EVENTS_MAX: u32 = crate::raw::BULLY_EVENTS_MAX as u32;

/// What a group is set up with. It is plain data: each call that takes one says what is wrong with it.
///
/// ```
/// use bully::Setup;
///
/// let setup = Setup::new(3, 7, 1000).with_weights([1, 2, 1]).keeping();
/// assert_eq!(setup.weights, [1, 2, 1]);
/// assert!(setup.keeps);
/// ```
#[derive(Clone, Debug, PartialEq, Eq, Hash)]
pub struct Setup {
    /// How many nodes the group has, from 1 to [`NODES_MAX`]. They are numbered from 1.
    pub nodes: u16,
    /// How many partitions the task has, from 1 to [`PARTITIONS_MAX`].
    pub partitions: u16,
    /// How many events the group has at most, from 1 to [`EVENTS_MAX`].
    pub events_max: u32,
    /// The weights of nodes 1, 2, .., each from 1 to [`WEIGHT_MAX`]; or none, and then each node weighs 1.
    pub weights: Vec<u16>,
    /// Whether a node keeps its task over a crash.
    pub keeps: bool,
}

impl Setup {
    /// A setup in which each node weighs 1 and no task is kept.
    pub fn new(nodes: u16, partitions: u16, events_max: u32) -> Setup {
        Setup {
            nodes,
            partitions,
            events_max,
            weights: Vec::new(),
            keeps: false,
        }
    }

    /// The same with these weights, that of node 1 first.
    pub fn with_weights(self, weights: impl Into<Vec<u16>>) -> Setup {
        let weights = weights.into();
        Setup { weights, ..self }
    }

    /// The same, but tasks are kept over a crash.
    pub fn keeping(self) -> Setup {
        Setup {
            keeps: true,
            ..self
        }
    }

    /// The header of a log of this group for the rows of replicas, a row without its line end: of version 1 if that can
    /// express the setup, and else of version 2, as `docs/FORMATS.md` says. A header doesn't have `events_max`: a log
    /// has room for [`EVENTS_MAX`] events, whatever the bound of the setup.
    ///
    /// ```
    /// use bully::Setup;
    ///
    /// let setup = Setup::new(3, 7, 1000);
    /// assert_eq!(setup.header()?, "bully,1,3,7");
    /// assert_eq!(setup.with_weights([1, 2, 1]).header()?, "bully,2,3,7,1 2 1,clear");
    /// # Ok::<(), bully::HeaderError>(())
    /// ```
    pub fn header(&self) -> Result<String, HeaderError> {
        let header = calls::header(self).map_err(HeaderError::told)?;
        Ok(calls::without_end(header))
    }

    /// The header of version 3 of this group, for the rows of an [`Agent`](crate::Agent), without its line end.
    ///
    /// ```
    /// use bully::{Agent, Setup, Verdict, check};
    ///
    /// let setup = Setup::new(2, 3, 1000);
    /// let mut agent = Agent::open(&setup, 1)?;
    /// let mut trace = setup.detailed_header()? + "\n";
    /// agent.recover()?;
    /// trace += &agent.rows()?;
    /// agent.start()?;
    /// trace += &agent.rows()?;
    /// assert_eq!(trace, "bully,3,2,3,1 1,clear\nrecover,1\nstart,1,are-you-up,2\n");
    /// assert_eq!(check(trace.as_bytes())?, Verdict::Lawful { events: 2 });
    /// # Ok::<(), Box<dyn std::error::Error>>(())
    /// ```
    pub fn detailed_header(&self) -> Result<String, HeaderError> {
        let header = calls::detailed_header(self).map_err(HeaderError::told)?;
        Ok(calls::without_end(header))
    }
}
