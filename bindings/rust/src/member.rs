//! The rules of a member: a process that acts for one node of a group over a shared log.

use crate::calls::{self, unexpected, unexpected_number, MemberHandle, RawOpening};
use crate::coded::coded;
use crate::faults::{
    LearnError, LearnFault, NodeFault, OpeningError, OutOfMemory, RebalanceError, SeenError,
};
use crate::raw::{self, bully_lease, bully_member_state, bully_step};
use crate::replica::text_of;
use crate::shown::{known, Group, Owned, State};
use std::fmt;

/// The shortest ttl, a millisecond, in nanoseconds.
pub const TTL_MIN: u64 = raw::BULLY_TTL_MIN;

/// The longest ttl, a day, in nanoseconds.
pub const TTL_MAX: u64 = raw::BULLY_TTL_MAX;

/// A session of a process. No two sessions that ever acquire a lease are equal.
#[derive(Clone, Copy, Debug, PartialEq, Eq, Hash)]
pub struct Session {
    /// A number that no other process of the group ever has.
    pub process: u64,
    /// How many sessions this process has asked for, up to and including this one.
    pub number: u64,
}

/// The offset of a session's promise: it works by no plan before this offset of this epoch, except on the partitions
/// that it keeps. An offset is a number of rows after the header.
#[derive(Clone, Copy, Debug, PartialEq, Eq, Hash)]
pub struct Promise {
    /// Which epoch.
    pub epoch: u32,
    /// Which offset of its log.
    pub offset: u32,
}

/// Who holds the lease of a node.
#[derive(Clone, Debug, PartialEq, Eq, Hash)]
pub struct Lease {
    /// The node.
    pub node: u16,
    /// The session that holds it.
    pub session: Session,
    /// What the session has promised.
    pub promise: Promise,
    /// What the promise keeps, in rising order: nothing in an eager group.
    pub kept: Vec<u16>,
    /// Whether the holder is known to leave, as one that is told to. Then the others stop at once what its leaving
    /// takes from them. A member's own lease shows it only once the member was told to leave.
    pub is_leaving: bool,
}

/// What an epoch begins with, for a member.
#[derive(Clone, Debug, PartialEq, Eq, Hash)]
pub struct Opening {
    /// The header of its log.
    pub header: String,
    /// Which epoch it is.
    pub epoch: u32,
    /// The node of the group that the process acts for.
    pub node: u16,
    /// How many rows the log may have: from 22 for each node to 1,000,000.
    pub rows_max: u32,
    /// The last table of the epoch before, if there was one; an empty table is none. In it 0 is an owner that this
    /// group doesn't have.
    pub old: Option<Vec<u16>>,
    /// Whether the group is cooperative: a change of it stops only the work that moves. Otherwise it is eager, and a
    /// change stops all work. All members of a group must agree on that. In a cooperative group a resource must keep the
    /// highest token of each partition.
    pub is_cooperative: bool,
}

impl Opening {
    fn raw(&self) -> RawOpening<'_> {
        RawOpening {
            header: &self.header,
            epoch: self.epoch,
            node: self.node,
            rows_max: self.rows_max,
            old: self.old.as_deref().unwrap_or_default(),
            is_cooperative: self.is_cooperative,
        }
    }
}

/// What a snapshot finds beside the rows, at the same moment. In another epoch than the member's nothing counts but the
/// epoch's number.
#[derive(Clone, Debug, PartialEq, Eq, Hash)]
pub struct Seen {
    /// The current epoch.
    pub epoch: u32,
    /// Who holds the lease of a node of that epoch, in rising order of the nodes.
    pub leases: Vec<Lease>,
    /// Whether an unknown process holds a lease, one whose name no node of that epoch has.
    pub has_unknown: bool,
    /// Whether other settings are requested.
    pub has_request: bool,
}

/// What became of a request.
#[derive(Clone, Copy, Debug, PartialEq, Eq, Hash)]
pub enum StoreAnswer {
    /// It was done.
    Done,
    /// It wasn't done, and won't be.
    Refused,
    /// It may have been done already, or may be done later, or never.
    Unanswered,
}

coded! {
    /// Why a member ends.
    Ending {
        /// It was told to leave.
        Left = BULLY_ENDING_LEFT, "left";
        /// The group has no node of its name any more.
        NotThere = BULLY_ENDING_NOT_THERE, "not there";
        /// The log has a row that isn't learned, or that has no event.
        Broken = BULLY_ENDING_BROKEN, "broken";
    }
}

coded! {
    /// What ends a wait early: other rows, sessions or requests to resize than were seen, or another holder that is
    /// known to leave; or one of these.
    Until {
        /// Nothing else.
        News = BULLY_UNTIL_NEWS, "news";
        /// A holder of a lease is idle up to the end of the log (it has promised that, and keeps nothing), and wasn't
        /// when the member last read a snapshot.
        AnyIdle = BULLY_UNTIL_ANY_IDLE, "any idle";
        /// All holders of leases are idle up to the end of the log.
        AllIdle = BULLY_UNTIL_ALL_IDLE, "all idle";
        /// A holder of a lease has made another promise than when the member last read a snapshot.
        Promises = BULLY_UNTIL_PROMISES, "promises";
    }
}

coded! {
    /// Why a member waits or backs off: what holds then, as the rules in `docs/REBALANCING.md` say.
    Reason {
        /// Its last request isn't answered yet.
        Answer = BULLY_REASON_ANSWER, "answer";
        /// Work that it was asked to stop hasn't ended yet.
        Stop = BULLY_REASON_STOP, "stop";
        /// A request was given up as unanswered not long ago.
        Pause = BULLY_REASON_PAUSE, "pause";
        /// Another process holds the lease of its node.
        Held = BULLY_REASON_HELD, "held";
        /// The others haven't rebalanced the group yet since the session before its own ended.
        Rebalance = BULLY_REASON_REBALANCE, "rebalance";
        /// The group is stable, and its node works on all that it owns, if it owns anything.
        Stable = BULLY_REASON_STABLE, "stable";
        /// The group is cooperative, and its lease isn't admitted yet.
        Admission = BULLY_REASON_ADMISSION, "admission";
        /// It isn't its turn to change the log.
        Turn = BULLY_REASON_TURN, "turn";
        /// Others must promise something before the log changes.
        Others = BULLY_REASON_OTHERS, "others";
    }
}

coded! {
    /// What a process does on a partition.
    Activity {
        /// It doesn't work on the partition.
        Idle = BULLY_ACTIVITY_IDLE, "idle";
        /// It works on it.
        Working = BULLY_ACTIVITY_WORKING, "working";
        /// It was asked to stop that, and hasn't reported yet that the work has ended.
        Stopping = BULLY_ACTIVITY_STOPPING, "stopping";
    }
}

/// A request to a store. Its offset is one of the member's epoch. Each request is done at one moment, or not at all.
#[derive(Clone, Copy, Debug, PartialEq, Eq, Hash)]
pub enum Request {
    /// Acquires the lease of the member's node for this session, which promises this offset and keeps nothing: if
    /// nobody has the lease, and the log ends there.
    Acquire(Session, u32),
    /// Renews the lease, if this session has had it without a gap.
    Renew(Session),
    /// Releases the lease, if this session has it.
    Release(Session),
    /// Reads the rows after all that was learned, for [`Member::learn`], and what [`Member::snapshot_read`] is given.
    Snapshot,
    /// Records this session's promise of this offset, which keeps what [`Member::works`] gives now: if it has the
    /// lease, and has promised no higher offset.
    Promise(Session, u32),
    /// Appends the rows of [`Member::rebalance`]: if the log ends at this offset, somebody holds a lease, and all
    /// holders of leases, also unknown processes, have promised this offset of this epoch and keep nothing. In a
    /// cooperative group, unless the member ends, nothing is compared of holders whose node isn't affected
    /// ([`Member::is_affected`]). A lease that is compared may also be as the member knows it: its own with its last
    /// promise that was done, another one as the last snapshot found it.
    Append(u32),
    /// Rolls the epoch over: ends it and begins the next one, if the log ends at this offset, somebody holds a lease,
    /// and all holders have promised this offset of this epoch and keep nothing. In a cooperative group nothing is
    /// compared of holders whose node isn't affected.
    RollOver(u32),
    /// Reads what the current epoch began with, for [`Member::followed`].
    Follow,
}

/// What a member does next. Times are nanoseconds.
#[derive(Clone, Copy, Debug, PartialEq, Eq, Hash)]
pub enum Step {
    /// Send this request to the store, and report its answer to the member. For a promise, an append or a roll-over
    /// read the rows, who is affected, and what the member works on before anything else is reported to it.
    Ask(Request),
    /// Begin to work by this token, on what [`Member::owned`] gives. Nothing is written first. Where it works already
    /// the work goes on, by this token from now on.
    Begin(u32),
    /// Stop the work on the partitions that are `Stopping` in [`Member::activities`], and call [`Member::stopped`] or
    /// [`Member::stopped_on`] when that has ended. In an eager group that is all work.
    Stop,
    /// Wait for this long at most, and then call [`Member::woke`].
    Wait(u64, Until, Reason),
    /// Do nothing for this long, or until something is reported to the member.
    BackOff(u64, Reason),
    /// Do nothing more: the member has ended.
    End(Ending),
}

/// Whether a process has the lease of its node.
#[derive(Clone, Copy, Debug, PartialEq, Eq, Hash)]
pub enum SessionState {
    /// It doesn't have it.
    Absent,
    /// This session may have it: the request to acquire it wasn't answered.
    Unknown(Session),
    /// This session has it. Its last renewal, or the acquire, was asked for at this time.
    Live(Session, u64),
}

/// The state of a process's work. The token is the one by which it began last.
#[derive(Clone, Copy, Debug, PartialEq, Eq, Hash)]
pub enum Work {
    /// It works on nothing.
    Idle,
    /// It works.
    Working(u32),
    /// Its work has ended by itself.
    Lost(u32),
    /// It was asked to stop all its work or a part of it, and hasn't reported yet that this has ended.
    Stopping(u32),
}

/// The state of a member.
#[derive(Clone, Copy, Debug, PartialEq, Eq, Hash)]
pub struct MemberState {
    /// Whether its process has the lease of its node.
    pub session: SessionState,
    /// For how many nanoseconds its lease is still sure. For that long it may work on what it was asked to begin.
    pub sure_left: u64,
    /// The last offset of this epoch that its session has promised, whether or not the store knows of that.
    pub promised: u32,
    /// The state of its work.
    pub work: Work,
    /// Why it ends, if it does.
    pub ending: Option<Ending>,
    /// Which epoch it is in.
    pub epoch: u32,
    /// The end of the log, as far as it was learned.
    pub offset: u32,
    /// Its node.
    pub node: u16,
    /// Whether its last snapshot found that other settings are requested.
    pub has_request: bool,
}

/// A process that acts for one node of a group over a shared log, by the rules in `docs/REBALANCING.md`: what it knows,
/// and what it does next.
///
/// It has no clock, no store and no random numbers of its own: [`Member::next`] says what is to be done now, the
/// program that drives it does that, and reports the result to it. Times are whole nanoseconds of one clock that never
/// goes back.
///
/// A member may move from thread to thread. Threads can't share one without a lock.
///
/// ```compile_fail,E0277
/// fn shared<T: Sync>() {}
/// shared::<bully::Member>();
/// ```
pub struct Member {
    handle: MemberHandle,
}

impl Member {
    /// A member that has learned nothing, and asked for nothing. `process` is a number that no other process of the
    /// group ever has. `ttl`, from [`TTL_MIN`] to [`TTL_MAX`], is for how many nanoseconds a lease lasts after its last
    /// renewal.
    pub fn open(opening: &Opening, process: u64, ttl: u64) -> Result<Member, OpeningError> {
        let handle = MemberHandle::open(&opening.raw(), process, ttl);
        let handle = handle.map_err(OpeningError::told)?;
        Ok(Member { handle })
    }

    /// What it does now: the first of its rules that applies. The member notes that, so the step must be done. As
    /// long as a request is awaited it asks for nothing else: it stops its work, or backs off. So if the answer of a
    /// request is lost, call [`Member::answered`] with `Unanswered`.
    pub fn next(&mut self, now: u64) -> Step {
        let step = self.handle.next(now);
        Step::of(&step.unwrap_or_else(|status| unexpected(status)))
    }

    /// What became of its last request. A snapshot or a follow whose result doesn't come counts as not answered.
    /// Nothing changes if no request is awaited.
    pub fn answered(&mut self, now: u64, answer: StoreAnswer) {
        self.handle.answered(now, answer.number());
    }

    /// Learns the rows that a snapshot found after all that was learned, before [`Member::snapshot_read`] is called for
    /// it, and returns how many, as [`Replica::learn`](crate::Replica::learn) does. If a row isn't learned, unless an
    /// allocation failed, the member ends as `Broken`; so it does if a row has no event. A text that isn't one row
    /// changes nothing.
    pub fn learn<R: AsRef<str>>(
        &mut self,
        rows: impl IntoIterator<Item = R>,
    ) -> Result<usize, LearnError> {
        let text = text_of(rows).map_err(|fault| LearnError { taken: 0, fault })?;
        self.handle.learn(&text).map_err(|(status, taken)| {
            let fault = LearnFault::told(status);
            LearnError { taken, fault }
        })
    }

    /// What a snapshot found beside the rows. Nothing changes if no snapshot is awaited.
    pub fn snapshot_read(&mut self, now: u64, seen: &Seen) -> Result<(), SeenError> {
        let leases: Vec<bully_lease> = seen.leases.iter().map(Lease::raw).collect();
        let kept: Vec<u16> = seen
            .leases
            .iter()
            .flat_map(|lease| lease.kept.clone())
            .collect();
        let told = self.handle.snapshot_read(
            now,
            seen.epoch,
            &leases,
            &kept,
            seen.has_unknown,
            seen.has_request,
        );
        told.map_err(SeenError::told)
    }

    /// Instead of any other answer: its epoch is over, and the epoch's log was removed.
    pub fn passed(&mut self) {
        self.handle.passed();
    }

    /// What the current epoch began with: the member goes on there with its session, and has learned nothing of the
    /// log. Nothing changes if no follow is awaited. It counts as not answered if the epoch isn't after the member's,
    /// or if the member works on something.
    pub fn followed(&mut self, now: u64, opening: &Opening) -> Result<(), OpeningError> {
        let told = self.handle.followed(now, &opening.raw());
        told.map_err(OpeningError::told)
    }

    /// The current epoch's group has no node of its name: the member ends. Nothing changes if no follow is awaited.
    pub fn not_there(&mut self) {
        self.handle.not_there();
    }

    /// A wait is over.
    pub fn woke(&mut self) {
        self.handle.woke();
    }

    /// The member must leave in an orderly way.
    pub fn leave(&mut self) {
        self.handle.leave();
    }

    /// All work has ended by itself. The token is that of the last [`Step::Begin`], also for work that was started
    /// before; nothing changes with another one.
    pub fn lost(&mut self, token: u32) {
        self.handle.lost(token);
    }

    /// All work has ended. Even if there was none, the member promises again before a change that affects it.
    pub fn stopped(&mut self) {
        self.handle.stopped();
    }

    /// The work on this partition has ended, whether or not the member was asked to stop it. If the node still owns the
    /// partition, the member begins again there. Even if there was no such work or partition, the member promises again
    /// before a change that affects it.
    pub fn stopped_on(&mut self, partition: u16) {
        self.handle.stopped_on(partition);
    }

    /// What its process does on each partition, from partition 0 on.
    pub fn activities(&self) -> Vec<Activity> {
        let numbers = self.handle.activities();
        let numbers = numbers.unwrap_or_else(|status| unexpected(status));
        numbers
            .into_iter()
            .map(|number| known(number.into(), Activity::of(number.into())))
            .collect()
    }

    /// The partitions on which its process works, in rising order, also those that it was asked to stop: what a promise
    /// that is asked for now keeps.
    pub fn works(&self) -> Result<Vec<u16>, OutOfMemory> {
        self.handle.works().map_err(OutOfMemory::told)
    }

    /// Whether a change of the log affects this node, by the last snapshot: in an eager group each live node, in a
    /// cooperative one each that loses a partition by the coming table. The member of an affected node must promise the
    /// end of the log before the change. (A member that ends affects all.)
    pub fn is_affected(&self, node: u16) -> Result<bool, NodeFault> {
        let is_affected = self.handle.is_affected(node).map_err(NodeFault::told)?;
        Ok(is_affected != 0)
    }

    /// The rows of an append: they rebalance the group among the live nodes, as
    /// [`Replica::rebalance`](crate::Replica::rebalance) does, or in a cooperative group among those that are admitted;
    /// if the member ends, among none.
    pub fn rebalance(&self) -> Result<Vec<String>, RebalanceError> {
        let text = self.handle.rebalance();
        Ok(calls::rows_of(&text.map_err(RebalanceError::told)?))
    }

    /// What its node owns, by a plan after all that its session has promised, if anything.
    pub fn owned(&self) -> Result<Option<Owned>, OutOfMemory> {
        self.handle.owned().map_err(OutOfMemory::told)
    }

    /// What the holder of this lease owns, by a plan after what its session has promised in this epoch, if anything:
    /// its process may work on that; in a cooperative group also on what its promise keeps.
    pub fn owned_of(&self, lease: &Lease) -> Result<Option<Owned>, SeenError> {
        let owned = self.handle.owned_of(&lease.raw());
        owned.map_err(SeenError::told)
    }

    /// Whether the group is stable for the member, by its last snapshot, so that there is nothing to do but to work:
    /// among the live nodes that were admitted then. A member that acquires no lease may observe a group by this call.
    pub fn is_stable(&self) -> bool {
        let is_stable = self.handle.is_stable();
        is_stable.unwrap_or_else(|status| unexpected(status)) != 0
    }

    /// Whether the next snapshot must show what others have promised. In an eager group it must. In a cooperative group
    /// it must if no higher node is live, or if the group isn't stable for the member and its turn to change the log
    /// has come, or while the member keeps out a node that came again. Otherwise these promises may be left out: the
    /// member does the same. A snapshot may change what this returns. If that is true after one that left promises out,
    /// the member needs another one.
    pub fn needs_promises(&self, now: u64) -> bool {
        let needs_promises = self.handle.needs_promises(now);
        needs_promises.unwrap_or_else(|status| unexpected(status)) != 0
    }

    /// The state of the member now.
    pub fn state(&self, now: u64) -> MemberState {
        let shown = self.handle.show(now);
        MemberState::of(&shown.unwrap_or_else(|status| unexpected(status)))
    }

    /// The state of a node, by what the member has learned.
    pub fn node(&self, node: u16) -> Result<State, NodeFault> {
        let state = self.handle.node(node).map_err(NodeFault::told)?;
        Ok(State::of(&state))
    }

    /// The state of its group, by what the member has learned.
    pub fn group(&self) -> Group {
        let group = self.handle.group();
        Group::of(&group.unwrap_or_else(|status| unexpected(status)))
    }

    /// The owners of the last plan's table, if there is a plan in what the member has learned.
    pub fn planned(&self) -> Option<Vec<u16>> {
        let owners = self.handle.planned();
        let owners = owners.unwrap_or_else(|status| unexpected(status));
        (!owners.is_empty()).then_some(owners)
    }
}

impl fmt::Debug for Member {
    fn fmt(&self, formatter: &mut fmt::Formatter<'_>) -> fmt::Result {
        let mut shown = formatter.debug_tuple("Member");
        shown.field(&self.state(0)).finish()
    }
}

impl StoreAnswer {
    // The number by which the library knows it.
    fn number(self) -> u32 {
        match self {
            StoreAnswer::Done => raw::BULLY_STORE_DONE,
            StoreAnswer::Refused => raw::BULLY_STORE_REFUSED,
            StoreAnswer::Unanswered => raw::BULLY_STORE_UNANSWERED,
        }
    }
}

impl Lease {
    fn raw(&self) -> bully_lease {
        bully_lease {
            process: self.session.process,
            number: self.session.number,
            epoch: self.promise.epoch,
            offset: self.promise.offset,
            node: self.node,
            kept_count: self.kept.len().try_into().unwrap_or(u16::MAX),
            is_leaving: self.is_leaving.into(),
        }
    }
}

impl Step {
    // The step that the library returned.
    fn of(told: &bully_step) -> Step {
        match told.kind {
            raw::BULLY_STEP_ASK => Step::Ask(Request::of(told)),
            raw::BULLY_STEP_BEGIN => Step::Begin(told.token),
            raw::BULLY_STEP_STOP => Step::Stop,
            raw::BULLY_STEP_WAIT => Step::Wait(
                told.at_most,
                known(told.until, Until::of(told.until)),
                known(told.reason, Reason::of(told.reason)),
            ),
            raw::BULLY_STEP_BACK_OFF => {
                Step::BackOff(told.at_most, known(told.reason, Reason::of(told.reason)))
            }
            raw::BULLY_STEP_END => Step::End(known(told.ending, Ending::of(told.ending))),
            kind => unexpected_number(kind),
        }
    }
}

impl Request {
    // The request of the step that the library returned.
    fn of(told: &bully_step) -> Request {
        let session = Session {
            process: told.process,
            number: told.number,
        };
        match told.request {
            raw::BULLY_ASK_ACQUIRE => Request::Acquire(session, told.offset),
            raw::BULLY_ASK_RENEW => Request::Renew(session),
            raw::BULLY_ASK_RELEASE => Request::Release(session),
            raw::BULLY_ASK_SNAPSHOT => Request::Snapshot,
            raw::BULLY_ASK_PROMISE => Request::Promise(session, told.offset),
            raw::BULLY_ASK_APPEND => Request::Append(told.offset),
            raw::BULLY_ASK_ROLL_OVER => Request::RollOver(told.offset),
            raw::BULLY_ASK_FOLLOW => Request::Follow,
            request => unexpected_number(request),
        }
    }
}

impl MemberState {
    // What the library shows of the member.
    fn of(shown: &bully_member_state) -> MemberState {
        MemberState {
            session: SessionState::of(shown),
            sure_left: shown.sure_left,
            promised: shown.promised,
            work: Work::of(shown),
            ending: Ending::of(shown.ending),
            epoch: shown.epoch,
            offset: shown.offset,
            node: shown.node,
            has_request: shown.has_request != 0,
        }
    }
}

impl SessionState {
    fn of(shown: &bully_member_state) -> SessionState {
        let session = Session {
            process: shown.process,
            number: shown.number,
        };
        match shown.session {
            raw::BULLY_SESSION_ABSENT => SessionState::Absent,
            raw::BULLY_SESSION_UNKNOWN => SessionState::Unknown(session),
            raw::BULLY_SESSION_LIVE => SessionState::Live(session, shown.since),
            number => unexpected_number(number),
        }
    }
}

impl Work {
    fn of(shown: &bully_member_state) -> Work {
        match shown.work {
            raw::BULLY_WORK_IDLE => Work::Idle,
            raw::BULLY_WORK_WORKING => Work::Working(shown.token),
            raw::BULLY_WORK_LOST => Work::Lost(shown.token),
            raw::BULLY_WORK_STOPPING => Work::Stopping(shown.token),
            number => unexpected_number(number),
        }
    }
}
