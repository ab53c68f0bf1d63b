//! The calls of the C interface, made safe. No other module has unsafe code.
//!
//! A program must keep the rules of `bully.h`. Those that no test can check are kept here:
//!
//! - A handle is zeroed at first, and private to an [`AgentHandle`], a [`ReplicaHandle`] or a [`MemberHandle`], which
//!   can't be copied. So only the library writes it.
//! - A call that changes something takes its handle as `&mut`. A call that shows something takes it as `&`, but no such
//!   type is `Sync`, and the library calls nothing back: so a handle has one call at a time. It may move to another
//!   thread, as `Send` says.
//! - Pointers and lengths are those of slices and of values that live through the call. What is written is a value of
//!   the call's own, so it overlaps nothing.
//! - The library takes memory from the C library, whichever allocator the program has, and gives it back itself.

use crate::raw::{
    self, bully_agent, bully_group, bully_lease, bully_member, bully_member_state, bully_replica,
    bully_setup, bully_state, bully_status, bully_step, bully_verdict,
};
use crate::setup::Setup;
use crate::shown::Owned;
use std::cell::UnsafeCell;
use std::ffi::{c_char, CStr};
use std::ptr;

// How many items the room has that is offered first.
const FIRST_ROOM: usize = 64;

const NOT_ASCII: &str = "the bully library wrote a text that isn't ASCII";

macro_rules! handle {
    ($(#[$about:meta])* $name:ident: $held:ident, $close:ident) => {
        $(#[$about])*
        pub(crate) struct $name(UnsafeCell<$held>);

        // SAFETY: the header lets a handle go from thread to thread.
        unsafe impl Send for $name {}

        impl Drop for $name {
            fn drop(&mut self) {
                // SAFETY: the handle is this one's alone, and isn't used again. It is open, so nothing can be refused.
                let _ok = unsafe { raw::$close(self.0.get()) };
            }
        }
    };
}

handle! {
    /// A handle of an agent that is open. The status of a call is its error, unless it is OK.
    AgentHandle: bully_agent, bully_agent_close
}

handle! {
    /// The same of a replica.
    ReplicaHandle: bully_replica, bully_replica_close
}

handle! {
    /// The same of a member.
    MemberHandle: bully_member, bully_member_close
}

macro_rules! texts {
    ($($text:ident($($argument:ident: $kind:ty),*): $call:ident;)*) => {
        $(pub(crate) fn $text(&self, $($argument: $kind),*) -> Result<String, bully_status> {
            let bytes = filled(|room: &mut [u8], length| {
                let (pointer, size) = (room.as_mut_ptr().cast(), room.len());
                // SAFETY: the handle is open, and no other call of it is under way. The room is as long as is said.
                unsafe { raw::$call(self.0.get(), $($argument,)* pointer, size, length) }
            })?;
            Ok(text_of(bytes))
        })*
    };
}

macro_rules! numbers {
    ($($numbers:ident($($argument:ident: $kind:ty),*): $call:ident;)*) => {
        $(pub(crate) fn $numbers(&self, $($argument: $kind),*) -> Result<Vec<u16>, bully_status> {
            filled(|room: &mut [u16], count| {
                let (pointer, size) = (room.as_mut_ptr(), room.len());
                // SAFETY: the handle is open, and no other call of it is under way. The room is as long as is said.
                unsafe { raw::$call(self.0.get(), $($argument,)* pointer, size, count) }
            })
        })*
    };
}

macro_rules! structs {
    ($($shown:ident($($argument:ident: $kind:ty),*): $call:ident, $struct:ident;)*) => {
        $(pub(crate) fn $shown(&self, $($argument: $kind),*) -> Result<$struct, bully_status> {
            let mut shown = $struct::default();
            // SAFETY: the handle is open, and no other call of it is under way.
            ok(unsafe { raw::$call(self.0.get(), $($argument,)* &mut shown) })?;
            Ok(shown)
        })*
    };
}

macro_rules! events {
    ($($event:ident: $call:ident;)*) => {
        $(pub(crate) fn $event(&mut self) -> Result<(), bully_status> {
            // SAFETY: the handle is open, and `&mut` lets no other call of it be under way.
            ok(unsafe { raw::$call(self.0.get()) })
        })*
    };
}

impl AgentHandle {
    pub(crate) fn open(
        setup: &Setup,
        node: u16,
        events: u32,
        task: &[u16],
    ) -> Result<AgentHandle, bully_status> {
        let weights = &setup.weights;
        let mut opened = bully_agent {
            held: ptr::null_mut(),
        };
        // SAFETY: the handle is zeroed, and each pointer is that of a slice or a value of this call.
        ok(unsafe {
            raw::bully_agent_open(
                &mut opened,
                &raw_setup(setup),
                weights.as_ptr(),
                weights.len(),
                node,
                events,
                task.as_ptr(),
                task.len(),
            )
        })?;
        Ok(AgentHandle(UnsafeCell::new(opened)))
    }

    events! {
        recover: bully_agent_recover;
        crash: bully_agent_crash;
        check: bully_agent_check;
        timeout: bully_agent_timeout;
        start: bully_agent_start;
        advance: bully_agent_advance;
        drop_orphan: bully_agent_drop_orphan;
    }

    texts! {
        request(): bully_agent_request;
        rows(): bully_agent_rows;
        claim(): bully_agent_claim;
    }

    numbers! {
        up(): bully_agent_up;
        task(): bully_agent_task;
    }

    structs! {
        show(): bully_agent_show, bully_state;
    }

    pub(crate) fn plan(&mut self, owners: &[u16]) -> Result<(), bully_status> {
        // SAFETY: the handle is open, and `&mut` lets no other call of it be under way. The slice is read alone.
        ok(unsafe { raw::bully_agent_plan(self.0.get(), owners.as_ptr(), owners.len()) })
    }

    pub(crate) fn prepare(&self, old: &[u16], partitions: u16) -> Result<Vec<u16>, bully_status> {
        let mut owners = vec![0; usize::from(partitions)];
        // SAFETY: the handle is open, and no other call of it is under way. The old table is read alone, and the owners
        // are a vector of this call's own.
        ok(unsafe {
            raw::bully_agent_prepare(
                self.0.get(),
                old.as_ptr(),
                old.len(),
                owners.as_mut_ptr(),
                owners.len(),
            )
        })?;
        Ok(owners)
    }

    pub(crate) fn serve(&mut self, line: &str) -> Result<String, bully_status> {
        let mut reply = vec![0_u8; raw::BULLY_REPLY_MAX as usize];
        let mut length = 0;
        // SAFETY: the handle is open, and `&mut` lets no other call of it be under way. The line is read alone, and the
        // reply is a vector of this call's own.
        ok(unsafe {
            raw::bully_agent_serve(
                self.0.get(),
                line.as_ptr().cast(),
                line.len(),
                reply.as_mut_ptr().cast(),
                reply.len(),
                &mut length,
            )
        })?;
        reply.truncate(length);
        Ok(text_of(reply))
    }

    pub(crate) fn replied(&mut self, line: &str) -> Result<u32, bully_status> {
        let mut answer = 0;
        // SAFETY: the handle is open, and `&mut` lets no other call of it be under way. The line is read alone.
        ok(unsafe {
            raw::bully_agent_replied(self.0.get(), line.as_ptr().cast(), line.len(), &mut answer)
        })?;
        Ok(answer)
    }

    pub(crate) fn failed(&mut self, number: u32) -> Result<u32, bully_status> {
        let mut answer = 0;
        // SAFETY: the handle is open, and `&mut` lets no other call of it be under way.
        ok(unsafe { raw::bully_agent_failed(self.0.get(), number, &mut answer) })?;
        Ok(answer)
    }
}

impl ReplicaHandle {
    pub(crate) fn open(header: &str) -> Result<ReplicaHandle, bully_status> {
        let mut opened = bully_replica {
            held: ptr::null_mut(),
        };
        // SAFETY: the handle is zeroed, and the header is read alone.
        ok(unsafe { raw::bully_replica_open(&mut opened, header.as_ptr().cast(), header.len()) })?;
        Ok(ReplicaHandle(UnsafeCell::new(opened)))
    }

    /// Learns rows, each with its line end, and returns how many, also beside the status of the first that isn't
    /// learned.
    pub(crate) fn learn(&mut self, rows: &str) -> Result<usize, (bully_status, usize)> {
        let (pointer, mut taken) = (rows.as_ptr().cast(), 0);
        // SAFETY: the handle is open, and `&mut` lets no other call of it be under way. The rows are read alone.
        let status =
            unsafe { raw::bully_replica_learn(self.0.get(), pointer, rows.len(), &mut taken) };
        match ok(status) {
            Ok(()) => Ok(taken),
            Err(status) => Err((status, taken)),
        }
    }

    texts! {
        next(node: u16): bully_replica_next;
        event(node: u16, event: u32): bully_replica_event;
    }

    numbers! {
        up(node: u16): bully_replica_up;
        task(node: u16): bully_replica_task;
        planned(): bully_replica_planned;
    }

    structs! {
        show(node: u16): bully_replica_show, bully_state;
        group(): bully_replica_group, bully_group;
    }

    /// The rows that rebalance the group, each with its line end.
    pub(crate) fn rebalance(&self, live: &[u16], old: &[u16]) -> Result<String, bully_status> {
        let bytes = filled(|room: &mut [u8], length| {
            // SAFETY: the handle is open, and no other call of it is under way. The slices are read alone, and the room
            // is as long as is said.
            unsafe {
                raw::bully_replica_rebalance(
                    self.0.get(),
                    live.as_ptr(),
                    live.len(),
                    old.as_ptr(),
                    old.len(),
                    room.as_mut_ptr().cast(),
                    room.len(),
                    length,
                )
            }
        })?;
        Ok(text_of(bytes))
    }

    pub(crate) fn is_stable(&self, live: &[u16], offset: u32) -> Result<bool, bully_status> {
        let (nodes, count, mut is_stable) = (live.as_ptr(), live.len(), 0);
        // SAFETY: the handle is open, and no other call of it is under way. The slice is read alone.
        ok(unsafe {
            raw::bully_replica_is_stable(self.0.get(), nodes, count, offset, &mut is_stable)
        })?;
        Ok(is_stable != 0)
    }

    pub(crate) fn owned(&self, node: u16, offset: u32) -> Result<Option<Owned>, bully_status> {
        owned_of(|token, room, count| {
            let (partitions, size) = (room.as_mut_ptr(), room.len());
            // SAFETY: the handle is open, and no other call of it is under way. The room is as long as is said.
            unsafe {
                raw::bully_replica_owned(self.0.get(), node, offset, token, partitions, size, count)
            }
        })
    }
}

/// What an epoch begins with, for a member. The old table is empty if there is none.
pub(crate) struct RawOpening<'a> {
    pub(crate) header: &'a str,
    pub(crate) epoch: u32,
    pub(crate) node: u16,
    pub(crate) rows_max: u32,
    pub(crate) old: &'a [u16],
    pub(crate) is_cooperative: bool,
}

macro_rules! tellings {
    ($($(#[$about:meta])* $told:ident($($argument:ident: $kind:ty),*): $call:ident;)*) => {
        $($(#[$about])* pub(crate) fn $told(&mut self, $($argument: $kind),*) {
            // SAFETY: the handle is open, and `&mut` lets no other call of it be under way.
            let status = unsafe { raw::$call(self.0.get(), $($argument),*) };
            ok(status).unwrap_or_else(|status| unexpected(status));
        })*
    };
}

impl MemberHandle {
    pub(crate) fn open(
        opening: &RawOpening,
        process: u64,
        ttl: u64,
    ) -> Result<MemberHandle, bully_status> {
        let mut opened = bully_member {
            held: ptr::null_mut(),
        };
        // SAFETY: the handle is zeroed, and the slices are read alone.
        ok(unsafe {
            raw::bully_member_open(
                &mut opened,
                opening.header.as_ptr().cast(),
                opening.header.len(),
                opening.epoch,
                opening.node,
                opening.rows_max,
                opening.old.as_ptr(),
                opening.old.len(),
                u32::from(opening.is_cooperative),
                process,
                ttl,
            )
        })?;
        Ok(MemberHandle(UnsafeCell::new(opened)))
    }

    pub(crate) fn next(&mut self, now: u64) -> Result<bully_step, bully_status> {
        let mut step = bully_step::default();
        // SAFETY: the handle is open, and `&mut` lets no other call of it be under way.
        ok(unsafe { raw::bully_member_next(self.0.get(), now, &mut step) })?;
        Ok(step)
    }

    /// Learns rows, each with its line end, and returns how many, also beside the status of the first that isn't
    /// learned.
    pub(crate) fn learn(&mut self, rows: &str) -> Result<usize, (bully_status, usize)> {
        let (pointer, mut taken) = (rows.as_ptr().cast(), 0);
        // SAFETY: the handle is open, and `&mut` lets no other call of it be under way. The rows are read alone.
        let status =
            unsafe { raw::bully_member_learn(self.0.get(), pointer, rows.len(), &mut taken) };
        match ok(status) {
            Ok(()) => Ok(taken),
            Err(status) => Err((status, taken)),
        }
    }

    pub(crate) fn snapshot_read(
        &mut self,
        now: u64,
        epoch: u32,
        leases: &[bully_lease],
        kept: &[u16],
        has_unknown: bool,
        has_request: bool,
    ) -> Result<(), bully_status> {
        // SAFETY: the handle is open, and `&mut` lets no other call of it be under way. The slices are read alone.
        ok(unsafe {
            raw::bully_member_snapshot_read(
                self.0.get(),
                now,
                epoch,
                leases.as_ptr(),
                leases.len(),
                kept.as_ptr(),
                kept.len(),
                u32::from(has_unknown),
                u32::from(has_request),
            )
        })
    }

    pub(crate) fn followed(&mut self, now: u64, opening: &RawOpening) -> Result<(), bully_status> {
        // SAFETY: the handle is open, and `&mut` lets no other call of it be under way. The slices are read alone.
        ok(unsafe {
            raw::bully_member_followed(
                self.0.get(),
                now,
                opening.header.as_ptr().cast(),
                opening.header.len(),
                opening.epoch,
                opening.node,
                opening.rows_max,
                opening.old.as_ptr(),
                opening.old.len(),
                u32::from(opening.is_cooperative),
            )
        })
    }

    tellings! {
        answered(now: u64, answer: u32): bully_member_answered;
        passed(): bully_member_passed;
        not_there(): bully_member_not_there;
        woke(): bully_member_woke;
        leave(): bully_member_leave;
        lost(token: u32): bully_member_lost;
        stopped(): bully_member_stopped;
        stopped_on(partition: u16): bully_member_stopped_on;
    }

    pub(crate) fn owned(&self) -> Result<Option<Owned>, bully_status> {
        owned_of(|token, room, count| {
            let (partitions, size) = (room.as_mut_ptr(), room.len());
            // SAFETY: the handle is open, and no other call of it is under way. The room is as long as is said.
            unsafe { raw::bully_member_owned(self.0.get(), token, partitions, size, count) }
        })
    }

    pub(crate) fn owned_of(&self, lease: &bully_lease) -> Result<Option<Owned>, bully_status> {
        owned_of(|token, room, count| {
            let (at, partitions, size) = (self.0.get(), room.as_mut_ptr(), room.len());
            // SAFETY: the handle is open, and no other call of it is under way. The room is as long as is said.
            unsafe { raw::bully_member_owned_of(at, lease, token, partitions, size, count) }
        })
    }

    texts! {
        rebalance(): bully_member_rebalance;
    }

    numbers! {
        planned(): bully_member_planned;
        works(): bully_member_works;
        activities(): bully_member_activities;
    }

    structs! {
        is_affected(node: u16): bully_member_is_affected, u32;
        is_stable(): bully_member_is_stable, u32;
        needs_promises(now: u64): bully_member_needs_promises, u32;
        show(now: u64): bully_member_show, bully_member_state;
        node(node: u16): bully_member_node, bully_state;
        group(): bully_member_group, bully_group;
    }
}

/// Judges a trace. If it has a fault of form, its row comes beside the status.
pub(crate) fn check(trace: &[u8]) -> Result<bully_verdict, (bully_status, u32)> {
    let mut verdict = bully_verdict::default();
    // SAFETY: the trace is read alone, and the verdict is a value of this call's own.
    let status = unsafe { raw::bully_check(trace.as_ptr(), trace.len(), &mut verdict) };
    match ok(status) {
        Ok(()) => Ok(verdict),
        Err(status) => Err((status, verdict.number)),
    }
}

/// The header of a trace of this setup, with its line end.
pub(crate) fn header(setup: &Setup) -> Result<String, bully_status> {
    header_by(raw::bully_header, setup)
}

/// The same of version 3.
pub(crate) fn detailed_header(setup: &Setup) -> Result<String, bully_status> {
    header_by(raw::bully_detailed_header, setup)
}

/// A function of the library that writes the header of a setup.
type HeaderFunction = unsafe extern "C" fn(
    *const raw::bully_setup,
    *const u16,
    usize,
    *mut c_char,
    usize,
    *mut usize,
) -> bully_status;

/// The header that this function writes of a setup.
fn header_by(function: HeaderFunction, setup: &Setup) -> Result<String, bully_status> {
    let (setup, weights) = (raw_setup(setup), &setup.weights);
    let bytes = filled(|room: &mut [u8], length| {
        let (start, count) = (room.as_mut_ptr().cast(), room.len());
        // SAFETY: each pointer is that of a slice or a value. The room is as long as is said.
        unsafe {
            function(
                &setup,
                weights.as_ptr(),
                weights.len(),
                start,
                count,
                length,
            )
        }
    })?;
    Ok(text_of(bytes))
}

/// What the library writes of a configuration: its group, or if it isn't one its first fault.
pub(crate) fn configuration(text: &[u8]) -> Result<Result<Vec<u8>, String>, bully_status> {
    let mut is_group = true;
    let told = filled(|room: &mut [u8], length| {
        let (start, count) = (room.as_mut_ptr().cast(), room.len());
        // SAFETY: each pointer is that of a slice or a value. The room is as long as is said.
        let status =
            unsafe { raw::bully_configuration(text.as_ptr(), text.len(), start, count, length) };
        is_group = status != raw::BULLY_BAD_CONFIG;
        if is_group {
            status
        } else {
            raw::BULLY_OK
        }
    })?;
    Ok(if is_group {
        Ok(told)
    } else {
        Err(text_of(told))
    })
}

/// The version of the library.
pub(crate) fn version() -> &'static str {
    // SAFETY: the version is a text with a zero byte at its end, which is never freed.
    let version = unsafe { CStr::from_ptr(raw::bully_version()) };
    version.to_str().expect(NOT_ASCII)
}

/// Plans a table, and counts its moves.
pub(crate) fn table(
    setup: &Setup,
    members: &[u16],
    old: &[u16],
) -> Result<(Vec<u16>, u16), bully_status> {
    let weights = &setup.weights;
    let mut owners = vec![0; usize::from(setup.partitions)];
    let mut moves = 0;
    // SAFETY: each pointer is that of a slice or a value, and what is written is this call's own.
    ok(unsafe {
        raw::bully_table(
            &raw_setup(setup),
            weights.as_ptr(),
            weights.len(),
            members.as_ptr(),
            members.len(),
            old.as_ptr(),
            old.len(),
            owners.as_mut_ptr(),
            owners.len(),
            &mut moves,
        )
    })?;
    Ok((owners, moves))
}

/// A call returned a status that its comment in `bully.h` doesn't have.
pub(crate) fn unexpected(status: bully_status) -> ! {
    // SAFETY: the name is a text with a zero byte at its end, which is never freed.
    let name = unsafe { CStr::from_ptr(raw::bully_status_name(status)) };
    panic!("the bully library answered {status}, {name:?}, which isn't of this call")
}

/// The library showed a number that has no meaning in `bully.h`.
pub(crate) fn unexpected_number(number: u32) -> ! {
    panic!("the bully library showed {number}, which stands for nothing")
}

// Fills a room, or a larger one if the first is too small. The call is given the room, and where to write how much it
// has.
fn filled<T: Clone + Default>(
    mut call: impl FnMut(&mut [T], &mut usize) -> bully_status,
) -> Result<Vec<T>, bully_status> {
    let mut room = vec![T::default(); FIRST_ROOM];
    let mut length = 0;
    let mut status = call(&mut room, &mut length);
    if status == raw::BULLY_SHORT {
        room.resize(length, T::default());
        status = call(&mut room, &mut length);
    }
    ok(status)?;
    room.truncate(length);
    Ok(room)
}

// What a node owns, if anything. The call is given where to write the token, the room, and where to write how many
// partitions it has.
fn owned_of(
    mut call: impl FnMut(&mut u32, &mut [u16], &mut usize) -> bully_status,
) -> Result<Option<Owned>, bully_status> {
    let mut token = 0;
    let partitions = filled(|room: &mut [u16], count| call(&mut token, room, count))?;
    Ok((!partitions.is_empty()).then_some(Owned { token, partitions }))
}

fn ok(status: bully_status) -> Result<(), bully_status> {
    match status {
        raw::BULLY_OK => Ok(()),
        _ => Err(status),
    }
}

// The text of these bytes, which are ASCII, as `bully.h` has it.
fn text_of(bytes: Vec<u8>) -> String {
    String::from_utf8(bytes).expect(NOT_ASCII)
}

/// The row of this text without its line end, with which the library writes it.
pub(crate) fn without_end(mut row: String) -> String {
    let end = row.pop();
    assert_eq!(end, Some('\n'), "the end of a row of the bully library");
    row
}

/// The rows of this text without their line ends, with which the library writes them.
pub(crate) fn rows_of(text: &str) -> Vec<String> {
    text.lines().map(String::from).collect()
}

fn raw_setup(setup: &Setup) -> bully_setup {
    bully_setup {
        nodes: setup.nodes,
        partitions: setup.partitions,
        events_max: setup.events_max,
        keeps: u32::from(setup.keeps),
    }
}
