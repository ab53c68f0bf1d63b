//! Members: what each does next, by the rules in `docs/REBALANCING.md`.

use bully::{
    check, Activity, Ending, LearnFault, Lease, Member, NodeFault, Opening, OpeningError, Promise,
    Request, Seen, SeenError, Session, Step, StoreAnswer, Verdict, TTL_MAX, TTL_MIN,
};

const ONE: &str = "bully,1,1,1";

fn opening() -> Opening {
    Opening {
        header: ONE.to_string(),
        epoch: 7,
        node: 1,
        rows_max: 22,
        old: None,
        is_cooperative: false,
    }
}

fn seen(leases: &[Lease]) -> Seen {
    Seen {
        epoch: 7,
        leases: leases.to_vec(),
        has_unknown: false,
        has_request: false,
    }
}

/// A text that isn't one row changes nothing.
#[test]
fn a_text_that_is_not_one_row() {
    let mut member = Member::open(&opening(), 5, TTL_MIN).unwrap();
    let error = member.learn(["recover,1", ""]).expect_err("a blank");
    assert_eq!(error.fault, LearnFault::NotOneRow { place: 1 });
    assert_eq!(member.state(0).ending, None);
}

#[test]
fn names() {
    assert_eq!(format!("{}", Activity::Stopping), "stopping");
    assert_eq!(format!("{}", Ending::NotThere), "not there");
}

// The part of a call that is at fault, where two parts have the same status.
#[test]
fn errors_name_the_part() {
    let node = NodeFault::BadNode;
    let mut with = opening();
    with.node = 2;
    let opened = Member::open(&with, 5, TTL_MIN).map(drop);
    assert_eq!(opened, Err(OpeningError::Node(node)));
    let mut member = Member::open(&opening(), 5, TTL_MIN).unwrap();
    assert_eq!(member.next(0), Step::Ask(Request::Snapshot));
    let third = Lease {
        node: 3,
        session: Session {
            process: 5,
            number: 1,
        },
        promise: Promise {
            epoch: 7,
            offset: 0,
        },
        kept: Vec::new(),
        is_leaving: false,
    };
    let owned = member.owned_of(&third).map(drop);
    assert_eq!(owned, Err(SeenError::Node(node)));
    let read = member.snapshot_read(1, &seen(&[third]));
    assert_eq!(read, Err(SeenError::Node(node)));
}

// Two members over a log in memory rebalance their group, and the log is lawful.
#[test]
fn members_rebalance_their_group() {
    let mut log = vec!["bully,1,2,3".to_string()];
    let with = |node| Opening {
        header: log[0].clone(),
        epoch: 1,
        node,
        rows_max: 44,
        old: None,
        is_cooperative: false,
    };
    let mut members = [
        Member::open(&with(1), 1, TTL_MAX).unwrap(),
        Member::open(&with(2), 2, TTL_MAX).unwrap(),
    ];
    let mut leases: Vec<Lease> = Vec::new();
    let mut begun = 0;
    for now in 0..40 {
        let at = (now % 2) as usize;
        let member = &mut members[at];
        let node = at as u16 + 1;
        match member.next(now) {
            Step::Ask(Request::Snapshot) => {
                let offset = member.state(now).offset as usize;
                member.learn(&log[1 + offset..]).unwrap();
                let found = Seen {
                    epoch: 1,
                    ..seen(&leases)
                };
                member.snapshot_read(now, &found).unwrap();
            }
            Step::Ask(request) => {
                let promise = |offset| Promise { epoch: 1, offset };
                let offset = log.len() as u32 - 1;
                let is_done = match request {
                    Request::Acquire(session, at) if at == offset => {
                        leases.push(Lease {
                            node,
                            session,
                            promise: promise(at),
                            kept: Vec::new(),
                            is_leaving: false,
                        });
                        leases.sort_by_key(|lease| lease.node);
                        true
                    }
                    Request::Promise(session, at) => {
                        let held = leases.iter_mut().find(|held| held.session == session);
                        held.expect("its lease").promise = promise(at);
                        true
                    }
                    Request::Append(at) if at == offset => {
                        let are_idle = leases.iter().all(|held| held.promise.offset == at);
                        if are_idle {
                            log.extend(member.rebalance().unwrap());
                        }
                        are_idle
                    }
                    _ => false,
                };
                let answer = if is_done {
                    StoreAnswer::Done
                } else {
                    StoreAnswer::Refused
                };
                member.answered(now, answer);
            }
            Step::Wait(..) => member.woke(),
            Step::Begin(_) => begun += 1,
            Step::Stop => member.stopped(),
            step => panic!("{step:?}"),
        }
    }
    assert!(begun >= 2);
    let owned: Vec<u16> = members
        .iter()
        .flat_map(|member| member.owned().unwrap().expect("partitions").partitions)
        .collect();
    assert_eq!(owned.len(), 3);
    let text = log.join("\n") + "\n";
    assert!(matches!(check(text.as_bytes()), Ok(Verdict::Lawful { .. })));
}
