//! What stories don't say, since it is of this crate alone: which part of a call is at fault, what errors and verdicts read like, what is
//! none, and what is longer than the room that is offered first.

use bully::{
    check, plan_table, Agent, Answer, FormFault, HeaderError, LearnError, LearnFault, LineFault,
    LogError, MembersError, NodeFault, OpenError, OwnedError, PlanError, PrepareError,
    RebalanceError, Refused, Replica, ReplicaEvent, ReplyError, RowError, ServeError, Setup,
    SetupFault, TableFault, TraceFault, Verdict, EVENTS_MAX, NODES_MAX, PARTITIONS_MAX, WEIGHT_MAX,
};

fn setup() -> Setup {
    Setup::new(3, 3, 1000)
}

fn opened(header: &str) -> Replica {
    Replica::open(header).expect("a header")
}

// Of the largest setup each node owns four partitions, in rising order.
fn largest() -> Vec<u16> {
    (0..PARTITIONS_MAX)
        .map(|partition| partition / 4 + 1)
        .collect()
}

/// Texts longer than the room that is offered first: those of the largest setup.
#[test]
fn long_texts() {
    let setup = Setup::new(NODES_MAX, PARTITIONS_MAX, 1000);
    let owners = largest();
    let numbers: Vec<String> = owners.iter().map(u16::to_string).collect();
    let table = numbers.join(" ");
    let opened = Agent::builder(&setup, 1).task(&owners).open();
    let mut agent = opened.expect("an agent");
    assert_eq!(agent.task().as_deref(), Some(owners.as_slice()));
    let claim = agent.claim().expect("memory");
    assert_eq!(claim, format!("saw,1,down,-,-,-,{table}\n"));
    assert_eq!(agent.prepare(Some(&owners)), Ok(vec![1; 4096]));
    agent.recover().expect("it is down");
    for line in ["ask,1024,5,1,halt", "ask,1024,8,1,new-coordinator"] {
        agent.serve(line).expect("it is up");
    }
    let ready = format!("ask,1024,11,1,ready,{table}");
    assert_eq!(agent.serve(&ready).as_deref(), Ok("tell,1024,11,yes"));
    let claim = agent.claim().expect("memory");
    assert_eq!(claim, format!("saw,1,normal,1024,1024,-,{table}\n"));
}

/// The same of a replica, which all nodes go by, and of a header with weights.
#[test]
fn long_rows() {
    let setup = Setup::new(100, 4096, 1000).with_weights(vec![7; 100]);
    let header = setup.header().expect("a setup");
    let sevens = ["7"; 100].join(" ");
    assert_eq!(header, format!("bully,2,100,4096,{sevens},clear"));
    let mut replica = opened(&header);
    let live: Vec<u16> = (1..=100).collect();
    let rows = replica.rebalance(&live, None).expect("rows");
    let is_plan = |row: &String| row.starts_with("plan,");
    let before = rows.iter().position(is_plan).expect("a plan");
    assert_eq!(replica.learn(&rows[..before]), Ok(before));
    assert_eq!(replica.next(100).as_ref(), Ok(&Some(rows[before].clone())));
    let after = &rows[before..];
    assert_eq!(replica.learn(after), Ok(after.len()));
    // 40 for each node, and 96 more.
    let owners = live
        .iter()
        .flat_map(|&node| vec![node; if node <= 96 { 41 } else { 40 }]);
    let owners: Vec<u16> = owners.collect();
    assert_eq!(replica.planned(), Some(owners.clone()));
    assert_eq!(replica.task(1), Ok(Some(owners)));
    assert_eq!(replica.up(100), Ok((1..100).collect()));
}

#[test]
fn the_largest_table() {
    let weights = vec![WEIGHT_MAX; usize::from(NODES_MAX)];
    let setup = Setup::new(NODES_MAX, PARTITIONS_MAX, EVENTS_MAX).with_weights(weights);
    let members: Vec<u16> = (1..=NODES_MAX).collect();
    let first = plan_table(&setup, &members, None).expect("a table");
    assert_eq!((first.owners, first.moves), (largest(), PARTITIONS_MAX));
    let same = plan_table(&setup, &members, Some(&largest())).expect("a table");
    assert_eq!((same.owners, same.moves), (largest(), 0));
}

/// An empty table is none.
#[test]
fn no_tables() {
    let opened_agent = Agent::builder(&setup(), 1).task(&[]).open();
    let agent = opened_agent.expect("an agent");
    assert_eq!(agent.task(), None);
    for old in [None, Some(&[][..])] {
        assert_eq!(agent.prepare(old), Ok(vec![1, 1, 1]));
        let rows = opened("bully,1,2,3").rebalance(&[1], old).expect("rows");
        assert!(rows.contains(&String::from("plan,1,1 1 1")));
        let table = plan_table(&setup(), &[1, 2, 3], old).expect("a table");
        assert_eq!((table.owners, table.moves), (vec![1, 2, 3], 3));
    }
}

/// The part of a call that is at fault.
#[test]
fn errors_name_the_part() {
    let task = Agent::builder(&setup(), 3).task(&[1, 2]).open().err();
    assert_eq!(task, Some(OpenError::Task(TableFault::Length)));
    let node = Agent::open(&setup(), 4).err();
    assert_eq!(node, Some(OpenError::Node(NodeFault::BadNode)));
    let fault = Setup::new(0, 3, 1000).header();
    assert_eq!(fault, Err(HeaderError::Setup(SetupFault::BadNodes)));
    let mut agent = Agent::open(&setup(), 1).expect("an agent");
    let refused = PlanError::Refused(Refused::IsDown);
    assert_eq!(agent.plan(&[1, 1, 1]), Err(refused));
    assert_eq!(agent.plan(&[1]), Err(PlanError::Table(TableFault::Length)));
    let length = Err(PrepareError::Old(TableFault::Length));
    assert_eq!(agent.prepare(Some(&[1])), length);
    let served = agent.serve("ask,2,0,1,halt");
    assert_eq!(served, Err(ServeError::Refused(Refused::CalleeDown)));
    assert_eq!(agent.serve(""), Err(ServeError::Line(LineFault::Word)));
    let replied = agent.replied("tell,1,0,yes");
    assert_eq!(replied, Err(ReplyError::Refused(Refused::NoCall)));
    assert_eq!(agent.replied(""), Err(ReplyError::Line(LineFault::Word)));
    let header = Replica::open("").err();
    assert_eq!(header, Some(LogError::Header(FormFault::BadHeader)));
    let node = NodeFault::BadNode;
    let table = |members: &[u16], old: &[u16]| plan_table(&setup(), members, Some(old)).err();
    let members = Some(MembersError::Members(node));
    assert_eq!(table(&[1, 65535], &[9]), members);
    let length = Some(MembersError::Old(TableFault::Length));
    assert_eq!(table(&[], &[9]), length);
    let replica = opened("bully,1,2,2");
    let rebalanced = replica.rebalance(&[3], None);
    assert_eq!(rebalanced, Err(RebalanceError::Live(node)));
    assert_eq!(replica.owned(3, 0), Err(OwnedError::Node(node)));
    assert_eq!(replica.next(3), Err(RowError::Node(node)));
    let row = replica.event(3, ReplicaEvent::Crash);
    assert_eq!(row, Err(RowError::Node(node)));
}

/// A text that isn't one row is found before anything is learned.
#[test]
fn texts_that_are_not_one_row() {
    let texts = [
        "",
        "\n",
        "recover,1\n",
        "recover,1\r",
        "recover,1\nrecover,2",
        "recover,1\rrecover,2",
        "\r\nrecover,1",
    ];
    for text in texts {
        let mut replica = opened("bully,1,2,2");
        let not_one = |place| {
            let fault = LearnFault::NotOneRow { place };
            Err(LearnError { taken: 0, fault })
        };
        assert_eq!(replica.learn([text]), not_one(0), "{text:?}");
        assert_eq!(replica.learn(["recover,2", text]), not_one(1), "{text:?}");
        let after_another_fault = ["check,2", "recover,1", text, ""];
        assert_eq!(replica.learn(after_another_fault), not_one(2), "{text:?}");
        assert_eq!(replica.group().rows, 0);
    }
}

/// A log that has room for events, but not for a row, since claims are rows, too.
#[test]
fn a_log_full_of_claims() {
    let mut replica = opened("bully,1,2,3");
    assert_eq!(replica.learn(["recover,1"]), Ok(1));
    let claims = std::iter::repeat_n("saw,1,election,-", 999_999);
    assert_eq!(replica.learn(claims), Ok(999_999));
    let group = replica.group();
    assert_eq!((group.rows, group.events), (1_000_000, 1));
    let full = Err(RowError::Refused(Refused::Full));
    assert_eq!(replica.next(1).map(drop), full);
    assert_eq!(replica.event(1, ReplicaEvent::Crash).map(drop), full);
    let rebalanced = replica.rebalance(&[1], None);
    assert_eq!(rebalanced, Err(RebalanceError::Refused(Refused::Full)));
    let fault = LearnFault::Form(FormFault::TooManyRows);
    let learned = replica.learn(["no row at all"]);
    assert_eq!(learned, Err(LearnError { taken: 0, fault }));
    let trace = "bully,1,1,1\n".to_string() + &"saw,1,down,-\n".repeat(1_000_001);
    let (row, fault) = (1_000_002, FormFault::TooManyRows);
    assert_eq!(
        check(trace.as_bytes()),
        Err(TraceFault::Form { row, fault })
    );
}

/// Each error says what is wrong, and may be handed on as one.
#[test]
fn errors_tell() {
    let fault: Box<dyn std::error::Error + Send + Sync> =
        Box::new(ServeError::from(LineFault::Kind));
    assert!(fault.to_string().contains("no word of a call"));
    assert_eq!(Refused::NoStep.name(), "NoStep");
    assert_eq!(Refused::IsDown.to_string(), "the node is down");
    assert_eq!(
        OpenError::from(TableFault::Owner),
        OpenError::Task(TableFault::Owner)
    );
    assert_eq!(format!("{:>8}", Answer::Yes), "     yes");
    assert_eq!(format!("{:>8}", ReplicaEvent::Drop), "    drop");
    let refused = LearnError {
        taken: 2,
        fault: LearnFault::Refused(Refused::IsDown),
    };
    assert_eq!(refused.to_string(), "rows learned: 2; the node is down");
    let fault: Box<dyn std::error::Error + Send + Sync> =
        Box::new(LearnFault::NotOneRow { place: 3 });
    assert_eq!(fault.to_string(), "the text at place 3 isn't one row");
    let (row, fault) = (7, FormFault::TooManyRows);
    let fault = TraceFault::Form { row, fault };
    assert_eq!(fault.to_string(), "trace row 7: TooManyRows");
}

/// A verdict reads as `bully check` writes it.
#[test]
fn verdicts_read() {
    let cause = Refused::IsDown;
    for (verdict, wanted) in [
        (Verdict::Lawful { events: 5 }, "lawful 5"),
        (Verdict::Refused { row: 2, cause }, "refused 2 IsDown"),
        (Verdict::Differs { row: 3 }, "differs 3"),
    ] {
        assert_eq!(verdict.to_string(), wanted);
    }
}

/// The crate has the version of the library.
#[test]
fn the_version() {
    assert_eq!(bully::version(), env!("CARGO_PKG_VERSION"));
}
