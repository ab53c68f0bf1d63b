//! Plans for random groups by the rule of quotas, in plain Rust: what `bench/plan` compares `plan` with.
//!
//!     planner ROUNDS
//!
//! It makes 64 random tables of 256 partitions over 64 nodes. Each round plans from one of them, in turn, for a random
//! set of members. It prints the sums of the moves and of the bounds, and a number that the owners of all plans make.

use std::env;

const NODES: usize = 64;
const PARTITIONS: usize = 256;
const TABLES: usize = 64;

/// Pseudo-random numbers: SplitMix64.
struct Random(u64);

impl Random {
    fn next(&mut self) -> u64 {
        self.0 = self.0.wrapping_add(0x9e37_79b9_7f4a_7c15);
        let mut mixed = self.0;
        mixed = (mixed ^ mixed >> 30).wrapping_mul(0xbf58_476d_1ce4_e5b9);
        mixed = (mixed ^ mixed >> 27).wrapping_mul(0x94d0_49bb_1331_11eb);
        mixed ^ mixed >> 31
    }
}

struct Plan {
    owners: [u8; PARTITIONS],
    kept: usize,
}

fn random_table(random: &mut Random) -> [u8; PARTITIONS] {
    let mut owners = [0; PARTITIONS];
    for owner in &mut owners {
        *owner = (random.next() % NODES as u64) as u8;
    }
    owners
}

/// The members in rising order: each node by a bit, and the last one where no bit is set.
fn members_of(bits: u64) -> Vec<u8> {
    if bits == 0 {
        return vec![NODES as u8 - 1];
    }
    (0..NODES as u8).filter(|node| bits >> node & 1 == 1).collect()
}

fn quotas(members: &[u8], old: &[u8; PARTITIONS]) -> [usize; NODES] {
    let base = PARTITIONS / members.len();
    let mut rest = PARTITIONS % members.len();
    let mut held = [0; NODES];
    for &owner in old {
        held[owner as usize] += 1;
    }
    let mut quotas = [0; NODES];
    for large in [true, false] {
        for &member in members {
            if (held[member as usize] > base) == large {
                let more = usize::from(rest > 0);
                quotas[member as usize] = base + more;
                rest -= more;
            }
        }
    }
    quotas
}

fn plan(members: &[u8], old: &[u8; PARTITIONS]) -> Plan {
    let mut room = quotas(members, old);
    let mut owners = [u8::MAX; PARTITIONS];
    let mut kept = 0;
    for (new, &owner) in owners.iter_mut().zip(old) {
        if room[owner as usize] > 0 {
            room[owner as usize] -= 1;
            *new = owner;
            kept += 1;
        }
    }
    let mut next = 0;
    for new in owners.iter_mut().filter(|new| **new == u8::MAX) {
        while room[members[next] as usize] == 0 {
            next += 1;
        }
        room[members[next] as usize] -= 1;
        *new = members[next];
    }
    Plan { owners, kept }
}

fn main() {
    let rounds: usize = env::args().last().and_then(|word| word.parse().ok()).expect("a number of rounds");
    let mut random = Random(1982);
    let tables: Vec<_> = (0..TABLES).map(|_| random_table(&mut random)).collect();
    let (mut moves, mut bounds, mut print) = (0, 0, 0u64);
    for round in 0..rounds {
        let plan = plan(&members_of(random.next()), &tables[round % TABLES]);
        moves += PARTITIONS - plan.kept;
        bounds += plan.kept;
        for owner in plan.owners {
            print = print.wrapping_mul(31).wrapping_add(u64::from(owner) + 1);
        }
    }
    println!("moves {moves}\nbounds {bounds}\nowners {print}");
}
