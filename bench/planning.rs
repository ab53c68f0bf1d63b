//! Tables by the rule of quotas, for any setup. Nodes are numbers from 1 on.

use crate::world::{NodeSet, Setup};

/// The owners of a balanced table over these members, with the fewest moves from the old one.
pub fn plan(setup: &Setup, members: &NodeSet, old: Option<&[u16]>) -> Box<[u16]> {
    let old = old.unwrap_or(&[]);
    let mut room = quotas(setup, members, old);
    let members: Vec<u16> = setup.members(members).collect();
    let mut owners = vec![0; setup.partitions].into_boxed_slice();
    for (new, &owner) in owners.iter_mut().zip(old) {
        if room[owner as usize] > 0 {
            room[owner as usize] -= 1;
            *new = owner;
        }
    }
    let mut next = 0;
    for new in owners.iter_mut().filter(|new| **new == 0) {
        while room[members[next] as usize] == 0 {
            next += 1;
        }
        room[members[next] as usize] -= 1;
        *new = members[next];
    }
    owners
}

/// How many partitions each member owns. The rest goes to those that hold more than their base, and then to the lowest.
fn quotas(setup: &Setup, members: &NodeSet, old: &[u16]) -> Vec<usize> {
    let bases = setup.bases(members);
    let mut rest = setup.partitions - bases.iter().sum::<usize>();
    let mut held = setup.counts();
    for &owner in old {
        held[owner as usize] += 1;
    }
    let mut quotas = bases.clone();
    for large in [true, false] {
        for node in setup.members(members) {
            let node = node as usize;
            if (held[node] > bases[node]) == large {
                let more = usize::from(rest > 0);
                quotas[node] += more;
                rest -= more;
            }
        }
    }
    quotas
}
