//! Random clusters and links.

use crate::call::{Cluster, Link};
use crate::random::Random;

const MOST_SHARE: u64 = 1_000_000;

/// A cluster that is accepted.
fn cluster(random: &Random) -> Cluster {
    let members = match random.between(0, 5) {
        0 => random.pick(&[1, 63, 64]),
        1 => random.between(1, 64),
        2 => random.between(1, 16),
        _ => random.between(1, 5),
    };
    let shares = shares(random, members as usize);
    let (u, r) = bounds(random, shares.iter().map(|&share| u64::from(share)).sum());
    Cluster { shares, u, r }
}

fn shares(random: &Random, members: usize) -> Vec<u32> {
    let (low, high) = random.pick(&[(1, 1), (1, 1), (1, 5), (1, 100), (1, MOST_SHARE), (999_000, MOST_SHARE)]);
    let mut shares: Vec<u32> = (0..members).map(|_| random.between(low, high) as u32).collect();
    match random.between(0, 5) {
        0 => shares.fill(random.between(1, MOST_SHARE) as u32),
        1 => shares[random.place(members)] = MOST_SHARE as u32,
        _ => {}
    }
    shares
}

/// Bounds with r ≤ u and 2u + r + 1 ≤ D, often as large as they can be.
fn bounds(random: &Random, total: u64) -> (u32, u32) {
    let u = match random.between(0, 4) {
        0 => 0,
        1 => (total - 1) / 2,
        2 => (total - 1) / 3,
        _ => random.between(0, (total - 1) / 2),
    };
    let most = u.min(total - 1 - 2 * u);
    let r = match random.between(0, 4) {
        0 | 1 => 0,
        2 => most,
        3 => random.between(0, most.min(3)),
        _ => random.between(0, most),
    };
    (u as u32, r as u32)
}

fn quantum(random: &Random) -> u32 {
    let (low, high) = random.pick(&[(1, 10), (1, 10), (1, 100), (1, 1_024), (1_020, 1_024)]);
    random.between(low, high) as u32
}

/// Two clusters and a quantum that are accepted.
pub fn link(random: &Random) -> Link {
    Link {
        sending: cluster(random),
        receiving: cluster(random),
        q: quantum(random),
    }
}

/// The same, with something wrong in it now and then.
pub fn any_link(random: &Random, percent_wrong: u64) -> Link {
    let mut link = link(random);
    for cluster in [&mut link.sending, &mut link.receiving] {
        if random.chance(percent_wrong) {
            spoil(random, cluster);
        }
    }
    if random.chance(percent_wrong) {
        link.q = random.pick(&[0, 1_025, random.wild_32()]);
    }
    link
}

/// Makes a cluster wrong, most of the time; other causes may hide behind the first.
fn spoil(random: &Random, cluster: &mut Cluster) {
    if random.chance(25) {
        let members = random.pick(&[0, 65, 66, 200]);
        cluster.shares.resize(members, 1);
    }
    if random.chance(35) && !cluster.shares.is_empty() {
        let member = random.place(cluster.shares.len());
        cluster.shares[member] = random.pick(&[0, 1_000_001, random.wild_32()]);
    }
    if random.chance(50) {
        let total: u64 = cluster.shares.iter().map(|&share| u64::from(share)).sum();
        let edge = total.saturating_sub(u64::from(cluster.r)).div_ceil(2) as u32;
        match random.between(0, 3) {
            0 => cluster.r = cluster.u.wrapping_add(1),
            1 => cluster.u = edge.wrapping_sub(random.between(0, 1) as u32),
            2 => cluster.u = random.wild_32(),
            _ => cluster.r = random.wild_32(),
        }
    }
}
