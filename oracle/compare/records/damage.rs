//! Networks that the record check turns away, made from good ones.

use super::network::Network;
use crate::random::Random;
use plain::RECORD;

const KINDS: usize = 4;

/// The first record of a kind (0 bus .. 3 segment) and how many there are.
fn range(net: &Network, kind: usize) -> (usize, usize) {
    let lengths = [net.counts.n, net.counts.m, net.counts.k, net.counts.s].map(|x| x as usize);
    (lengths[..kind].iter().sum(), lengths[kind])
}

/// A record of the kind: where its bytes begin. None where the bytes have no such record.
fn record(net: &Network, kind: usize, random: &mut Random) -> Option<usize> {
    let (first, count) = range(net, kind);
    let at = RECORD * (first + random.below(count.max(1) as u64) as usize);
    (count > 0 && at + RECORD <= net.bytes.len()).then_some(at)
}

/// Bytes that must be zero in a record of the kind.
fn unused(kind: usize, random: &mut Random) -> usize {
    let ranges: &[(u64, u64)] = match kind {
        0 => &[(2, 4), (8, 16), (64, 128)],
        1 => &[(2, 4)],
        2 => &[(12, 16), (72, 128)],
        _ => &[(2, 4), (4, 8), (8, 16), (32, 128)],
    };
    let (start, end) = random.pick(ranges);
    match random.below(4) {
        0 => start as usize,
        1 => end as usize - 1,
        _ => (start + random.below(end - start)) as usize,
    }
}

/// A wrong kind, an unknown flag, or a byte that must be zero: number 3.
fn bad_record(net: &mut Network, random: &mut Random) {
    let kind = random.below(KINDS as u64) as usize;
    let Some(at) = record(net, kind, random) else { return };
    match random.below(4) {
        0 => net.bytes[at] = random.pick(&[0, 1, 2, 3, 4, 5, 255]),
        1 => net.bytes[at + 1] ^= 1 << random.pick(&[1, 2, 3, 7]),
        2 => net.bytes[at + unused(kind, random)] = 1 << random.below(8),
        // The sign of the last float, which only a branch has.
        _ => net.bytes[at + RECORD - 1] = 0x80,
    }
}

/// A count that does not go with its flag, or that changes the sum: number 3.
fn bad_count(net: &mut Network, random: &mut Random) {
    let Some(at) = record(net, 2, random) else { return };
    match random.below(3) {
        0 => net.bytes[at + 1] ^= 2,
        1 => net.bytes[at + 2] = net.bytes[at + 2].wrapping_add(random.pick(&[1, 255])),
        _ => net.bytes[at + 3] ^= 1 << random.below(8),
    }
}

/// A bus number that is not below n, or equal ends: numbers 4 and 5.
fn bad_bus(net: &mut Network, random: &mut Random) {
    let kind = random.pick(&[1, 1, 2]);
    let Some(at) = record(net, kind, random) else { return };
    let place = at + if kind == 1 { random.pick(&[8, 12]) } else { 8 };
    if kind == 1 && random.once_in(2) {
        net.bytes.copy_within(at + 8..at + 12, at + 12);
        return;
    }
    let n = net.counts.n as u32;
    let bus = random.pick(&[n, n + 1, n | 1 << 16, n | 1 << 31, u32::MAX]);
    net.bytes[place..place + 4].copy_from_slice(&bus.to_le_bytes());
}

/// A slice of another length: number 2.
fn bad_length(net: &mut Network, random: &mut Random) {
    let change = random.pick(&[1, 2, 64, 127, 128, 129, 255, 256]);
    let length = net.bytes.len();
    net.bytes.resize(if random.once_in(2) { length + change } else { length.saturating_sub(change) }, 0);
}

/// Counts past the limits, or that wrap, or that do not go with the records: numbers 1, 2 and 3.
fn bad_counts(net: &mut Network, random: &mut Random) {
    let which = random.below(4) as usize;
    let mut counts = [net.counts.n, net.counts.m, net.counts.k, net.counts.s];
    let limit = plain::check::LIMITS[which];
    let old = counts[which];
    counts[which] = random.pick(&[
        old + 1,
        old.wrapping_sub(1),
        limit,
        limit + 1,
        1 << 32,
        (1 << 32) + old,
        (1 << 57) + old,
        (1 << 58) + old,
        1 << 63,
        (1 << 63) + old,
        u64::MAX,
        u64::MAX - old,
    ]);
    if random.once_in(3) {
        counts.swap(random.below(4) as usize, random.below(4) as usize);
    }
    let [n, m, k, s] = counts;
    net.counts = plain::Counts { n, m, k, s };
}

/// The network with one to three of its parts spoilt.
pub fn spoil(net: &mut Network, random: &mut Random) {
    for _ in 0..1 + random.below(3) {
        match random.below(8) {
            0 | 1 => bad_record(net, random),
            2 => bad_count(net, random),
            3 | 4 => bad_bus(net, random),
            5 => bad_length(net, random),
            _ => bad_counts(net, random),
        }
        // Further damage looks records up by the counts, which must stay within the bytes.
        if net.counts.n.max(net.counts.m).max(net.counts.k).max(net.counts.s) > 1 << 20 {
            return;
        }
    }
}
