//! An `AcNetwork` from records that passed the record check, field by field as document 01 has them.

use crate::model::angles::{Angle, Shift};
use crate::model::{AcNetwork, PiecewiseCost};
use powerio_matrix::PreparedObjective;

const BYTES: usize = 128;

/// One record.
#[derive(Clone, Copy)]
struct Record<'a>(&'a [u8]);

impl Record<'_> {
    fn flag(self, bit: u32) -> bool {
        self.0[1] & (1 << bit) != 0
    }

    fn count(self) -> usize {
        u16::from_le_bytes([self.0[2], self.0[3]]) as usize
    }

    fn number(self, at: usize) -> usize {
        u32::from_le_bytes(self.0[at..at + 4].try_into().unwrap()) as usize
    }

    fn id(self) -> usize {
        self.number(4)
    }

    fn first(self) -> usize {
        self.number(8)
    }

    fn second(self) -> usize {
        self.number(12)
    }

    fn float(self, i: usize) -> f64 {
        let at = 16 + 8 * i;
        f64::from_le_bytes(self.0[at..at + 8].try_into().unwrap())
    }

    fn shift(self) -> Shift {
        Shift { cosine: self.float(7), sine: self.float(8) }
    }

    fn angmin(self) -> Angle {
        Angle { angle: self.float(9), tangent: self.float(11) }
    }

    fn angmax(self) -> Angle {
        Angle { angle: self.float(10), tangent: self.float(12) }
    }
}

/// The records of one kind.
struct Kind<'a>(Vec<Record<'a>>);

impl<'a> Kind<'a> {
    fn of(bytes: &'a [u8], first: usize, count: usize) -> Self {
        Kind(bytes.chunks_exact(BYTES).skip(first).take(count).map(Record).collect())
    }

    fn each<T>(&self, field: impl Fn(Record<'a>) -> T) -> Vec<T> {
        self.0.iter().map(|&r| field(r)).collect()
    }

    fn floats(&self, i: usize) -> Vec<f64> {
        self.each(|r| r.float(i))
    }
}

/// Each piecewise generator takes its own segments, in generator order.
fn costs(generators: &Kind, segments: &Kind) -> Vec<Option<PiecewiseCost>> {
    let mut rest = segments.0.iter();
    generators
        .each(|r| r)
        .into_iter()
        .map(|r| {
            r.flag(1).then(|| {
                let own: Vec<&Record> = rest.by_ref().take(r.count()).collect();
                PiecewiseCost {
                    slopes: own.iter().map(|s| s.float(0)).collect(),
                    intercepts: own.iter().map(|s| s.float(1)).collect(),
                }
            })
        })
        .collect()
}

/// A network without buses, branches and generators.
#[rustfmt::skip]
fn empty(base_mva: f64, objective: PreparedObjective) -> AcNetwork {
    AcNetwork {
        n: 0, m: 0, br_from: vec![], br_to: vec![], g: vec![], b: vec![], g_fr: vec![], b_fr: vec![],
        g_to: vec![], b_to: vec![], tap: vec![], shift: vec![], rate_a: vec![], thermal_rated: vec![],
        angmin: vec![], angmax: vec![], sw: vec![], gs: vec![], bs: vec![], pd: vec![], qd: vec![],
        pg: vec![], qg: vec![], k: 0, gen_bus: vec![], pmin: vec![], pmax: vec![], qmin: vec![],
        qmax: vec![], cq: vec![], cl: vec![], cc: vec![], piecewise_costs: vec![], gen_ids: vec![],
        vm_min: vec![], vm_max: vec![], vm_set: vec![], slacks: vec![], va_slacks: vec![],
        vm_case: vec![], va_case: vec![], pf_pv: vec![], bus_ids: vec![], branch_ids: vec![],
        bus_source_rows: vec![], branch_sources: None, bus_uids: vec![], branch_uids: vec![],
        base_mva, objective, voltage_bound_active: vec![], generator_capability_active: vec![],
        thermal_limit_active: vec![], angle_bound_active: vec![], has_remote_voltage_control: false,
        diagnostics: vec![], load_terms: vec![],
    }
}

fn buses(net: AcNetwork, r: &Kind) -> AcNetwork {
    AcNetwork {
        n: r.0.len(),
        bus_ids: r.each(Record::id),
        voltage_bound_active: r.each(|r| r.flag(0)),
        gs: r.floats(0),
        bs: r.floats(1),
        pd: r.floats(2),
        qd: r.floats(3),
        vm_min: r.floats(4),
        vm_max: r.floats(5),
        ..net
    }
}

fn branches(net: AcNetwork, r: &Kind) -> AcNetwork {
    AcNetwork {
        m: r.0.len(),
        branch_ids: r.each(Record::id),
        thermal_limit_active: r.each(|r| r.flag(0)),
        angle_bound_active: r.each(|r| r.flag(1)),
        br_from: r.each(Record::first),
        br_to: r.each(Record::second),
        g: r.floats(0),
        b: r.floats(1),
        g_fr: r.floats(2),
        b_fr: r.floats(3),
        g_to: r.floats(4),
        b_to: r.floats(5),
        tap: r.floats(6),
        shift: r.each(Record::shift),
        angmin: r.each(Record::angmin),
        angmax: r.each(Record::angmax),
        rate_a: r.floats(13),
        ..net
    }
}

fn generators(net: AcNetwork, r: &Kind, segments: &Kind) -> AcNetwork {
    AcNetwork {
        k: r.0.len(),
        gen_ids: r.each(Record::id),
        generator_capability_active: r.each(|r| r.flag(0)),
        gen_bus: r.each(Record::first),
        pmin: r.floats(0),
        pmax: r.floats(1),
        qmin: r.floats(2),
        qmax: r.floats(3),
        cq: r.floats(4),
        cl: r.floats(5),
        cc: r.floats(6),
        piecewise_costs: costs(r, segments),
        ..net
    }
}

/// The network of n buses, m branches, k generators and s segments in `bytes`.
pub fn network(
    n: usize,
    m: usize,
    k: usize,
    s: usize,
    bytes: &[u8],
    base_mva: f64,
    objective: PreparedObjective,
) -> AcNetwork {
    assert_eq!(bytes.len(), BYTES * (n + m + k + s));
    let segments = Kind::of(bytes, n + m + k, s);
    let net = empty(base_mva, objective);
    let net = buses(net, &Kind::of(bytes, 0, n));
    let net = branches(net, &Kind::of(bytes, n, m));
    generators(net, &Kind::of(bytes, n + m, k), &segments)
}
