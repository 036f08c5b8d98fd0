//! What the Rust answers of a network that passed the record check, with document 01's refusals.

use super::network::Network;
use plain::numbering::Name;
use plain::{refused, Counts, Refused};
use tellegen::clarabel::solver::SupportedConeT::{NonnegativeConeT, SecondOrderConeT, ZeroConeT};
use tellegen::model::AcNetwork;
use tellegen::powerio_matrix::PreparedObjective;
use tellegen::problem::SocWrLayout;

/// A number, None, or a refusal.
pub type Found = Result<Option<u64>, Refused>;

pub const COLUMN_BLOCKS: u64 = 10;
pub const ROW_BLOCKS: u64 = 17;

/// The Rust's layout, and every name at its number.
pub struct Expected {
    pub net: AcNetwork,
    pub layout: SocWrLayout,
    pub columns: Vec<Name>,
    pub rows: Vec<Name>,
}

impl Expected {
    pub fn of(network: &Network) -> Self {
        let Counts { n, m, k, s } = network.counts;
        let objective = PreparedObjective::Feasibility;
        let net =
            tellegen::records::network(n as usize, m as usize, k as usize, s as usize, &network.bytes, 1.0, objective);
        let layout = SocWrLayout::new(&net);
        let mut made = Expected { net, layout, columns: vec![], rows: vec![] };
        made.columns = made.named(made.layout.nvar, COLUMN_BLOCKS, |e, name| {
            (name.place == 0).then(|| e.column_number(name.block, name.index))
        });
        made.rows =
            made.named(made.layout.ncon, ROW_BLOCKS, |e, name| Some(e.row_number(name.block, name.index, name.place)));
        made
    }

    /// The names by number. Stops where the Rust gives a number twice or leaves one out.
    fn named(&self, end: usize, blocks: u64, number: impl Fn(&Self, Name) -> Option<Found>) -> Vec<Name> {
        let mut names: Vec<Option<Name>> = vec![None; end];
        for block in 0..blocks {
            for index in 0.. {
                let name = Name { block, index, place: 0 };
                if number(self, name) == Some(refused(7, index)) && index >= self.axis(blocks, block) {
                    break;
                }
                for place in 0.. {
                    let Some(Ok(Some(at))) = number(self, Name { place, ..name }) else {
                        break;
                    };
                    assert!(names[at as usize].replace(Name { place, ..name }).is_none(), "two names at {at}");
                }
            }
        }
        names.into_iter().map(|name| name.expect("a number without a name")).collect()
    }

    /// The length of a block's axis.
    fn axis(&self, blocks: u64, block: u64) -> u64 {
        let lay = &self.layout;
        let axes = if blocks == COLUMN_BLOCKS { "kknmmmmmmk" } else { "nnmmmmnnkkkkmmkmm" };
        match axes.as_bytes()[block as usize] {
            b'n' => lay.n as u64,
            b'm' => lay.m as u64,
            _ => lay.k as u64,
        }
    }

    pub fn column_number(&self, block: u64, index: u64) -> Found {
        if block >= COLUMN_BLOCKS {
            return refused(7, block);
        }
        if index >= self.axis(COLUMN_BLOCKS, block) {
            return refused(7, index);
        }
        let (lay, i) = (&self.layout, index as usize);
        let found = match block {
            0 => Some(lay.col_pg(i)),
            1 => Some(lay.col_qg(i)),
            2 => Some(lay.col_w(i)),
            3 => Some(lay.col_wr(i)),
            4 => Some(lay.col_wi(i)),
            5 => Some(lay.col_pf(i)),
            6 => Some(lay.col_pt(i)),
            7 => Some(lay.col_qf(i)),
            8 => Some(lay.col_qt(i)),
            _ => lay.col_cost(i),
        };
        Ok(found.map(|x| x as u64))
    }

    pub fn row_number(&self, block: u64, index: u64, place: u64) -> Found {
        if block >= ROW_BLOCKS {
            return refused(7, block);
        }
        if index >= self.axis(ROW_BLOCKS, block) {
            return refused(7, index);
        }
        let i = index as usize;
        let places = match block {
            14 => self.net.piecewise_costs[i].as_ref().map(|cost| cost.segment_count()),
            15 => Some(4),
            16 => self.layout.r_sf(i).map(|_| 6),
            _ => Some(1),
        };
        match places {
            None => Ok(None),
            Some(places) if place >= places as u64 => refused(7, place),
            Some(_) => Ok(Some(self.row(block, i, place as usize) as u64)),
        }
    }

    /// A row that is there.
    fn row(&self, block: u64, i: usize, place: usize) -> usize {
        let lay = &self.layout;
        match block {
            0 => lay.r_pbal(i),
            1 => lay.r_qbal(i),
            2 => lay.r_ohm_pf(i),
            3 => lay.r_ohm_qf(i),
            4 => lay.r_ohm_pt(i),
            5 => lay.r_ohm_qt(i),
            6 => lay.r_wub(i),
            7 => lay.r_wlb(i),
            8 => lay.r_pgub(i),
            9 => lay.r_pglb(i),
            10 => lay.r_qgub(i),
            11 => lay.r_qglb(i),
            12 => lay.r_angub(i),
            13 => lay.r_anglb(i),
            14 => lay.r_cost_segment(i, place).expect("a cost row"),
            15 => lay.r_jabr(i) + place,
            _ if place < 3 => lay.r_sf(i).expect("a from row") + place,
            _ => lay.r_st(i).expect("a to row") + place - 3,
        }
    }

    pub fn cones(&self) -> Vec<u32> {
        let length = |cone: &_| match cone {
            ZeroConeT(d) | NonnegativeConeT(d) | SecondOrderConeT(d) => *d as u32,
            other => panic!("a cone {other:?}"),
        };
        self.layout.cones().iter().map(length).collect()
    }

    /// T and the count of cost columns.
    pub fn counted(&self) -> (u64, u64) {
        let t = self.layout.thermal_rows.iter().flatten().count();
        let costs = self.layout.cost_columns.iter().flatten().count();
        (t as u64, costs as u64)
    }
}
