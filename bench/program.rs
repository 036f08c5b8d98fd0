//! Program and reading beside the Rust's assembly of the same network, which is already in memory as `AcNetwork`.

use crate::clock::{growth, growth_head, head, line};
use crate::network::{Branch, Generator, Network, Shape};
use crate::random::Random;
use crate::records::read_once;
use plain::Counts;
use socwr::Net;
use std::hint::black_box;
use tellegen::formulation::SocWr;
use tellegen::model::AcNetwork;
use tellegen::powerio_matrix::PreparedObjective;
use tellegen::problem::conic::read_socwr;
use tellegen::problem::{build_conic_opf, SocWrLayout};
use tellegen::solve::RawSolution;

/// Floats of a bus, a branch, a generator and a segment.
const FLOATS: [usize; 4] = [6, 14, 7, 2];

/// A generator and two branches for each bus; every fourth generator has two segments.
fn usual(buses: u32) -> Shape {
    let branches =
        (0..buses * 2).map(|e| Branch { from: e % buses, to: (e + 1 + e / buses * 7) % buses, flags: (e % 4) as u8 });
    let flags = |g| 1 + if g % 4 == 3 { 2 } else { 0 };
    let generators = (0..buses).map(|g| Generator { bus: g, flags: flags(g), segments: 2 });
    Shape { buses, branches: branches.collect(), generators: generators.collect() }
}

/// As many, with one end of every branch at bus 0.
fn hub(buses: u32) -> Shape {
    let other = |e: u32| 1 + e / 2 % (buses - 1);
    let branches = (0..buses * 2).map(|e| Branch { from: e % 2 * other(e), to: (1 - e % 2) * other(e), flags: 3 });
    Shape { branches: branches.collect(), ..usual(buses) }
}

/// As many, with the ends of every branch at any two buses.
fn scattered(buses: u32) -> Shape {
    let random = &mut Random::new(7);
    let mut branch = |e: u32| {
        let from = random.below(buses as u64) as u32;
        let to = (from + 1 + random.below(buses as u64 - 1) as u32) % buses;
        Branch { from, to, flags: (e % 4) as u8 }
    };
    Shape { branches: (0..buses * 2).map(&mut branch).collect(), ..usual(buses) }
}

/// The network with plain floats, so that no time goes into rare ones.
fn plain_network(shape: &Shape) -> Network {
    let random = &mut Random::new(5);
    let mut network = Network::of(shape, random);
    let Counts { n, m, k, s } = network.counts;
    let kinds = [n, m, k, s].into_iter().zip(FLOATS).flat_map(|(count, floats)| vec![floats; count as usize]);
    for (record, floats) in kinds.enumerate() {
        for i in 0..floats {
            let at = plain::RECORD * record + 16 + 8 * i;
            network.bytes[at..at + 8].copy_from_slice(&random.plain().to_le_bytes());
        }
    }
    network
}

fn in_memory(network: &Network) -> AcNetwork {
    let Counts { n, m, k, s } = network.counts;
    let [n, m, k, s] = [n, m, k, s].map(|x| x as usize);
    tellegen::records::network(n, m, k, s, &network.bytes, 1.0, PreparedObjective::NetworkGeneratorCost)
}

/// Room for P, q, A and b: starts, then rows and values of P and of A.
struct Room {
    starts: Vec<u32>,
    rows: Vec<u32>,
    values: Vec<f64>,
    q: Vec<f64>,
    b: Vec<f64>,
}

impl Room {
    fn new(layout: &SocWrLayout, entries: usize) -> Self {
        Room {
            starts: vec![0; layout.nvar + 1],
            rows: vec![0; entries],
            values: vec![0.0; entries],
            q: vec![0.0; layout.nvar],
            b: vec![0.0; layout.ncon],
        }
    }

    fn a(&mut self, net: Net) {
        let answer = socwr::program_a(black_box(net), &mut self.starts, &mut self.rows, &mut self.values);
        assert_eq!(black_box(answer).number, 0);
    }

    fn all(&mut self, net: Net) {
        let answer = socwr::program_p(black_box(net), &mut self.starts, &mut self.rows, &mut self.values);
        assert_eq!(black_box(answer).number, 0);
        self.a(net);
        let (q, b) = (socwr::program_q(net, &mut self.q), socwr::program_b(net, &mut self.b));
        assert_eq!(black_box((q.number, b.number)), (0, 0));
    }
}

/// A network for us and for the Rust.
struct Case {
    network: Network,
    rust: AcNetwork,
    layout: SocWrLayout,
    entries: usize,
}

impl Case {
    fn new(shape: &Shape) -> Self {
        let network = plain_network(shape);
        let rust = in_memory(&network);
        let layout = SocWrLayout::new(&rust);
        let entries = build_conic_opf(&SocWr::new(), &rust).a.nzval.len();
        Case { network, rust, layout, entries }
    }

    fn net(&self) -> Net<'_> {
        Net { counts: self.network.counts, records: &self.network.bytes }
    }

    /// Twice the room that A takes.
    fn generous(&self) -> Room {
        Room::new(&self.layout, 2 * self.entries)
    }

    /// The Rust's P, q, A and b; answers how many rows.
    fn whole(&self) -> usize {
        build_conic_opf(&SocWr::new(), black_box(&self.rust)).b.len()
    }
}

/// The lines of the program.
fn assembly(case: &Case) {
    let mut generous = case.generous();
    let mut exact = Room::new(&case.layout, case.entries);
    line("A, twice the room (the Rust: all four)", || generous.a(case.net()), || case.whole());
    line("A, exactly the room (the Rust: all four)", || exact.a(case.net()), || case.whole());
    line("P, q, A, b", || generous.all(case.net()), || case.whole());
}

/// The lines of the reading. The Rust copies x, z and nine lists besides.
fn reading(case: &Case) {
    let random = &mut Random::new(6);
    let (net, layout) = (case.net(), &case.layout);
    let [x, z] = [layout.nvar, layout.ncon].map(|length| (0..length).map(|_| random.plain()).collect::<Vec<f64>>());
    let raw = RawSolution { x: x.clone(), z: z.clone(), objective: 0.0, iterations: vec![] };
    let mut prices = vec![0.0; 2 * layout.n];
    let ours = || (socwr::prices(black_box(net), &z, &mut prices), socwr::objective(black_box(net), 1, &x, 0.0));
    line("prices and cost (the Rust: all lists)", ours, || read_socwr(black_box(&case.rust), layout, black_box(&raw)));
}

fn one_size(title: &str, case: &Case) {
    let (net, c) = (case.net(), case.network.counts);
    head(&format!("{title}: n {} m {} k {} S {}", c.n, c.m, c.k, c.s));
    line("record check", || socwr::check_records(black_box(net)), || plain::check(black_box(c), net.records));
    assembly(case);
    reading(case);
}

/// The growth of the program.
fn grow(title: &str, small: &Case, large: &Case) {
    growth_head(title);
    let mut rooms = [small.generous(), large.generous()];
    let [a, b] = &mut rooms;
    let rust = (|| small.whole(), || large.whole());
    growth("A", || a.a(small.net()), || b.a(large.net()), rust.0, rust.1);
    growth("P, q, A, b", || a.all(small.net()), || b.all(large.net()), rust.0, rust.1);
    growth("the Rust's", rust.0, rust.1, rust.0, rust.1);
    growth(
        "the records read once",
        || read_once(small.net().records),
        || read_once(large.net().records),
        rust.0,
        rust.1,
    );
}

pub fn print() {
    println!("\nProgram and reading. Each entry checks the records first; the Rust has its network in memory.");
    println!("The Rust makes all four at once; its compressed columns are the stand-in's, made by counting.");
    let cases = [16, 128, 1024, 4096].map(|buses| Case::new(&usual(buses)));
    for case in &cases {
        one_size("usual", case);
    }
    one_size("hub", &Case::new(&hub(4096)));
    let anywhere = [1024, 4096].map(|buses| Case::new(&scattered(buses)));
    one_size("scattered", &anywhere[1]);
    grow("usual", &cases[2], &cases[3]);
    grow("scattered", &anywhere[0], &anywhere[1]);
}
