//! Copies the parts of the Rust source that are ported, with visibility widened.
//! Each edit names the lines it expects and stops where they are not there.

mod text;

use std::path::{Path, PathBuf};
use text::Text;

/// `problem/conic.rs`, whole: layout, assembly and reading.
fn problem_conic(from: &Path, to: &Path) {
    let mut t = Text::read(from, "problem/conic.rs");
    t.widen(41);
    t.replace("\n    thermal_rows: Vec", "\n    pub thermal_rows: Vec", 1);
    t.replace("\n    cost_columns: Vec", "\n    pub cost_columns: Vec", 1);
    t.replace("\n    cost_row_starts: Vec", "\n    pub cost_row_starts: Vec", 1);
    t.replace("\nfn read_socwr(", "\npub fn read_socwr(", 1);
    t.write(to);
}

/// `problem/mod.rs`, whole but for the direct-current module.
fn problem_mod(from: &Path, to: &Path) {
    let mut t = Text::read(from, "problem/mod.rs");
    t.drop_line("mod dc;");
    t.drop_line("pub(crate) use dc::DcOpfSolution;");
    t.drop_line("pub(crate) use dc::{dc_opf_cancellable, dc_opf_size};");
    t.replace("\nmod conic;\n", "\npub mod conic;\n", 1);
    t.widen(22);
    t.write(to);
}

/// `model/mod.rs`: `PiecewiseCost` alone.
fn model_mod(from: &Path, to: &Path) {
    let t = Text::read(from, "model/mod.rs");
    let first = "#[derive(Clone, Debug)]\npub(crate) struct PiecewiseCost {";
    let cost = t.piece(first, "unwrap_or(0.0)\n    }\n}\n");
    let mut t = t.with(format!("use powerio_matrix::PiecewiseLinearCost;\n\n{cost}"));
    t.widen(7);
    t.write_as(to, "model/cost.rs");
}

/// `model/ac.rs`: `AcNetwork` and the two functions of it that are ported. The cosine, sine and
/// tangent come from the record, so the three angles have types that hold them.
fn model_ac(from: &Path, to: &Path) {
    let t = Text::read(from, "model/ac.rs");
    let first = "#[derive(Clone, Debug)]\n#[non_exhaustive]\npub(crate) struct AcNetwork {";
    let network = t.piece(first, "\n}\n");
    let angle = t.piece("    pub(crate) fn conic_angle_bound_active(", "\n    }\n");
    let cost = t.piece("    pub(crate) fn generator_cost(", "\n    }\n");
    let uses = "use powerio_matrix::PreparedObjective;\n\nuse super::angles::{Angle, Shift};\n\
                use super::load_voltage::LoadTerm;\nuse super::PiecewiseCost;\nuse crate::api::SolveDiagnostic;\n";
    let mut t = t.with(format!("{uses}\n{network}\nimpl AcNetwork {{\n{angle}\n{cost}}}\n"));
    t.widen(18);
    t.replace("\n    pub shift: Vec<f64>,", "\n    pub shift: Vec<Shift>,", 1);
    t.replace("\n    pub angmin: Vec<f64>,", "\n    pub angmin: Vec<Angle>,", 1);
    t.replace("\n    pub angmax: Vec<f64>,", "\n    pub angmax: Vec<Angle>,", 1);
    t.write(to);
}

/// The residual loop of `solve_refined`, and the list that it runs over, as functions.
fn residual(t: &Text) -> String {
    let list =
        t.piece("    let mut reg: Vec<Triplet<usize, usize, f64>> = triplets\n", "(d, d, eps));\n        }\n    }\n");
    let pass = t.piece("            let mut r = rhs.clone();\n", "x[(tr.col, c)];\n                }\n            }\n");
    format!(
        "\npub fn regularized(dim: usize, triplets: &[(usize, usize, f64)], eps: f64) -> Vec<Triplet<usize, usize, f64>> {{\n\
         {list}    reg\n}}\n\n\
         pub fn residual(reg: Vec<Triplet<usize, usize, f64>>, rhs: &Mat<f64>, x: &Mat<f64>) \
         -> (Vec<Triplet<usize, usize, f64>>, Mat<f64>) {{\n\
         {pass}            (reg, r)\n}}\n"
    )
}

/// Both combinations of `forward_adjoint`, as functions that can be timed by themselves.
fn combinations(t: &Text) -> String {
    let end = "                .collect())\n";
    let forward = t.piece("            Ok(op_map\n", end);
    let adjoint = t.piece("            let cols_nnz: Vec<Vec<(usize, f64)>> = (0..nparam)\n", end);
    format!(
        "\npub fn forward(nparam: usize, op_map: &[Vec<(usize, f64)>], sign: f64, x: &Mat<f64>) \
         -> Result<Vec<Vec<f64>>, String> {{\n{forward}}}\n\n\
         pub fn adjoint(dim: usize, nparam: usize, op_map: &[Vec<(usize, f64)>], sign: f64, \
         forward_rhs: &Mat<f64>, y: &Mat<f64>) -> Result<Vec<Vec<f64>>, String> {{\n{adjoint}}}\n"
    )
}

/// `sens/mod.rs`, whole but for the other formulations, with the lifted loops behind it.
fn sens_mod(from: &Path, to: &Path) {
    let mut t = Text::read(from, "sens/mod.rs");
    let lifted = residual(&t) + &combinations(&t);
    t.drop_line("mod ac;");
    t.drop_line("mod dc;");
    t.drop_line("pub use ac::AcNewton;");
    t.drop_line("pub use dc::DcKkt;");
    t.replace("\nmod conic;\nmod interface;\n", "\npub mod conic;\npub mod interface;\n", 1);
    t.replace("\nfn max_abs(", "\npub fn max_abs(", 1);
    t.widen(3);
    t.add(&lifted);
    t.write(to);
}

/// `sens/conic.rs` and `sens/interface.rs`, whole.
fn sens_files(from: &Path, to: &Path) {
    Text::read(from, "sens/conic.rs").write(to);
    let mut t = Text::read(from, "sens/interface.rs");
    t.widen(3);
    t.write(to);
}

fn main() {
    let words: Vec<PathBuf> = std::env::args().skip(1).map(PathBuf::from).collect();
    let [from, to] = &words[..] else {
        eprintln!("usage: extract SOURCE TARGET");
        std::process::exit(2);
    };
    let from = from.join("crates/tellegen/src");
    problem_conic(&from, to);
    problem_mod(&from, to);
    model_mod(&from, to);
    model_ac(&from, to);
    sens_mod(&from, to);
    sens_files(&from, to);
}
