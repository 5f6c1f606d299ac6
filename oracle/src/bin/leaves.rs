//! Compares the proved leaves (`libleaves.a`) with the ported Rust, bit by bit.

use kan_oracle::arguments::numbers;
use kan_oracle::bits::hex;
use kan_oracle::draws::Draws;
use kan_oracle::exponential::exponential;
use kan_oracle::grids::{accepted_families, drawn_grid, refused_family};
use kan_oracle::inputs::{basis_inputs, drawn_input};
use kan_oracle::ported::{self, demand_e, Grid};
use kan_oracle::tally::Tally;
use std::process::ExitCode;
use std::thread;

/// The proved code, as its C declarations have it.
mod proved {
    #[link(name = "leaves", kind = "static")]
    extern "C" {
        fn kan_exponential(x: f32) -> f32;
        fn kan_silu(x: f32) -> f32;
        fn kan_silu_derivative(x: f32) -> f32;
        fn kan_root(n: usize) -> f32;
        fn kan_basis_value(intervals: usize, lo: f32, hi: f32, i: usize, x: f32) -> f32;
        fn kan_basis_slope(intervals: usize, lo: f32, hi: f32, i: usize, x: f32) -> f32;
    }

    use kan_oracle::ported::Grid;

    // Every function takes and gives numbers alone, so that any arguments are safe.
    pub fn exponential(x: f32) -> f32 {
        unsafe { kan_exponential(x) }
    }

    pub fn silu(x: f32) -> f32 {
        unsafe { kan_silu(x) }
    }

    pub fn silu_derivative(x: f32) -> f32 {
        unsafe { kan_silu_derivative(x) }
    }

    pub fn root(n: usize) -> f32 {
        unsafe { kan_root(n) }
    }

    pub fn basis_value(grid: &Grid, i: usize, x: f32) -> f32 {
        unsafe { kan_basis_value(grid.intervals, grid.lo, grid.hi, i, x) }
    }

    pub fn basis_slope(grid: &Grid, i: usize, x: f32) -> f32 {
        unsafe { kan_basis_slope(grid.intervals, grid.lo, grid.hi, i, x) }
    }
}

const THREADS: u64 = 2;
const PATTERNS: u64 = 1 << 32;
const LARGEST_ROOT: usize = 41_666;
const MOST_INTERVALS: usize = 250_000;
const INPUTS_PER_GRID: usize = 8;
/// The line of docs/DIFFERENCES.md.
const SLOPE_OUTSIDE: &str = "slope outside the knots";

fn main() -> ExitCode {
    let [every, offset, grids] = numbers([("--every", 1), ("--offset", 0), ("--basis", 20_000)]);
    demand_e();
    let mut tallies = sweep_in_threads(every.clamp(1, PATTERNS), offset.min(PATTERNS));
    tallies.push(compare_roots());
    tallies.extend(Basis::compared(grids));
    tallies.iter().for_each(Tally::print);
    if tallies.iter().all(Tally::is_alike) {
        ExitCode::SUCCESS
    } else {
        ExitCode::FAILURE
    }
}

/// E, SiLU and its derivative at the patterns offset, offset + every, ..
fn sweep_in_threads(every: u64, offset: u64) -> Vec<Tally> {
    let threads: Vec<_> = (0..THREADS)
        .map(|thread| (offset + thread * every, THREADS * every))
        .map(|(first, step)| thread::spawn(move || sweep(first, step)))
        .collect();
    let parts = threads
        .into_iter()
        .map(|thread| thread.join().expect("a sweep ends"));
    parts
        .reduce(|mut all, part| {
            for (tally, other) in all.iter_mut().zip(part) {
                tally.absorb(other);
            }
            all
        })
        .expect("there is a thread")
}

fn sweep(first: u64, step: u64) -> Vec<Tally> {
    let mut e = Tally::new("E");
    let mut silu = Tally::new("SiLU");
    let mut derivative = Tally::new("SiLU derivative");
    let mut pattern = first;
    while pattern < PATTERNS {
        let x = f32::from_bits(pattern as u32);
        let at = || format!("{pattern:08x}");
        e.compare(proved::exponential(x), exponential(x), at);
        silu.compare(proved::silu(x), ported::silu(x), at);
        derivative.compare(proved::silu_derivative(x), ported::silu_derivative(x), at);
        pattern += step;
    }
    vec![e, silu, derivative]
}

fn compare_roots() -> Tally {
    let mut roots = Tally::new("root");
    for n in (0..=50_000).chain([1 << 24, 1 << 32, usize::MAX]) {
        let in_range = (1..=LARGEST_ROOT).contains(&n);
        let expected = if in_range { ported::root(n) } else { 0.0 };
        roots.compare(proved::root(n), expected, || n.to_string());
    }
    roots
}

/// Basis values and slopes, apart for grids that the configuration accepts and all others.
struct Basis {
    accepted: [Tally; 2],
    refused: [Tally; 2],
    outside: Tally,
}

impl Basis {
    fn compared(grids: u64) -> Vec<Tally> {
        let mut basis = Basis {
            accepted: [
                Tally::new("basis value"),
                Tally::with_line("basis slope", SLOPE_OUTSIDE),
            ],
            refused: [
                Tally::new("value, grid refused"),
                Tally::with_line("slope, grid refused", SLOPE_OUTSIDE),
            ],
            outside: Tally::new("basis outside its range"),
        };
        if grids > 0 {
            basis.compare_chosen();
            basis.compare_most_intervals();
            // One of the chosen grids is there for it: else the line in docs/DIFFERENCES.md is no longer true.
            assert!(basis.accepted[1].parted() > 0, "no slope outside parts");
        }
        basis.compare_drawn(grids);
        let [value, slope] = basis.accepted;
        let [refused_value, refused_slope] = basis.refused;
        vec![value, slope, refused_value, refused_slope, basis.outside]
    }

    fn compare_chosen(&mut self) {
        for family in accepted_families().iter().chain([&refused_family()]) {
            for grid in &family.grids {
                self.compare_at(grid, &basis_inputs(grid));
                self.compare_outside(grid);
            }
        }
    }

    fn compare_drawn(&mut self, grids: u64) {
        let mut draws = Draws::new(3);
        for _ in 0..grids {
            let grid = drawn_grid(&mut draws);
            let knots = grid.knots();
            let inputs = [0.0; INPUTS_PER_GRID].map(|_| drawn_input(&mut draws, &grid, &knots));
            self.compare_at(&grid, &inputs);
        }
    }

    fn compare_at(&mut self, grid: &Grid, inputs: &[f32]) {
        for &x in inputs {
            self.compare_indices(grid, x, 0..grid.intervals + 3);
        }
    }

    /// The largest grids: at the few indices that can be other than zero, and at drawn ones.
    fn compare_most_intervals(&mut self) {
        let mut draws = Draws::new(4);
        for intervals in [65_536, 249_995, MOST_INTERVALS] {
            let grid = Grid::new(intervals, -1.0, 1.0);
            let knots = grid.knots();
            for _ in 0..20 {
                let x = drawn_input(&mut draws, &grid, &knots);
                let above = knots.partition_point(|&knot| knot <= x);
                let near = above.saturating_sub(8)..(above + 4).min(intervals + 3);
                let drawn = [0; 20].map(|_| draws.whole(0, intervals as u64 + 2) as usize);
                self.compare_indices(&grid, x, near.chain(drawn));
            }
            self.compare_outside(&grid);
        }
    }

    fn compare_indices(&mut self, grid: &Grid, x: f32, indices: impl Iterator<Item = usize>) {
        let (rust, document) = (grid.basis_of_rust(x), grid.basis(x));
        let [value, slope] = if grid.is_accepted() {
            &mut self.accepted
        } else {
            &mut self.refused
        };
        for i in indices {
            let at = || place(grid, i, x);
            value.compare(proved::basis_value(grid, i, x), rust.values[i], at);
            let proved = proved::basis_slope(grid, i, x);
            slope.compare_parted(proved, document.slopes[i], rust.slopes[i], at);
        }
    }

    /// An index that no basis value has, and more intervals than any model: +0.0.
    fn compare_outside(&mut self, grid: &Grid) {
        let x = grid.lo;
        let most = Grid::new(MOST_INTERVALS + 1, grid.lo, grid.hi);
        let endless = Grid::new(usize::MAX, grid.lo, grid.hi);
        let past = grid.intervals + 3;
        for (grid, i) in [(grid, past), (grid, usize::MAX), (&most, 3), (&endless, 0)] {
            let at = || place(grid, i, x);
            self.outside
                .compare(proved::basis_value(grid, i, x), 0.0, at);
            self.outside
                .compare(proved::basis_slope(grid, i, x), 0.0, at);
        }
    }
}

fn place(grid: &Grid, i: usize, x: f32) -> String {
    let Grid { intervals, lo, hi } = *grid;
    format!(
        "g {intervals} [{}, {}] index {i} at {}",
        hex(lo),
        hex(hi),
        hex(x)
    )
}
