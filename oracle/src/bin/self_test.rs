//! Checks the oracle itself: that the ported Rust reaches E, and the settled answers of both.

use kan_oracle::bits::{beside, hex};
use kan_oracle::exponential::{exponential, table};
use kan_oracle::nans::demand_kept;
use kan_oracle::ported::{demand_e, root, silu, silu_derivative, Grid};
use kan_oracle::reading::visits::is_visited;

/// A function, and bits of arguments and answers.
type Row = (&'static str, fn(f32) -> f32, &'static [(u32, u32)]);

const ANSWERS: [Row; 3] = [
    (
        "E",
        exponential,
        &[
            (0xc2ae_ac4f, 0x0080_0026),
            (0xc2ae_ac50, 0x007f_ffe6),
            (0xc2cf_f1b4, 0x0000_0001),
            (0xc2cf_f1b5, 0x0000_0000),
            (0x42b1_7217, 0x7f7f_ff84),
            (0x42b1_7218, 0x7f80_0000),
            (0x3f80_0000, 0x402d_f854),
            (0xbf80_0000, 0x3ebc_5ab2),
            (0x3f00_0000, 0x3fd3_094c),
            (0x0000_0000, 0x3f80_0000),
            (0x8000_0000, 0x3f80_0000),
            (0x0000_0001, 0x3f80_0000),
            (0x42b2_0000, 0x7f80_0000),
            (0xc2d0_0000, 0x0000_0000),
            (0x7f80_0000, 0x7f80_0000),
            (0xff80_0000, 0x0000_0000),
            (0x7f80_0001, 0x7fc0_0000),
            (0xffff_ffff, 0x7fc0_0000),
        ],
    ),
    (
        "SiLU",
        silu,
        &[
            (0xc2c8_0000, 0x8000_0000),
            (0x3f00_0000, 0x3e9f_597f),
            (0xbf00_0000, 0xbe41_4d03),
            (0x8000_0000, 0x8000_0000),
        ],
    ),
    (
        "SiLU derivative",
        silu_derivative,
        &[
            (0xc2c8_0000, 0x8000_0000),
            (0x0000_0000, 0x3f00_0000),
            (0x3f00_0000, 0x3f3d_6e19),
            (0xbf00_0000, 0x3e85_23cf),
        ],
    ),
];

fn main() {
    demand_e();
    demand_kept();
    for (name, function, answers) in ANSWERS {
        for &(x, y) in answers {
            let answer = function(f32::from_bits(x)).to_bits();
            assert_eq!(answer, y, "{name} at {x:08x} is {answer:08x}, not {y:08x}");
        }
    }
    let t = table();
    assert_eq!(
        [t[0], t[1], t[255]],
        [1_073_741_824, 1_076_653_033, 2_141_676_972]
    );
    assert_eq!(
        [2, 3, 41_666].map(|n| hex(root(n))),
        ["3fb504f3", "3fddb3d7", "434c1f5d"]
    );
    check_basis();
    check_grids();
    check_marks();
    println!("the ported Rust is over E; every settled answer is met");
}

fn check_basis() {
    let grid = Grid::new(2, -1.0, 1.0);
    let check = |x: f32, values: &str, slopes: &str| {
        let basis = grid.basis(x);
        assert_eq!(words(&basis.values), values, "values at {x}");
        assert_eq!(words(&basis.slopes), slopes, "slopes at {x}");
    };
    check(
        0.0,
        "0 3e2aaaab 3f2aaaab 3e2aaaab 0",
        "0 bf000000 0 3f000000 0",
    );
    check(
        1e-16,
        "0 3e2aaaab 3f2aaaab 3e2aaaab 0",
        "0 bf000000 0 3f000000 9cfb11f",
    );
    check(beside(4.0, -1), "0 0 0 0 1d2aaaab", "0 0 0 0 a9000000");
    check(4.0, "0 0 0 0 0", "0 0 0 0 0");
    check(beside(-4.0, -1), "0 0 0 0 0", "0 0 0 0 0");
    check_outside();
}

/// Outside the knots all is zero, where the Rust has a NaN for the last slope; fewer intervals do not show it.
fn check_outside() {
    let half = f32::from_bits(0x7eff_ffff);
    let grids = (1..=25).map(|intervals| Grid::new(intervals, -half, half));
    let is_zero = |numbers: &[f32]| numbers.iter().all(|x| x.to_bits() == 0);
    for grid in grids.filter(Grid::is_accepted) {
        let below = beside(grid.knots()[0], -1);
        for x in [below, f32::INFINITY, f32::NAN] {
            let (document, rust) = (grid.basis(x), grid.basis_of_rust(x));
            assert!(is_zero(&document.values) && is_zero(&document.slopes));
            let (last, others) = rust.slopes.split_last().expect("there are slopes");
            assert!(is_zero(&rust.values) && is_zero(others));
            assert_eq!(last.is_nan(), grid.intervals == 25, "{grid:?} at {x}");
            assert!(last.is_nan() || last.to_bits() == 0);
        }
    }
}

fn check_grids() {
    let accepted = |g, lo, hi| Grid::new(g, lo, hi).is_accepted();
    assert_eq!(hex(Grid::new(2, -0.0, 1.0).knots()[3]), "0");
    assert!(accepted(249_995, -1.0, 1.0) && !accepted(249_996, -1.0, 1.0));
    assert!(accepted(1, 0.0, beside(0.0, 1)) && !accepted(2, 0.0, beside(0.0, 1)));
    assert!(accepted(4, 8388608.0, 8388611.0) && !accepted(6, 8388608.0, 8388611.0));
    assert!(accepted(1000, -1.7e38, 1.7e38) && !accepted(3, -1.7e38, 1.7e38));
}

/// Where the last value is zero and its slope is not, outside the knots, and where slopes are infinite or NaN.
fn check_marks() {
    let marks = |grid: Grid, x: f32| {
        let basis = grid.basis(x);
        [0, 1, 2, 3, 4].map(|coefficient| u8::from(is_visited(&basis, coefficient)))
    };
    let (usual, narrow) = (Grid::new(2, -1.0, 1.0), Grid::new(2, 0.0, 2e-40));
    assert_eq!(marks(usual, 0.0), [0, 1, 1, 1, 0]);
    assert_eq!(marks(usual, 1e-16), [0, 1, 1, 1, 1]);
    assert_eq!(marks(usual, 4.0), [0; 5]);
    assert_eq!(marks(narrow, 0.0), [1, 1, 1, 0, 0]);
}

fn words(numbers: &[f32]) -> String {
    let words: Vec<String> = numbers.iter().map(|&x| hex(x)).collect();
    words.join(" ")
}
