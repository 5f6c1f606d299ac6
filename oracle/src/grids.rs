//! Grids that tell one reading of the rules from another: chosen ones and drawn ones.

use crate::bits::beside;
use crate::draws::Draws;
use crate::ported::Grid;

/// Chosen grids, at most 32 intervals each, under a heading that says what is particular here.
pub struct Family {
    pub heading: &'static str,
    pub grids: Vec<Grid>,
}

/// All chosen grids that the configuration accepts.
pub fn accepted_families() -> [Family; 8] {
    [
        default_domain(),
        everyday(),
        narrow(),
        wide(),
        huge(),
        collapsed(),
        negative_zero(),
        far_from_zero(),
    ]
}

fn family(heading: &'static str, grids: &[(usize, (f32, f32))]) -> Family {
    let grids = grids.iter().map(|&(g, (lo, hi))| Grid::new(g, lo, hi));
    Family {
        heading,
        grids: grids.collect(),
    }
}

/// A domain whose ends are so many f32 steps apart.
fn steps_up(lo: f32, steps: u64) -> (f32, f32) {
    (lo, beside(lo, steps as i64))
}

fn default_domain() -> Family {
    let grids = [1, 2, 3, 5, 8, 16, 29, 32].map(|g| (g, (-1.0, 1.0)));
    family("the default domain", &grids)
}

fn everyday() -> Family {
    let grids = [
        (4, (0.0, 1.0)),
        (5, (0.0, 10.0)),
        (10, (-3.0, 7.0)),
        (3, (-0.5, 0.25)),
        (7, (0.1, 0.3)),
        (12, (-100.0, 100.0)),
    ];
    family("everyday domains", &grids)
}

fn narrow() -> Family {
    let grids = [
        (2, (0.0, 2e-40)),
        (5, (-2e-40, 3e-40)),
        (1, steps_up(0.0, 1)),
        (2, steps_up(beside(0.0, -1), 2)),
        (3, steps_up(0.0, 10)),
        (4, (1e-38, 1.2e-38)),
        (1, steps_up(1.0, 1)),
        (2, steps_up(1.0, 2)),
        (4, steps_up(beside(1.0, -4), 8)),
        (1, steps_up(beside(-1.0, -1), 1)),
        (4, steps_up(1e30, 4)),
    ];
    family(
        "narrow domains: subnormal widths, ends a few steps apart",
        &grids,
    )
}

fn wide() -> Family {
    let grids = [
        (5, (-1e10, 1e10)),
        (8, (-1e30, 1e30)),
        (3, (1e-30, 1e30)),
        (2, (-1e-30, 1e20)),
        (6, (0.0, 1e37)),
    ];
    family("wide domains", &grids)
}

fn huge() -> Family {
    let grids = [
        (6, (-1.7e38, 1.7e38)),
        (7, (-1.7e38, 1.7e38)),
        (32, (-1.7e38, 1.7e38)),
        (16, (-1.697e38, 1.697e38)),
        // Knot g + 3 is infinite too, so that the Rust's last slope is NaN even outside, where R6.3 has 0.
        (25, (-1.701_411_7e38, 1.701_411_7e38)),
        (1, (-4.861e37, 4.861e37)),
        (5, (-1e38, 1e38)),
        (4, (-1.3e38, 1.3e38)),
        (1, (0.0, 8.5e37)),
        (1, (-8.5e37, 0.0)),
        (9, (-1.6e38, 1.5e38)),
    ];
    family(
        "huge domains: a knot, or the span of the knots, is not finite",
        &grids,
    )
}

fn collapsed() -> Family {
    let grids = [
        (4, (8388608.0, 8388611.0)),
        (5, (8388608.0, 8388611.0)),
        (4, (-8388611.0, -8388608.0)),
        (4, (16777216.0, 16777222.0)),
        (4, steps_up(1.0, 3)),
        (5, steps_up(1.0, 3)),
        (13, steps_up(1.0, 7)),
        (32, steps_up(1.0, 17)),
        (5, steps_up(1e30, 3)),
        (9, steps_up(3e-30, 5)),
    ];
    family("collapsed knots: neighbours are equal", &grids)
}

fn negative_zero() -> Family {
    let grids = [
        (2, (-0.0, 1.0)),
        (3, (-1.0, -0.0)),
        (2, (-0.0, 2e-40)),
        (32, (-0.0, 3e38)),
    ];
    family("an end -0.0", &grids)
}

fn far_from_zero() -> Family {
    let grids = [
        (5, (100.0, 101.0)),
        (8, (-1001.0, -1000.0)),
        (10, (1e6, 1_000_010.0)),
        (16, (65535.0, 65536.0)),
        (4, (1e20, 1.1e20)),
        (5, (-3.3e38, -3.2e38)),
        (2, (1e-20, 1.5e-20)),
    ];
    family("domains far from zero", &grids)
}

/// Grids that the configuration refuses; the functions below it still answer.
pub fn refused_family() -> Family {
    let grids = [
        (2, (1.0, -1.0)),
        (1, (0.0, 0.0)),
        (6, (8388608.0, 8388611.0)),
        (2, steps_up(0.0, 1)),
        (3, (-1.7e38, 1.7e38)),
        (1, (f32::NEG_INFINITY, 1.0)),
        (0, (-1.0, 1.0)),
    ];
    family(
        "domains or intervals that the configuration refuses",
        &grids,
    )
}

/// A grid of a drawn kind that the configuration accepts; one in twelve is any grid at all.
pub fn drawn_grid(draws: &mut Draws) -> Grid {
    if draws.whole(1, 12) == 1 {
        return Grid::new(draws.whole(0, 8) as usize, draws.pattern(), draws.pattern());
    }
    loop {
        let intervals = drawn_intervals(draws);
        let (lo, hi) = drawn_domain(draws, intervals);
        let grid = Grid::new(intervals as usize, lo, hi);
        if grid.is_accepted() {
            return grid;
        }
    }
}

/// Mostly few, as every interval costs time.
fn drawn_intervals(draws: &mut Draws) -> u64 {
    let last = match draws.whole(1, 200) {
        1 => 2000,
        2..=40 => 64,
        _ => 12,
    };
    draws.whole(1, last)
}

/// Ends of one of the kinds above.
fn drawn_domain(draws: &mut Draws, intervals: u64) -> (f32, f32) {
    match draws.whole(1, 11) {
        1 => (-1.0, 1.0),
        // Any ends.
        2 => (draws.finite(), draws.finite()),
        // Everyday.
        3 => {
            let lo = draws.between(-10.0, 10.0);
            (lo, lo + draws.between(0.001, 20.0))
        }
        // Narrow: at any size, about zero, and subnormal.
        4 => steps_up(draws.finite(), draws.whole(1, 40)),
        5 => steps_up(
            beside(0.0, -(draws.whole(0, 40) as i64)),
            draws.whole(1, 80),
        ),
        6 => steps_up(
            draws.sign() * draws.between(0.0, 1e-38),
            draws.whole(1, 1 << 23),
        ),
        // Wide, and huge.
        7 => (-draws.power_of_ten(), draws.power_of_ten()),
        8 => (-draws.between(1e37, 1.75e38), draws.between(0.0, 1.75e38)),
        // Collapsed: hardly more than half a step of f32 for an interval.
        9 => steps_up(
            draws.finite(),
            draws.whole(intervals / 2 + 1, intervals + 1),
        ),
        // An end -0.0.
        10 => match draws.finite() {
            far if far > 0.0 => (-0.0, far),
            far => (far, -0.0),
        },
        // Far from zero.
        _ => {
            let lo = draws.sign() * draws.between(1.0, 2.0) * draws.power_of_ten();
            (lo, lo + lo.abs() * draws.between(0.0, 0.1))
        }
    }
}
