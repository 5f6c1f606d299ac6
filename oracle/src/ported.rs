//! Doors to the ported Rust, whose own functions are open to this crate alone.

use crate::data_structures::spline::{self, SplineActivation};
use crate::draws::Draws;
use crate::exponential::exponential;
use crate::network::kan::KanConfig;

/// Intervals and both ends of a domain.
#[derive(Clone, Copy, Debug)]
pub struct Grid {
    pub intervals: usize,
    pub lo: f32,
    pub hi: f32,
}

/// Every basis value and every slope at one input.
pub struct Basis {
    pub values: Vec<f32>,
    pub slopes: Vec<f32>,
}

impl Grid {
    pub fn new(intervals: usize, lo: f32, hi: f32) -> Self {
        Grid { intervals, lo, hi }
    }

    fn domain(&self) -> [f32; 2] {
        [self.lo, self.hi]
    }

    /// Whether a network of one edge may have this grid.
    pub fn is_accepted(&self) -> bool {
        KanConfig::new(vec![1, 1], self.intervals)
            .and_then(|config| config.with_domain(self.domain()))
            .is_ok()
    }

    pub fn knots(&self) -> Vec<f32> {
        spline::exterior_uniform_knots(self.intervals, self.domain())
    }

    /// R6.3: below the first knot, at or above the last, and at an input not finite.
    fn is_outside(&self, x: f32) -> bool {
        let knots = self.knots();
        !x.is_finite() || x < knots[0] || x >= knots[knots.len() - 1]
    }

    /// The Rust's basis by R6.3: outside the knots all +0.0, slopes too. The Rust works slopes out there,
    /// and divides by an infinity less an infinity where knots are infinite (docs/DIFFERENCES.md).
    pub fn basis(&self, x: f32) -> Basis {
        let mut basis = self.basis_of_rust(x);
        if self.is_outside(x) {
            basis.slopes.fill(0.0);
        }
        basis
    }

    /// All values and slopes as the Rust has them.
    pub fn basis_of_rust(&self, x: f32) -> Basis {
        let edge = SplineActivation::new(self.intervals, self.domain(), 0.0, 1.0, Vec::new());
        let basis = edge.basis(x);
        Basis {
            values: basis.values,
            slopes: basis.derivatives,
        }
    }
}

/// One edge of a network as the Rust has it.
pub struct Edge(SplineActivation);

impl Edge {
    /// From its parameters in the flat order: base weight, spline weight, coefficients.
    pub fn new(grid: &Grid, parameters: &[f32]) -> Self {
        let (base, spline, coefficients) = (parameters[0], parameters[1], &parameters[2..]);
        let (intervals, domain) = (grid.intervals, grid.domain());
        let coefficients = coefficients.to_vec();
        Edge(SplineActivation::new(
            intervals,
            domain,
            base,
            spline,
            coefficients,
        ))
    }

    /// What it adds to its output's node.
    pub fn value(&self, x: f32) -> f32 {
        self.0.evaluate(x).0
    }
}

// Never inlined: a compiler may work out `exp` of a constant by itself, and then it is not E.
#[inline(never)]
pub fn silu(x: f32) -> f32 {
    spline::silu(x)
}

#[inline(never)]
pub fn silu_derivative(x: f32) -> f32 {
    spline::silu_derivative(x)
}

/// The divisor of a base weight's draw, as `KanLayer::random` writes it.
pub fn root(n: usize) -> f32 {
    (n as f32).sqrt()
}

/// Stops the program unless `f32::exp` and the ported Rust reach E, and not the platform's `expf`.
pub fn demand_e() {
    let mut draws = Draws::new(0xe);
    let mut telling = 0;
    for _ in 0..2000 {
        let x = draws.between(-87.0, 88.0);
        let e = exponential(x);
        let over_e = x / (1.0 + exponential(-x));
        assert_eq!(x.exp().to_bits(), e.to_bits(), "f32::exp is not E at {x}");
        assert_eq!(
            silu(x).to_bits(),
            over_e.to_bits(),
            "silu is not over E at {x}"
        );
        telling += u32::from(e != f64::from(x).exp() as f32);
    }
    assert!(telling > 0, "no input tells E from the nearest exponential");
}
