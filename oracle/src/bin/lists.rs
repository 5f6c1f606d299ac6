//! Writes a stored list of answers to standard output: that of the leaves, or, where it is named, that of the calls on
//! `images`, of the visit map (`visits`), of training in two calls (`split`) or on NPY files (`npy`).

use kan_oracle::bits::hex;
use kan_oracle::cases::Stored;
use kan_oracle::exponential::exponential;
use kan_oracle::grids::{accepted_families, refused_family, Family};
use kan_oracle::inputs::{basis_inputs, exponential_inputs};
use kan_oracle::models::demand_exact;
use kan_oracle::ported::{demand_e, root, silu, silu_derivative, Grid};
use kan_oracle::settled::Chosen;
use kan_oracle::settled_calls::images::stored_images;
use kan_oracle::settled_calls::npy::stored_npy;
use kan_oracle::settled_calls::split::stored_split;
use kan_oracle::settled_calls::visits::stored_visits;
use std::process::ExitCode;

const HEADER: &str = "\
# Answers of the ported Rust (src/network/kan.rs and src/data_structures/spline.rs), built
# unchanged with E (docs/RULES.md, R7.1 to R7.4) for `exp`. Made by `oracle/lists.sh`, which runs the oracle's lists.
# A line is a tag and lower-case hexadecimal words without leading zeros. f32 numbers are their
# bits; NaN is written 7fc00000, and no input is NaN.
# E x y    the exponential E
# S x y    SiLU
# D x y    the derivative of SiLU
# R n y    the root of the whole number n, as initialisation divides by it
# K g lo hi k0 .. k(g+6)    the knots of a grid of g intervals over [lo, hi]
# B g lo hi x v0 .. v(g+2) s0 .. s(g+2)    basis values and slopes at x; outside the knots all 0 (R6.3)";

const IMAGES_HEADER: &str = "\
# Settled cases of the calls on model images, with all that the calls leave in what they are lent. Made by `oracle/lists.sh`: the
# answers are those of docs/RULES.md (D89 to D103 name cases of R16.5), held to the oracle's own reader and writer.
# A line is a tag and lower-case hexadecimal words; f32 numbers are their bits. A configuration is K w0 .. w(K-1) g lo hi. A list
# is its length and then its numbers; an image is a list of bytes. A call that is accepted has number 0.
# W configuration model N number carried image    the writer; the N bytes of the image are 55 before
# H image number carried g lo hi K P    the description; without g to P where it is refused
# J image number part    the reader: the lent number, and the parameters' bytes; none where it is refused
# Y image K P number carried widths parameters    unpacking; the K widths are 77 (4d) before, the P parameters 5.0 (40a00000)
# Z: [1, 1], g 2, [-1, 1], weights 0 and 1, coefficients 0.    A21: [2, 1], g 2, [-1, 1], drawn from seed 7.
# INF: Z with coefficients 0, 0.25, 0.5, 0.125, infinite.
# Of D90, which has images of 8 MiB, only 25 carrying 0 is met here; the images themselves are met by the oracle, and 24 and 25 for
# them are theorems of the crate image_cases.";

const VISITS_HEADER: &str = "\
# Settled cases of the visit map, with all that the call leaves in what it is lent. Made by `oracle/lists.sh`: the answers are
# those of docs/RULES.md, R12.1 to R12.4 (D81 to D88 and B41a name cases), held to a reading over the ported Rust's basis values
# and slopes.
# A line is a tag and lower-case hexadecimal words; f32 numbers are their bits. A configuration is K w0 .. w(K-1) g lo hi. A list
# is its length and then its numbers. A call that is accepted has number 0.
# V configuration model inputs A B N number carried first second map    the A and B numbers of the two work slices are 9.0 before,
#   the N bytes of the map 7
# O, T: training, as in training.txt
# Z: [1, 1], g 2, [-1, 1], weights 0 and 1, coefficients 0.    A21: [2, 1], g 2, [-1, 1], drawn from seed 7.
# BIG: Z with base weight 3e38.    INF: Z with coefficients 0, 0.25, 0.5, 0.125, infinite.";

const SPLIT_HEADER: &str = "\
# Settled cases of training in two calls, with all that the calls leave in what they may write. Made
# by `oracle/lists.sh`: the answers are those of docs/RULES.md (D72 to D80 name cases), held to a
# reading over the ported Rust, which the oracle's program `chains` holds to the Rust's own step.
# A line is a tag and lower-case hexadecimal words; f32 numbers are their bits, NaN 7fc00000. A
# configuration is K w0 .. w(K-1) g lo hi. A list is its length and then its numbers. A call that is
# accepted has number 0.
# A configuration model inputs targets total gradients B number carried gradients work
#   accumulating; the gradients before and, as many, after; the B numbers of the work are 9.0 before
# X configuration model gradients rate number carried model
#   applying
# Z: [1, 1], g 2, [-1, 1], weights 0 and 1, coefficients 0. A21: [2, 1], g 2, [-1, 1], from seed 7.
# Of D76 the oracle alone meets 2^24 + 1 rows, and D74, which leaves NaN.";

const NPY_HEADER: &str = "\
# Settled cases of the calls on a layer's NPY file, with all that the calls leave in what they may write. Made by
# `oracle/lists.sh`: the answers are those of docs/RULES.md (D106 to D111 name cases), held to the oracle's own reader and writer.
# A line is a tag and lower-case hexadecimal words; f32 numbers are their bits. A configuration is K w0 .. w(K-1) g lo hi. A list
# is its length and then its numbers; a file that is read is a list of bytes. A call that is accepted has number 0.
# N configuration model layer L number carried file    the writer; the L bytes of the file are 55 before
# R configuration model layer file number carried model    the reader; the model before, a list, and, as many numbers, after
# Z: [1, 1], g 2, [-1, 1], weights 0 and 1, coefficients 0.    S: Z with coefficients 0, 0.25, 0.5, 0.125, 0.
# INF: S with the last coefficient infinite. Files are read into S but where another model is named.
# D108's padding of 65,000 spaces is met by the oracle alone.";

fn main() -> ExitCode {
    demand_e();
    match std::env::args().nth(1).as_deref() {
        None => list_leaves(),
        Some("images") => list_calls(IMAGES_HEADER, stored_images()),
        Some("visits") => list_calls(VISITS_HEADER, stored_visits()),
        Some("split") => list_calls(SPLIT_HEADER, stored_split()),
        Some("npy") => list_calls(NPY_HEADER, stored_npy()),
        Some(name) => {
            eprintln!("lists are named images, visits, split and npy, and not {name}");
            return ExitCode::from(2);
        }
    }
    ExitCode::SUCCESS
}

/// Chosen calls, once the reading was held to what is settled for each.
fn list_calls<C: Stored>(header: &str, calls: Chosen<C>) {
    demand_exact();
    println!("{header}");
    for settled in calls {
        let read = settled.call.clone().read();
        if let Some(fault) = settled.fault(&read) {
            panic!("{}: {fault}", settled.heading);
        }
        if !settled.heading.is_empty() {
            println!("\n# {}", settled.heading);
        }
        for line in settled.call.lines(&read) {
            println!("{line}");
        }
    }
}

fn list_leaves() {
    println!("{HEADER}");
    list_exponentials();
    list_roots();
    for family in accepted_families() {
        list_family(&family, true);
    }
    list_family(&refused_family(), false);
}

fn list_exponentials() {
    println!("# E, SiLU and its derivative at the same inputs");
    let inputs = exponential_inputs();
    let functions = [
        ("E", exponential as fn(f32) -> f32),
        ("S", silu),
        ("D", silu_derivative),
    ];
    for (tag, function) in functions {
        for &x in &inputs {
            println!("{tag} {} {}", hex(x), hex(function(x)));
        }
    }
}

fn list_roots() {
    println!("# roots: perfect squares, and the first and last of all");
    let squares = (1..=204).map(|n| n * n);
    let mut whole: Vec<usize> = squares.chain([2, 3, 41665, 41666]).collect();
    whole.sort_unstable();
    for n in whole {
        println!("R {n:x} {}", hex(root(n)));
    }
}

fn list_family(family: &Family, accepted: bool) {
    println!("# grids: {}", family.heading);
    for grid in &family.grids {
        assert_eq!(grid.is_accepted(), accepted, "{grid:?}");
        let Grid { intervals, lo, hi } = *grid;
        let name = format!("{intervals:x} {} {}", hex(lo), hex(hi));
        println!("K {name} {}", words(&grid.knots()));
        for x in basis_inputs(grid) {
            let basis = grid.basis(x);
            let (values, slopes) = (words(&basis.values), words(&basis.slopes));
            println!("B {name} {} {values} {slopes}", hex(x));
        }
    }
}

fn words(numbers: &[f32]) -> String {
    let words: Vec<String> = numbers.iter().map(|&x| hex(x)).collect();
    words.join(" ")
}
