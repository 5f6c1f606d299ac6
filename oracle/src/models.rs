//! Models as flat parameters, into the ported Rust and out of it. Its own fields are closed, so that the way leads
//! through its JSON, which keeps every finite number's bits.

use crate::draws::Draws;
use crate::network::kan::Kan;
use crate::ported::Grid;
use serde::{Deserialize, Serialize};

#[derive(Serialize, Deserialize)]
struct Document {
    format: String,
    format_version: u32,
    model: Model,
}

#[derive(Serialize, Deserialize)]
struct Model {
    shape: Vec<usize>,
    spline: Spline,
    layers: Vec<Layer>,
}

#[derive(Serialize, Deserialize)]
struct Spline {
    degree: usize,
    grid_intervals: usize,
    domain: [f32; 2],
}

#[derive(Serialize, Deserialize)]
struct Layer {
    base_weights: Vec<Vec<f32>>,
    spline_weights: Vec<Vec<f32>>,
    coefficients: Vec<Vec<Vec<f32>>>,
}

/// The network of an accepted configuration with these finite parameters, as many as it has.
pub fn network(widths: &[usize], grid: &Grid, parameters: &[f32]) -> Kan {
    let per_edge = grid.intervals + 5;
    let mut rest = parameters;
    let mut layers = Vec::new();
    for ends in widths.windows(2) {
        let (layer, after) = rest.split_at(ends[0] * ends[1] * per_edge);
        layers.push(Layer::of(layer, ends[0], per_edge));
        rest = after;
    }
    assert!(rest.is_empty(), "parameters are left over");
    let document = Document {
        format: "kan-rust".to_owned(),
        format_version: 1,
        model: Model {
            shape: widths.to_vec(),
            spline: Spline {
                degree: 3,
                grid_intervals: grid.intervals,
                domain: [grid.lo, grid.hi],
            },
            layers,
        },
    };
    let text = serde_json::to_string(&document).expect("numbers can be written");
    Kan::from_json(&text).expect("an accepted configuration with finite parameters")
}

/// All parameters of a network, in the flat order.
pub fn parameters(network: &Kan) -> Vec<f32> {
    let text = network.to_json().expect("finite parameters can be written");
    let document: Document = serde_json::from_str(&text).expect("what was written can be read");
    let layers = document.model.layers.iter();
    layers.flat_map(Layer::flat).collect()
}

impl Layer {
    /// R2.6: edges output by output, input by input; of an edge the base weight, the spline weight, the coefficients.
    fn of(flat: &[f32], inputs: usize, per_edge: usize) -> Self {
        let outputs: Vec<Vec<&[f32]>> = flat
            .chunks(inputs * per_edge)
            .map(|output| output.chunks(per_edge).collect())
            .collect();
        let column = |place: usize| {
            let rows = outputs.iter();
            rows.map(|edges| edges.iter().map(|edge| edge[place]).collect())
                .collect()
        };
        Layer {
            base_weights: column(0),
            spline_weights: column(1),
            coefficients: outputs
                .iter()
                .map(|edges| edges.iter().map(|edge| edge[2..].to_vec()).collect())
                .collect(),
        }
    }

    fn flat(&self) -> Vec<f32> {
        let mut flat = Vec::new();
        for (output, edges) in self.coefficients.iter().enumerate() {
            for (input, coefficients) in edges.iter().enumerate() {
                flat.push(self.base_weights[output][input]);
                flat.push(self.spline_weights[output][input]);
                flat.extend(coefficients);
            }
        }
        flat
    }
}

/// Stops the program unless flat parameters pass through the ported Rust with their bits, each to its place.
pub fn demand_exact() {
    let mut draws = Draws::new(0x6d);
    let (widths, grid) = ([3, 4, 2], Grid::new(5, -0.0, 3e-39));
    for _ in 0..100 {
        let flat: Vec<f32> = (0..20 * 10).map(|_| some_finite(&mut draws)).collect();
        let back = parameters(&network(&widths, &grid, &flat));
        let bits = |numbers: &[f32]| numbers.iter().map(|x| x.to_bits()).collect::<Vec<_>>();
        assert_eq!(bits(&back), bits(&flat), "JSON does not keep the bits");
    }
}

fn some_finite(draws: &mut Draws) -> f32 {
    match draws.whole(1, 4) {
        1 => draws.sign() * 0.0,
        2 => draws.sign() * f32::from_bits(draws.whole(0, 1 << 23) as u32),
        3 => draws.between(-1.0, 1.0),
        _ => draws.finite(),
    }
}
