//! `accumulate` and `apply`.
//!
//! The Rust keeps its gradients to itself. What it opens comes from it: predictions, values of
//! edges, the basis, SiLU and its derivative. Which products are added to which numbers, and in
//! which order, stands here as the rules have it; the program `chains` holds it to the Rust's
//! `train_step`.

use super::training::Room;
use super::{is_finite, refusal, refuse, rows, too_many_targets};
use super::{Batch, Configuration, Refusal, MOST_TARGETS};
use crate::models;
use crate::network::kan::{Kan, KanError};
use crate::ported::{silu, silu_derivative, Basis, Edge, Grid};

/// A batch, and the number of target values of all batches that are gathered with it.
#[derive(Clone, Copy)]
pub struct Gathering<'a> {
    pub batch: Batch<'a>,
    pub total: usize,
}

/// Adds the gradients of a batch to the lent ones.
pub fn accumulate(
    config: &Configuration,
    model: &[f32],
    gathering: Gathering,
    room: Room,
) -> Result<(), Refusal> {
    admit(config, model, &room)?;
    let answer = outputs(config, model, gathering, room.gradients);
    // R3.6: past check 9, and after success too, the needed part of the work is all +0.0.
    room.work[..2 * config.nodes()].fill(0.0);
    add_rows(config, model, gathering, &answer?, room.gradients);
    Ok(())
}

/// The answer of `accumulate`, which adds nothing here.
pub fn checks(
    config: &Configuration,
    model: &[f32],
    gathering: Gathering,
    room: Room,
) -> Result<(), Refusal> {
    admit(config, model, &room)?;
    outputs(config, model, gathering, room.gradients).map(|_| ())
}

/// Configuration, 8, 9.
fn admit(config: &Configuration, model: &[f32], room: &Room) -> Result<(), Refusal> {
    config.accepted()?;
    if model.len() != config.parameters() {
        return refuse(8);
    }
    if room.work.len() < 2 * config.nodes() {
        return refuse(9);
    }
    Ok(())
}

/// 10, 11, the batch's 12 to 18, 28, then 20 in any row. The answer is what the Rust predicts.
fn outputs(
    config: &Configuration,
    model: &[f32],
    gathering: Gathering,
    gradients: &[f32],
) -> Result<Vec<f32>, Refusal> {
    let Gathering { batch, total } = gathering;
    if gradients.len() != config.parameters() {
        return refuse(10);
    }
    if !is_finite(model) {
        return refuse(11);
    }
    let inputs = rows(batch.inputs, config.input_width());
    let targets = rows(batch.targets, config.output_width());
    let mut network = models::network(&config.widths, &config.grid, model);
    if batch.targets.len() > MOST_TARGETS {
        return Err(too_many_targets(network, &inputs, &targets));
    }
    // Training of no steps makes the batch's checks and that of the rate, which is sound here.
    network.train(&inputs, &targets, 0, 1.0).map_err(refusal)?;
    if total == 0 || total > MOST_TARGETS {
        return refuse(28);
    }
    let outputs = network.predict_batch(&inputs).map_err(refusal)?;
    Ok(outputs.concat())
}

/// R10.6: row after row.
fn add_rows(
    config: &Configuration,
    model: &[f32],
    gathering: Gathering,
    outputs: &[f32],
    gradients: &mut [f32],
) {
    let Gathering { batch, total } = gathering;
    let scale = 2.0 / total as f32;
    let width = config.output_width();
    let layers = layers(config, model);
    let inputs = batch.inputs.chunks(config.input_width());
    let wanted = batch.targets.chunks(width);
    for ((input, target), output) in inputs.zip(wanted).zip(outputs.chunks(width)) {
        let nodes = nodes(&layers, input);
        assert_eq!(nodes[layers.len()], output, "edge by edge and as a network");
        let errors = output.iter().zip(target);
        let above = errors.map(|(found, wanted)| scale * (found - wanted));
        add_row(&config.grid, model, &nodes, above.collect(), gradients);
    }
}

/// One layer: the edges of each output.
type Layer = Vec<Vec<Edge>>;

fn layers(config: &Configuration, model: &[f32]) -> Vec<Layer> {
    let per_edge = config.grid.intervals + 5;
    let mut edges = model.chunks(per_edge);
    let mut next = || Edge::new(&config.grid, edges.next().expect("all edges"));
    let ends = config.widths.windows(2);
    ends.map(|ends| {
        let outputs = 0..ends[1];
        outputs
            .map(|_| (0..ends[0]).map(|_| next()).collect())
            .collect()
    })
    .collect()
}

/// The numbers that each layer reads, and the outputs behind them.
fn nodes(layers: &[Layer], input: &[f32]) -> Vec<Vec<f32>> {
    let mut nodes = vec![input.to_vec()];
    for (before, layer) in layers.iter().enumerate() {
        let read = &nodes[before];
        let node = |edges: &Vec<Edge>| {
            let values = edges.iter().zip(read).map(|(edge, &x)| edge.value(x));
            values.fold(0.0, |sum: f32, value| sum + value)
        };
        let next = layer.iter().map(node).collect();
        nodes.push(next);
    }
    nodes
}

/// R10.4, R10.5: what one row adds, from the last layer to the first.
fn add_row(
    grid: &Grid,
    model: &[f32],
    nodes: &[Vec<f32>],
    mut above: Vec<f32>,
    gradients: &mut [f32],
) {
    let mut end = model.len();
    for inputs in nodes[..nodes.len() - 1].iter().rev() {
        let begin = end - inputs.len() * above.len() * (grid.intervals + 5);
        let (edges, sums) = (&model[begin..end], &mut gradients[begin..end]);
        above = add_layer(grid, edges, inputs, &above, sums);
        end = begin;
    }
}

/// The answer is the gradient from above for the layer before.
fn add_layer(
    grid: &Grid,
    edges: &[f32],
    inputs: &[f32],
    above: &[f32],
    gradients: &mut [f32],
) -> Vec<f32> {
    let per_edge = grid.intervals + 5;
    let reads: Vec<Read> = inputs.iter().map(|&x| Read::new(grid, x)).collect();
    let mut before = vec![0.0; inputs.len()];
    let both = edges.chunks(per_edge).zip(gradients.chunks_mut(per_edge));
    for (place, (edge, sums)) in both.enumerate() {
        let (u, input) = (above[place / inputs.len()], place % inputs.len());
        reads[input].add(edge, u, sums);
        before[input] += reads[input].handed_down(edge, u);
    }
    before
}

/// What a number that edges read comes to, by the Rust.
struct Read {
    basis: Basis,
    silu: f32,
    silu_slope: f32,
}

impl Read {
    fn new(grid: &Grid, x: f32) -> Self {
        Read {
            basis: grid.basis(x),
            silu: silu(x),
            silu_slope: silu_derivative(x),
        }
    }

    /// R10.4: what an edge adds to its own gradients, with u from above at its output.
    fn add(&self, edge: &[f32], u: f32, sums: &mut [f32]) {
        let values = &self.basis.values;
        sums[0] += u * self.silu;
        sums[1] += u * dot(&edge[2..], values);
        for (sum, value) in sums[2..].iter_mut().zip(values) {
            *sum += u * edge[1] * value;
        }
    }

    /// R10.5: what it adds to the gradient of the node that it reads.
    fn handed_down(&self, edge: &[f32], u: f32) -> f32 {
        u * (edge[0] * self.silu_slope + edge[1] * dot(&edge[2..], &self.basis.slopes))
    }
}

/// From +0.0. The Rust's sum may start at -0.0 (docs/DIFFERENCES.md), which shows where a gradient
/// was -0.0 before.
fn dot(left: &[f32], right: &[f32]) -> f32 {
    let products = left.iter().zip(right).map(|(a, b)| a * b);
    products.fold(0.0, |sum, product| sum + product)
}

/// Makes every parameter p - rate · gradient.
pub fn apply(
    config: &Configuration,
    model: &mut [f32],
    gradients: &[f32],
    rate: f32,
) -> Result<(), Refusal> {
    let accepted = config.accepted()?;
    if model.len() != config.parameters() {
        return refuse(8);
    }
    if gradients.len() != config.parameters() {
        return refuse(10);
    }
    if !is_finite(model) {
        return refuse(11);
    }
    let network = Kan::try_new(accepted).expect("an accepted configuration");
    check_rate(network, rate).map_err(refusal)?;
    let moved = model.iter().zip(gradients).map(|(p, d)| p - rate * d);
    let moved: Vec<f32> = moved.collect();
    if !is_finite(&moved) {
        return refuse(23);
    }
    model.copy_from_slice(&moved);
    Ok(())
}

/// 19, by training of no steps on a row that is sound.
fn check_rate(mut network: Kan, rate: f32) -> Result<(), KanError> {
    let widths = network.shape();
    let (inputs, outputs) = (widths[0], widths[widths.len() - 1]);
    network.train(&[vec![0.0; inputs]], &[vec![0.0; outputs]], 0, rate)
}
