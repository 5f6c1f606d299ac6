//! The visit map.

use super::{admit, is_finite, refusal, refuse, rows, sweep};
use super::{Configuration, Refusal, Work};
use crate::models;
use crate::network::kan::Kan;
use crate::ported::Basis;

/// Whether a coefficient counts as read, by the basis at a number that its edge reads.
type Rule = fn(&Basis, usize) -> bool;

/// R12.3: its basis value or its slope is not zero. -0.0 is zero, infinities and NaN are not.
pub fn is_visited(basis: &Basis, coefficient: usize) -> bool {
    has_value(basis, coefficient) || basis.slopes[coefficient] != 0.0
}

/// What prediction alone would ask: tells the marks that come from slopes.
fn has_value(basis: &Basis, coefficient: usize) -> bool {
    basis.values[coefficient] != 0.0
}

/// R12.4: the checks of prediction, the row carried too.
pub fn map(
    config: &Configuration,
    model: &[f32],
    inputs: &[f32],
    work: Work,
    map: &mut [u8],
) -> Result<(), Refusal> {
    admit(config, model, &work)?;
    let answer = map_rows(config, model, inputs, map);
    sweep(config, work);
    answer
}

/// 10 (R3.5: P bytes for the map), 11, then the rows; R12.4: all 0 after 14, 15 or 20.
fn map_rows(
    config: &Configuration,
    model: &[f32],
    inputs: &[f32],
    map: &mut [u8],
) -> Result<(), Refusal> {
    if map.len() != config.parameters() {
        return refuse(10);
    }
    if !is_finite(model) {
        return refuse(11);
    }
    map.fill(0);
    let rows = rows(inputs, config.input_width());
    let network = models::network(&config.widths, &config.grid, model);
    for (row, input) in rows.iter().enumerate() {
        if let Err(error) = network.forward(input) {
            let Refusal { number, .. } = refusal(error);
            let carried = row;
            return Err(Refusal { number, carried });
        }
    }
    mark_rows(config, model, rows, is_visited, map);
    Ok(())
}

/// The places of coefficients that an accepted map marks by their slopes alone: at no number have they a value.
pub fn marked_by_slope(
    config: &Configuration,
    model: &[f32],
    inputs: &[f32],
    map: &[u8],
) -> Vec<usize> {
    let rows = rows(inputs, config.input_width());
    let mut by_value = vec![0; map.len()];
    mark_rows(config, model, rows, has_value, &mut by_value);
    let places = 0..map.len();
    places
        .filter(|&place| map[place] != by_value[place])
        .collect()
}

/// Marks all that accepted rows visit.
fn mark_rows(
    config: &Configuration,
    model: &[f32],
    rows: Vec<Vec<f32>>,
    rule: Rule,
    map: &mut [u8],
) {
    let layers = layers(config, model);
    for input in rows {
        mark(config, &layers, input, rule, map);
    }
}

/// Each layer as a network of its own, to answer what the next one reads.
fn layers(config: &Configuration, model: &[f32]) -> Vec<Kan> {
    let mut rest = model;
    let mut layers = Vec::new();
    for ends in config.widths.windows(2) {
        let layer = Configuration::new(ends, config.grid);
        let (own, after) = rest.split_at(layer.parameters());
        layers.push(models::network(ends, &config.grid, own));
        rest = after;
    }
    layers
}

/// Marks all that one row visits. R12.2: weights are 1 if there is any row.
fn mark(config: &Configuration, layers: &[Kan], input: Vec<f32>, rule: Rule, map: &mut [u8]) {
    let per_edge = config.grid.intervals + 5;
    let mut nodes = input;
    let mut edges = map.chunks_mut(per_edge);
    for layer in layers {
        let bases: Vec<Basis> = nodes.iter().map(|&x| config.grid.basis(x)).collect();
        nodes = layer.forward(&nodes).expect("an accepted row");
        for _ in 0..nodes.len() {
            for (basis, edge) in bases.iter().zip(&mut edges) {
                edge[..2].fill(1);
                for (coefficient, byte) in edge[2..].iter_mut().enumerate() {
                    *byte |= u8::from(rule(basis, coefficient));
                }
            }
        }
    }
}
