//! The rules (docs/RULES.md) read literally over flat buffers: the number of refusal, what it carries, and the final
//! contents of all lent memory. What the ported Rust knows comes from it: answers, parameters and its own refusals. The
//! rules of lengths and of memory, which it does not know, stand here as the rules have them.

pub mod images;
pub mod npy;
pub mod split;
pub mod training;
pub mod visits;

use crate::models;
use crate::network::kan::{Kan, KanConfig, KanError};
use crate::ported::Grid;

/// Where 2/g no longer moves -1: from here on 4 is given with the domain [-1, 1].
pub const STUCK_INTERVALS: usize = 67_108_862;
pub const MOST_TARGETS: usize = 16_777_216;

#[derive(Clone, Copy, Debug, PartialEq)]
pub struct Refusal {
    pub number: u32,
    pub carried: usize,
}

#[derive(Clone, Debug)]
pub struct Configuration {
    pub widths: Vec<usize>,
    pub grid: Grid,
}

/// The two work slices of prediction, loss and the visit map.
pub struct Work<'a> {
    pub first: &'a mut [f32],
    pub second: &'a mut [f32],
}

/// The parts of a batch for the loss and for training.
#[derive(Clone, Copy)]
pub struct Batch<'a> {
    pub inputs: &'a [f32],
    pub targets: &'a [f32],
}

fn refuse<T>(number: u32) -> Result<T, Refusal> {
    Err(Refusal { number, carried: 0 })
}

/// An answer as it is told: 0 or the number, and what is carried, 0 for nothing.
pub fn told(answer: Result<(), Refusal>) -> (u32, usize) {
    match answer {
        Ok(()) => (0, 0),
        Err(Refusal { number, carried }) => (number, carried),
    }
}

/// The paper's number for each of the Rust's errors that these calls can meet.
fn refusal(error: KanError) -> Refusal {
    let number = match error {
        KanError::InvalidShape(text) => match text.as_str() {
            "at least two non-zero layer widths are required" => 1,
            "layer edge count overflows usize" => 2,
            "layer parameter count overflows usize" => 5,
            "network parameter count overflows usize" => 6,
            other => panic!("an unknown fault of the shape: {other}"),
        },
        KanError::InvalidGridIntervals => 3,
        KanError::InvalidDomain => 4,
        KanError::ModelTooLarge { parameters, .. } => {
            return Refusal {
                number: 7,
                carried: parameters,
            }
        }
        KanError::BatchSizeMismatch { .. } => 12,
        KanError::EmptyBatch => 13,
        KanError::InputWidthMismatch { .. } => 14,
        KanError::NonFiniteInput => 15,
        KanError::TargetWidthMismatch { .. } => 16,
        KanError::NonFiniteTarget => 17,
        KanError::InvalidLearningRate => 19,
        KanError::NumericalFailure("forward propagation") => 20,
        KanError::NumericalFailure("MSE calculation") => 21,
        KanError::NumericalFailure("MSE accumulation") => 22,
        KanError::NumericalFailure("parameter update") => 23,
        other => panic!("an error that no call meets: {other}"),
    };
    Refusal { number, carried: 0 }
}

impl Configuration {
    pub fn new(widths: &[usize], grid: Grid) -> Self {
        Configuration {
            widths: widths.to_vec(),
            grid,
        }
    }

    /// The Rust's `new` followed by `with_domain`: R3.4, the configuration.
    fn accepted(&self) -> Result<KanConfig, Refusal> {
        let Grid { intervals, lo, hi } = self.grid;
        KanConfig::new(self.widths.clone(), intervals)
            .and_then(|config| config.with_domain([lo, hi]))
            .map_err(refusal)
    }

    /// R2.4: P, the sum over the layers of in × out × (g + 5); for an accepted configuration.
    pub fn parameters(&self) -> usize {
        let layers = self.widths.windows(2);
        let sizes = layers.map(|ends| ends[0] * ends[1] * (self.grid.intervals + 5));
        sizes.sum()
    }

    /// R2.5: W, the largest width.
    pub fn widest(&self) -> usize {
        self.widths.iter().copied().max().unwrap_or(0)
    }

    /// R2.5: N, the sum of the widths; for an accepted configuration.
    pub fn nodes(&self) -> usize {
        self.widths.iter().sum()
    }

    pub fn input_width(&self) -> usize {
        self.widths[0]
    }

    pub fn output_width(&self) -> usize {
        self.widths[self.widths.len() - 1]
    }
}

/// R5.1, R5.2: a flat batch stands for rows of a width; if the length is no multiple, the last row is short.
fn rows(flat: &[f32], width: usize) -> Vec<Vec<f32>> {
    flat.chunks(width).map(<[f32]>::to_vec).collect()
}

/// Configuration; the answer is P.
pub fn check(config: &Configuration) -> Result<usize, Refusal> {
    config.accepted().map(|_| config.parameters())
}

/// R3.4: initialisation adds only 8 to the configuration.
pub fn initialise(config: &Configuration, seed: u64, model: &mut [f32]) -> Result<(), Refusal> {
    let accepted = config.accepted()?;
    if model.len() != config.parameters() {
        return refuse(8);
    }
    let network = Kan::try_new(accepted.with_seed(seed)).expect("an accepted configuration");
    assert_eq!(network.parameter_count(), model.len(), "P");
    model.copy_from_slice(&models::parameters(&network));
    Ok(())
}

/// R3.4: the configuration, 8, 9: two work slices of at least W (R2.7).
fn admit(config: &Configuration, model: &[f32], work: &Work) -> Result<(), Refusal> {
    config.accepted()?;
    if model.len() != config.parameters() {
        return refuse(8);
    }
    let widest = config.widest();
    if work.first.len() < widest || work.second.len() < widest {
        return refuse(9);
    }
    Ok(())
}

/// R3.6: past check 9, and after success too, the needed part of each work slice is all +0.0.
fn sweep(config: &Configuration, work: Work) {
    let widest = config.widest();
    work.first[..widest].fill(0.0);
    work.second[..widest].fill(0.0);
}

fn is_finite(numbers: &[f32]) -> bool {
    numbers.iter().all(|x| x.is_finite())
}

/// `predict_batch`.
pub fn predict(
    config: &Configuration,
    model: &[f32],
    inputs: &[f32],
    work: Work,
    outputs: &mut [f32],
) -> Result<(), Refusal> {
    admit(config, model, &work)?;
    let answer = predict_rows(config, model, inputs, outputs);
    sweep(config, work);
    answer
}

/// R3.4: 10, 11, then each row's 14, 15, 20 before the next is looked at (R5.5); the refusal carries the row (R3.2),
/// and rows before it stay written (R3.6).
fn predict_rows(
    config: &Configuration,
    model: &[f32],
    inputs: &[f32],
    outputs: &mut [f32],
) -> Result<(), Refusal> {
    let rows = rows(inputs, config.input_width());
    let width = config.output_width();
    // As whole numbers: a product of 2^64 or more is no length.
    if rows.len().checked_mul(width) != Some(outputs.len()) {
        return refuse(10);
    }
    if !is_finite(model) {
        return refuse(11);
    }
    let network = models::network(&config.widths, &config.grid, model);
    for (row, output) in outputs.chunks_mut(width).enumerate() {
        match network.forward(&rows[row]).map_err(refusal) {
            Ok(answer) => output.copy_from_slice(&answer),
            Err(Refusal { number, .. }) => {
                return Err(Refusal {
                    number,
                    carried: row,
                })
            }
        }
    }
    let whole = network.predict_batch(&rows).map_err(refusal)?;
    assert_eq!(whole.concat(), outputs, "row by row and as a batch");
    Ok(())
}

/// `mse_loss`.
pub fn loss(
    config: &Configuration,
    model: &[f32],
    batch: Batch,
    work: Work,
) -> Result<f32, Refusal> {
    admit(config, model, &work)?;
    let answer = loss_of(config, model, batch);
    sweep(config, work);
    answer
}

/// R3.4: 11, then the batch's 12 to 18 (R5.4), then the rows.
fn loss_of(config: &Configuration, model: &[f32], batch: Batch) -> Result<f32, Refusal> {
    if !is_finite(model) {
        return refuse(11);
    }
    let inputs = rows(batch.inputs, config.input_width());
    let targets = rows(batch.targets, config.output_width());
    let network = models::network(&config.widths, &config.grid, model);
    if batch.targets.len() > MOST_TARGETS {
        return Err(too_many_targets(network, &inputs, &targets));
    }
    network.mse_loss(&inputs, &targets).map_err(refusal)
}

/// The Rust has no 18. Training of no steps makes the checks that come before it, and nothing else.
fn too_many_targets(mut network: Kan, inputs: &[Vec<f32>], targets: &[Vec<f32>]) -> Refusal {
    let checks = network.train(inputs, targets, 0, 1.0);
    checks.map_or_else(refusal, |()| Refusal {
        number: 18,
        carried: 0,
    })
}
