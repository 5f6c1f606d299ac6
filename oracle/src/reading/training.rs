//! `train_step` and `train`.

use super::{is_finite, refusal, refuse, rows, too_many_targets};
use super::{Batch, Configuration, Refusal, MOST_TARGETS};
use crate::models;
use crate::network::kan::{Kan, KanError};

/// What is trained on, how often and how fast.
#[derive(Clone, Copy)]
pub struct Lesson<'a> {
    pub batch: Batch<'a>,
    pub steps: usize,
    pub rate: f32,
}

/// R2.7: training is lent two slices: P for the gradients, 2N for the nodes.
pub struct Room<'a> {
    pub gradients: &'a mut [f32],
    pub work: &'a mut [f32],
}

/// `train`: the steps done, told on every outcome, and the answer. One step is `train_step`.
pub fn train(
    config: &Configuration,
    model: &mut [f32],
    lesson: Lesson,
    room: Room,
) -> (usize, Result<(), Refusal>) {
    if let Err(early) = admit(config, model, &room) {
        return (0, Err(early));
    }
    let answer = train_rows(config, model, lesson);
    // R3.6: past check 9, and after success too, the needed part of each slice is all +0.0.
    room.gradients[..config.parameters()].fill(0.0);
    room.work[..2 * config.nodes()].fill(0.0);
    answer
}

/// R3.4: the configuration, 8, 9.
fn admit(config: &Configuration, model: &[f32], room: &Room) -> Result<(), Refusal> {
    config.accepted()?;
    let parameters = config.parameters();
    if model.len() != parameters {
        return refuse(8);
    }
    if room.gradients.len() < parameters || room.work.len() < 2 * config.nodes() {
        return refuse(9);
    }
    Ok(())
}

/// R3.4: 11, then the batch's 12 to 18 (R5.4), then 19; R10.10: 0 steps make these checks too.
fn train_rows(
    config: &Configuration,
    model: &mut [f32],
    lesson: Lesson,
) -> (usize, Result<(), Refusal>) {
    if !is_finite(model) {
        return (0, refuse(11));
    }
    let Lesson { batch, steps, rate } = lesson;
    let inputs = rows(batch.inputs, config.input_width());
    let targets = rows(batch.targets, config.output_width());
    let mut network = models::network(&config.widths, &config.grid, model);
    if batch.targets.len() > MOST_TARGETS {
        return (0, Err(too_many_targets(network, &inputs, &targets)));
    }
    let mut whole = network.clone();
    if let Err(early) = network.train(&inputs, &targets, 0, rate) {
        return (0, Err(refusal(early)));
    }
    let (done, end) = steps_until_refused(&mut network, steps, |network| {
        network.train_step(&inputs, &targets, rate)
    });
    // R10.9: refused at a later step, the earlier steps stay.
    model.copy_from_slice(&models::parameters(&network));
    if steps > 1 {
        let at_once = whole.train(&inputs, &targets, steps, rate);
        assert_eq!(at_once.map_err(refusal), end, "step by step and at once");
        let both = models::parameters(&whole).into_iter().zip(model);
        for (own, stepped) in both {
            assert_eq!(own.to_bits(), stepped.to_bits(), "step by step and at once");
        }
    }
    (done, end)
}

/// R10.9: the steps done are those before the first refused one, or all that were asked for.
fn steps_until_refused(
    network: &mut Kan,
    steps: usize,
    step: impl Fn(&mut Kan) -> Result<(), KanError>,
) -> (usize, Result<(), Refusal>) {
    for done in 0..steps {
        if let Err(error) = step(network) {
            return (done, Err(refusal(error)));
        }
    }
    (steps, Ok(()))
}
