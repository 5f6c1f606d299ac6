//! The proved calls on a network, as `include/estimator.h` declares them.

use kan_oracle::calls::{Call, Kind};

#[link(name = "estimator", kind = "static")]
extern "C" {
    fn kan_check(
        widths: *const usize,
        widths_len: usize,
        intervals: usize,
        lo: f32,
        hi: f32,
        parameters: *mut usize,
        carried: *mut usize,
    ) -> u32;

    fn kan_initialise(
        widths: *const usize,
        widths_len: usize,
        intervals: usize,
        lo: f32,
        hi: f32,
        seed: u64,
        model: *mut f32,
        model_len: usize,
        carried: *mut usize,
    ) -> u32;

    fn kan_predict(
        widths: *const usize,
        widths_len: usize,
        intervals: usize,
        lo: f32,
        hi: f32,
        model: *const f32,
        model_len: usize,
        inputs: *const f32,
        inputs_len: usize,
        first: *mut f32,
        first_len: usize,
        second: *mut f32,
        second_len: usize,
        outputs: *mut f32,
        outputs_len: usize,
        carried: *mut usize,
    ) -> u32;

    fn kan_loss(
        widths: *const usize,
        widths_len: usize,
        intervals: usize,
        lo: f32,
        hi: f32,
        model: *const f32,
        model_len: usize,
        inputs: *const f32,
        inputs_len: usize,
        targets: *const f32,
        targets_len: usize,
        first: *mut f32,
        first_len: usize,
        second: *mut f32,
        second_len: usize,
        loss: *mut f32,
        carried: *mut usize,
    ) -> u32;

    fn kan_train_step(
        widths: *const usize,
        widths_len: usize,
        intervals: usize,
        lo: f32,
        hi: f32,
        model: *mut f32,
        model_len: usize,
        inputs: *const f32,
        inputs_len: usize,
        targets: *const f32,
        targets_len: usize,
        rate: f32,
        gradients: *mut f32,
        gradients_len: usize,
        work: *mut f32,
        work_len: usize,
        carried: *mut usize,
    ) -> u32;

    fn kan_train(
        widths: *const usize,
        widths_len: usize,
        intervals: usize,
        lo: f32,
        hi: f32,
        model: *mut f32,
        model_len: usize,
        inputs: *const f32,
        inputs_len: usize,
        targets: *const f32,
        targets_len: usize,
        steps: usize,
        rate: f32,
        gradients: *mut f32,
        gradients_len: usize,
        work: *mut f32,
        work_len: usize,
        done: *mut usize,
        carried: *mut usize,
    ) -> u32;

    fn kan_visits(
        widths: *const usize,
        widths_len: usize,
        intervals: usize,
        lo: f32,
        hi: f32,
        model: *const f32,
        model_len: usize,
        inputs: *const f32,
        inputs_len: usize,
        first: *mut f32,
        first_len: usize,
        second: *mut f32,
        second_len: usize,
        map: *mut u8,
        map_len: usize,
        carried: *mut usize,
    ) -> u32;

    fn kan_accumulate(
        widths: *const usize,
        widths_len: usize,
        intervals: usize,
        lo: f32,
        hi: f32,
        model: *const f32,
        model_len: usize,
        inputs: *const f32,
        inputs_len: usize,
        targets: *const f32,
        targets_len: usize,
        total: usize,
        gradients: *mut f32,
        gradients_len: usize,
        work: *mut f32,
        work_len: usize,
        carried: *mut usize,
    ) -> u32;

    fn kan_apply(
        widths: *const usize,
        widths_len: usize,
        intervals: usize,
        lo: f32,
        hi: f32,
        model: *mut f32,
        model_len: usize,
        gradients: *const f32,
        gradients_len: usize,
        rate: f32,
        carried: *mut usize,
    ) -> u32;
}

/// The call as the archive makes it.
pub fn made(mut call: Call) -> Call {
    // Every buffer is lent with its own length, and no two of them overlap.
    call.number = match call.kind {
        Kind::Check => unsafe { check(&mut call) },
        Kind::Initialise => unsafe { initialise(&mut call) },
        Kind::Predict => unsafe { predict(&mut call) },
        Kind::Loss => unsafe { loss(&mut call) },
        Kind::TrainStep => unsafe { train_step(&mut call) },
        Kind::Train => unsafe { train(&mut call) },
        Kind::Visits => unsafe { visits(&mut call) },
        Kind::Accumulate => unsafe { accumulate(&mut call) },
        Kind::Apply => unsafe { apply(&mut call) },
    };
    call
}

unsafe fn check(call: &mut Call) -> u32 {
    kan_check(
        call.widths.pointer(),
        call.widths.len(),
        call.grid.intervals,
        call.grid.lo,
        call.grid.hi,
        call.parameters.pointer_mut(),
        call.carried.pointer_mut(),
    )
}

unsafe fn initialise(call: &mut Call) -> u32 {
    kan_initialise(
        call.widths.pointer(),
        call.widths.len(),
        call.grid.intervals,
        call.grid.lo,
        call.grid.hi,
        call.seed,
        call.model.pointer_mut(),
        call.model.len(),
        call.carried.pointer_mut(),
    )
}

unsafe fn predict(call: &mut Call) -> u32 {
    kan_predict(
        call.widths.pointer(),
        call.widths.len(),
        call.grid.intervals,
        call.grid.lo,
        call.grid.hi,
        call.model.pointer(),
        call.model.len(),
        call.inputs.pointer(),
        call.inputs.len(),
        call.first.pointer_mut(),
        call.first.len(),
        call.second.pointer_mut(),
        call.second.len(),
        call.outputs.pointer_mut(),
        call.outputs.len(),
        call.carried.pointer_mut(),
    )
}

unsafe fn loss(call: &mut Call) -> u32 {
    kan_loss(
        call.widths.pointer(),
        call.widths.len(),
        call.grid.intervals,
        call.grid.lo,
        call.grid.hi,
        call.model.pointer(),
        call.model.len(),
        call.inputs.pointer(),
        call.inputs.len(),
        call.targets.pointer(),
        call.targets.len(),
        call.first.pointer_mut(),
        call.first.len(),
        call.second.pointer_mut(),
        call.second.len(),
        call.loss.pointer_mut(),
        call.carried.pointer_mut(),
    )
}

unsafe fn train_step(call: &mut Call) -> u32 {
    kan_train_step(
        call.widths.pointer(),
        call.widths.len(),
        call.grid.intervals,
        call.grid.lo,
        call.grid.hi,
        call.model.pointer_mut(),
        call.model.len(),
        call.inputs.pointer(),
        call.inputs.len(),
        call.targets.pointer(),
        call.targets.len(),
        call.rate,
        call.gradients.pointer_mut(),
        call.gradients.len(),
        call.work.pointer_mut(),
        call.work.len(),
        call.carried.pointer_mut(),
    )
}

unsafe fn train(call: &mut Call) -> u32 {
    kan_train(
        call.widths.pointer(),
        call.widths.len(),
        call.grid.intervals,
        call.grid.lo,
        call.grid.hi,
        call.model.pointer_mut(),
        call.model.len(),
        call.inputs.pointer(),
        call.inputs.len(),
        call.targets.pointer(),
        call.targets.len(),
        call.steps,
        call.rate,
        call.gradients.pointer_mut(),
        call.gradients.len(),
        call.work.pointer_mut(),
        call.work.len(),
        call.done.pointer_mut(),
        call.carried.pointer_mut(),
    )
}

unsafe fn visits(call: &mut Call) -> u32 {
    kan_visits(
        call.widths.pointer(),
        call.widths.len(),
        call.grid.intervals,
        call.grid.lo,
        call.grid.hi,
        call.model.pointer(),
        call.model.len(),
        call.inputs.pointer(),
        call.inputs.len(),
        call.first.pointer_mut(),
        call.first.len(),
        call.second.pointer_mut(),
        call.second.len(),
        call.map.pointer_mut(),
        call.map.len(),
        call.carried.pointer_mut(),
    )
}

unsafe fn accumulate(call: &mut Call) -> u32 {
    kan_accumulate(
        call.widths.pointer(),
        call.widths.len(),
        call.grid.intervals,
        call.grid.lo,
        call.grid.hi,
        call.model.pointer(),
        call.model.len(),
        call.inputs.pointer(),
        call.inputs.len(),
        call.targets.pointer(),
        call.targets.len(),
        call.total,
        call.gradients.pointer_mut(),
        call.gradients.len(),
        call.work.pointer_mut(),
        call.work.len(),
        call.carried.pointer_mut(),
    )
}

unsafe fn apply(call: &mut Call) -> u32 {
    kan_apply(
        call.widths.pointer(),
        call.widths.len(),
        call.grid.intervals,
        call.grid.lo,
        call.grid.hi,
        call.model.pointer_mut(),
        call.model.len(),
        call.gradients.pointer(),
        call.gradients.len(),
        call.rate,
        call.carried.pointer_mut(),
    )
}
