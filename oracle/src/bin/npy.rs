//! Compares the estimator's NPY files through C linkage (`libestimator.a`) with the rules' reading: every byte written,
//! what is taken from good files and refused of others, the number of refusal, what it carries, and all lent memory.

use kan_oracle::compared::Column;
use kan_oracle::drawn_calls::npy::SIGHTS;
use kan_oracle::drawn_calls::Maker;
use kan_oracle::npy_calls::KINDS;
use kan_oracle::program::Program;
use kan_oracle::settled_calls::npy::settled_npy;
use std::process::ExitCode;

fn main() -> ExitCode {
    let program = Program {
        kinds: &KINDS,
        gives: Column::gives,
        chosen: Some(settled_npy),
        round: Maker::npy_round,
        sights: &SIGHTS,
        made: proved::made,
    };
    program.run()
}

/// The proved code, as `include/estimator.h` declares it.
mod proved {
    use kan_oracle::npy_calls::{Kind, NpyCall};

    #[link(name = "estimator", kind = "static")]
    extern "C" {
        fn kan_npy_write(
            widths: *const usize,
            widths_len: usize,
            intervals: usize,
            lo: f32,
            hi: f32,
            model: *const f32,
            model_len: usize,
            layer: usize,
            file: *mut u8,
            file_len: usize,
            carried: *mut usize,
        ) -> u32;

        fn kan_npy_read(
            widths: *const usize,
            widths_len: usize,
            intervals: usize,
            lo: f32,
            hi: f32,
            model: *mut f32,
            model_len: usize,
            layer: usize,
            file: *const u8,
            file_len: usize,
            carried: *mut usize,
        ) -> u32;
    }

    /// The call as the archive makes it.
    pub fn made(mut call: NpyCall) -> NpyCall {
        // Every buffer is lent with its own length, and no two of them overlap.
        call.number = match call.kind {
            Kind::Write => unsafe { write(&mut call) },
            Kind::Read => unsafe { read(&mut call) },
        };
        call
    }

    unsafe fn write(call: &mut NpyCall) -> u32 {
        kan_npy_write(
            call.widths.pointer(),
            call.widths.len(),
            call.grid.intervals,
            call.grid.lo,
            call.grid.hi,
            call.model.pointer(),
            call.model.len(),
            call.layer,
            call.file.pointer_mut(),
            call.file.len(),
            call.carried.pointer_mut(),
        )
    }

    unsafe fn read(call: &mut NpyCall) -> u32 {
        kan_npy_read(
            call.widths.pointer(),
            call.widths.len(),
            call.grid.intervals,
            call.grid.lo,
            call.grid.hi,
            call.model.pointer_mut(),
            call.model.len(),
            call.layer,
            call.file.pointer(),
            call.file.len(),
            call.carried.pointer_mut(),
        )
    }
}
