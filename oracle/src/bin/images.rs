//! Compares the estimator's model images through C linkage (`libestimator.a`) with the rules' reading: every byte
//! written, what is read of good and of damaged images, the number of refusal, what it carries, and all lent memory.

use kan_oracle::compared::Column;
use kan_oracle::drawn_calls::Maker;
use kan_oracle::image_calls::KINDS;
use kan_oracle::program::Program;
use kan_oracle::settled_calls::images::settled_images;
use std::process::ExitCode;

fn main() -> ExitCode {
    let program = Program {
        kinds: &KINDS,
        gives: Column::gives,
        chosen: Some(settled_images),
        round: Maker::images_round,
        sights: &[],
        made: proved::made,
    };
    program.run()
}

/// The proved code, as `include/estimator.h` declares it.
mod proved {
    use kan_oracle::image_calls::{ImageCall, Kind};

    #[link(name = "estimator", kind = "static")]
    extern "C" {
        fn kan_image_write(
            widths: *const usize,
            widths_len: usize,
            intervals: usize,
            lo: f32,
            hi: f32,
            model: *const f32,
            model_len: usize,
            image: *mut u8,
            image_len: usize,
            carried: *mut usize,
        ) -> u32;

        fn kan_image_read(
            image: *const u8,
            image_len: usize,
            intervals: *mut usize,
            lo: *mut f32,
            hi: *mut f32,
            widths: *mut usize,
            parameters: *mut usize,
            carried: *mut usize,
        ) -> u32;

        fn kan_image_unpack(
            image: *const u8,
            image_len: usize,
            widths: *mut usize,
            widths_len: usize,
            model: *mut f32,
            model_len: usize,
            carried: *mut usize,
        ) -> u32;
    }

    /// The call as the archive makes it.
    pub fn made(mut call: ImageCall) -> ImageCall {
        // Every buffer is lent with its own length, and no two of them overlap.
        call.number = match call.kind {
            Kind::Write => unsafe { write(&mut call) },
            Kind::Read => unsafe { read(&mut call) },
            Kind::Unpack => unsafe { unpack(&mut call) },
        };
        call
    }

    unsafe fn write(call: &mut ImageCall) -> u32 {
        kan_image_write(
            call.widths.pointer(),
            call.widths.len(),
            call.grid.intervals,
            call.grid.lo,
            call.grid.hi,
            call.model.pointer(),
            call.model.len(),
            call.image.pointer_mut(),
            call.image.len(),
            call.carried.pointer_mut(),
        )
    }

    unsafe fn read(call: &mut ImageCall) -> u32 {
        let [lo, hi] = &mut call.ends;
        kan_image_read(
            call.image.pointer(),
            call.image.len(),
            call.intervals.pointer_mut(),
            lo.pointer_mut(),
            hi.pointer_mut(),
            call.width_count.pointer_mut(),
            call.parameters.pointer_mut(),
            call.carried.pointer_mut(),
        )
    }

    unsafe fn unpack(call: &mut ImageCall) -> u32 {
        kan_image_unpack(
            call.image.pointer(),
            call.image.len(),
            call.widths.pointer_mut(),
            call.widths.len(),
            call.model.pointer_mut(),
            call.model.len(),
            call.carried.pointer_mut(),
        )
    }
}
