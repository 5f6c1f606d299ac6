//! The oracle: the ported Rust, built unchanged, with the exponential E (R7.1 to R7.4) for `exp`.
//!
//! `network::kan` and `data_structures::spline` are the published files, taken where they lie
//! (`build.rs`). Everything else here is what the oracle's programs share.

pub mod arguments;
pub mod bits;
pub mod calls;
pub mod cases;
pub mod compared;
pub mod drawn_calls;
pub mod draws;
pub mod exponential;
pub mod grids;
pub mod image_calls;
pub mod inputs;
pub mod kept;
pub mod lent;
pub mod models;
pub mod nans;
pub mod npy_calls;
pub mod outcomes;
pub mod ported;
pub mod program;
pub mod reading;
pub mod rounds;
pub mod settled;
pub mod settled_calls;
pub mod tally;
mod whole;

include!(concat!(env!("OUT_DIR"), "/ported_modules.rs"));
