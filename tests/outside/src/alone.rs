//! Groups of the model alone: what the papers say of the newer form and of the converters must hold of the model too.

pub mod converting;
pub mod k;
pub mod k_converted;
pub mod k_loaded;
pub mod reading;
