//! The exported functions as Rust sees them, held to rangemap 1.8.0 and to models of what is new. Each module of the port has a file of its own here.
//! The programs stand in src/bin: compare, foundation (the relations of ranges alone) and bench.
pub mod bytes;
pub mod day_ffi;
pub mod ffi;
mod inside;
pub mod maps;
pub mod query;
pub mod relations;
pub mod report;
pub mod report_days;
pub mod sets;
mod shown;
pub mod transcription;
