//! The reader in Rust that was written from document 01 alone, as a C program calls it.
#[allow(dead_code)]
#[path = "../../rust/src/ffi.rs"]
mod ffi;
#[allow(dead_code)]
#[path = "../../rust/src/bytes/model.rs"]
mod model;

/// # Safety
/// The bytes are there, and nobody else has the map.
#[no_mangle]
pub unsafe extern "C" fn model_read(
    map: &mut ffi::Map,
    bytes: *const u8,
    bytes_length: usize,
) -> u8 {
    model::read(map, std::slice::from_raw_parts(bytes, bytes_length))
}
