//! The library linked as `libprismfleece.a`, through the binding for Rust.

#[path = "../../../bindings/prismfleece.rs"]
pub mod binding;

pub use binding::numbers::*;

/// The library has no wrong versions to choose.
pub fn set_fault(_: &str) -> bool {
    false
}
