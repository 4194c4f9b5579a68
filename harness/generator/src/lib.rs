//! Case files and typed texts made by rule from a seed: of every shape that is easy to get wrong, and damaged on purpose.

#![forbid(unsafe_code)]

pub mod chance;
pub mod damage;
pub mod draft;
pub mod draw;
pub mod exchanges;
pub mod families;
pub mod grown;
pub mod large;
pub mod mistyped;
pub mod planted;
pub mod shapes;
pub mod text;
pub mod typed;
