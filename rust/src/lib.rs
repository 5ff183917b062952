//! The manager's rules in plain Rust, written from docs/ and not from the proved code, to compare the two.

pub mod columns;
pub mod draw;
pub mod generate;
pub mod history;
pub mod image;
pub mod images;
pub mod kinds;
pub mod machine;
pub mod programs;
pub mod proper;
pub mod sheet;
pub mod sheets;
pub mod store;
pub mod unify;
