//! Trees that people write and read: `make` and `text`, `line` with names of moves, `show`.
#[path = "../common/mod.rs"]
mod common;
mod documents;
mod line;
mod random;
mod show;
mod text;
mod user;
