//! Independent reference of Vlodenka, written from paper 01.
//!
//! Two roads lead to every answer. `kernel` and `brute` follow the paper word for word and are
//! slow; `judge` and `walk` are written for speed. The binary `selfcheck` holds one against the
//! other, and `differential` holds the fast ones, through `services`, against the C archive.

pub mod brute;
pub mod dispatch;
pub mod draft;
pub mod jobs;
pub mod judge;
pub mod kernel;
pub mod limit;
pub mod random;
pub mod refusal;
pub mod rooms;
pub mod services;
pub mod switch;
pub mod table;
pub mod tree;
pub mod vectors;
pub mod walk;

#[cfg(feature = "archive")]
pub mod archive;
