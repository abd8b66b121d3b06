//! An independent implementation of documents 01 and 02, and the means to hold
//! the product against it. No code is shared with the product.

pub mod cases;
pub mod hurt;
pub mod keep;
pub mod panel;
pub mod plain;
#[cfg(feature = "linked")]
pub mod product;
pub mod random;
pub mod show;
pub mod text;
pub mod tuned;
pub mod types;
pub mod wish;
pub mod words;

/// The most symbols a frame can have.
pub const MOST_SYMBOLS: usize = 832;
/// The most bytes a payload can have.
pub const MOST_BYTES: usize = 255;
