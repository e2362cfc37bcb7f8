//! The published Rust, patched (`oracle.patch`), as one library. Nothing here is its text.
#![allow(dead_code, unused_macros, unused_imports, rustdoc::broken_intra_doc_links)]

pub mod clustering {
    pub mod hyperbolic;
    pub mod rng;
}
pub mod distance;
pub mod feature;
pub mod kernels;
pub mod linalg;
pub mod order;
pub mod tree;
pub mod types;
