//! What `bully.h` declares, by its names. `build.rs` writes it, and `tests/layout.rs` compares the two.
#![allow(dead_code, missing_docs, non_camel_case_types)]

use std::ffi::{c_char, c_void};

include!(concat!(env!("OUT_DIR"), "/raw.rs"));
