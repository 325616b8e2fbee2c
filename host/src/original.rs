// The original Rust, unchanged.
#![allow(dead_code, unexpected_cfgs)]
include!(concat!(env!("OUT_DIR"), "/original.rs"));
