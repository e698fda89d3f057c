//! What this program computes. Copy this file, and build it by
//!
//!     guest/rustc.sh program.elf program.rs
//!
//! Then `./zkw run program.elf INPUT STEPS` runs it on the bytes of the file INPUT.
#![no_std]
#![no_main]

/// Here: the sum of the input's bytes, as doubleword 0 of the public output. The exit code is 1 where
/// there is no input.
#[no_mangle]
pub extern "C" fn main() -> u64 {
    let sum = zkw::input().iter().map(|&byte| u64::from(byte)).sum();
    zkw::output_word(0, sum);
    u64::from(zkw::input().is_empty())
}
