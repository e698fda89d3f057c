//! The zkw machine as a Rust program sees it: the input window, the output window, and the halt.
#![no_std]

use core::arch::asm;
use core::panic::PanicInfo;
use core::slice;

const INPUT: usize = 0x4000_0000;
const OUTPUT: usize = 0x5000_0000;

/// The exit code of a run that panics.
pub const PANICKED: u64 = 101;

/// The input bytes.
pub fn input() -> &'static [u8] {
    // the window begins with the number of bytes, and holds as many
    unsafe { slice::from_raw_parts((INPUT + 8) as *const u8, *(INPUT as *const u64) as usize) }
}

/// Writes byte `index` of the public output, 0 to 255, which is 0 at the start.
pub fn output_byte(index: usize, value: u8) {
    assert!(index < 256);
    unsafe { (OUTPUT as *mut u8).add(index).write_volatile(value) }
}

/// Writes doubleword `index` of the public output, 0 to 31.
pub fn output_word(index: usize, value: u64) {
    assert!(index < 32);
    unsafe { (OUTPUT as *mut u64).add(index).write_volatile(value) }
}

/// Ends the run with this exit code.
pub fn exit(code: u64) -> ! {
    unsafe { asm!("ecall", in("a0") code, in("a7") 93, options(noreturn)) }
}

#[panic_handler]
fn panic(_: &PanicInfo) -> ! {
    exit(PANICKED)
}
