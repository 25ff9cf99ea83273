//! Standard input, standard output and the end of a Rust program without an operating system.
//!
//! One call of the machine moves at most the bytes up to the end of the word (4 bytes) in which the buffer begins, so each stands
//! in a loop.

use core::arch::{asm, global_asm};

global_asm!(include_str!("start.S"));

const READ: usize = 63;
const WRITE: usize = 64;
const EXIT: usize = 93;
const STANDARD_INPUT: usize = 0;
const STANDARD_OUTPUT: usize = 1;

/// # Safety
/// The `length` bytes at `bytes` may be read, for WRITE, or written, for READ.
unsafe fn call(number: usize, first: usize, bytes: *const u8, length: usize) -> isize {
    let answer: isize;
    asm!("ecall", inlateout("a0") first => answer, in("a1") bytes, in("a2") length, in("a7") number);
    answer
}

/// Fills `bytes` from standard input, or their beginning where it ends, and answers how many.
pub fn read_all(bytes: &mut [u8]) -> usize {
    let mut filled = 0;
    while filled < bytes.len() {
        let rest = &mut bytes[filled..];
        let taken = unsafe { call(READ, STANDARD_INPUT, rest.as_mut_ptr(), rest.len()) };
        if taken <= 0 {
            break;
        }
        filled += taken as usize;
    }
    filled
}

/// Writes all bytes to standard output.
pub fn write_all(bytes: &[u8]) {
    let mut written = 0;
    while written < bytes.len() {
        let rest = &bytes[written..];
        let taken = unsafe { call(WRITE, STANDARD_OUTPUT, rest.as_ptr(), rest.len()) };
        if taken <= 0 {
            exit(1);
        }
        written += taken as usize;
    }
}

/// Ends the run with a code.
#[no_mangle]
pub extern "C" fn exit(code: u32) -> ! {
    loop {
        unsafe { call(EXIT, code as usize, core::ptr::null(), 0) };
    }
}

#[panic_handler]
fn panicked(_: &core::panic::PanicInfo) -> ! {
    exit(101)
}
