//! Numbers the lines of standard input, as `cat -n` does.

#![no_std]
#![no_main]

#[path = "../runtime/plain.rs"]
mod plain;

use core::fmt::{self, Write};

struct Output;

impl Write for Output {
    fn write_str(&mut self, text: &str) -> fmt::Result {
        plain::write_all(text.as_bytes());
        Ok(())
    }
}

#[no_mangle]
extern "C" fn main() -> u32 {
    let mut buffer = [0; 64];
    let mut line = 1;
    let mut begins = true;
    loop {
        let taken = plain::read_all(&mut buffer);
        if taken == 0 {
            return 0;
        }
        for piece in buffer[..taken].split_inclusive(|&byte| byte == b'\n') {
            if begins && write!(Output, "{:6}\t", line).is_err() {
                return 1;
            }
            plain::write_all(piece);
            begins = piece.ends_with(b"\n");
            line += u32::from(begins);
        }
    }
}
