//! Tells the faults of a text, and writes its tree.
//!
//! usage: tree [script | module | program | auto] < FILE
//!
//! `rustc -O main.rs -C link-arg=libecma_link.a -C link-arg=liblibc_c.a`

use std::io::{self, Read, Write};
use std::process::ExitCode;

/// What is asked for: `include/ecma.h` says what the numbers mean.
#[repr(C)]
struct EcmaOptions {
    struct_size: u64,
    goal: u32,
    limit: u32,
    flags: u32,
    max_faults: u32,
}

unsafe extern "C" {
    fn ecma_parse(
        text: *const u8,
        length: usize,
        options: &EcmaOptions,
        out: *mut u8,
        room: usize,
        needed: &mut usize,
    ) -> i32;
}

const TOO_SHORT: i32 = -1;

/// The status of a text, and its tree and faults as JSON where there is an answer.
fn parse(text: &str, options: &EcmaOptions) -> Result<(i32, String), i32> {
    let mut out = vec![0; 1024 + 16 * text.len()];
    loop {
        let mut needed = 0;
        // SAFETY: the pointers and lengths are those of slices, and `out` is no part of `text`.
        let status = unsafe {
            ecma_parse(
                text.as_ptr(),
                text.len(),
                options,
                out.as_mut_ptr(),
                out.len(),
                &mut needed,
            )
        };
        match status {
            TOO_SHORT => out.resize(needed, 0),
            0.. => {
                out.truncate(needed);
                return Ok((status, String::from_utf8(out).expect("JSON is UTF-8")));
            }
            _ => return Err(status),
        }
    }
}

fn main() -> ExitCode {
    let goal = match std::env::args().nth(1).as_deref() {
        Some("script") => 0,
        Some("module") => 1,
        Some("program") => 2,
        _ => 3,
    };
    let mut text = String::new();
    io::stdin().read_to_string(&mut text).expect("standard input is UTF-8");
    let options = EcmaOptions { struct_size: size_of::<EcmaOptions>() as u64, goal, limit: 1000, flags: 0, max_faults: 1000 };
    match parse(&text, &options) {
        Ok((status, json)) => {
            io::stdout().write_all(json.as_bytes()).expect("standard output takes it");
            ExitCode::from(status as u8)
        }
        Err(status) => {
            eprintln!("no answer: status {status}");
            ExitCode::from(4)
        }
    }
}
