//! A target for libFuzzer without cargo-fuzz: a static library, which clang links with the fuzzer.
//!
//! ```text
//! export RUSTFLAGS="-Cpasses=sancov-module -Cllvm-args=-sanitizer-coverage-level=4 \
//!     -Cllvm-args=-sanitizer-coverage-inline-8bit-counters -Cllvm-args=-sanitizer-coverage-pc-table"
//! cargo build --release --example fuzz --target x86_64-unknown-linux-gnu
//! clang -fsanitize=fuzzer target/x86_64-unknown-linux-gnu/release/examples/libfuzz.a -o fuzz
//! ./fuzz corpus
//! ```
//!
//! Every second time a module is changed so that it stays valid, otherwise its bytes are; and code of one module is copied into another.
//! Instead of running an engine the target only looks for sections: put your engine there.

use std::slice;
use teddertempo::{change_slice, splice_slice, strip, ChangeOptions};

extern "C" {
    fn LLVMFuzzerMutate(data: *mut u8, size: usize, max_size: usize) -> usize;
}

/// The engine under test: here, whether the bytes are a preamble and whole sections.
fn run(module: &[u8]) {
    let _ = strip(&mut module.to_vec());
}

/// # Safety
///
/// `data` points to `size` bytes.
#[no_mangle]
pub unsafe extern "C" fn LLVMFuzzerTestOneInput(data: *const u8, size: usize) -> i32 {
    if size != 0 {
        run(slice::from_raw_parts(data, size));
    }
    0
}

/// # Safety
///
/// `data` points to `max_size` bytes.
#[no_mangle]
pub unsafe extern "C" fn LLVMFuzzerCustomMutator(
    data: *mut u8,
    size: usize,
    max_size: usize,
    seed: u32,
) -> usize {
    if seed % 2 == 1 {
        let options = ChangeOptions::new().seed(seed.into());
        let module = slice::from_raw_parts_mut(data, max_size);
        if let Ok((new_size, _)) = change_slice(module, size, &options) {
            return new_size;
        }
    }
    LLVMFuzzerMutate(data, size, max_size)
}

/// # Safety
///
/// `data` and `other` point to as many bytes as are said, and `out` to `max_out` bytes.
#[no_mangle]
pub unsafe extern "C" fn LLVMFuzzerCustomCrossOver(
    data: *const u8,
    size: usize,
    other: *const u8,
    other_size: usize,
    out: *mut u8,
    max_out: usize,
    seed: u32,
) -> usize {
    if size == 0 || other_size == 0 || size > max_out {
        return 0;
    }
    let out = slice::from_raw_parts_mut(out, max_out);
    out[..size].copy_from_slice(slice::from_raw_parts(data, size));
    let other = slice::from_raw_parts(other, other_size);
    splice_slice(out, size, other, seed.into()).unwrap_or(0)
}
