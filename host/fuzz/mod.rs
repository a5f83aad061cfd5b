//! What libFuzzer calls: the bytes it makes are an input, and both sides are asked on it.
mod bytes;
mod edge;
mod seeds;

use crate::input::Tally;
use crate::{encoding, frames, peaks, reencoding, report, stop};
use bytes::Fuzzed;
use std::ffi::{c_char, c_int};
use std::process::{abort, exit};
use std::sync::OnceLock;

/// Both sides on libFuzzer's bytes.
static TEST: OnceLock<Box<dyn Fn(&[u8]) + Send + Sync>> = OnceLock::new();

/// `FUZZ` names the operation. Where `SEEDS` names a folder, inputs to begin with are put there, and that is all.
#[no_mangle]
pub extern "C" fn LLVMFuzzerInitialize(_: *const c_int, _: *const *const *const c_char) -> c_int {
    match std::env::var("FUZZ").as_deref() {
        Ok("reading") => begin(Vec::from_bytes),
        Ok("encode") => begin(encoding::Call::from_bytes),
        Ok("wide") => begin(bytes::wide),
        Ok("reencode") => begin(reencoding::Call::from_bytes),
        Ok("frames") => begin(frames::Call::from_bytes),
        Ok("peaks") => begin(peaks::Call::from_bytes),
        _ => stop("FUZZ is to be reading, encode, wide, reencode, frames or peaks."),
    }
    0
}

fn begin<I: Fuzzed + 'static>(from_bytes: fn(&[u8]) -> Option<I>) {
    if let Ok(folder) = std::env::var("SEEDS") {
        println!("{} seeds", seeds::write::<I>(&folder));
        exit(0);
    }
    TEST.get_or_init(|| Box::new(move |bytes| from_bytes(bytes).iter().for_each(test)));
}

/// # Safety
/// `data` points to `size` bytes.
#[no_mangle]
pub unsafe extern "C" fn LLVMFuzzerTestOneInput(data: *const u8, size: usize) -> c_int {
    let bytes = match size {
        0 => &[],
        // SAFETY: libFuzzer lends these bytes for the call.
        _ => unsafe { std::slice::from_raw_parts(data, size) },
    };
    TEST.get().expect("libFuzzer initializes first")(bytes);
    0
}

/// A difference ends the program, so that libFuzzer keeps the input. So does a step over the edge.
fn test<I: Fuzzed>(input: &I) {
    if let Err(difference) = input.check(&mut Tally::default()) {
        println!("{}", input.shown().0);
        report::print(&difference);
        abort();
    }
    edge::with(|edges| input.ask_at(edges));
}
