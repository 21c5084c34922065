//! A target as libFuzzer calls it. Which one stands in the environment variable `KHUMSAFIL_TARGET`.

use std::sync::OnceLock;

static TARGET: OnceLock<fn(&[u8])> = OnceLock::new();

fn chosen() -> fn(&[u8]) {
    let name = std::env::var("KHUMSAFIL_TARGET").expect("KHUMSAFIL_TARGET names a target");
    trial::inputs::target(&name).expect("a target of that name")
}

/// Runs the target. A difference is a panic, which ends the process.
///
/// # Safety
///
/// There are `size` bytes behind `data`.
#[no_mangle]
pub unsafe extern "C" fn LLVMFuzzerTestOneInput(data: *const u8, size: usize) -> i32 {
    let bytes = match size {
        0 => &[],
        // SAFETY: the caller says so.
        _ => unsafe { std::slice::from_raw_parts(data, size) },
    };
    TARGET.get_or_init(chosen)(bytes);
    0
}
