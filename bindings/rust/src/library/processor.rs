//! Whether the processor has what the library's text uses.

use core::arch::x86_64::__cpuid;
use core::sync::atomic::{AtomicBool, Ordering};

/// SSE3, SSSE3, SSE4.1, SSE4.2 and POPCNT, of the level x86-64-v2: bits of ECX of leaf 1 (`tools/build/linked/processor.h`).
const NEEDED: u32 = 1 | 1 << 9 | 1 << 19 | 1 << 20 | 1 << 23;

/// The text would end the program by an illegal instruction. The note that `build.rs` adds says so to the loader, but
/// not each linker keeps it: LLD, rustc's own, drops it.
///
/// # Panics
///
/// Where the processor is older.
pub(super) fn check() {
    static CHECKED: AtomicBool = AtomicBool::new(false);
    if CHECKED.load(Ordering::Relaxed) {
        return;
    }
    // SAFETY: each processor of x86-64 has the instruction and this leaf. Newer compilers know that.
    #[allow(unused_unsafe)]
    let features = unsafe { __cpuid(1) }.ecx;
    assert!(
        features & NEEDED == NEEDED,
        "hayro_jbig2: this processor is below the level x86-64-v2, for which the assembly text is; \
         a build with HAYRO_JBIG2_PORTABLE=1 runs on it"
    );
    CHECKED.store(true, Ordering::Relaxed);
}
