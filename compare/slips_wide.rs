//! A copy with a slip in it beside one without, over each of the 2^32 words for a kernel of one operand and 10^8 pairs and more
//! for the others. `compare/slips --wide` builds it; its words are the kernels' keys.

use plain::kernels::{all, Call, Kernel};
use plain::sweep::{line, sweep};
use std::sync::atomic::{AtomicUsize, Ordering};
use std::sync::LazyLock;

static SLIPPED: LazyLock<Vec<slipped::kernels::Kernel>> = LazyLock::new(slipped::kernels::all);

/// Which kernel is being tried.
static WHICH: AtomicUsize = AtomicUsize::new(0);

/// What the copy with the slip gives.
fn slipped(a: u32, b: u32) -> u64 {
    // no answer and no refusal, where a guarded one is a NaN
    const NONE: u64 = u64::MAX;
    SLIPPED[WHICH.load(Ordering::Relaxed)].expected(a, b).unwrap_or(NONE)
}

fn main() {
    let keys: Vec<String> = std::env::args().skip(1).collect();
    for (place, kernel) in all().into_iter().enumerate() {
        if keys.contains(&kernel.key()) {
            WHICH.store(place, Ordering::Relaxed);
            let label = kernel.label();
            println!("  {}", line(&label, &sweep(&Kernel { call: Call::Own(slipped), ..kernel }, true)));
        }
    }
}
