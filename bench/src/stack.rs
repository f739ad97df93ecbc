//! The stack that a call takes: it is made on a stack of its own, painted
//! before, and the deepest byte that changed is looked for afterwards.

use crate::call::Call;
use crate::sample::{all_samples, Sample};
use crate::table::Sides;
use crate::{library, reference};
use std::arch::asm;

const SIZE: usize = 64 * 1024;
const PAINT: u8 = 0xA5;

/// As wide as the platform aligns a stack.
#[repr(align(16))]
struct Stack([u8; SIZE]);

/// For each call the most bytes over all samples, from the frame that makes
/// the call on.
pub fn costs() -> Vec<Sides> {
    let mut samples = all_samples();
    let mut stack = Box::new(Stack([PAINT; SIZE]));
    let mut most = |call: Call, run: fn(&mut Sample)| {
        let samples = samples.iter_mut().flatten();
        let depths = samples.map(|sample| {
            sample.restore(call);
            depth(&mut stack, run, sample)
        });
        depths.max().unwrap_or(0) as f64
    };
    let costs = Call::ALL.map(|call| Sides {
        library: most(call, library::run(call)),
        reference: most(call, reference::run(call)),
    });
    costs.to_vec()
}

struct Made<'a> {
    run: fn(&mut Sample),
    sample: &'a mut Sample,
}

extern "C" fn make(call: &mut Made) {
    (call.run)(call.sample);
}

fn depth(stack: &mut Stack, run: fn(&mut Sample), sample: &mut Sample) -> usize {
    stack.0.fill(PAINT);
    let mut call = Made { run, sample };
    let top = stack.0.as_mut_ptr_range().end;
    // r12 keeps the former stack over the call, which must preserve it.
    unsafe {
        asm!(
            "xchg rsp, r12",
            "call r13",
            "mov rsp, r12",
            inout("r12") top => _,
            in("r13") make as extern "C" fn(&mut Made),
            in("rdi") &mut call,
            clobber_abi("C"),
        );
    }
    let untouched = stack.0.iter().take_while(|&&byte| byte == PAINT).count();
    SIZE - untouched
}
