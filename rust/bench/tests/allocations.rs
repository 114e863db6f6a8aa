//! The rival allocates nothing once its storage stands, so that no allocator is measured with it.

use bench::rival::Rival;
use bench::sets;
use second::generate::Random;
use second::report::LONGEST_REPORT;
use std::alloc::{GlobalAlloc, Layout, System};
use std::cell::Cell;

thread_local! {
    /// The allocations of this thread so far.
    static ALLOCATIONS: Cell<usize> = const { Cell::new(0) };
}

/// The system's allocator, whose calls are counted.
struct Counting;

// SAFETY: every call is the system allocator's own; a reallocation is an allocation here.
unsafe impl GlobalAlloc for Counting {
    unsafe fn alloc(&self, layout: Layout) -> *mut u8 {
        ALLOCATIONS.set(ALLOCATIONS.get() + 1);
        System.alloc(layout)
    }

    unsafe fn dealloc(&self, pointer: *mut u8, layout: Layout) {
        System.dealloc(pointer, layout)
    }
}

#[global_allocator]
static ALLOCATOR: Counting = Counting;

#[test]
fn nothing_is_allocated_while_the_rival_is_measured() {
    let mut random = Random::seeded(41);
    let mut samples = sets::accepted(&mut random, 50, 256);
    samples.extend(sets::refused(&mut random, 80, 256));
    samples.extend(sets::shared(&mut random, 50));
    samples.extend(sets::full(&mut random, 50));
    samples.extend(sets::functions_only(&mut random, 50));
    samples.extend(sets::long_applications(&mut random, 50));
    let (mut rival, mut buffer) = (Rival::default(), vec![0; LONGEST_REPORT]);
    let before = ALLOCATIONS.get();
    assert!(before > samples.len(), "allocations are counted");
    for sample in &samples {
        assert_eq!(
            rival.solve(&sample.table).is_ok(),
            rival.report(&sample.text, &mut buffer) > 100_000
        );
        rival.infer(&sample.table, &mut buffer);
    }
    assert_eq!(ALLOCATIONS.get(), before);
}
