//! The stack that the header promises is enough.

use harness::measured::{most, run_within};
use harness::stack::defined;

const SEED: u64 = 3;

#[test]
fn calls_use_less_than_the_header_says() {
    let (used, promised) = (most(SEED, 300), defined("REPLICA_STACK_BYTES"));
    assert!(used <= promised, "{used} bytes used, {promised} promised");
    assert!(used * 2 > promised || promised <= 4096, "{used} bytes used, {promised} promised: far too many");
}

/// Touching a byte further down ends the test.
#[test]
fn calls_run_on_a_stack_of_that_size() {
    run_within(defined("REPLICA_STACK_BYTES"));
}
