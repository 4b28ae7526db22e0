//! The stack of the proved code, held to its bound.

use measure::{stack, BOUND};

#[test]
fn the_deepest_calls_stay_within_the_bound() {
    let figures = stack().expect("a thread on a stack of our own");
    assert!(figures.shallowest < figures.walk, "{figures}");
    let images = [figures.load, figures.dump, figures.page_out, figures.page_in];
    for most in [figures.walk, figures.drop, figures.leased].into_iter().chain(images) {
        assert!(most <= BOUND, "{figures}");
    }
}
