//! The proved code and the model agree over bounded runs of every kind, and what 01 allows is
//! reached.

use compare::{cases, possible, run, Coverage, Guard, Options, KINDS, OPERATIONS};

fn options(requests: u64, seed: u64) -> Options {
    Options { requests, seed, ..Options::default() }
}

fn agreed(options: &Options) -> Coverage {
    let outcome = run(options).expect("a run");
    assert!(outcome.found.is_none(), "{outcome}");
    assert_eq!((outcome.status(), outcome.requests), (0, options.requests));
    outcome.coverage
}

#[test]
fn every_case_that_01_allows_is_reached_and_no_other() {
    let coverage = agreed(&options(300_000, 1));
    assert_eq!(coverage.missing(), Vec::<String>::new());
    for operation in 0..OPERATIONS as u64 {
        for case in cases().filter(|case| !possible(operation, *case)) {
            assert_eq!(coverage.reached(operation, case), 0, "operation {operation}, {case:?}");
        }
    }
}

#[test]
fn every_kind_agrees() {
    for kind in KINDS {
        let kind = Some(kind.name.to_string());
        agreed(&Options { kind, ..options(300, 2) });
    }
}

#[test]
fn slices_between_guard_pages() {
    for guard in [Guard::Before, Guard::Behind] {
        agreed(&Options { guard: Some(guard), ..options(100_000, 3) });
    }
}

#[test]
fn one_seed_gives_the_same_sessions() {
    let coverage = |seed| agreed(&options(30_000, seed));
    assert_eq!(coverage(5), coverage(5));
    assert_ne!(coverage(5), coverage(6));
}

#[test]
fn guards_by_name() {
    assert_eq!(("before".parse(), "behind".parse()), (Ok(Guard::Before), Ok(Guard::Behind)));
    assert!("beside".parse::<Guard>().unwrap_err().contains("before or behind"));
}

#[test]
fn a_kind_that_is_not_there() {
    let kind = Some("nothing".to_string());
    let error = run(&Options { kind, ..options(1, 1) }).unwrap_err();
    assert!(error.contains("expected one of plain"), "{error}");
}
