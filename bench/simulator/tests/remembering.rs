//! Simulators whose answers depend on what they were asked before: what is printed comes again in a
//! fresh process, or it is said that it does not.

use std::env;
use std::fs;

use bridge::Operation;
use compare::{run, Options, Outcome, Simulator, WAIT};
use session::play::{NoAnswer, Player};
use session::text::parse;

const SIMULATOR: &str = env!("CARGO_BIN_EXE_simulator");

fn against(command: &str, seed: u64) -> Outcome {
    let against = Some(command.to_string());
    run(&Options { requests: 20_000, seed, against, ..Options::default() }).expect("a run")
}

/// Whether a fresh process shows the difference that a run printed.
fn comes_again(outcome: &Outcome, command: &str) -> bool {
    let script = parse(&outcome.to_string()).expect("the replay format");
    let mut simulator = Simulator::start(command, WAIT).expect("a simulator");
    let mut player = Player::new(&script, &mut simulator);
    let played: Vec<_> = script.asks.iter().map(|ask| player.play(ask)).collect();
    let differs = |played: &Result<_, NoAnswer>| match played {
        Ok(session::play::Played { differences, .. }) => !differences.is_empty(),
        Err(_) => true,
    };
    played.iter().any(differs)
}

/// It dies before its fiftieth answer, whatever it is asked: only a session that takes so many lines
/// shows it.
#[test]
fn one_that_dies_at_its_fiftieth_line() {
    let command = format!("sed -u 49q | '{SIMULATOR}'");
    for seed in 1..4 {
        let outcome = against(&command, seed);
        let first = outcome.first.as_ref().expect("a difference");
        let found = outcome.found.as_ref().expect("a difference");
        assert!(!first.found.session.steps.is_empty() && !found.session.steps.is_empty());
        let text = outcome.to_string();
        assert!(text.contains("First at request "), "{text}");
        assert!(text.contains("ended without an answer to '"), "{text}");
        assert_eq!(Some(comes_again(&outcome, &command)), first.again, "{text}");
    }
}

/// From the fourth world on, a lock is taken for one by task 9.
#[test]
fn one_that_is_wrong_after_earlier_worlds() {
    let worlds = "/^world/{x;s/^/w/;x}";
    let nine = "s/^serve a \\([^ ]*\\) \\([^ ]*\\) [^ ]* /serve a \\1 \\2 9 /";
    let locks = format!("/^serve a /{{x;/^wwww/{{x;{nine};x;}};x;}}");
    let command = format!("sed -u -e '{worlds}' -e '{locks}' | '{SIMULATOR}'");
    let outcome = against(&command, 1);
    let first = outcome.first.as_ref().expect("a difference");
    assert_eq!(first.again, Some(false));
    let text = outcome.to_string();
    assert!(text.contains("THIS DOES NOT COME AGAIN"), "{text}");
    assert!(
        text.contains("\n#   lock ") && text.contains("To look for it, repeat the run"),
        "{text}"
    );
    assert_eq!(outcome.found.as_ref(), Some(&first.found), "what was found is shown as it was");
    assert!(!comes_again(&outcome, &command));
}

/// It can be run once only: afterwards nothing can be begun, which says nothing about a request.
#[test]
fn one_that_starts_once_only() {
    let mark = env::temp_dir().join(format!("started-once-{}", std::process::id()));
    let _ = fs::remove_dir(&mark);
    let spoilt = "sed -u 's/^answer 9 /answer 8 /'";
    let command = format!("mkdir '{}' 2> /dev/null && '{SIMULATOR}' | {spoilt}", mark.display());
    let outcome = against(&command, 1);
    let _ = fs::remove_dir(&mark);
    let first = outcome.first.as_ref().expect("a difference");
    assert!(first.again == Some(false) && outcome.to_string().contains("THIS DOES NOT COME AGAIN"));
    assert_eq!(outcome.found.as_ref(), Some(&first.found));
}

/// A wrong rule is shown by as few requests as it needs: here a reset and a lock for a task that is
/// too large.
#[test]
fn one_with_a_wrong_rule() {
    let command = format!(
        "sed -u 's/^\\(serve a [^ ]* [^ ]*\\) 8[0-9a-f]\\{{13\\}} /\\1 1 /' | '{SIMULATOR}'"
    );
    for seed in 1..4 {
        let outcome = against(&command, seed);
        assert!(comes_again(&outcome, &command), "{outcome}");
        let steps = &outcome.found.as_ref().expect("a difference").session.steps;
        let operations: Vec<u64> = steps.iter().map(|step| step.request.operation).collect();
        let wanted = [Operation::Reset as u64, Operation::Lock as u64];
        assert!(operations == wanted || operations == wanted[1..], "{outcome}");
    }
}
