//! The benchmark runs and shows every row. Nothing is asserted of its times.

use measure::{time, Form, Options};

fn shown(form: Form) -> String {
    let mut out = Vec::new();
    let mut told = Vec::new();
    time(Options { rounds: 1, form }, &mut out, &mut |done, all| told.push((done, all))).unwrap();
    assert!(told.windows(2).all(|pair| pair[0].0 + 1 == pair[1].0));
    assert!(told.last().is_some_and(|(done, all)| done == all));
    String::from_utf8(out).unwrap()
}

#[test]
fn every_operation_and_every_access_has_a_row() {
    let text = shown(Form::Text);
    let operations = [
        "reset",
        "create",
        "merge",
        "derive",
        "execute-only",
        "clone",
        "drop",
        "lock",
        "unlock",
        "revoke",
    ];
    for name in operations {
        assert!(text.lines().any(|line| line.starts_with(name)), "{name}");
    }
    for way in ["load", "dump"] {
        for bytes in [16, 4_096, 23_000] {
            let row =
                |line: &str| line.starts_with(way) && line.contains(&format!(" {bytes} bytes "));
            // Its time, and its bytes a second.
            assert_eq!(text.lines().filter(|line| row(line)).count(), 2, "{way} {bytes}");
        }
    }
    for way in ["page-out", "page-in"] {
        for bytes in [64, 4_096, 65_536, 1_048_576] {
            let row =
                |line: &str| line.starts_with(way) && line.contains(&format!(" {bytes} bytes "));
            assert_eq!(text.lines().filter(|line| row(line)).count(), 2, "{way} {bytes}");
        }
    }
    for leases in [0, 1, 64] {
        let of = format!(" {leases} leases ");
        let row = |line: &str| line.starts_with("read, leased") && line.contains(&of);
        assert!(text.lines().any(row), "{of}");
    }
    for way in ["read", "write", "fetch"] {
        for bytes in [1, 12, 64, 512, 4_096] {
            for depth in [0, 1, 8, 64] {
                let of = format!("{bytes} bytes, depth {depth} ");
                let row = |line: &str| line.starts_with(way) && line.contains(&of);
                assert!(text.lines().any(row), "{way} {of}");
            }
        }
    }
}

#[test]
fn markdown_has_a_rule_below_each_head() {
    let text = shown(Form::Markdown);
    assert!(text.lines().any(|line| line.starts_with("| --- | --- | ---: |")));
}
