//! Playing scripts: what is expected, and what is marked.

use session::play::{goes_as_expected, record, NoAnswer, Player};
use session::server::Proved;
use session::text::{parse, print_script, Script, Unresolved};

fn script(lines: &str) -> Script {
    let text = format!("memory 64 entries 4\nreset nonce 1\n{lines}");
    parse(&text).unwrap_or_else(|error| panic!("{error}\n{text}"))
}

/// The differences of the last request, as `what: expected / given`.
fn differences(lines: &str) -> Vec<String> {
    let script = script(lines);
    let mut proved = Proved;
    let mut player = Player::new(&script, &mut proved);
    let mut last = Vec::new();
    for ask in &script.asks {
        last = player.play(ask).expect("every name is given").differences;
    }
    last.iter().map(|one| format!("{}: {} / {}", one.what, one.expected, one.given)).collect()
}

#[test]
fn as_expected() {
    assert_eq!(differences("read root 4 -> 0 buffer 00*4"), [""; 0]);
    assert_eq!(differences("derive root length 4 permissions R -> 0 as child"), [""; 0]);
    assert_eq!(differences("clone root -> granted\n= entry 0 count 1\n= state last 0"), [""; 0]);
    assert_eq!(differences("write root+3 aabb -> 0\n= at 3 aabb\n= at 0 00*3"), [""; 0]);
    assert_eq!(differences("lock root task 5 -> 0\n= entry 0 locked holder 5"), [""; 0]);
    assert_eq!(differences("drop root -> 9\n= entry 1 free"), [""; 0]);
}

/// A freed entry keeps its tag, and is stated with it.
#[test]
fn a_freed_entry() {
    let freed = "derive root length 4 permissions R -> 0 as child=@1:0xab4a\ndrop child -> 0\n";
    let stated = |line: &str| differences(&format!("{freed}= entry 1 {line}"));
    assert_eq!(stated("free tag 0xab4a"), [""; 0]);
    let wrong = ["what stands: entry 1 free / entry 1 free tag 0xab4a"];
    assert_eq!(stated("free"), wrong);
    assert_eq!(stated("free tag 0"), wrong);
    assert_eq!(differences(&format!("{freed}reset nonce 1 -> 0\n= entry 1 free")), [""; 0]);
}

#[test]
fn what_differs_is_told() {
    let refusal = ["refusal: 5 (locked for another task) / 0 (granted)"];
    assert_eq!(differences("read root 1 -> 5"), refusal);
    assert_eq!(differences("drop root -> 9 named"), ["place: the named entry / none"]);
    assert_eq!(differences("clone root\ndrop root -> 0 number 0"), ["number: 0 / 1"]);
    assert_eq!(differences("read root 2 -> 0 buffer 0001"), ["buffer: 0001 / 0000"]);
    assert_eq!(differences("clone root -> 0 first @1:2"), ["first token: @1:0x0002 / 0"]);
    let count = ["what stands: entry 0 count 2 / entry 0 count 1"];
    assert_eq!(differences("clone root\n= entry 0 count 2"), count);
    assert_eq!(differences("clone root\n= at 5 07"), ["what stands: at 5 07 / at 5 00"]);
    let state = ["what stands: state last 3 nonce 5 / state last 0 nonce 1"];
    assert_eq!(differences("clone root\n= state last 3 nonce 5"), state);
    let total = ["what stands: state total 2 / state total 3"];
    assert_eq!(differences("clone root\n= state total 2"), total);
    assert_eq!(differences("clone root\n= table 32 01").len(), 1);
}

/// A field that the entry's type does not have is a difference, even if it is stated as zero.
#[test]
fn fields_that_are_not_there() {
    let free = ["what stands: entry 1 count 0 / entry 1 free"];
    assert_eq!(differences("clone root\n= entry 1 count 0"), free);
    assert_eq!(differences("clone root\n= entry 0 parent root count 1").len(), 1);
}

#[test]
fn names_stand_for_what_is_given_or_stated() {
    let given = "derive root length 4 permissions R -> 0 as child\nread child/2+3 1 -> 0";
    assert_eq!(differences(given), [""; 0]);
    let stated = "derive root length 4 permissions R -> 0 as child=@3:7\nread child 1 -> 2";
    assert_eq!(differences(stated), [""; 0]);
    let refused = script("derive root length 0 permissions R -> 0 as child\nread child 1");
    let mut proved = Proved;
    let mut player = Player::new(&refused, &mut proved);
    assert!(player.play(&refused.asks[0]).is_ok());
    assert_eq!(player.play(&refused.asks[1]).unwrap().differences.len(), 1);
    let not_given = NoAnswer::Unresolved(Unresolved::NotGiven("child".to_string()));
    assert_eq!(player.play(&refused.asks[2]), Err(not_given));
    let wide =
        script("derive root length 4 permissions R encoding 1 -> 0 as child\nread child+1 1");
    let mut player = Player::new(&wide, &mut proved);
    assert!(player.play(&wide.asks[0]).is_ok() && player.play(&wide.asks[1]).is_ok());
    let no_room = Unresolved::DoesNotFit("child".to_string());
    assert_eq!(player.play(&wide.asks[2]), Err(no_room.into()));
}

/// A create of the whole gives no rest, so that there is nothing to name; token 0 is no stand-in.
#[test]
fn a_name_for_a_token_that_is_not_given() {
    let whole = "create root length 64 permissions R -> 0 as part rest";
    assert_eq!(differences(whole), ["second token: one for 'rest' / none"]);
    let stated = "create root length 64 permissions R -> 0 as - rest=root";
    assert_eq!(differences(stated), ["second token: one for 'rest' / none"]);
    let refused = script(&format!("{whole}\nread rest 1"));
    let mut proved = Proved;
    let mut player = Player::new(&refused, &mut proved);
    let played: Vec<_> = refused.asks.iter().map(|ask| player.play(ask)).collect();
    let not_given = Unresolved::NotGiven("rest".to_string());
    assert_eq!(played[2], Err(not_given.into()));
    assert_eq!(differences("create root length 63 permissions R -> 0 as part rest"), [""; 0]);
}

/// A rest whose token is 0 was given all the same: its number is 0 and its tag has come to 0.
#[test]
fn a_given_token_may_be_0() {
    let text = include_str!("../../sessions/rest-with-tag-zero.session");
    assert!(text.contains(" rest=root"), "{text}");
    assert!(goes_as_expected(&parse(text).expect("a session"), &mut Proved));
}

/// A recorded script fixes every byte: one bit changed anywhere in it is noticed.
#[test]
fn a_recorded_script_is_exact() {
    let source =
        "write root 0102 -> 0\nread root 3 -> 0\nderive root length 4 permissions R -> 0 as c";
    let recorded = record(&script(source), &mut Proved).expect("it goes as stated");
    let text = print_script(&recorded);
    assert!(goes_as_expected(&recorded, &mut Proved));
    let changes = [
        ("= at 0 0102\n", ""),
        ("= at 0 0102\n", "= at 0 0102\n= at 9 01\n"),
        ("buffer 010200", "buffer 010201"),
        (" buffer 010200", ""),
        ("= state last 1 nonce 2 total 2\n", "= state last 1 nonce 2\n"),
        ("= state last 1 nonce 2 total 2\n", "= state last 1 total 2\n"),
        ("= entry 0 count 1\n", ""),
        ("= entry 0 count 1\n", "= entry 0 count 1 cow\n"),
        ("= entry 1 indirect base 0", "= entry 1 indirect base 1"),
        ("-> 0 as c=@1", "-> 0 as c=@2"),
        (" as c=@", " second @"),
    ];
    for (old, new) in changes {
        assert!(text.contains(old), "{old} in\n{text}");
        let changed = parse(&text.replacen(old, new, 1)).expect("a session");
        assert!(!goes_as_expected(&changed, &mut Proved), "{old} by {new}");
    }
}

#[test]
fn what_does_not_come_true_is_not_recorded() {
    assert!(record(&script("read root 1 -> 5"), &mut Proved).is_err());
    assert!(record(&script("read root 1\n= at 0 01"), &mut Proved).is_err());
}

/// Comments and names are kept.
#[test]
fn recording_keeps_comments() {
    let text = "# about\n\nmemory 64 entries 2  # small\n# bytes\nat 3 05  # five\n# first\n\
                reset nonce 1  # go\n# end\n";
    let script = parse(text).expect("a session");
    let recorded = print_script(&record(&script, &mut Proved).expect("it goes"));
    for comment in
        ["# about\n\nmem", "# small", "# bytes\nat", "# five", "# first\nres", "# go", "# end\n"]
    {
        assert!(recorded.contains(comment), "{comment} in\n{recorded}");
    }
}
