//! Leases and minutes as text.

use bridge::Lease;
use session::play::{goes_as_expected, NoAnswer, Player};
use session::server::{Model, Proved};
use session::text::{parse, print, print_script, Script, Unresolved};
use session::Session;

fn script(lines: &str) -> Script {
    let text = format!("memory 64 entries 4\n{lines}\n");
    parse(&text).unwrap_or_else(|error| panic!("{error}\n{text}"))
}

/// The leases and the second word of the last request.
fn lent(lines: &str) -> (Vec<u8>, u64) {
    let Session { steps, .. } = script(lines).session().expect("stated tokens");
    let last = steps.last().expect("a request");
    (last.leases.clone(), last.request.second)
}

/// The last line, as it is printed.
fn printed(lines: &str) -> String {
    let text = print_script(&script(lines));
    text.lines().last().unwrap_or("").to_string()
}

fn lease(number: u16, tag: u16, opening: u16, closing: u16) -> Vec<u8> {
    Lease { number, tag, opening, closing }.to_bytes().to_vec()
}

#[test]
fn a_lease_is_a_token_and_two_minutes() {
    assert_eq!(lent("read root 1"), (vec![], 0));
    assert_eq!(lent("read root 1 minute 61 leases root=60..120"), (lease(0, 0, 60, 120), 61));
    assert_eq!(lent("read root 1 leases @5:0x1234=10000..60").0, lease(5, 0x1234, 10_000, 60));
    assert_eq!(lent("clone root leases @5:0x1234/3+9=0..65_535").0, lease(5, 0x1234, 0, 65_535));
    assert_eq!(lent("read root 1 leases 0x048D00050000000C=1..2").0, lease(5, 0x1234, 1, 2));
    let two = [lease(0, 0, 1, 2), lease(1, 7, 3, 4)].concat();
    assert_eq!(lent("write root 01 leases root=1..2 @1:7=3..4 minute 9"), (two, 9));
}

#[test]
fn any_bytes_can_be_lent_as_leases() {
    assert_eq!(lent("read root 1 leases 0102").0, [1, 2]);
    assert_eq!(lent("read root 1 leases ff*520").0, [0xff; 520]);
    assert_eq!(lent("read root 1 leases 00*0").0, []);
    let mixed = [lease(0, 0, 1, 2), lease(0, 0, 1, 2), vec![7, 7]].concat();
    assert_eq!(lent("read root 1 leases root=1..2*2 07*2").0, mixed);
    assert_eq!(lent("read root 1 leases root=1..2*64").0.len(), 512);
}

#[test]
fn names_stand_for_number_and_tag() {
    let derived = "reset nonce 1\nderive root length 8 permissions R -> 0 as card=@1:0x1234/2\n";
    let read = |leases: &str| format!("{derived}read card+4 1 leases {leases}");
    assert_eq!(lent(&read("card=0..5")).0, lease(1, 0x1234, 0, 5));
    assert_eq!(
        printed(&read("card=0..5 root=6..7*2")),
        "read card+4 1 leases card=0..5 root=6..7*2"
    );
    let wide = "reset nonce 1\nderive root length 8 permissions R -> 0 as card=@65536:1/1\n\
                read card 1 leases card=0..5";
    let no_lease = Unresolved::NoLease("card".to_string());
    assert_eq!(script(wide).session(), Err(no_lease.clone()));
    assert!(no_lease.to_string().contains("no room for the number of 'card'"));
}

#[test]
fn a_name_that_nobody_gave_is_not_lent() {
    let lines = "reset nonce 1 -> 0\nderive root length 0 permissions R -> 0 as card\n\
                 read root 1 leases card=0..5";
    let (script, mut proved) = (script(lines), Proved);
    let mut player = Player::new(&script, &mut proved);
    let played: Vec<_> = script.asks.iter().map(|ask| player.play(ask)).collect();
    let not_given = Unresolved::NotGiven("card".to_string());
    assert_eq!(played[2], Err(NoAnswer::Unresolved(not_given)));
}

#[test]
fn leases_are_printed_by_their_tokens() {
    for line in [
        "read root 1 minute 360 leases root=360..840",
        "write @1:0x0012 0102 minute 5 task 7 leases @1:0x0012=0..10080 root=9..9*3",
        "load root :00000001FF minute 10080",
        "dump root 64 minute 18446744073709551615 leases 0102",
        "clone root leases @16383:0xffff=1..2 @16384:0xffff/1=1..2",
    ] {
        let expected = line.replace("18446744073709551615", "0xffffffffffffffff");
        assert_eq!(printed(line), expected);
    }
    let bytes = printed("read root 1 leases 00000000 0100 0200 05");
    assert_eq!(bytes, "read root 1 leases root=1..2 05");
    assert_eq!(printed("read root 1 leases 05 00*7 05"), "read root 1 leases @5:0x0000=0..0 05");
    assert_eq!(printed("read root 1 leases 05 root=1..2 05"), "read root 1 leases 05 root=1..2 05");
}

/// A session that was asked is printed by its leases, whatever the bytes are.
#[test]
fn bytes_become_leases_where_they_can() {
    let session = script("read root 1 leases 0000000001000200*2 0100").session().expect("no names");
    let text = print(&session);
    assert!(text.ends_with("read root 1 leases root=1..2*2 0100\n"), "{text}");
}

/// What is in a minute's place may be given as a token, too.
#[test]
fn the_second_word_of_an_access() {
    assert_eq!(lent("read root 1 second @0:0+77").1, 77);
    assert_eq!(printed("read root 1 second root+77"), "read root 1 minute 77");
    let named = "reset nonce 1\nderive root length 8 permissions R -> 0 as card=@1:0x1234\n\
                 read card 1 second card";
    assert_eq!(printed(named), "read card 1 second card");
    assert_eq!(printed("clone root second root+77"), "clone root second root+77");
}

#[test]
fn shifts_are_played() {
    let lines = "reset nonce 1                                   -> 0
        derive root length 8 permissions RW                      -> 0 as card
        write card 01 minute 360 leases card=360..840            -> 0
        write card 01 minute 840 leases card=360..840            -> 15
        read card 1 minute 840 leases card=360..840 card=840..1  -> 0
        read root 1 minute 840 leases card=360..840              -> 0
        read root 1 leases @3:9=5..5                             -> 16
        read root 1 leases 00*7                                  -> 1
        read root 1 minute 10080                                 -> 1";
    let script = script(lines);
    assert!(goes_as_expected(&script, &mut Proved) && goes_as_expected(&script, &mut Model));
}
