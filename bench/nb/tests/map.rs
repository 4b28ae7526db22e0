//! The drawing of what stands.

use nb_tool::map::draw;
use nb_tool::style::Style;
use session::play::Player;
use session::server::Proved;
use session::text::parse;

fn drawn(text: &str) -> String {
    let script = parse(text).unwrap_or_else(|error| panic!("{error}"));
    let mut proved = Proved;
    let mut player = Player::new(&script, &mut proved);
    for ask in &script.asks {
        let played = player.play(ask).expect("every name is given");
        assert_eq!(played.differences, []);
    }
    draw(&player.world, &player.names, Style::PLAIN)
}

/// Lines of the drawing, without the rules behind the titles.
fn lines(drawing: &str) -> Vec<&str> {
    drawing.lines().map(|line| line.trim_end_matches(['-', ' '])).collect()
}

#[test]
fn segments_trees_and_locks() {
    let drawing = drawn(
        "memory 65536 entries 16
         reset key 0 0 nonce 1 -> 0
         create root length 0x4000 permissions RW user 0x77 -> 0 as part rest
         derive part offset 0x100 length 0x1000 permissions R -> 0 as window
         derive window length 16 permissions R -> 0 as tiny
         derive part length 0x2000 permissions W -> 0 as half
         execute-only rest -> 0 as code
         lock tiny task 7 -> 0",
    );
    let wanted = [
        "memory   65536 bytes",
        "table    16 entries: 2 direct, 4 derived, 10 free",
        "state    last number #5 (next #6), next nonce 7, free total 10",
        "",
        "[AAAAAAAAAAAAAAAABBBBBBBBBBBBBBBBBBBBBBBBBBBBBBBBBBBBBBBBBBBBBBBB] a mark is 1024 bytes",
        "",
        "0x00000000 +-- A #1 part",
        "           |   [########################] 16384 bytes, RW-, count 2, Lockable, user 119, tag 0xb0f3, nonce 1",
        "           |   LOCKED for task 7",
        "           |   [#######.................] |- #2 window: 4096 bytes at 0x00000100, R--, count 2, tag 0x53b6, nonce 3",
        "           |   [#.......................] |  `- #3 tiny: 16 bytes at 0x00000100, R--, count 1, tag 0x3824, nonce 4",
        "           |   [############............] `- #4 half: 8192 bytes at 0x00000000, -W-, count 1, tag 0xb3b5, nonce 5",
        "0x00004000 +-- B #0 rest",
        "           |   [########################] 49152 bytes, RWX, count 1, Lockable, tag 0xa47d, nonce 2",
        "           |   [########################] `- #5 code: 49152 bytes at 0x00004000, --X, count 1, tag 0x0b05, nonce 6",
        "0x00010000 +-- end of memory",
    ];
    assert_eq!(lines(&drawing), wanted, "\n{drawing}");
}

/// A free entry is told with the tag that it keeps, by the names of the token that it last had.
#[test]
fn kept_tags() {
    let drawing = drawn(
        "memory 64 entries 4
         reset key 0 0 nonce 1 -> 0
         derive root length 32 permissions RWX -> 0 as one
         derive root length 16 permissions RWX -> 0
         drop one -> 0
         drop @2:0x3e0f -> 2",
    );
    let head: Vec<&str> = drawing.lines().take(4).collect();
    let wanted = [
        "memory   64 bytes",
        "table    4 entries: 1 direct, 1 derived, 2 free",
        "kept     of free numbers: #1 one tag 0xdfd4",
        "state    last number #2 (next #3), next nonce 3, free total 2",
    ];
    assert_eq!(head, wanted, "\n{drawing}");
    let many: String = (0..12).map(|number| format!("entry {number} free tag 7\n")).collect();
    let drawing = drawn(&format!("memory 64 entries 16\n{many}"));
    assert!(drawing.contains("#6 tag 0x0007; #7 tag 0x0007 and 4 more\n"), "{drawing}");
    assert!(!drawn("memory 64 entries 16\n").contains("kept"));
}

/// An entry that is paged out has a page and no place; a child of it is dead.
#[test]
fn paged_entries() {
    let drawing = drawn(
        "memory 64 entries 8
         state key 0 0 last 7 nonce 100 total 2
         entry 1 paged page-file 0x100000000 length 32 user 5 permissions RX lockable tag 1 nonce 1
         entry 2 indirect base 0 length 8 parent @1:1 count 1 permissions R tag 2 nonce 2
         entry 3 paged page-file 7 length 0 permissions RX tag 3 nonce 3
         entry 4 paged length 9 zeros 1 permissions RX tag 4 nonce 4
         entry 5 paged length 9 locked permissions RX tag 5 nonce 5",
    );
    for wanted in [
        "8 entries: 1 paged out, 1 dead, 3 ill-formed, 3 free",
        "\npaged out\n    #1: 32 bytes at page 4294967296, R-X, Lockable, user 5, tag 0x0001, nonce 1\n",
        "its parent #1 is paged out",
        "    #3: 0 bytes at page 7, R-X, tag 0x0003, nonce 3\n        its length is 0\n",
        "a one stands among its 39 zeros",
        "it is paged out, and Locked is set",
    ] {
        assert!(drawing.contains(wanted), "{wanted} in\n{drawing}");
    }
}

#[test]
fn gaps_overlaps_dead_and_ill_formed_entries() {
    let drawing = drawn(
        "memory 64 entries 10
         state key 0 0 last 9 nonce 100 total 3
         entry 1 direct base 0 length 32 permissions RWX tag 1 nonce 1
         entry 2 direct base 24 length 16 permissions RWX tag 2 nonce 2
         entry 3 indirect base 0 length 40 parent @2:2 count 1 permissions R tag 3 nonce 3
         entry 4 indirect base 0 length 8 parent @1:9 count 1 permissions R tag 4 nonce 4
         entry 5 indirect base 0 length 8 parent @4:4 count 1 permissions R tag 5 nonce 5
         entry 6 indirect base 0 length 8 parent @77:1 count 1 permissions R tag 6 nonce 6
         entry 7 indirect base 0 length 8 parent @1:1 count 1 permissions R tag 7 nonce 1
         entry 8 direct base 60 length 5 permissions R tag 8 nonce 8
         entry 9 indirect base 0 length 8 parent @8:8 count 1 permissions R tag 9 nonce 9",
    );
    for wanted in [
        "10 entries: 2 direct, 1 derived, 4 dead, 1 under an ill-formed entry, 1 ill-formed, 1 free",
        "last number #9 (next none), next nonce 100, free total 3 (the table has 0)",
        "! overlaps #1 by 8 bytes, 0x00000018 to 0x0000001f",
        "! #3 lies outside its owner's segment",
        "0x00000028 +-- nobody's",
        "[AAAAAAAAAAAAAAAAAAAAAAAA!!!!!!!!BBBBBBBB........................] a mark is 1 byte",
        "! a gap of 24 bytes",
        "its parent #1 holds tag 0x0001, not 0x0009",
        "its parent #4 is dead",
        "its parent #77 is beyond the table",
        "its parent #1 has nonce 1, which is not below 1",
        "its parent #8 is ill-formed",
        "it ends past memory",
    ] {
        assert!(drawing.contains(wanted), "{wanted} in\n{drawing}");
    }
}

/// Every bit pattern can be drawn, whatever the sizes.
#[test]
fn any_table_can_be_drawn() {
    for (memory, table) in [(0, 0), (0, 64), (1, 32), (64, 31), (7, 1000)] {
        let mut seed = 7u64;
        let mut bytes = || {
            seed = seed.wrapping_mul(0x5851_f42d_4c95_7f2d).wrapping_add(0x1405_7b7e_f767_814f);
            format!("{:02x}", seed >> 56)
        };
        let bytes: String = (0..table).map(|_| bytes()).collect();
        let fill = if table == 0 { String::new() } else { format!("table 0 {bytes}\n") };
        let text = format!("memory {memory} table {table}\n{fill}");
        assert!(drawn(&text).contains("end of memory"));
    }
}

/// A line as deep as a large table is drawn without a tree as wide.
#[test]
fn a_deep_line() {
    let mut text = "memory 4096 entries 1024\nreset nonce 1 -> 0\n".to_string();
    let mut above = "root".to_string();
    for depth in 1..1024 {
        let line =
            format!("derive {above} length {} permissions R -> 0 as c{depth}\n", 4096 - depth);
        text.push_str(&line);
        above = format!("c{depth}");
    }
    let drawing = drawn(&text);
    assert!(drawing.contains("(depth 1023) `- #1023 c1023: 3073 bytes"), "{drawing}");
    assert!(drawing.lines().all(|line| line.len() < 200));
}
