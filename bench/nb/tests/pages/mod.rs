//! Pages of sessions, and what the map says at each of their steps.

use std::fs;
use std::path::{Path, PathBuf};

use nb_tool::map::draw;
use nb_tool::page::Page;
use nb_tool::style::Style;
use session::play::Player;
use session::server::Proved;
use session::text::parse;

pub fn sessions() -> PathBuf {
    Path::new(env!("CARGO_MANIFEST_DIR")).join("../sessions")
}

pub fn stored(name: &str) -> String {
    fs::read_to_string(sessions().join(name)).expect("a stored session")
}

/// A session's page, and the lines of the map at the start and after each request.
pub fn page(name: &str, text: &str) -> (String, Vec<Vec<String>>) {
    let script = parse(text).unwrap_or_else(|error| panic!("{name}: {error}"));
    let mut proved = Proved;
    let mut player = Player::new(&script, &mut proved);
    let mut page = Page::new(name, &script, &player.world, &player.names);
    let mut maps = vec![said(&draw(&player.world, &player.names, Style::PLAIN))];
    for ask in &script.asks {
        let played = player.play(ask);
        page.add(ask, &played, &player.world, &player.names);
        maps.push(said(&draw(&player.world, &player.names, Style::PLAIN)));
    }
    (page.finish("a verdict"), maps)
}

/// What a map says, line by line, without what it draws.
fn said(map: &str) -> Vec<String> {
    let lines = map.lines().filter(|line| !line.is_empty() && !line.starts_with('['));
    lines.map(|line| one_line(&without_drawing(line))).collect()
}

fn without_drawing(line: &str) -> String {
    if let Some((address, title)) = line.split_once(" +-- ") {
        return format!("{address} {}", title.trim_end_matches('-'));
    }
    let Some((_, line)) = line.split_once(" |   ") else {
        return line.to_string();
    };
    let line = line.strip_prefix("! ").unwrap_or(line);
    match line.strip_prefix('[').and_then(|line| line.split_once("] ")) {
        None => line.to_string(),
        // The tree's lines stand before a derived entry's number.
        Some((_, line)) => match line.split_once("- #") {
            Some((lines, entry)) if is_tree(lines) => format!("#{entry}"),
            _ => line.to_string(),
        },
    }
}

fn is_tree(lines: &str) -> bool {
    let lines = lines.split_once(") ").map_or(lines, |(_, lines)| lines);
    lines.chars().all(|letter| " |`-".contains(letter))
}

/// Without line breaks, and with single blanks.
pub fn one_line(text: &str) -> String {
    text.split_whitespace().collect::<Vec<&str>>().join(" ")
}

/// A table of 1,024 entries that are all in use, and 16 MiB in segments of very unlike lengths.
pub fn large() -> String {
    let mut text = "# large\nmemory 16777216 entries 1024\n".to_string();
    text.push_str("state key 0 0 last 1023 nonce 5000\n");
    let mut base = 0;
    for number in 0..1024 {
        let length = [1, 65_536, 12, 4_096][number % 4];
        let line = match number % 8 {
            7 => format!("indirect base 0 length 1 parent @{}:5 tag 5", number - 3),
            5 => format!("indirect base 0 length 1 parent @{}:6 tag 5", number - 1),
            _ => format!("direct base {base} length {length} tag 5 lockable"),
        };
        text.push_str(&format!("entry {number} {line} permissions RW nonce {}\n", number + 1));
        base += if number % 2 == 0 { length } else { 0 };
    }
    text.push_str("lock @8:5 task 7\nread @8:5 1\nderive @8:5 length 0 permissions R\n");
    text
}
