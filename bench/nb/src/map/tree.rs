//! The derived entries under an owner, in the order in which a tree shows them.

use super::judge::{Judged, Link};

/// One entry of the tree, with the lines that lead to it.
pub struct Branch {
    pub number: usize,
    /// Such as `|  `- `.
    pub lines: String,
}

/// So many levels are drawn; below, the depth is told as a number.
const LEVELS: usize = 12;

/// The living children of each entry, by rising numbers.
pub fn children(judged: &[Judged]) -> Vec<Vec<usize>> {
    let mut children = vec![Vec::new(); judged.len()];
    for (number, judged) in judged.iter().enumerate() {
        if let Judged::Indirect(Link::Alive { parent }) = judged {
            children[*parent].push(number);
        }
    }
    children
}

/// All that is derived from an owner, children behind their parents.
pub fn branches(children: &[Vec<usize>], owner: usize) -> Vec<Branch> {
    let mut branches = Vec::new();
    let mut open: Vec<(usize, usize, String)> = below(children, owner, 1, "");
    while let Some((number, depth, lines)) = open.pop() {
        let lead = continued(&lines);
        open.extend(below(children, number, depth + 1, &lead));
        branches.push(Branch { number, lines: drawn(depth, &lines) });
    }
    branches
}

/// The children of one entry, the last first, as they come from a stack.
fn below(
    children: &[Vec<usize>],
    number: usize,
    depth: usize,
    lead: &str,
) -> Vec<(usize, usize, String)> {
    let mine = &children[number];
    let all = mine.iter().enumerate().map(|(at, child)| {
        let corner = if at + 1 == mine.len() { "`- " } else { "|- " };
        let lead = if depth > LEVELS { "" } else { lead };
        (*child, depth, format!("{lead}{corner}"))
    });
    all.rev().collect()
}

/// What stands before the children of an entry with these lines.
fn continued(lines: &str) -> String {
    match lines.strip_suffix("|- ") {
        Some(lead) => format!("{lead}|  "),
        None => format!("{}   ", &lines[..lines.len() - 3]),
    }
}

fn drawn(depth: usize, lines: &str) -> String {
    if depth > LEVELS {
        format!("(depth {depth}) {lines}")
    } else {
        lines.to_string()
    }
}
