//! The map as rows: what the drawing and the page show.

use std::collections::HashMap;
use std::ops::Range;

use super::entry_text::{place_text, segment_text};
use super::judge::{judge, Judged, Link};
use super::overview::letter;
use super::tree::{branches, children};
use session::entry::{self, Entry, Field};
use session::text::{number_text, Names};
use session::token::Token;
use session::World;

/// So many kept tags are told.
const KEPT: usize = 8;

/// What stands, in words.
#[derive(Clone, Debug, PartialEq, Eq)]
pub struct Map {
    /// Sizes, how many entries there are of each kind, the tags that free ones keep, and the state.
    pub head: Vec<(&'static str, String)>,
    /// Segments in address order with gaps and what is derived, the end of memory, and then what has
    /// no place in memory.
    pub rows: Vec<Row>,
}

/// An entry, or bytes that are nobody's.
#[derive(Clone, Debug, PartialEq, Eq)]
pub struct Row {
    pub kind: Kind,
    /// The entry's number; none for a gap and for the end of memory.
    pub number: Option<usize>,
    /// A segment's letter, or the lines of the tree that lead to a derived entry.
    pub lead: String,
    pub title: String,
    pub reach: Range<u64>,
    pub words: String,
    /// What is wrong with it.
    pub wrong: Option<String>,
    pub lock: Option<String>,
}

#[derive(Clone, Copy, Debug, PartialEq, Eq)]
pub enum Kind {
    Segment,
    Gap,
    End,
    Derived,
    Paged,
    Dead,
    UnderIllFormed,
    IllFormed,
}

impl Kind {
    pub fn words(self) -> &'static str {
        match self {
            Kind::Segment => "direct",
            Kind::Gap => "gap",
            Kind::End => "end",
            Kind::Derived => "derived",
            Kind::Paged => "paged out",
            Kind::Dead => "dead",
            Kind::UnderIllFormed => "under an ill-formed entry",
            Kind::IllFormed => "ill-formed",
        }
    }

    /// The kinds of entries that have no place in memory, in the order in which they are told.
    pub const APART: [Kind; 4] = [Kind::Paged, Kind::Dead, Kind::UnderIllFormed, Kind::IllFormed];

    fn of(judged: &Judged) -> Option<Kind> {
        match judged {
            Judged::Free => None,
            Judged::Direct => Some(Kind::Segment),
            Judged::Paged => Some(Kind::Paged),
            Judged::Indirect(Link::Alive { .. }) => Some(Kind::Derived),
            Judged::Indirect(Link::Dead { .. }) => Some(Kind::Dead),
            Judged::Indirect(Link::IllFormed { .. }) => Some(Kind::UnderIllFormed),
            Judged::IllFormed(_) => Some(Kind::IllFormed),
        }
    }
}

impl Map {
    /// What stands, with the names that the session has for its tokens.
    pub fn of(world: &World, names: &Names) -> Map {
        let judged = judge(&world.table, world.memory.len());
        let view = View { world, judged, names: by_entry(names) };
        let mut rows = Vec::new();
        view.push_segments(&mut rows);
        Kind::APART.iter().for_each(|kind| view.push_apart(&mut rows, *kind));
        Map { head: view.head(), rows }
    }

    /// Where the segments lie, in address order.
    pub fn segments(&self) -> Vec<Range<u64>> {
        let segments = self.rows.iter().filter(|row| row.kind == Kind::Segment);
        segments.map(|row| row.reach.clone()).collect()
    }
}

struct View<'a> {
    world: &'a World,
    judged: Vec<Judged>,
    names: ByEntry<'a>,
}

/// Names by the number and the tag of their tokens.
type ByEntry<'a> = HashMap<(u64, u64), Vec<&'a str>>;

fn by_entry(names: &Names) -> ByEntry<'_> {
    let mut found = ByEntry::from([((0, 0), vec!["root"])]);
    for (name, word) in names {
        let token = Token::unpack(*word);
        found.entry((token.number, token.tag)).or_default().push(name);
    }
    found.values_mut().for_each(|names| names.sort_unstable());
    found
}

impl View<'_> {
    fn entry(&self, number: usize) -> Entry {
        Entry::of(&self.world.table, number)
    }

    /// The numbers of the entries that are of one kind; none is for the free ones.
    fn all(&self, kind: Option<Kind>) -> Vec<usize> {
        let judged = self.judged.iter().enumerate();
        let wanted = judged.filter(|(_, judged)| Kind::of(judged) == kind);
        wanted.map(|(number, _)| number).collect()
    }

    fn head(&self) -> Vec<(&'static str, String)> {
        let state = &self.world.state;
        let kinds = [Kind::Segment, Kind::Derived].into_iter().chain(Kind::APART);
        let kinds = kinds.map(|kind| (self.all(Some(kind)).len(), kind.words()));
        let kinds = kinds.chain([(self.all(None).len(), "free")]);
        let counts = kinds.filter(|(count, _)| *count != 0);
        let counts: Vec<String> = counts.map(|(count, kind)| format!("{count} {kind}")).collect();
        let next = self.next_number().map_or("none".to_string(), |next| format!("#{next}"));
        let (last, nonce) = (number_text(state.last_number), nonce_text(state.next_nonce));
        let total = self.total_text();
        let mut head = vec![
            ("memory", format!("{} bytes", self.world.memory.len())),
            ("table", format!("{} entries: {}", self.judged.len(), counts.join(", "))),
        ];
        head.extend(self.kept_text().map(|kept| ("kept", kept)));
        let state = format!("last number #{last} (next {next}), next nonce {nonce}, {total}");
        head.push(("state", state));
        head
    }

    /// The tags that free entries keep, the first of them; none if all are 0.
    fn kept_text(&self) -> Option<String> {
        let kept = self.all(None).into_iter().map(|number| (number, self.entry(number)));
        let mut kept = kept.filter(|(_, entry)| entry.get(entry::TAG) != 0);
        let first = kept.by_ref().take(KEPT).map(|(number, entry)| {
            format!("{} tag {:#06x}", self.title(number), entry.get(entry::TAG))
        });
        let first: Vec<String> = first.collect();
        let more = match kept.count() {
            0 => String::new(),
            more => format!(" and {more} more"),
        };
        (!first.is_empty()).then(|| format!("of free numbers: {}{more}", first.join("; ")))
    }

    /// The kept total, and what the table says where that is another.
    fn total_text(&self) -> String {
        let (kept, counted) = (self.world.state.total, self.free_numbers().len() as u64);
        let wrong = format!(" (the table has {counted})");
        let wrong = if kept == counted { "" } else { &wrong };
        format!("free total {}{wrong}", number_text(kept))
    }

    /// The free numbers that can be given: all but 0.
    fn free_numbers(&self) -> Vec<usize> {
        self.all(None).into_iter().filter(|number| *number != 0).collect()
    }

    /// "the first free one after the last given, going round from the table's end to 1"
    fn next_number(&self) -> Option<usize> {
        let last = usize::try_from(self.world.state.last_number).unwrap_or(usize::MAX);
        let free = self.free_numbers();
        let behind = free.iter().find(|number| **number > last);
        behind.or(free.first()).copied()
    }

    fn reach(&self, number: usize) -> Range<u64> {
        let entry = self.entry(number);
        let base = entry.field(Field::Base);
        base..base + entry.field(Field::Length)
    }

    /// A number with the names that its present token has.
    fn title(&self, number: usize) -> String {
        let own = (number as u64, self.entry(number).get(entry::TAG));
        match self.names.get(&own) {
            None => format!("#{number}"),
            Some(names) => format!("#{number} {}", names.join(", ")),
        }
    }

    /// The row of an entry, of which nothing more is said.
    fn row(&self, kind: Kind, number: usize) -> Row {
        let (title, reach) = (self.title(number), self.reach(number));
        let words = place_text(&self.entry(number));
        let (lead, wrong, lock) = (String::new(), None, None);
        Row { kind, number: Some(number), lead, title, reach, words, wrong, lock }
    }

    /// The segments in address order, with gaps and overlaps, and what is derived from each.
    fn push_segments(&self, rows: &mut Vec<Row>) {
        let mut segments = self.all(Some(Kind::Segment));
        segments.sort_by_key(|number| (self.reach(*number).start, *number));
        let children = children(&self.judged);
        let mut end = (0, 0);
        for (place, number) in segments.into_iter().enumerate() {
            let reach = self.reach(number);
            rows.extend(gap(end.0..reach.start));
            rows.push(self.segment(place, number, end));
            self.push_branches(rows, number, &children);
            end = end.max((reach.end, number));
        }
        let memory = self.world.memory.len() as u64;
        rows.extend(gap(end.0..memory));
        rows.push(bare(Kind::End, "end of memory", memory..memory));
    }

    /// A segment; the one before it that reaches furthest may overlap it.
    fn segment(&self, place: usize, number: usize, earlier: (u64, usize)) -> Row {
        let entry = self.entry(number);
        let (lead, words) = (letter(place).to_string(), segment_text(&entry));
        let wrong = overlap(earlier, &self.reach(number));
        let holder = number_text(entry.field(Field::Holder));
        let locked = entry.field(Field::Locked) != 0;
        let lock = locked.then(|| format!("LOCKED for task {holder}"));
        Row { lead, words, wrong, lock, ..self.row(Kind::Segment, number) }
    }

    /// What is derived, as a tree.
    fn push_branches(&self, rows: &mut Vec<Row>, owner: usize, children: &[Vec<usize>]) {
        let segment = self.reach(owner);
        for branch in branches(children, owner) {
            let row = self.row(Kind::Derived, branch.number);
            let outside = row.reach.start < segment.start || row.reach.end > segment.end;
            let told = || format!("#{} lies outside its owner's segment", branch.number);
            rows.push(Row { lead: branch.lines, wrong: outside.then(told), ..row });
        }
    }

    /// Entries that have no place in memory, with the reason where something is wrong.
    fn push_apart(&self, rows: &mut Vec<Row>, kind: Kind) {
        for number in self.all(Some(kind)) {
            let wrong = self.judged[number].reason().map(str::to_string);
            rows.push(Row { wrong, ..self.row(kind, number) });
        }
    }
}

/// A row without an entry.
fn bare(kind: Kind, title: &str, reach: Range<u64>) -> Row {
    let (lead, words) = (String::new(), String::new());
    Row {
        kind,
        number: None,
        lead,
        title: title.to_string(),
        reach,
        words,
        wrong: None,
        lock: None,
    }
}

/// Bytes that no segment has.
fn gap(gap: Range<u64>) -> Option<Row> {
    let wrong = Some(format!("a gap of {} bytes", gap.end.saturating_sub(gap.start)));
    (!gap.is_empty()).then(|| Row { wrong, ..bare(Kind::Gap, "nobody's", gap) })
}

/// Bytes that an earlier segment has too.
fn overlap(earlier: (u64, usize), reach: &Range<u64>) -> Option<String> {
    let (end, number) = (earlier.0.min(reach.end), earlier.1);
    let shared = end.checked_sub(reach.start).filter(|shared| *shared != 0)?;
    let (first, last) = (reach.start, end - 1);
    Some(format!("overlaps #{number} by {shared} bytes, 0x{first:08x} to 0x{last:08x}"))
}

fn nonce_text(nonce: u64) -> String {
    match nonce {
        0x1_0000_0000 => "spent".to_string(),
        _ => number_text(nonce),
    }
}
