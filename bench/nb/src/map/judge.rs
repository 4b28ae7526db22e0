//! What each entry of a table is: free, ill-formed, a segment, paged out, or derived, alive or dead.

use session::entry::{self, Entry, Field};
use session::token::{Token, PARENT_ENCODING};

#[derive(Clone, Debug, PartialEq, Eq)]
pub enum Judged {
    Free,
    IllFormed(&'static str),
    Direct,
    Paged,
    Indirect(Link),
}

/// Where a derived entry's line leads.
#[derive(Clone, Debug, PartialEq, Eq)]
pub enum Link {
    /// To this parent, and from there to an owner.
    Alive { parent: usize },
    /// Nowhere: the entry `at` holds a link that does not hold.
    Dead { at: usize, reason: String },
    /// To an ill-formed entry, `at`.
    IllFormed { at: usize, reason: String },
}

impl Judged {
    /// Why it has no place in memory.
    pub fn reason(&self) -> Option<&str> {
        match self {
            Judged::IllFormed(reason) => Some(reason),
            Judged::Indirect(Link::Dead { reason, .. } | Link::IllFormed { reason, .. }) => {
                Some(reason)
            }
            _ => None,
        }
    }
}

/// Every entry of a table, judged.
pub fn judge(table: &[u8], memory: usize) -> Vec<Judged> {
    let entries: Vec<Entry> =
        (0..table.len() / entry::SIZE).filter_map(|at| Entry::at(table, at)).collect();
    let mut judged: Vec<Judged> = entries.iter().map(|entry| alone(entry, memory)).collect();
    // The nonce falls at each link: by rising nonces every parent is judged before its children.
    let mut order: Vec<usize> = (0..entries.len()).collect();
    order.sort_by_key(|number| entries[*number].get(entry::NONCE));
    for number in order {
        if let Judged::Indirect(_) = judged[number] {
            judged[number] = Judged::Indirect(link(&entries, &judged, number));
        }
    }
    judged
}

/// An entry by its own bytes; its line is not yet looked at.
fn alone(entry: &Entry, memory: usize) -> Judged {
    match (entry.kind(), fault(entry, memory)) {
        (entry::FREE, _) => Judged::Free,
        (_, Some(fault)) => Judged::IllFormed(fault),
        (entry::DIRECT, _) => Judged::Direct,
        (entry::PAGED, _) => Judged::Paged,
        _ => Judged::Indirect(Link::Dead { at: 0, reason: String::new() }),
    }
}

/// What makes an entry ill-formed.
fn fault(entry: &Entry, memory: usize) -> Option<&'static str> {
    let get = |field| entry.field(field);
    let (kind, end) = (entry.kind(), get(Field::Base) + get(Field::Length));
    let (direct, indirect) = (kind == entry::DIRECT, kind == entry::INDIRECT);
    let paged = kind == entry::PAGED;
    let encoding = Token::unpack(get(Field::Parent)).encoding;
    let flags = get(Field::Locked) + get(Field::Lockable);
    let (holder, locked) = (get(Field::Holder) != 0, get(Field::Locked) != 0);
    let faults = [
        (kind > entry::PAGED, "its type is above 3"),
        (get(Field::Length) == 0, "its length is 0"),
        (!paged && end > memory as u64, "it ends past memory"),
        (get(Field::Cow) != 0, "CoW is set"),
        (indirect && get(Field::Zeros) != 0, "a one stands among its 55 zeros"),
        (paged && get(Field::Zeros) != 0, "a one stands among its 39 zeros"),
        (paged && locked, "it is paged out, and Locked is set"),
        (indirect && flags != 0, "it is derived, and Locked or Lockable is set"),
        (indirect && encoding != PARENT_ENCODING, "its parent is not in encoding 1"),
        (direct && locked && !holder, "it is locked without a holder"),
        (direct && !locked && holder, "it has a holder without a lock"),
    ];
    faults.into_iter().find(|(found, _)| *found).map(|(_, fault)| fault)
}

/// Judges a link; the parent's own line was judged before if its nonce is lower.
fn link(entries: &[Entry], judged: &[Judged], number: usize) -> Link {
    let child = &entries[number];
    let dead = |reason| Link::Dead { at: number, reason };
    let parent = Token::unpack(child.field(Field::Parent));
    let at = usize::try_from(parent.number).unwrap_or(usize::MAX);
    let Some(above) = entries.get(at) else {
        return dead(format!("its parent #{} is beyond the table", parent.number));
    };
    let (tag, nonce) = (above.get(entry::TAG), above.get(entry::NONCE));
    if judged[at] == Judged::Free {
        return dead(format!("its parent #{at} is free"));
    }
    if tag != parent.tag {
        let wanted = parent.tag;
        return dead(format!("its parent #{at} holds tag {tag:#06x}, not {wanted:#06x}"));
    }
    if above.kind() == entry::PAGED {
        return dead(format!("its parent #{at} is paged out"));
    }
    let own = child.get(entry::NONCE);
    if nonce >= own {
        return dead(format!("its parent #{at} has nonce {nonce}, which is not below {own}"));
    }
    match &judged[at] {
        Judged::IllFormed(_) => {
            Link::IllFormed { at, reason: format!("its parent #{at} is ill-formed") }
        }
        Judged::Indirect(Link::Dead { at: end, .. }) => {
            Link::Dead { at: *end, reason: format!("its parent #{at} is dead") }
        }
        Judged::Indirect(Link::IllFormed { at: end, .. }) => {
            let reason = format!("its parent #{at} leads to an ill-formed entry");
            Link::IllFormed { at: *end, reason }
        }
        _ => Link::Alive { parent: at },
    }
}
