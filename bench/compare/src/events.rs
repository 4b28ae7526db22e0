//! Rare events that the answers alone do not show: how often the generator reached what it searched
//! for.

use std::fmt;

use bridge::{text_length, Check, Lease, Operation, Place, Reply, State, Words};
use bridge::{ACCESS_BYTES, LEASES_BYTES, LEASE_BYTES, TEXT_BYTES, WEEK};
use session::entry::{self, Entry, Field};
use session::token::Token;
use session::Step;

use crate::free;
use crate::limits::{ENTRIES, MEMORY, SPENT};
use crate::machine::Machine;
use crate::tag;

/// What is looked for.
#[derive(Clone, Copy, Debug, PartialEq, Eq)]
pub enum Event {
    PartPassed,
    RestPassed,
    WholePassed,
    MergePassed,
    DerivePassed,
    ExecuteOnlyPassed,
    RevokePassed,
    BothPassed,
    PassedTwo,
    PassedToTheLast,
    PartRefused,
    PartFoundNone,
    RestRefused,
    WholeRefused,
    MergeRefused,
    DeriveRefused,
    ExecuteOnlyRefused,
    RevokeRefused,
    HandedPassed,
    HandedWithBytesPassed,
    FreedPassed,
    NeverUsedPassed,
    TagReturned,
    RestWithTagZero,
    RestAsItsPart,
    KeptTagCleared,
    ClearedTagGiven,
    LinkRefusedByNonce,
    NumbersWentRound,
    LastNumberAgain,
    RootFreed,
    CountAtTop,
    LargestMemory,
    LargestTable,
    TooMuchMemory,
    TooManyEntries,
    DeepestLine,
    DerivedWhole,
    DerivedOneByte,
    DerivedOnWhole,
    DerivedToTheEnd,
    DerivedPastTheEnd,
    DerivedSumOverflows,
    LongestTextLoaded,
    LongerTextRefused,
    LongestTextDumped,
    DumpTooLong,
    DumpOneByteShort,
    GivenAtZero,
    WholeAtZero,
    WholeAtTop,
    MergedAtTop,
    DroppedAtTop,
    ClimbedToTop,
    ClimbedRight,
    RootMerged,
    RootDropped,
    FullByTable,
    ResetOverTotal,
    OpenAtOpening,
    ClosedBeforeOpening,
    OpenBeforeClosing,
    ClosedAtClosing,
    OpenOverSunday,
    OpenOnMonday,
    ClosedInWeek,
    FirstAloneOpen,
    LastAloneOpen,
    NoneOpen,
    LastOfAll,
    LastOfAllClosed,
    OtherTag,
    OtherNumber,
    ParentClosed,
    BadOfOther,
    EqualMinutes,
    OpeningBeyond,
    ClosingBeyond,
    LastMinute,
    MinuteBeyond,
    MostLeases,
    TooManyLeases,
    PartOfLease,
    LeasesForOthers,
    MisfitForOthers,
    PagedPassed,
    LeftPassed,
    InPassed,
    BothOfOutPassed,
    PagedRefused,
    PagedFoundNone,
    LeftRefused,
    InRefused,
    OutOneNonce,
    InOneNonce,
    OutAtZero,
    InAtTop,
    RootOut,
    RootDonated,
    LeftTheLast,
    WidePageFile,
    OutAboveAccess,
    InAboveAccess,
    OutOneByte,
    OutWithoutRight,
    NotLockableOut,
    BackToItsPlace,
    BackElsewhere,
    OutBufferShort,
    OutBufferLong,
    OutNoBuffer,
    InBufferShort,
    InBufferLong,
    InNoBuffer,
    DonorShort,
    DonorLong,
    DonorAndBufferLong,
    OutByHolder,
    OutWithCount,
    DonorOfHolder,
    DonorWithCount,
    FirstDirect,
    FirstIndirect,
    DonorPaged,
    DonorItself,
    DonorIndirect,
    InLengthZero,
    InLocked,
    InCow,
    InZeros,
    PagedIllFormed,
    PagedOtherTag,
    PagedWithoutRight,
    PagedBeyond,
    PagedAtNoNumber,
    PagedAtNoNonce,
    MergeSecondPaged,
    MergeFirstPaged,
    MergeFirstDerived,
    MergeBeforePaged,
    PagedParent,
    PagedAncestor,
    IllPagedParent,
    ClimbStopped,
}

pub const EVENTS: [(Event, &str); 144] = [
    (Event::PartPassed, "a create's part passed over a nonce"),
    (Event::RestPassed, "a create's rest passed over a nonce"),
    (Event::WholePassed, "a create of the whole passed over a nonce"),
    (Event::MergePassed, "a merge passed over a nonce"),
    (Event::DerivePassed, "a derive passed over a nonce"),
    (Event::ExecuteOnlyPassed, "an execute-only passed over a nonce"),
    (Event::RevokePassed, "a revoke passed over a nonce"),
    (Event::BothPassed, "a create's part and its rest each passed over a nonce"),
    (Event::PassedTwo, "an issue passed over two nonces"),
    (Event::PassedToTheLast, "an issue passed over a nonce and used the last one"),
    (Event::PartRefused, "a create had a nonce for each, but for one that its part passed over"),
    (Event::PartFoundNone, "a create's part was to pass over all nonces left, two or more"),
    (
        Event::RestRefused,
        "a create's part took the next nonce, and its rest found none of those left",
    ),
    (Event::WholeRefused, "a create of the whole was to pass over all nonces left"),
    (Event::MergeRefused, "a merge was to pass over all nonces left"),
    (Event::DeriveRefused, "a derive was to pass over all nonces left"),
    (Event::ExecuteOnlyRefused, "an execute-only was to pass over all nonces left"),
    (Event::RevokeRefused, "a revoke was to pass over all nonces left"),
    (Event::HandedPassed, "a kept tag that was handed over was passed over"),
    (Event::HandedWithBytesPassed, "a kept tag was passed over that stood among other bytes"),
    (Event::FreedPassed, "the kept tag of a number freed since a reset was passed over"),
    (Event::NeverUsedPassed, "tag 0 was passed over for a number never used"),
    (Event::TagReturned, "a number got a tag that it had before its last one"),
    (Event::RestWithTagZero, "a root's rest got tag 0 again, after another"),
    (Event::RestAsItsPart, "a create's rest got its part's tag"),
    (Event::KeptTagCleared, "a reset cleared a kept tag"),
    (Event::ClearedTagGiven, "a number got a tag that it had kept up to a reset"),
    (Event::LinkRefusedByNonce, "a link with the right tag was missing by its nonce alone"),
    (Event::NumbersWentRound, "the numbers went round"),
    (Event::LastNumberAgain, "the number given last was given again"),
    (Event::RootFreed, "number 0 was freed by a create of the whole"),
    (Event::CountAtTop, "a count came to 65,535"),
    (Event::LargestMemory, "a request over 16,777,216 bytes was granted"),
    (Event::LargestTable, "a request over 1,024 entries was granted"),
    (Event::TooMuchMemory, "a request over 16,777,217 bytes was refused"),
    (Event::TooManyEntries, "a request over 1,025 entries was refused"),
    (Event::DeepestLine, "a line of 1,023 links was walked"),
    (Event::DerivedWhole, "a derive of the whole was granted"),
    (Event::DerivedOneByte, "a derive of one byte, the whole, was granted"),
    (Event::DerivedOnWhole, "a derive of a derived entry's whole was granted"),
    (Event::DerivedToTheEnd, "a derive from an offset up to the end was granted"),
    (Event::DerivedPastTheEnd, "a derive one byte past the end was refused"),
    (Event::DerivedSumOverflows, "a derive with a sum beyond 64 bits was refused"),
    (Event::LongestTextLoaded, "a load of 65,536 bytes of text was granted"),
    (Event::LongerTextRefused, "a load of 65,537 bytes of text was refused"),
    (Event::LongestTextDumped, "a dump of 65,536 bytes of text was granted"),
    (Event::DumpTooLong, "a dump was refused whose text would have 65,538 bytes"),
    (Event::DumpOneByteShort, "a dump was refused whose buffer lacked one byte"),
    (Event::GivenAtZero, "a number was given with a total of 0, which stayed 0"),
    (Event::WholeAtZero, "a create of the whole made a total of 0 to 1"),
    (Event::WholeAtTop, "a create of the whole left a total at its top"),
    (Event::MergedAtTop, "a merge freed a number with the total at its top"),
    (Event::DroppedAtTop, "a drop freed a number with the total at its top"),
    (Event::ClimbedToTop, "a climb freed two numbers or more with the total one below its top"),
    (Event::ClimbedRight, "a climb freed two numbers or more with a right total"),
    (Event::RootMerged, "number 0 was freed by a merge"),
    (Event::RootDropped, "number 0 was freed by a drop"),
    (Event::FullByTable, "no number was free, and the total was not 0"),
    (Event::ResetOverTotal, "a reset over a total above its top was granted"),
    (Event::OpenAtOpening, "an access at its lease's opening was granted"),
    (Event::ClosedBeforeOpening, "an access a minute before its lease's opening was refused"),
    (Event::OpenBeforeClosing, "an access a minute before its lease's closing was granted"),
    (Event::ClosedAtClosing, "an access at its lease's closing was refused"),
    (Event::OpenOverSunday, "a lease over the week's end was open at minute 10,079"),
    (Event::OpenOnMonday, "a lease over the week's end was open at minute 0"),
    (Event::ClosedInWeek, "a lease over the week's end was closed a minute before its opening"),
    (Event::FirstAloneOpen, "of a token's leases the first alone was open"),
    (Event::LastAloneOpen, "of a token's leases the last alone was open"),
    (Event::NoneOpen, "of a token's leases none was open"),
    (Event::LastOfAll, "the last of 64 leases alone opened an access"),
    (Event::LastOfAllClosed, "the last of 64 leases alone closed an access"),
    (Event::OtherTag, "a closed lease of the same number and another tag was no bar"),
    (Event::OtherNumber, "a closed lease of the same tag and another number was no bar"),
    (Event::ParentClosed, "what was derived was open under a closed lease of its parent's"),
    (Event::BadOfOther, "an access was refused for another token's bad lease"),
    (Event::EqualMinutes, "an access was refused for a lease with equal minutes"),
    (Event::OpeningBeyond, "an access was refused for an opening at minute 10,080"),
    (Event::ClosingBeyond, "an access was refused for a closing at minute 10,080"),
    (Event::LastMinute, "an access at minute 10,079 was granted"),
    (Event::MinuteBeyond, "an access at minute 10,080 was refused"),
    (Event::MostLeases, "an access with 64 leases was granted"),
    (Event::TooManyLeases, "an access with 65 leases was refused"),
    (Event::PartOfLease, "an access with a part of a lease was refused"),
    (Event::LeasesForOthers, "a request that is no access was granted with bad leases"),
    (Event::MisfitForOthers, "a request that is no access was refused for its table of leases"),
    (Event::PagedPassed, "a page-out's paged entry passed over a nonce"),
    (Event::LeftPassed, "the segment that a page-out leaves passed over a nonce"),
    (Event::InPassed, "a page-in passed over a nonce"),
    (Event::BothOfOutPassed, "both issues of a page-out passed over a nonce"),
    (
        Event::PagedRefused,
        "a page-out had a nonce for each, but for one that its paged entry passed over",
    ),
    (
        Event::PagedFoundNone,
        "a page-out's paged entry was to pass over all nonces left, two or more",
    ),
    (
        Event::LeftRefused,
        "a page-out's paged entry took the next nonce, and its segment found none of those left",
    ),
    (Event::InRefused, "a page-in was to pass over all nonces left"),
    (Event::OutOneNonce, "a page-out was refused with one nonce left"),
    (Event::InOneNonce, "a page-in took the last nonce"),
    (Event::OutAtZero, "a page-out gave a number with a total of 0"),
    (Event::InAtTop, "a page-in freed a number with the total at its top"),
    (Event::RootOut, "number 0 was paged out"),
    (Event::RootDonated, "number 0 was a donor, and freed"),
    (Event::LeftTheLast, "a page-out gave the last free number"),
    (Event::WidePageFile, "a page-file number above 32 bits was kept"),
    (Event::OutAboveAccess, "a segment of more than 4,096 bytes was paged out"),
    (Event::InAboveAccess, "a segment of more than 4,096 bytes was paged in"),
    (Event::OutOneByte, "a segment of one byte was paged out"),
    (Event::OutWithoutRight, "a segment without rights was paged out"),
    (Event::NotLockableOut, "a segment that is not Lockable was paged out"),
    (Event::BackToItsPlace, "a segment was paged in at the place that it left"),
    (
        Event::BackElsewhere,
        "a segment was paged in at another place, with rights other than the donor's",
    ),
    (Event::OutBufferShort, "a page-out was refused whose buffer lacked one byte"),
    (Event::OutBufferLong, "a page-out was refused whose buffer had one byte too many"),
    (Event::OutNoBuffer, "a page-out was refused without a buffer"),
    (Event::InBufferShort, "a page-in was refused whose buffer lacked one byte"),
    (Event::InBufferLong, "a page-in was refused whose buffer had one byte too many"),
    (Event::InNoBuffer, "a page-in was refused without a buffer"),
    (Event::DonorShort, "a page-in was refused whose donor lacked one byte"),
    (Event::DonorLong, "a page-in was refused whose donor had one byte too many"),
    (
        Event::DonorAndBufferLong,
        "a page-in was refused whose buffer was as long as its donor, and not as its entry",
    ),
    (Event::OutByHolder, "a page-out by who held the lock was refused"),
    (Event::OutWithCount, "a page-out of an unlocked segment was refused for its count"),
    (Event::DonorOfHolder, "a page-in was refused whose donor its asker had locked"),
    (Event::DonorWithCount, "a page-in was refused for the count of an unlocked donor"),
    (Event::FirstDirect, "a page-in was refused whose first token was a segment's"),
    (Event::FirstIndirect, "a page-in was refused whose first token was a derived entry's"),
    (Event::DonorPaged, "a page-in was refused whose donor was another paged entry"),
    (Event::DonorItself, "a page-in was refused whose donor was the paged entry itself"),
    (Event::DonorIndirect, "a page-in was refused whose donor was derived"),
    (Event::InLengthZero, "a page-in was refused for a paged entry of length 0"),
    (Event::InLocked, "a page-in was refused for a paged entry that was Locked"),
    (Event::InCow, "a page-in was refused for a paged entry with CoW"),
    (Event::InZeros, "a page-in was refused for a one among a paged entry's zeros"),
    (Event::PagedIllFormed, "an ill-formed paged entry was refused as paged out"),
    (Event::PagedOtherTag, "a paged entry was refused for its tag"),
    (
        Event::PagedWithoutRight,
        "an access through a paged entry was refused as such, which had no rights either",
    ),
    (
        Event::PagedBeyond,
        "an access through a paged entry was refused as such, which was out of bounds too",
    ),
    (
        Event::PagedAtNoNumber,
        "what gives a number was refused as paged out, and no number was free",
    ),
    (Event::PagedAtNoNonce, "what issues was refused as paged out, and no nonce was left"),
    (Event::MergeSecondPaged, "a merge was refused for its second, which was paged out"),
    (
        Event::MergeFirstPaged,
        "a merge was refused for its first, which was paged out, and its second was no entry",
    ),
    (
        Event::MergeFirstDerived,
        "a merge was refused for its second, which was paged out, and its first was derived",
    ),
    (
        Event::MergeBeforePaged,
        "a merge was refused for its first's lock or line, and its second was paged out",
    ),
    (
        Event::PagedParent,
        "a link to a paged entry was missing, though its tag and nonce were right",
    ),
    (Event::PagedAncestor, "the same further up the line"),
    (
        Event::IllPagedParent,
        "a link to an ill-formed paged entry was missing, though its tag and nonce were right",
    ),
    (Event::ClimbStopped, "a drop freed a child whose parent was paged out"),
];

/// What stood before a request.
#[derive(Clone, Copy, Debug)]
pub struct Before<'a> {
    pub state: State,
    pub table: &'a [u8],
    /// The tokens that were given since the session began, or since its last reset.
    pub given: &'a [u64],
    /// The table before that reset; empty if there was none.
    pub cleared: &'a [u8],
}

impl Before<'_> {
    fn entry(&self, number: usize) -> Entry {
        Entry::of(self.table, number)
    }

    /// Whether a number was given under a tag.
    fn gave(&self, number: usize, tag: u64) -> bool {
        let given = |word: &u64| {
            let token = Token::unpack(*word);
            (token.number, token.tag) == (number as u64, tag)
        };
        self.given.iter().any(given)
    }
}

#[derive(Clone, Debug, PartialEq, Eq)]
pub struct Events([u64; EVENTS.len()]);

impl Default for Events {
    fn default() -> Self {
        Events([0; EVENTS.len()])
    }
}

impl Events {
    /// Looks at a request that was served; the machine stands as it was left.
    pub fn count(&mut self, step: &Step, reply: &Reply, before: Before, machine: &dyn Machine) {
        let Step { request, buffer, leases } = step;
        let (seen, lent) =
            (Seen { request, reply, before, after: machine.state(), machine }, buffer.len());
        let operation = Operation::of(request.operation);
        self.total(&seen, operation);
        self.leases(&seen, operation, leases);
        self.paged(&seen, operation, lent);
        self.paged_above(&seen, operation);
        if operation.is_some_and(Operation::gives_number) {
            self.given(&seen);
        }
        if operation.is_some_and(Operation::issues) {
            self.issues(&seen);
        }
        match operation {
            Some(Operation::Reset) => self.add(Event::KeptTagCleared, seen.clears_kept_tag()),
            Some(Operation::Derive) => self.derive(&seen),
            Some(Operation::Clone) => self.add(Event::CountAtTop, seen.count_at_top()),
            Some(Operation::Load) => self.load(&seen, lent),
            Some(Operation::Dump) => self.dump(&seen, lent),
            Some(Operation::PageOut) => self.page_out(&seen, lent),
            Some(Operation::PageIn) => self.page_in(&seen, lent),
            Some(Operation::Read) => {
                self.add(Event::LinkRefusedByNonce, seen.link_refused_by_nonce());
                self.add(Event::DeepestLine, seen.deepest_line());
            }
            _ => {}
        }
        let (granted, refused) = (reply.refusal == 0, reply.refusal == Check::Request as u64);
        let memory = machine.memory().len();
        self.add(Event::LargestMemory, granted && memory == MEMORY);
        self.add(Event::TooMuchMemory, refused && memory == MEMORY + 1);
        let table = machine.table().len();
        self.add(Event::LargestTable, granted && table == ENTRIES * entry::SIZE);
        self.add(Event::TooManyEntries, refused && table == (ENTRIES + 1) * entry::SIZE);
    }

    fn add(&mut self, event: Event, seen: bool) {
        self.0[event as usize] += u64::from(seen);
    }

    /// The nonces that a request's issues passed over, and the tags that they gave.
    fn issues(&mut self, seen: &Seen) {
        match Check::of(seen.reply.refusal) {
            None => {}
            Some(Check::Nonces) => return self.refused_by_passing(seen),
            Some(_) => return,
        }
        let mut next = seen.before.state.next_nonce;
        let mut passing = 0;
        for issue in seen.issued() {
            let entry = seen.entry(issue.number);
            let passed = entry.get(entry::NONCE).wrapping_sub(next);
            next = entry.get(entry::NONCE) + 1;
            self.tag_given(seen, issue.number);
            if passed > 0 {
                passing += 1;
                self.add(issue.passed, true);
                self.add(Event::PassedTwo, passed == 2);
                self.add(Event::PassedToTheLast, next == SPENT);
                self.last_tag(seen, issue.number);
            }
        }
        let create = seen.request.operation == Operation::Create as u64;
        self.add(Event::BothPassed, create && passing == 2);
        self.add(Event::BothOfOutPassed, !create && passing == 2);
        let tags = [seen.reply.first, seen.reply.second].map(|word| Token::unpack(word).tag);
        let both = create && seen.reply.second != 0;
        self.add(Event::RestAsItsPart, both && tags[0] == tags[1]);
    }

    /// Whose tag it was that was passed over.
    fn last_tag(&mut self, seen: &Seen, number: usize) {
        let last = seen.before.entry(number);
        let (tag, used) = (last.get(entry::TAG), !last.is_free());
        let known = used || seen.before.gave(number, tag);
        let alone = last.kept_tag().is_some();
        self.add(Event::HandedPassed, !known && tag != 0 && alone);
        self.add(Event::HandedWithBytesPassed, !known && tag != 0 && !alone);
        self.add(Event::FreedPassed, !used && seen.before.gave(number, tag));
        self.add(Event::NeverUsedPassed, last == Entry::default());
    }

    fn tag_given(&mut self, seen: &Seen, number: usize) {
        let tag = seen.entry(number).get(entry::TAG);
        let given = seen.before.gave(number, tag);
        self.add(Event::TagReturned, given);
        let kept = Entry::of(seen.before.cleared, number);
        let kept = kept.is_free() && tag != 0 && kept.get(entry::TAG) == tag;
        self.add(Event::ClearedTagGiven, kept && !given);
    }

    /// A request that was refused for its nonces: whether enough were left, but for those to be passed
    /// over.
    fn refused_by_passing(&mut self, seen: &Seen) {
        let left = SPENT.saturating_sub(seen.before.state.next_nonce);
        let event = match Operation::of(seen.request.operation) {
            Some(Operation::Merge) => Event::MergeRefused,
            Some(Operation::Derive) => Event::DeriveRefused,
            Some(Operation::ExecuteOnly) => Event::ExecuteOnlyRefused,
            Some(Operation::Revoke) => Event::RevokeRefused,
            Some(Operation::PageIn) => Event::InRefused,
            Some(Operation::PageOut) => match seen.passed_by_paged() {
                0 => Event::LeftRefused,
                passed if passed == left => Event::PagedFoundNone,
                _ => Event::PagedRefused,
            },
            _ if seen.takes_the_whole() => Event::WholeRefused,
            _ => match seen.passed_by_part() {
                0 => Event::RestRefused,
                passed if passed == left => Event::PartFoundNone,
                _ => Event::PartRefused,
            },
        };
        let two = [
            Event::RestRefused,
            Event::PartRefused,
            Event::PartFoundNone,
            Event::LeftRefused,
            Event::PagedRefused,
            Event::PagedFoundNone,
        ];
        let needed = 1 + u64::from(two.contains(&event));
        self.add(event, left >= needed);
    }

    fn derive(&mut self, seen: &Seen) {
        let parent = seen.entry(seen.named());
        let (offset, whole) = (seen.request.second, parent.length());
        let end = seen.request.length.checked_add(offset);
        let reached = seen.reply.refusal == 0 && end == Some(whole);
        self.add(Event::DerivedWhole, reached && offset == 0);
        self.add(Event::DerivedOneByte, reached && whole == 1);
        let derived = parent.kind() == entry::INDIRECT;
        self.add(Event::DerivedOnWhole, reached && offset == 0 && derived);
        self.add(Event::DerivedToTheEnd, reached && offset != 0);
        let refused = seen.reply.refusal == Check::Bounds as u64;
        self.add(Event::DerivedPastTheEnd, refused && end == Some(whole + 1));
        self.add(Event::DerivedSumOverflows, refused && end.is_none());
    }

    fn load(&mut self, seen: &Seen, lent: usize) {
        let refused = seen.reply.refusal == Check::Request as u64;
        self.add(Event::LongestTextLoaded, seen.reply.refusal == 0 && lent == TEXT_BYTES);
        self.add(Event::LongerTextRefused, refused && lent == TEXT_BYTES + 1);
    }

    fn dump(&mut self, seen: &Seen, lent: usize) {
        self.add(Event::LongestTextDumped, seen.reply.length == TEXT_BYTES as u64);
        let refused = seen.reply.refusal == Check::Room as u64;
        let (told, most) = (text_length(seen.entry(seen.named()).length()), TEXT_BYTES as u64);
        self.add(Event::DumpTooLong, refused && told == most + 2 && lent > TEXT_BYTES + 1);
        self.add(Event::DumpOneByteShort, refused && told <= most && lent as u64 + 1 == told);
    }

    fn given(&mut self, seen: &Seen) {
        if seen.reply.refusal != 0 {
            return;
        }
        let (before, after) = (seen.before.state.last_number, seen.after.last_number);
        self.add(Event::NumbersWentRound, after < before);
        self.add(Event::LastNumberAgain, after == before);
        let create = seen.request.operation == Operation::Create as u64;
        let root = seen.entry(0);
        let root_freed = !seen.before.entry(0).is_free() && root.is_free();
        self.add(Event::RootFreed, create && root_freed);
        let of_root = create && seen.named() == 0 && !root.is_free();
        self.add(Event::RestWithTagZero, of_root && root.get(entry::TAG) == 0);
    }

    /// What became of the total.
    fn total(&mut self, seen: &Seen, operation: Option<Operation>) {
        let total = seen.before.state.total;
        let top = free::top(seen.machine.table());
        let full = seen.reply.refusal == Check::Numbers as u64;
        self.add(Event::FullByTable, full && total != 0);
        if seen.reply.refusal != 0 {
            return;
        }
        let root_freed = !seen.before.entry(0).is_free() && seen.entry(0).is_free();
        match operation {
            Some(Operation::Reset) => self.add(Event::ResetOverTotal, total > top),
            Some(Operation::Create) if seen.entry(seen.named()).is_free() => {
                self.add(Event::WholeAtZero, total == 0 && seen.named() != 0);
                self.add(Event::WholeAtTop, total == top && seen.named() != 0);
            }
            Some(Operation::Create | Operation::Derive | Operation::ExecuteOnly) => {
                self.add(Event::GivenAtZero, total == 0);
            }
            Some(Operation::PageOut) => self.add(Event::OutAtZero, total == 0),
            Some(Operation::PageIn) => {
                self.add(Event::InAtTop, total == top && !root_freed);
                self.add(Event::RootDonated, root_freed);
            }
            Some(Operation::Merge) => {
                self.add(Event::MergedAtTop, total == top && !root_freed);
                self.add(Event::RootMerged, root_freed);
            }
            Some(Operation::Drop) => {
                let free = free::counted(seen.before.table);
                let freed = free::counted(seen.machine.table()).saturating_sub(free);
                self.add(Event::DroppedAtTop, total == top && freed > 0);
                self.add(Event::ClimbedToTop, total + 1 == top && freed > 1);
                self.add(Event::ClimbedRight, total == free && freed > 1);
                self.add(Event::RootDropped, root_freed);
            }
            _ => {}
        }
    }

    fn page_out(&mut self, seen: &Seen, lent: usize) {
        let old = seen.before.entry(seen.named());
        let (whole, lent) = (old.length(), lent as u64);
        let left = SPENT.saturating_sub(seen.before.state.next_nonce);
        match Check::of(seen.reply.refusal) {
            None => self.paged_out(seen, &old),
            Some(Check::Bounds) => {
                self.add(Event::OutBufferShort, lent + 1 == whole);
                self.add(Event::OutBufferLong, lent == whole + 1);
                self.add(Event::OutNoBuffer, lent == 0);
            }
            Some(Check::Standing) => {
                let locked = old.get(entry::LOCKED) != 0;
                self.add(Event::OutByHolder, locked && old.count() == 0);
                self.add(Event::OutWithCount, !locked);
            }
            Some(Check::Nonces) => self.add(Event::OutOneNonce, left == 1),
            _ => {}
        }
    }

    fn paged_out(&mut self, seen: &Seen, old: &Entry) {
        self.add(Event::RootOut, seen.named() == 0);
        self.add(Event::LeftTheLast, free::counted(seen.machine.table()) == 0);
        let paged = seen.entry(seen.named());
        self.add(Event::WidePageFile, paged.get(entry::PAGE_FILE) >> 32 != 0);
        self.add(Event::OutAboveAccess, old.length() > ACCESS_BYTES as u64);
        self.add(Event::OutOneByte, old.length() == 1);
        self.add(Event::OutWithoutRight, old.get(entry::PERMISSIONS) == 0);
        self.add(Event::NotLockableOut, old.get(entry::LOCKABLE) == 0);
    }

    fn page_in(&mut self, seen: &Seen, lent: usize) {
        let (paged, donor) = (seen.before.entry(seen.named()), seen.second());
        match Check::of(seen.reply.refusal) {
            None => self.paged_in(seen, &paged, &donor),
            Some(Check::IllFormed) if paged.kind() == entry::PAGED => {
                self.add(Event::InLengthZero, paged.length() == 0);
                self.add(Event::InLocked, paged.get(entry::LOCKED) != 0);
                self.add(Event::InCow, paged.get(entry::COPY_ON_WRITE) != 0);
                self.add(Event::InZeros, paged.get(entry::PAGED_ZEROS) != 0);
            }
            Some(Check::Kind) => {
                self.add(Event::FirstDirect, paged.kind() == entry::DIRECT);
                self.add(Event::FirstIndirect, paged.kind() == entry::INDIRECT);
                let (itself, of_first) = (donor == paged, paged.kind() == entry::PAGED);
                self.add(Event::DonorPaged, !itself && of_first && donor.kind() == entry::PAGED);
                self.add(Event::DonorItself, itself && of_first);
                self.add(Event::DonorIndirect, of_first && donor.kind() == entry::INDIRECT);
            }
            Some(Check::Bounds) => self.misfitting([paged, donor], lent as u64),
            Some(Check::Standing) => {
                let locked = donor.get(entry::LOCKED) != 0;
                self.add(Event::DonorOfHolder, locked && donor.count() == 0);
                self.add(Event::DonorWithCount, !locked);
            }
            _ => {}
        }
    }

    fn paged_in(&mut self, seen: &Seen, paged: &Entry, donor: &Entry) {
        self.add(Event::InAboveAccess, paged.length() > ACCESS_BYTES as u64);
        self.add(Event::InOneNonce, seen.before.state.next_nonce + 1 == SPENT);
        let rights = |entry: &Entry| entry.get(entry::PERMISSIONS);
        // What a page-out leaves is issued just behind the paged entry.
        let left = paged.get(entry::NONCE) + 1 == donor.get(entry::NONCE);
        self.add(Event::BackToItsPlace, left);
        self.add(Event::BackElsewhere, !left && rights(paged) != rights(donor));
    }

    /// A page-in whose three lengths are not equal.
    fn misfitting(&mut self, [paged, donor]: [Entry; 2], lent: u64) {
        let (whole, of_donor) = (paged.length(), donor.length());
        let fits = of_donor == whole;
        self.add(Event::InBufferShort, fits && lent + 1 == whole);
        self.add(Event::InBufferLong, fits && lent == whole + 1);
        self.add(Event::InNoBuffer, fits && lent == 0);
        self.add(Event::DonorShort, lent == whole && of_donor + 1 == whole);
        self.add(Event::DonorLong, lent == whole && of_donor == whole + 1);
        self.add(Event::DonorAndBufferLong, lent == of_donor && of_donor == whole + 1);
    }

    /// Requests through an entry that is paged out.
    fn paged(&mut self, seen: &Seen, operation: Option<Operation>, lent: usize) {
        let Some(operation) = operation.filter(|operation| operation.names_entry()) else {
            return;
        };
        let (named, token) = (seen.before.entry(seen.named()), Token::unpack(seen.request.token));
        let paged = named.kind() == entry::PAGED;
        let check = Check::of(seen.reply.refusal);
        let by_tag = paged && check == Some(Check::Entry) && named.get(entry::TAG) != token.tag;
        self.add(Event::PagedOtherTag, by_tag);
        if operation == Operation::Merge {
            self.merge_of_paged(seen, check);
        }
        if check != Some(Check::Paged) || !paged {
            return;
        }
        let ones = [entry::LOCKED, entry::COPY_ON_WRITE, entry::PAGED_ZEROS];
        let ill_formed = named.length() == 0 || ones.iter().any(|bits| named.get(*bits) != 0);
        self.add(Event::PagedIllFormed, ill_formed);
        let end = token.offset + lent as u64;
        let access = operation.is_access();
        self.add(Event::PagedWithoutRight, access && named.get(entry::PERMISSIONS) == 0);
        self.add(Event::PagedBeyond, access && end > named.length());
        let full = free::counted(seen.before.table) == 0;
        self.add(Event::PagedAtNoNumber, full && operation.gives_number());
        let spent = seen.before.state.next_nonce == SPENT;
        self.add(Event::PagedAtNoNonce, spent && operation.issues());
    }

    /// A merge of which one entry or both are paged out.
    fn merge_of_paged(&mut self, seen: &Seen, check: Option<Check>) {
        let first = seen.before.entry(seen.named());
        let [one, two] = [first, seen.second()].map(|entry| entry.kind() == entry::PAGED);
        let second = two && seen.second_stands();
        let refused = check == Some(Check::Paged);
        self.add(Event::MergeSecondPaged, refused && !one && second);
        self.add(Event::MergeFirstPaged, refused && one && !seen.second_stands());
        let derived = first.kind() == entry::INDIRECT;
        self.add(Event::MergeFirstDerived, refused && derived && second);
        let earlier = [Check::IllFormed, Check::Dead, Check::Lock].map(Some).contains(&check);
        self.add(Event::MergeBeforePaged, earlier && !one && second);
    }

    /// Lines in which a parent is paged out.
    fn paged_above(&mut self, seen: &Seen, operation: Option<Operation>) {
        if !operation.is_some_and(Operation::names_entry) {
            return;
        }
        let Some((depth, parent)) = seen.paged_parent() else { return };
        let dead = seen.reply.refusal == Check::Dead as u64;
        let named = seen.reply.place == Place::Named as u64;
        self.add(Event::PagedParent, dead && named && depth == 0);
        self.add(Event::PagedAncestor, dead && !named && depth > 0);
        let ill_formed = parent.length() == 0 || parent.get(entry::COPY_ON_WRITE) != 0;
        self.add(Event::IllPagedParent, dead && ill_formed);
        let dropped = operation == Some(Operation::Drop) && seen.reply.refusal == 0;
        let freed = seen.entry(seen.named()).is_free();
        self.add(Event::ClimbStopped, dropped && freed && depth == 0);
    }

    /// What leases and minutes did.
    fn leases(&mut self, seen: &Seen, operation: Option<Operation>, bytes: &[u8]) {
        let (granted, refused) =
            (seen.reply.refusal == 0, seen.reply.refusal == Check::Request as u64);
        let (whole, rest) = bytes.as_chunks::<LEASE_BYTES>();
        let all: Vec<Lease> = whole.iter().map(|bytes| Lease::from_bytes(*bytes)).collect();
        if !operation.is_some_and(Operation::is_leased) {
            let bad = all.iter().any(|lease| !lease.is_sound());
            self.add(Event::LeasesForOthers, granted && bad);
            let misfit = !rest.is_empty() || bytes.len() > LEASES_BYTES;
            return self.add(Event::MisfitForOthers, refused && misfit);
        }
        let minute = seen.request.second;
        self.add(Event::LastMinute, granted && minute + 1 == WEEK);
        self.add(Event::MinuteBeyond, refused && minute == WEEK && rest.is_empty());
        let most = LEASES_BYTES / LEASE_BYTES;
        let sized = minute < WEEK && rest.is_empty();
        self.add(Event::MostLeases, granted && all.len() == most);
        self.add(Event::TooManyLeases, refused && all.len() == most + 1 && sized);
        self.add(Event::PartOfLease, refused && !rest.is_empty() && minute < WEEK);
        match Check::of(seen.reply.refusal) {
            Some(Check::Lease) => self.bad_leases(seen, &all),
            Some(Check::Closed) => self.windows(seen, &all, false),
            None => self.windows(seen, &all, true),
            _ => {}
        }
    }

    fn bad_leases(&mut self, seen: &Seen, all: &[Lease]) {
        let bad: Vec<&Lease> = all.iter().filter(|lease| !lease.is_sound()).collect();
        let [lease] = bad[..] else { return };
        let beyond = |minute: u16| u64::from(minute) == WEEK;
        self.add(Event::BadOfOther, !lease.is_of(seen.token()));
        self.add(
            Event::EqualMinutes,
            lease.opening == lease.closing && u64::from(lease.opening) < WEEK,
        );
        self.add(Event::OpeningBeyond, beyond(lease.opening) && u64::from(lease.closing) < WEEK);
        self.add(Event::ClosingBeyond, beyond(lease.closing) && u64::from(lease.opening) < WEEK);
    }

    /// The leases of an access that was open, or closed.
    fn windows(&mut self, seen: &Seen, all: &[Lease], open: bool) {
        let own: Vec<Lease> =
            all.iter().copied().filter(|lease| lease.is_of(seen.token())).collect();
        if let [lease] = own[..] {
            self.window(lease, seen.request.second, open);
        }
        let is_open = |lease: &Lease| lease.is_open_at(seen.request.second);
        let opened = own.iter().filter(|lease| is_open(lease)).count();
        let several = own.len() > 1;
        self.add(Event::FirstAloneOpen, several && opened == 1 && own.first().is_some_and(is_open));
        self.add(Event::LastAloneOpen, several && opened == 1 && own.last().is_some_and(is_open));
        self.add(Event::NoneOpen, several && opened == 0);
        let last = all.len() == LEASES_BYTES / LEASE_BYTES && all.last() == own.last();
        self.add(Event::LastOfAll, last && open && own.len() == 1);
        self.add(Event::LastOfAllClosed, last && !open && own.len() == 1);
        if open && own.is_empty() {
            self.strange(seen, all);
        }
    }

    /// The one lease of a token whose access was open, or closed.
    fn window(&mut self, lease: Lease, minute: u64, open: bool) {
        let [opening, closing] = [lease.opening, lease.closing].map(u64::from);
        self.add(Event::OpenAtOpening, open && minute == opening);
        self.add(Event::ClosedBeforeOpening, !open && minute + 1 == opening);
        self.add(Event::OpenBeforeClosing, open && minute + 1 == closing);
        self.add(Event::ClosedAtClosing, !open && minute == closing);
        let over = opening > closing;
        self.add(Event::OpenOverSunday, over && open && minute + 1 == WEEK);
        self.add(Event::OpenOnMonday, over && open && minute == 0);
        self.add(Event::ClosedInWeek, over && !open && minute + 1 == opening);
    }

    /// Closed leases of others than the token whose access was granted.
    fn strange(&mut self, seen: &Seen, all: &[Lease]) {
        let closed = || all.iter().filter(|lease| !lease.is_open_at(seen.request.second));
        let (number, tag) = (seen.token().number(), seen.token().tag());
        self.add(Event::OtherTag, closed().any(|lease| u64::from(lease.number) == number));
        self.add(Event::OtherNumber, closed().any(|lease| u64::from(lease.tag) == tag));
        let named = seen.entry(seen.named());
        let parent = bridge::Token(named.get(entry::PARENT));
        let derived = named.kind() == entry::INDIRECT;
        self.add(Event::ParentClosed, derived && closed().any(|lease| lease.is_of(parent)));
    }

    /// What was not reached, as text.
    pub fn missing(&self) -> Vec<String> {
        let missing = EVENTS.iter().filter(|(event, _)| self.0[*event as usize] == 0);
        missing.map(|(_, name)| (*name).to_string()).collect()
    }
}

/// One request with what was before and after it.
struct Seen<'a> {
    request: &'a Words,
    reply: &'a Reply,
    before: Before<'a>,
    after: State,
    machine: &'a dyn Machine,
}

/// An issue of a granted request.
struct Issue {
    number: usize,
    /// What it is if it passed over a nonce.
    passed: Event,
}

impl Seen<'_> {
    fn token(&self) -> bridge::Token {
        bridge::Token(self.request.token)
    }

    fn named(&self) -> usize {
        Token::unpack(self.request.token).number as usize
    }

    fn entry(&self, number: usize) -> Entry {
        Entry::of(self.machine.table(), number)
    }

    /// The issues of a granted request, in their order.
    fn issued(&self) -> Vec<Issue> {
        let given = |passed| Issue { number: self.after.last_number as usize, passed };
        let again = |passed| Issue { number: self.named(), passed };
        match Operation::of(self.request.operation) {
            Some(Operation::Create) if self.reply.second == 0 && self.takes_the_whole() => {
                vec![given(Event::WholePassed)]
            }
            Some(Operation::Create) => vec![given(Event::PartPassed), again(Event::RestPassed)],
            Some(Operation::Merge) => vec![again(Event::MergePassed)],
            Some(Operation::Derive) => vec![given(Event::DerivePassed)],
            Some(Operation::ExecuteOnly) => vec![given(Event::ExecuteOnlyPassed)],
            Some(Operation::Revoke) => vec![again(Event::RevokePassed)],
            Some(Operation::PageOut) => {
                vec![again(Event::PagedPassed), given(Event::LeftPassed)]
            }
            Some(Operation::PageIn) => vec![again(Event::InPassed)],
            _ => Vec::new(),
        }
    }

    /// Of a create: whether it leaves no rest.
    fn takes_the_whole(&self) -> bool {
        self.before.entry(self.named()).length() == self.request.length
    }

    /// Of a create that was refused for its nonces: how many of those left its part passed over.
    fn passed_by_part(&self) -> u64 {
        let Words { length, user, permissions, .. } = *self.request;
        let State { key, last_number, next_nonce, .. } = self.before.state;
        let Some(number) = free::next(self.before.table, last_number) else {
            return 0;
        };
        let old = self.before.entry(self.named());
        let part = Entry::direct(old.get(entry::BASE), length).with(entry::USER, user);
        let part = part.with(entry::PERMISSIONS, permissions);
        let part = part.with(entry::LOCKABLE, old.get(entry::LOCKABLE));
        let kept = self.before.entry(number).get(entry::TAG);
        let passed = |nonce: &u64| tag::issued(&part, key, number, *nonce) == kept;
        (next_nonce..SPENT).take_while(passed).count() as u64
    }

    /// Of a page-out that was refused for its nonces: how many of those left its paged entry passed over.
    fn passed_by_paged(&self) -> u64 {
        let State { key, next_nonce, .. } = self.before.state;
        let (number, old) = (self.named(), self.before.entry(self.named()));
        let paged = Entry::paged(self.request.second, old.length());
        let kept = [entry::USER, entry::PERMISSIONS, entry::LOCKABLE];
        let paged = kept.into_iter().fold(paged, |paged, bits| paged.with(bits, old.get(bits)));
        let held = old.get(entry::TAG);
        let passed = |nonce: &u64| tag::issued(&paged, key, number, *nonce) == held;
        (next_nonce..SPENT).take_while(passed).count() as u64
    }

    /// Of a request that names two entries: the second one as it was before.
    fn second(&self) -> Entry {
        self.before.entry(Token::unpack(self.request.second).number as usize)
    }

    /// Of such a request: whether its second token is that of an entry.
    fn second_stands(&self) -> bool {
        !self.second().is_free()
            && self.second().get(entry::TAG) == Token::unpack(self.request.second).tag
    }

    /// The paged entries above the named one to which links lead that would hold, with their depth.
    fn paged_parent(&self) -> Option<(usize, Entry)> {
        let mut child = self.before.entry(self.named());
        for depth in 0..ENTRIES {
            let Token { tag, number, .. } = Token::unpack(child.field(Field::Parent));
            let parent = self.before.entry(number as usize);
            let held =
                parent.get(entry::TAG) == tag && parent.get(entry::NONCE) < child.get(entry::NONCE);
            match parent.kind() {
                _ if child.kind() != entry::INDIRECT || !held => return None,
                entry::PAGED => return Some((depth, parent)),
                _ => child = parent,
            }
        }
        None
    }

    /// Of a reset: whether it was granted over a free entry that kept a tag.
    fn clears_kept_tag(&self) -> bool {
        let kept = |number| {
            let entry = self.before.entry(number);
            entry.is_free() && entry.get(entry::TAG) != 0
        };
        self.reply.refusal == 0 && (0..self.before.table.len() / entry::SIZE).any(kept)
    }

    fn count_at_top(&self) -> bool {
        self.reply.refusal == 0 && self.entry(self.named()).count() == 65_535
    }

    /// The named entry's parent is there with the tag that the link names.
    fn link_refused_by_nonce(&self) -> bool {
        let named = (Check::Dead as u64, Place::Named as u64);
        if (self.reply.refusal, self.reply.place) != named {
            return false;
        }
        let link = self.entry(self.named()).get(entry::PARENT);
        let Token { tag, number, .. } = Token::unpack(link);
        let parent = self.entry(number as usize);
        !parent.is_free() && parent.get(entry::TAG) == tag
    }

    fn deepest_line(&self) -> bool {
        let deep = self.machine.table().len() == ENTRIES * entry::SIZE && self.reply.refusal == 0;
        deep && self.links() == ENTRIES - 1
    }

    /// How many links stand above the named entry, whose line is whole.
    fn links(&self) -> usize {
        let above = |entry: &Entry| {
            let parent = Token::unpack(entry.get(entry::PARENT)).number as usize;
            Some(self.entry(parent)).filter(|_| entry.kind() == entry::INDIRECT)
        };
        std::iter::successors(Some(self.entry(self.named())), above).skip(1).take(ENTRIES).count()
    }
}

impl fmt::Display for Events {
    fn fmt(&self, f: &mut fmt::Formatter<'_>) -> fmt::Result {
        for (at, (event, name)) in EVENTS.iter().enumerate() {
            let end = if at == 0 { "" } else { "\n" };
            write!(f, "{end}{:>10}  {name}", self.0[*event as usize])?;
        }
        Ok(())
    }
}
