//! Two blocks of records given to `join`, and to a plain definition of it over the walk: each record beside all before it.
use crate::compare::{differs, hex, lent, number};
use crate::counts::{Call, Counts, JoinLent};
use crate::datatype::Datatype;
use crate::duplicates::{changed_uncounted, groups, lengths, records, taken, words, workspace, FILL, LARGEST};
use crate::generate::Random;
use crate::walk;
use datatype_message as library;
use std::fmt::Debug;

/// The numbers, in both blocks laid end to end, of the records that the joined block holds, by document 02's words: "the first block's records
/// that have no earlier twin there, in order, then the second's that have no twin among all records before them".
fn kept(t: &Datatype, a: &[Vec<u8>], b: &[Vec<u8>]) -> Vec<usize> {
    let (first, second) = (taken(t, a), taken(t, b));
    let of_first = (0..a.len()).filter(|k| !first[..*k].contains(&first[*k]));
    let of_second = (0..b.len()).filter(|k| !first.contains(&second[*k]) && !second[..*k].contains(&second[*k]));
    of_first.chain(of_second.map(|k| a.len() + k)).collect()
}

/// A type as it is lent, and two blocks.
#[derive(Clone, Copy)]
struct Lending<'a> {
    t: &'a Datatype,
    table: &'a [u32],
    pool: &'a [u8],
    a: &'a [u8],
    b: &'a [u8],
}

impl Lending<'_> {
    /// One call, with everything lent looked at afterwards: the answer must be the refusal, or the bytes.
    fn call(&self, room: usize, mut work: Vec<u64>, expected: Result<&[u8], (u32, u64)>, counts: &mut Counts) {
        let mut out = vec![FILL as u8; room];
        let lent = work.clone();
        let ours = library::join(self.table, self.pool, self.a, self.b, &mut out, &mut work);
        let differs = |what: &str, ours: &dyn Debug, theirs: &dyn Debug| -> ! {
            let of = format!("room {room}, workspace {lent:?}, blocks {} and {} of {:?}", hex(self.a), hex(self.b), self.t);
            differs(what, &of, ours, theirs)
        };
        let answer = ours.map_err(|e| (e.number_and_values().0, e.number_and_values().1));
        if answer != expected.map(|bytes| (bytes.len(), bytes.len() / self.t.type_size() as usize)) {
            differs("join", &ours, &expected);
        }
        let (n, _) = ours.unwrap_or((0, 0));
        if expected.is_ok_and(|bytes| out[..n] != *bytes) {
            differs("the joined block", &hex(&out[..n]), &expected.map(hex));
        }
        if out[n..].iter().any(|b| *b != FILL as u8) {
            differs("what lies behind the joined block", &hex(&out[n..]), &FILL);
        }
        if work.iter().any(|w| *w != 0) {
            differs("zeros in the workspace", &work, &0);
        }
        counts.walked(Call::Join, number(&ours));
    }
}

/// The type's refusal, with blocks of any length; then two blocks of 0 to 12 records together.
pub fn blocks(t: &Datatype, r: &mut Random, counts: &mut Counts) {
    let (table, pool) = &lent(t, r);
    let any: Vec<u8> = (0..1 + r.below(8)).map(|_| r.next() as u8).collect();
    let lending = Lending { t, table, pool, a: &[], b: &[] };
    if let Some(refusal) = walk::not_admitted(t, &[], &[]).filter(|(number, _)| *number != 18) {
        for (a, b, words) in [(&any[..], &[][..], 0), (&any, &any, 9), (&[], &any, 9), (&[], &[], 9)] {
            Lending { a, b, ..lending }.call(2, workspace(words, 2, r), Err(refusal), counts);
        }
        return;
    }
    let size = t.type_size() as usize;
    if any.len() % size != 0 {
        for (room, words) in [(0, 0), (9, 9)] {
            not_whole(&Lending { a: &any, ..lending }, JoinLent::FirstNotWhole, room, words, r, counts);
            not_whole(&Lending { b: &any, ..lending }, JoinLent::SecondNotWhole, room, words, r, counts);
            not_whole(&Lending { a: &any, b: &any, ..lending }, JoinLent::NeitherWhole, room, words, r, counts);
        }
    }
    if t.type_size() <= LARGEST {
        let most = if size <= 256 { 12 } else { 3 };
        let count = r.below(most + 1) as usize;
        let (a, b) = split(records(t, count, r), r);
        whole(t, table, pool, &a, &b, r, counts);
    }
}

/// The records as two blocks: all in one, cut at a place, or each by chance.
fn split(records: Vec<Vec<u8>>, r: &mut Random) -> (Vec<Vec<u8>>, Vec<Vec<u8>>) {
    let place = match r.below(8) {
        0 => 0,
        1 => records.len() as u64,
        _ => r.below(records.len() as u64 + 1),
    };
    let by_chance = r.below(2) == 0 && 0 < place && place < records.len() as u64;
    let (mut a, mut b) = (Vec::new(), Vec::new());
    for (k, record) in records.into_iter().enumerate() {
        let first = if by_chance { r.below(2) == 0 } else { (k as u64) < place };
        if first { &mut a } else { &mut b }.push(record);
    }
    (a, b)
}

fn not_whole(lending: &Lending, what: JoinLent, room: usize, words: usize, r: &mut Random, counts: &mut Counts) {
    lending.call(room, workspace(words, 2, r), Err((18, 0)), counts);
    counts.join_lent(what);
}

/// Two blocks of whole records, with every kind of room and workspace.
fn whole(t: &Datatype, table: &[u32], pool: &[u8], a: &[Vec<u8>], b: &[Vec<u8>], r: &mut Random, counts: &mut Counts) {
    let (first, second, both) = (a.concat(), b.concat(), [a, b].concat());
    let kept = kept(t, a, b);
    let expected = kept.iter().flat_map(|k| both[*k].iter().copied()).collect::<Vec<u8>>();
    let (n, needed) = (both.len(), expected.len());
    let told = words(t, table, pool, n, counts);
    let lending = Lending { t, table, pool, a: &first, b: &second };
    for (i, length) in lengths(told, r).into_iter().enumerate() {
        lending.call(needed, workspace(length, n, r), Ok(&expected), counts);
        counts.join_lent(JoinLent::Exact);
        counts.join_lent(if length == 0 { JoinLent::NoWork } else if length < told { JoinLent::ShortWork } else { JoinLent::ToldWork });
        let (what, room) = match i % 4 {
            0 if needed > 0 => (JoinLent::ByteShort, needed - 1),
            1 if needed > 0 => (JoinLent::NoRoom, 0),
            2 => (JoinLent::Both, first.len() + second.len()),
            _ => (JoinLent::More, needed + 1 + i % 9),
        };
        let answer = if room < needed { Err((21, needed as u64)) } else { Ok(&expected[..]) };
        lending.call(room, workspace(length, n, r), answer, counts);
        counts.join_lent(what);
    }
    cut(&lending, told, r, counts);
    uncounted(&lending, &both, a.len(), &kept, told, r, counts);
    promises(&lending, a, &both, &expected, told, r, counts);
    let bytes = |records: &[Vec<u8>]| records.iter().map(|x| walk::bytes(t, x)).collect::<Vec<_>>();
    counts.joins(&bytes(a), &bytes(b), &kept);
}

/// The blocks with bytes cut off the end of one or of both; and cut from one and put behind the other.
fn cut(lending: &Lending, told: usize, r: &mut Random, counts: &mut Counts) {
    let size = lending.t.type_size() as usize;
    if size == 1 {
        return;
    }
    let (a, b) = (lending.a, lending.b);
    let room = a.len() + b.len();
    let mut less = |block: &'_ [u8]| block.len() - 1 - r.below(size as u64 - 1) as usize;
    let shorter = (!a.is_empty()).then(|| &a[..less(a)]);
    let other = (!b.is_empty()).then(|| &b[..less(b)]);
    if let Some(a) = shorter {
        not_whole(&Lending { a, ..*lending }, JoinLent::FirstNotWhole, room, told, r, counts);
        let behind = [b, &lending.a[a.len()..]].concat();
        not_whole(&Lending { a, b: &behind, ..*lending }, JoinLent::WholeTogether, room, told, r, counts);
    }
    if let Some(b) = other {
        not_whole(&Lending { b, ..*lending }, JoinLent::SecondNotWhole, room, told, r, counts);
    }
    if let (Some(a), Some(b)) = (shorter, other) {
        not_whole(&Lending { a, b, ..*lending }, JoinLent::NeitherWhole, room, told, r, counts);
    }
}

/// Of the blocks with bytes changed that do not count the same records are kept, with those bytes.
fn uncounted(lending: &Lending, both: &[Vec<u8>], first: usize, kept: &[usize], told: usize, r: &mut Random, counts: &mut Counts) {
    let Some(other) = changed_uncounted(lending.t, both, r) else { return };
    let (a, b) = (other[..first].concat(), other[first..].concat());
    let expected = kept.iter().flat_map(|k| other[*k].iter().copied()).collect::<Vec<u8>>();
    for length in [0, r.below(told as u64 + 1) as usize, told] {
        Lending { a: &a, b: &b, ..*lending }.call(expected.len(), workspace(length, both.len(), r), Ok(&expected), counts);
        counts.join_lent(JoinLent::Uncounted);
    }
}

/// What follows from the definition: the joined block has as many records as `duplicates` finds distinct in both laid end to end, and is its
/// own; joined with either block, before or behind an empty one, it stays; joining with an empty block keeps the records that number themselves.
fn promises(lending: &Lending, a: &[Vec<u8>], both: &[Vec<u8>], joined: &[u8], told: usize, r: &mut Random, counts: &mut Counts) {
    let (t, size, n) = (lending.t, lending.t.type_size() as usize, both.len());
    let find = |block: &[u8], work: &mut [u64]| {
        let (mut numbers, mut sizes) = (vec![FILL; n], vec![FILL; n]);
        let found = library::duplicates(lending.table, lending.pool, block, &mut numbers, &mut sizes, work);
        found.map(|(records, distinct)| (numbers[..records].to_vec(), sizes[..distinct].to_vec()))
    };
    let d = joined.len() / size;
    let laid = find(&both.concat(), &mut workspace(told, n, r));
    if laid.as_ref().map(|(_, sizes)| sizes.len()) != Ok(d) {
        differs("the distinct records of both blocks", &format!("{} of {t:?}", hex(&both.concat())), laid, d);
    }
    let own = find(joined, &mut workspace(told, n, r));
    if own != Ok(((0..d as u64).collect(), vec![1; d])) {
        differs("the joined block's own groups", &format!("{} of {t:?}", hex(joined)), own, d);
    }
    for b in [&[], lending.a, lending.b] {
        Lending { a: joined, b, ..*lending }.call(joined.len(), workspace(told, n, r), Ok(joined), counts);
    }
    Lending { a: &[], b: joined, ..*lending }.call(joined.len(), workspace(told, n, r), Ok(joined), counts);
    let firsts = groups(t, a).numbers.into_iter().enumerate().filter(|(k, first)| *first == *k as u64);
    let firsts = firsts.flat_map(|(k, _)| a[k].iter().copied()).collect::<Vec<u8>>();
    Lending { b: &[], ..*lending }.call(firsts.len(), workspace(told, n, r), Ok(&firsts), counts);
    Lending { a: &[], b: lending.a, ..*lending }.call(firsts.len(), workspace(told, n, r), Ok(&firsts), counts);
}

/// A table that is most often damaged: the number of the answer. Of a large type it is not asked for the runs.
pub fn damaged(table: &[u32], pool: &[u8]) -> (Call, u32) {
    let (mut out, mut work) = ([FILL as u8; 2], [FILL; 4]);
    let size = library::type_size(table, pool).unwrap_or(0);
    let block: &[u8] = if size > LARGEST { &[0] } else { &[] };
    let ours = library::join(table, pool, &[], block, &mut out, &mut work);
    if out != [FILL as u8; 2] || work != [0; 4] {
        differs("what is lent with a damaged table", &format!("{table:?} {pool:?}"), (out, work), ours);
    }
    (Call::Join, number(&ours))
}
