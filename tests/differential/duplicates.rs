//! Blocks of records given to `duplicates`, and to a plain definition of it over the walk: each record beside all before it.
use crate::compare::{changed, differs, hex, lent, number};
use crate::counts::{Call, Counts, Lent};
use crate::datatype::Datatype;
use crate::generate::Random;
use crate::walk;
use datatype_message::{self as library, Refusal};
use std::fmt::Debug;

/// What every lent entry holds before a call; no answer has it.
pub const FILL: u64 = 0x0707_0707_0707_0707;
/// The largest type of which blocks are made.
pub const LARGEST: u32 = 4096;
/// The most workspaces that are lent to one block, one of each length.
const WORKSPACES: usize = 300;

/// Numbers and sizes, by document 02's words.
#[derive(Debug)]
pub struct Groups {
    pub numbers: Vec<u64>,
    pub sizes: Vec<u64>,
}

/// The bytes of each record as they are taken: equal for records that are the same.
pub fn taken(t: &Datatype, records: &[Vec<u8>]) -> Vec<Vec<Option<u8>>> {
    records.iter().map(|r| walk::bytes(t, r).iter().map(walk::Byte::taken).collect()).collect()
}

pub fn groups(t: &Datatype, records: &[Vec<u8>]) -> Groups {
    let taken = taken(t, records);
    let earliest = |k: usize| (0..k).find(|j| taken[*j] == taken[k]).unwrap_or(k) as u64;
    let numbers: Vec<u64> = (0..records.len()).map(earliest).collect();
    let firsts = (0..records.len() as u64).filter(|k| numbers[*k as usize] == *k);
    let sizes = firsts.map(|f| numbers.iter().filter(|n| **n == f).count() as u64).collect();
    Groups { numbers, sizes }
}

/// A type as it is lent, and a block.
struct Lending<'a> {
    t: &'a Datatype,
    table: &'a [u32],
    pool: &'a [u8],
    block: &'a [u8],
}

impl Lending<'_> {
    /// One call, with everything lent looked at afterwards: the answer must be the refusal, or the groups.
    fn call(&self, room: usize, places: usize, mut work: Vec<u64>, expected: Result<&Groups, (u32, u64)>, counts: &mut Counts) {
        let (mut numbers, mut sizes) = (vec![FILL; room], vec![FILL; places]);
        let lent = work.clone();
        let ours = library::duplicates(self.table, self.pool, self.block, &mut numbers, &mut sizes, &mut work);
        let differs = |what: &str, ours: &dyn Debug, theirs: &dyn Debug| -> ! {
            let of = format!("room {room} and {places}, workspace {lent:?}, block {} of {:?}", hex(self.block), self.t);
            differs(what, &of, ours, theirs)
        };
        let answer = ours.map_err(|e| (e.number_and_values().0, e.number_and_values().1));
        if answer != expected.map(|g| (g.numbers.len(), g.sizes.len())) {
            differs("duplicates", &ours, &expected);
        }
        let (n, d) = ours.unwrap_or((0, 0));
        if let Ok(groups) = expected {
            if numbers[..n] != groups.numbers[..] || sizes[..d] != groups.sizes[..] {
                differs("the groups", &(&numbers[..n], &sizes[..d]), groups);
            }
        }
        if numbers[n..].iter().chain(&sizes[d..]).any(|w| *w != FILL) {
            differs("what lies behind the groups", &(&numbers[n..], &sizes[d..]), &FILL);
        }
        if work.iter().any(|w| *w != 0) {
            differs("zeros in the workspace", &work, &0);
        }
        counts.walked(Call::Duplicates, number(&ours));
    }
}

/// A workspace with content that must not matter: one word throughout, numbers that could be a record's, or any.
pub fn workspace(length: usize, records: usize, r: &mut Random) -> Vec<u64> {
    let how = r.below(5);
    let one = [0, u64::MAX, r.next()][r.below(3) as usize];
    (0..length).map(|_| if how < 3 { one } else if how == 3 { r.below(records as u64 + 2) } else { r.next() }).collect()
}

/// Records of which about half are others over again, with changes that may or may not matter.
pub fn records(t: &Datatype, count: usize, r: &mut Random) -> Vec<Vec<u8>> {
    let mut records: Vec<Vec<u8>> = Vec::new();
    for _ in 0..count {
        let next = match records.len() as u64 {
            n if n > 0 && r.below(3) > 0 => changed(t, &records[r.below(n) as usize], r),
            _ => (0..t.type_size()).map(|_| r.below(3) as u8).collect(),
        };
        records.push(next);
    }
    records
}

/// The lengths from 0 to two more than told; of very many, those near the ends and some between.
pub fn lengths(told: usize, r: &mut Random) -> Vec<usize> {
    if told + 3 <= WORKSPACES {
        return (0..=told + 2).collect();
    }
    let mut lengths: Vec<usize> = (0..WORKSPACES / 3).chain(told - WORKSPACES / 3..=told + 2).collect();
    lengths.extend((0..WORKSPACES / 3).map(|_| r.below(told as u64) as usize));
    lengths
}

/// The type's refusal, with a block of any length; then a block of 0 to 12 records.
pub fn block(t: &Datatype, r: &mut Random, counts: &mut Counts) {
    let (table, pool) = &lent(t, r);
    let any: Vec<u8> = (0..1 + r.below(8)).map(|_| r.next() as u8).collect();
    let refused = walk::not_admitted(t, &[], &[]).filter(|(number, _)| *number != 18);
    if let Some(refusal) = refused {
        let told = library::duplicates_words(table, pool, 3);
        if told.map_err(|e| (e.number_and_values().0, e.number_and_values().1)) != Err(refusal) {
            differs("the words of a workspace", &format!("{t:?}"), told, refusal);
        }
        counts.walked(Call::DuplicatesWords, number(&told));
        for (lending, words) in [(&any[..], 0), (&any[..], 9), (&[], 9)] {
            Lending { t, table, pool, block: lending }.call(2, 2, workspace(words, 2, r), Err(refusal), counts);
        }
        return;
    }
    let size = t.type_size() as usize;
    if any.len() % size != 0 {
        for (room, words) in [(0, 0), (9, 9)] {
            Lending { t, table, pool, block: &any }.call(room, room, workspace(words, 2, r), Err((18, 0)), counts);
            counts.lent(Lent::NotWhole);
        }
    }
    if t.type_size() <= LARGEST {
        let most = if size <= 256 { 12 } else { 3 };
        let count = r.below(most + 1) as usize;
        whole(t, table, pool, &records(t, count, r), r, counts);
    }
}

/// A block of whole records, with every kind of room and workspace.
fn whole(t: &Datatype, table: &[u32], pool: &[u8], records: &[Vec<u8>], r: &mut Random, counts: &mut Counts) {
    let block = records.concat();
    let expected = groups(t, records);
    let (n, d) = (records.len(), expected.sizes.len());
    let told = words(t, table, pool, n, counts);
    let lending = Lending { t, table, pool, block: &block };
    for (i, length) in lengths(told, r).into_iter().enumerate() {
        lending.call(n, d, workspace(length, n, r), Ok(&expected), counts);
        counts.lent(Lent::Exact);
        counts.lent(if length == 0 { Lent::NoWork } else if length < told { Lent::ShortWork } else { Lent::ToldWork });
        let work = workspace(length, n, r);
        match i % 4 {
            0 if n > 0 => {
                lending.call(n - 1, d, work, Err((21, n as u64)), counts);
                counts.lent(Lent::FewNumbers);
            }
            1 if n > 0 => {
                lending.call(n, d - 1, work, Err((21, d as u64)), counts);
                counts.lent(Lent::FewSizes);
            }
            2 if n > 0 => {
                lending.call(n - 1, d - 1, work, Err((21, n as u64)), counts);
                counts.lent(Lent::FewBoth);
            }
            _ => {
                lending.call(n + 1 + i % 3, d + 1 + i % 2, work, Ok(&expected), counts);
                counts.lent(Lent::More);
            }
        }
    }
    if n > 0 && t.type_size() > 1 {
        let short = &block[..block.len() - 1 - r.below(u64::from(t.type_size()) - 1) as usize];
        Lending { block: short, ..lending }.call(n, d, workspace(told, n, r), Err((18, 0)), counts);
        counts.lent(Lent::NotWhole);
    }
    uncounted(t, table, pool, records, &expected, told, r, counts);
    counts.blocks(&records.iter().map(|x| walk::bytes(t, x)).collect::<Vec<_>>(), &expected.numbers);
}

/// Some of the records' bytes that do not count changed; None where all count.
pub fn changed_uncounted(t: &Datatype, records: &[Vec<u8>], r: &mut Random) -> Option<Vec<Vec<u8>>> {
    let mut other = records.to_vec();
    let mut places = Vec::new();
    for (k, record) in records.iter().enumerate() {
        places.extend(walk::bytes(t, record).iter().enumerate().filter(|(_, b)| b.past == b.owners).map(|(i, _)| (k, i)));
    }
    if places.is_empty() {
        return None;
    }
    for _ in 0..1 + r.below(3) {
        let (k, i) = places[r.below(places.len() as u64) as usize];
        other[k][i] = other[k][i].wrapping_add(1 + r.below(255) as u8);
    }
    Some(other)
}

/// The block with bytes changed that do not count has the same groups.
fn uncounted(t: &Datatype, table: &[u32], pool: &[u8], records: &[Vec<u8>], expected: &Groups, told: usize, r: &mut Random, counts: &mut Counts) {
    let (n, d) = (records.len(), expected.sizes.len());
    let Some(other) = changed_uncounted(t, records, r) else { return };
    let block = other.concat();
    for length in [0, r.below(told as u64 + 1) as usize, told] {
        Lending { t, table, pool, block: &block }.call(n, d, workspace(length, n, r), Ok(expected), counts);
        counts.lent(Lent::Uncounted);
    }
}

/// The told length of a workspace: 3 words a record and 2 a run; the library may have one run more, which is empty.
pub fn words(t: &Datatype, table: &[u32], pool: &[u8], n: usize, counts: &mut Counts) -> usize {
    let told = library::duplicates_words(table, pool, n as u64);
    let least = 3 * n + 2 * walk::runs(t);
    match told {
        Ok(words) if words == least || words == least + 2 => {
            counts.walked(Call::DuplicatesWords, 0);
            words
        }
        _ => differs("the words of a workspace", &format!("{n} records of {t:?}"), told, least),
    }
}

/// A table that is most often damaged: the numbers of both calls' answers. Of a large type neither is asked for the runs.
pub fn damaged(table: &[u32], pool: &[u8]) -> [(Call, u32); 2] {
    let (mut numbers, mut sizes, mut work) = ([FILL; 2], [FILL; 2], [FILL; 4]);
    let size = library::type_size(table, pool).unwrap_or(0);
    let block: &[u8] = if size > LARGEST { &[0] } else { &[] };
    let ours = library::duplicates(table, pool, block, &mut numbers, &mut sizes, &mut work);
    if numbers != [FILL; 2] || sizes != [FILL; 2] || work != [0; 4] {
        differs("what is lent with a damaged table", &format!("{table:?} {pool:?}"), (numbers, sizes, work), ours);
    }
    let told = if size > LARGEST { Err(Refusal::WrongLength) } else { library::duplicates_words(table, pool, 1) };
    [(Call::Duplicates, number(&ours)), (Call::DuplicatesWords, number(&told))]
}
