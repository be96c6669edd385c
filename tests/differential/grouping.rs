//! Times `duplicates` beside two ways to find them in plain Rust, over blocks of records with gaps: a hash map of the bytes that count, and
//! sorted copies of them. All three give the numbers and the sizes, and must give the same. The two trust the type and allocate what they
//! need; the library's time includes its checks of the table, and its workspace, of the told length, is lent over and over.
use crate::datatype::Datatype;
use crate::flat::Flat;
use crate::{flat, line, times_of, walk};
use datatype_message as library;
use std::collections::HashMap;
use std::hint::black_box;

pub const BATCHES: usize = 15;
/// The first word of the workspace.
pub const SEED: u64 = 0x2545_F491_4F6C_DD1D;

type Groups = (Vec<u64>, Vec<u64>);

/// For each record the walk over the type, and a look into the map of the records so far.
fn by_hash_map(t: &Datatype, block: &[u8]) -> Groups {
    let mut seen: HashMap<Vec<u8>, (u64, usize)> = HashMap::new();
    let (mut numbers, mut sizes, mut key) = (Vec::new(), Vec::new(), Vec::new());
    for (k, record) in block.chunks_exact(t.type_size() as usize).enumerate() {
        key.clear();
        walk::counted(t, record, &mut key);
        match seen.get(&key[..]) {
            Some((first, group)) => {
                numbers.push(*first);
                sizes[*group] += 1;
            }
            None => {
                seen.insert(key.clone(), (k as u64, sizes.len()));
                numbers.push(k as u64);
                sizes.push(1);
            }
        }
    }
    (numbers, sizes)
}

/// The bytes that count of each record, packed, with its number; sorted, and neighbours compared.
fn by_sorting(t: &Datatype, block: &[u8]) -> Groups {
    let (mut packed, mut ends) = (Vec::new(), vec![0]);
    for record in block.chunks_exact(t.type_size() as usize) {
        walk::counted(t, record, &mut packed);
        ends.push(packed.len());
    }
    let mut copies: Vec<(&[u8], usize)> = ends.windows(2).map(|e| &packed[e[0]..e[1]]).zip(0..).collect();
    copies.sort_unstable();
    let (mut numbers, mut counts) = (vec![0; copies.len()], vec![0; copies.len()]);
    let mut first = 0;
    for (i, (bytes, k)) in copies.iter().enumerate() {
        if i == 0 || copies[i - 1].0 != *bytes {
            first = *k;
        }
        numbers[*k] = first as u64;
        counts[first] += 1;
    }
    (numbers, counts.into_iter().filter(|n| *n > 0).collect())
}

pub fn next(state: &mut u64) -> u64 {
    *state ^= *state << 13;
    *state ^= *state >> 7;
    *state ^= *state << 17;
    *state
}

/// Which records of a block are others over again.
#[derive(Clone, Copy)]
enum Kind {
    Half,
    Different,
    Alike,
    Turns,
}

/// So many records of members of 4 bytes, 8 apart. A record that is an earlier one over again is so of any of them; the gaps are random always.
fn block(members: usize, records: usize, kind: Kind) -> Vec<u8> {
    let state = &mut 0x9E37_79B9_7F4A_7C15;
    let size = members * 8;
    let mut block: Vec<u8> = Vec::with_capacity(records * size);
    for k in 0..records {
        let again = match kind {
            Kind::Half if k % 2 == 1 => Some(next(state) as usize % k),
            Kind::Alike if k > 0 => Some(0),
            Kind::Turns if k > 1 => Some(k % 2),
            _ => None,
        };
        for m in 0..members {
            let word = match again {
                Some(j) => u32::from_le_bytes(block[j * size + m * 8..][..4].try_into().unwrap()),
                None if m == members / 2 => k as u32,
                None => next(state) as u32,
            };
            block.extend_from_slice(&word.to_le_bytes());
            block.extend_from_slice(&(next(state) as u32).to_le_bytes());
        }
    }
    block
}

/// A block with what is lent for it.
struct Lent {
    t: Datatype,
    table: Vec<u32>,
    pool: Vec<u8>,
    block: Vec<u8>,
    numbers: Vec<u64>,
    sizes: Vec<u64>,
    work: Vec<u64>,
}

impl Lent {
    fn new(members: usize, records: usize, kind: Kind) -> Lent {
        let t = flat(members, 8);
        let rows = Flat::of(&t);
        let (table, pool) = (rows.words(), rows.pool.clone());
        let words = library::duplicates_words(&table, &pool, records as u64).unwrap();
        let mut lent = Lent { t, table, pool, block: block(members, records, kind), numbers: vec![0; records], sizes: vec![0; records], work: vec![0; words] };
        let expected = by_hash_map(&lent.t, &lent.block);
        assert!(by_sorting(&lent.t, &lent.block) == expected);
        let distinct = lent.find(words);
        assert!(lent.numbers == expected.0 && lent.sizes[..distinct] == expected.1[..]);
        lent
    }

    /// The call, with so much of the workspace; how many records are distinct.
    fn find(&mut self, words: usize) -> usize {
        let work = &mut self.work[..words];
        if let Some(seed) = work.first_mut() {
            *seed = SEED;
        }
        library::duplicates(&self.table, &self.pool, black_box(&self.block), &mut self.numbers, &mut self.sizes, work).unwrap().1
    }

    /// Times the call with so much of the workspace beside one of the two.
    fn beside(&mut self, words: usize, theirs: fn(&Datatype, &[u8]) -> Groups) -> (f64, f64) {
        let (t, block) = (self.t.clone(), self.block.clone());
        times_of(BATCHES, || drop(black_box(self.find(words))), || drop(black_box(theirs(&t, black_box(&block)))))
    }
}

/// The lines, and the goal behind them.
pub fn lines() {
    let (map, sorted) = ("duplicates, walk and hash map", "duplicates, sorted copies");
    let mut ratios = Vec::new();
    for members in [30, 300] {
        for (of, kind) in [("half duplicates", Kind::Half), ("all different", Kind::Different), ("all alike", Kind::Alike)] {
            let mut lent = Lent::new(members, 10_000, kind);
            let (of, words) = (format!("10,000 records, gapped, {of}"), lent.work.len());
            let times = lent.beside(words, by_hash_map);
            ratios.push(times.0 / times.1);
            line(map, &of, members, times);
            line(sorted, &of, members, lent.beside(words, by_sorting));
        }
        // no record is the one before it, so each is hashed and compared: the dearest of such blocks, beside the goal
        let mut lent = Lent::new(members, 10_000, Kind::Turns);
        let words = lent.work.len();
        line(map, "10,000 records, gapped, two in turn", members, lent.beside(words, by_hash_map));
    }
    // growth: the same type and kind, ever more records
    let mut each = Vec::new();
    for (of, records) in [("1,000", 1000), ("10,000", 10_000), ("100,000", 100_000)] {
        let mut lent = Lent::new(30, records, Kind::Half);
        let words = lent.work.len();
        let times = lent.beside(words, by_hash_map);
        ratios.push(times.0 / times.1);
        each.push((times.0 / records as f64, times.1 / records as f64));
        line(map, &format!("{of} records, gapped, half duplicates, growth"), 30, times);
        line(sorted, &format!("{of} records, gapped, half duplicates, growth"), 30, lent.beside(words, by_sorting));
        if records == 1000 {
            let without = lent.beside(0, by_hash_map);
            line("duplicates without a workspace, walk and hash map", "1,000 records, gapped, half duplicates", 30, without);
            println!("| duplicates without a workspace, with one | 1,000 records, gapped, half duplicates | 30 | {:.0} | {:.0} | {:.2} |", without.0, times.0, without.0 / times.0);
        }
    }
    for (of, i) in [("10,000", 1), ("100,000", 2)] {
        println!("| a record of {of}, one of 1,000 | gapped, half duplicates | 30 | {:.0} | {:.0} | {:.2}; walk and hash map {:.2} |", each[i].0, each[0].0, each[i].0 / each[0].0, each[i].1 / each[0].1);
    }
    let least = ratios.iter().copied().fold(f64::MAX, f64::min);
    let most = ratios.iter().copied().fold(0.0, f64::max);
    println!("goal: duplicates with the told workspace at most 0.5 of walk and hash map: {least:.2} to {most:.2}, {}", if most <= 0.5 { "met" } else { "missed" });
}
