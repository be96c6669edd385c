//! Times `join` beside two ways to join in plain Rust, over two blocks of records with gaps: a hash map of the bytes that count, and sorted
//! copies of them. All three give the joined bytes and the number of records, and must give the same. The two trust the type and allocate what
//! they need, but for the joined bytes, which go into memory that is lent over and over, as the library's do; the library's time includes its
//! checks of the table, and its workspace, of the told length, is lent over and over too.
use crate::datatype::Datatype;
use crate::flat::Flat;
use crate::grouping::{next, BATCHES, SEED};
use crate::{flat, line, times_of, walk};
use datatype_message as library;
use std::collections::HashMap;
use std::hint::black_box;

/// Joins two blocks into a vector; gives the number of records.
type Join = fn(&Datatype, &[u8], &[u8], &mut Vec<u8>) -> usize;

/// For each record the walk over the type, and a look into the map of the records so far.
fn by_hash_map(t: &Datatype, a: &[u8], b: &[u8], out: &mut Vec<u8>) -> usize {
    let size = t.type_size() as usize;
    let mut seen: HashMap<Vec<u8>, ()> = HashMap::new();
    let mut key = Vec::new();
    out.clear();
    for record in a.chunks_exact(size).chain(b.chunks_exact(size)) {
        key.clear();
        walk::counted(t, record, &mut key);
        if !seen.contains_key(&key[..]) {
            seen.insert(key.clone(), ());
            out.extend_from_slice(record);
        }
    }
    seen.len()
}

/// The bytes that count of each record, packed, with its number; sorted, and neighbours compared; then the first of each, in order.
fn by_sorting(t: &Datatype, a: &[u8], b: &[u8], out: &mut Vec<u8>) -> usize {
    let size = t.type_size() as usize;
    let records: Vec<&[u8]> = a.chunks_exact(size).chain(b.chunks_exact(size)).collect();
    let (mut packed, mut ends) = (Vec::new(), vec![0]);
    for record in &records {
        walk::counted(t, record, &mut packed);
        ends.push(packed.len());
    }
    let mut copies: Vec<(&[u8], usize)> = ends.windows(2).map(|e| &packed[e[0]..e[1]]).zip(0..).collect();
    copies.sort_unstable();
    copies.dedup_by(|x, y| x.0 == y.0);
    let mut kept: Vec<usize> = copies.into_iter().map(|(_, k)| k).collect();
    kept.sort_unstable();
    out.clear();
    kept.iter().for_each(|k| out.extend_from_slice(records[*k]));
    kept.len()
}

/// Two blocks of so many records each, of members of 4 bytes, 8 apart. No two records of a block are the same; each second one of the second
/// block is one of the first over again. The gaps are random always.
fn blocks(members: usize, records: usize) -> (Vec<u8>, Vec<u8>) {
    let state = &mut 0x9E37_79B9_7F4A_7C15;
    let size = members * 8;
    let mut both: Vec<u8> = Vec::with_capacity(2 * records * size);
    for k in 0..2 * records {
        // a step without a divisor in common with 10, so that no record of the first is taken twice
        let again = (k >= records && k % 2 == 1).then_some(k * 6007 % records);
        for m in 0..members {
            let word = match again {
                Some(j) => u32::from_le_bytes(both[j * size + m * 8..][..4].try_into().unwrap()),
                None if m == members / 2 => k as u32,
                None => next(state) as u32,
            };
            both.extend_from_slice(&word.to_le_bytes());
            both.extend_from_slice(&(next(state) as u32).to_le_bytes());
        }
    }
    let second = both.split_off(records * size);
    (both, second)
}

/// Two blocks with what is lent for them.
struct Lent {
    t: Datatype,
    table: Vec<u32>,
    pool: Vec<u8>,
    a: Vec<u8>,
    b: Vec<u8>,
    out: Vec<u8>,
    work: Vec<u64>,
}

impl Lent {
    fn new(members: usize, records: usize) -> Lent {
        let t = flat(members, 8);
        let rows = Flat::of(&t);
        let (table, pool) = (rows.words(), rows.pool.clone());
        let words = library::duplicates_words(&table, &pool, 2 * records as u64).unwrap();
        let (a, b) = blocks(members, records);
        let out = vec![0; a.len() + b.len()];
        let mut lent = Lent { t, table, pool, a, b, out, work: vec![0; words] };
        let (bytes, distinct) = lent.join(words);
        assert_eq!(distinct, records + records / 2);
        for theirs in [by_hash_map, by_sorting] {
            let mut expected = Vec::new();
            assert_eq!(theirs(&lent.t, &lent.a, &lent.b, &mut expected), distinct);
            assert!(lent.out[..bytes] == expected[..]);
        }
        lent
    }

    /// The call, with so much of the workspace; how many bytes and records the joined block has.
    fn join(&mut self, words: usize) -> (usize, usize) {
        let work = &mut self.work[..words];
        if let Some(seed) = work.first_mut() {
            *seed = SEED;
        }
        library::join(&self.table, &self.pool, black_box(&self.a), &self.b, &mut self.out, work).unwrap()
    }

    /// Times the call with so much of the workspace beside one of the two.
    fn beside(&mut self, words: usize, theirs: Join) -> (f64, f64) {
        let (t, a, b) = (self.t.clone(), self.a.clone(), self.b.clone());
        let mut out = Vec::with_capacity(a.len() + b.len());
        times_of(BATCHES, || drop(black_box(self.join(words))), || drop(black_box(theirs(&t, black_box(&a), &b, &mut out))))
    }
}

/// The lines, and the goal behind them.
pub fn lines() {
    let (map, sorted) = ("join, walk and hash map", "join, sorted copies");
    let (mut ratios, mut each) = (Vec::new(), Vec::new());
    for (number, records, members) in [("1,000", 1000, 30), ("10,000", 10_000, 30), ("100,000", 100_000, 30), ("10,000", 10_000, 300)] {
        let mut lent = Lent::new(members, records);
        let (of, words) = (format!("two blocks of {number} records, gapped, half in common"), lent.work.len());
        let times = lent.beside(words, by_hash_map);
        ratios.push(times.0 / times.1);
        line(map, &of, members, times);
        line(sorted, &of, members, lent.beside(words, by_sorting));
        if members == 30 {
            each.push((times.0 / (2 * records) as f64, times.1 / (2 * records) as f64));
        }
        if records == 1000 {
            let without = lent.beside(0, by_hash_map);
            line("join without a workspace, walk and hash map", &of, members, without);
            println!("| join without a workspace, with one | {of} | {members} | {:.0} | {:.0} | {:.2} |", without.0, times.0, without.0 / times.0);
        }
    }
    for (of, i) in [("10,000", 1), ("100,000", 2)] {
        println!("| join, a record of two blocks of {of}, one of 1,000 | gapped, half in common | 30 | {:.0} | {:.0} | {:.2}; walk and hash map {:.2} |", each[i].0, each[0].0, each[i].0 / each[0].0, each[i].1 / each[0].1);
    }
    let least = ratios.iter().copied().fold(f64::MAX, f64::min);
    let most = ratios.iter().copied().fold(0.0, f64::max);
    println!("goal: join with the told workspace at most 0.5 of walk and hash map: {least:.2} to {most:.2}, {}", if most <= 0.5 { "met" } else { "missed" });
}
