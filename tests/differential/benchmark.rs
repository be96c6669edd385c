//! Times the library beside the Rust that it was ported from, `memcmp`, a plain Rust walk, and finding duplicates and joining by the standard
//! library's hash map and by sorting: one process, the two sides in turn, the least of many batches. The table and pool lent to the library are
//! as long as the type needs, so reading clears nothing behind it; the Rust's times include freeing what it allocates. Each time of the library
//! includes the check of the table that every call starts with, but for reading.
#![allow(dead_code, unused_imports)]
mod bytes;
mod convert;
mod datatype;
mod display;
mod error;
mod flat;
mod grouping;
mod joining;
mod message_type;
mod walk;

use datatype::{CharacterSet, CompoundMember, Datatype, DatatypeByteOrder, EnumMember, ReferenceType, StringPadding};
use datatype_message as library;
use flat::Flat;
use std::hint::black_box;
use std::time::Instant;

fn number(size: u32) -> Datatype {
    Datatype::FixedPoint { size, byte_order: DatatypeByteOrder::LittleEndian, signed: false, bit_offset: 0, bit_precision: (size * 8) as u16 }
}

/// Whether two slices of a multiple of 512 bytes are equal, by loads of 16 bytes, the widest that the baseline of x86-64 has: 512 bytes of each
/// between two tests, so that the loads are what it costs.
fn equal_by_16(a: &[u8], b: &[u8]) -> bool {
    use std::arch::x86_64::{__m128i, _mm_cmpeq_epi8, _mm_loadu_si128, _mm_movemask_epi8, _mm_or_si128, _mm_setzero_si128, _mm_xor_si128};
    a.chunks_exact(512).zip(b.chunks_exact(512)).all(|(a, b)| unsafe {
        let load = |s: &[u8], at: usize| _mm_loadu_si128(s.as_ptr().add(at) as *const __m128i);
        let mut sums = [_mm_setzero_si128(); 2];
        for at in (0..512).step_by(32) {
            for (i, sum) in sums.iter_mut().enumerate() {
                *sum = _mm_or_si128(*sum, _mm_xor_si128(load(a, at + 16 * i), load(b, at + 16 * i)));
            }
        }
        _mm_movemask_epi8(_mm_cmpeq_epi8(_mm_or_si128(sums[0], sums[1]), _mm_setzero_si128())) == 0xffff
    })
}

/// Members of 4 bytes, so many bytes apart.
fn flat(members: usize, stride: u32) -> Datatype {
    let list: Vec<CompoundMember> = (0..members).map(|i| CompoundMember { name: format!("stop_{i}"), byte_offset: i as u64 * u64::from(stride), datatype: number(4) }).collect();
    Datatype::Compound { size: members as u32 * stride, members: list }
}

/// The same members in groups of ten, or a hundred where there are many, each a compound.
fn nested(members: usize, stride: u32) -> Datatype {
    let (mut groups, mut at) = (Vec::new(), 0);
    let most = if members < 1000 { 10 } else { 100 };
    while groups.len() * most < members {
        let group = flat((members - groups.len() * most).min(most), stride);
        let size = group.type_size();
        groups.push(CompoundMember { name: format!("division_{}", groups.len()), byte_offset: at, datatype: group });
        at += u64::from(size);
    }
    Datatype::Compound { size: at as u32, members: groups }
}

/// 300 names of 4 to 12 letters in 16 bytes each, a NUL behind the name, and behind that what the memory had.
fn names(leftover: u8) -> Vec<u8> {
    (0..300).flat_map(|i| (0..16).map(move |k| if k < 4 + i % 9 { b'a' + ((i + k) % 26) as u8 } else if k == 4 + i % 9 { 0 } else { leftover })).collect()
}

/// An array of 100,000 entries of a compound of a size, which has an enumeration of so many names in its first byte, a gap behind it, and what else
/// is given.
fn entries(names: u16, size: u32, mut members: Vec<CompoundMember>) -> Datatype {
    let list = (0..names).map(|i| EnumMember { name: format!("n{i}"), value: vec![i as u8] }).collect();
    let stops = Datatype::Enumeration { size: 1, base_type: Box::new(number(1)), members: list };
    members.insert(0, CompoundMember { name: "stops".into(), byte_offset: 0, datatype: stops });
    Datatype::Array { base_type: Box::new(Datatype::Compound { size, members }), dimensions: vec![100_000] }
}

/// Nanoseconds a call, of two calls timed in turn: the least of 60 batches of each.
fn times(ours: impl FnMut(), theirs: impl FnMut()) -> (f64, f64) {
    times_of(60, ours, theirs)
}

/// The same, of so many batches.
fn times_of(batches: usize, mut ours: impl FnMut(), mut theirs: impl FnMut()) -> (f64, f64) {
    fn batch(call: &mut dyn FnMut(), n: u32) -> f64 {
        let start = Instant::now();
        for _ in 0..n {
            call();
        }
        start.elapsed().as_nanos() as f64 / f64::from(n)
    }
    let mut n = 1;
    while batch(&mut ours, n) * f64::from(n) < 1e6 && n < 1 << 20 {
        n *= 2;
    }
    let (mut least_ours, mut least_theirs) = (f64::MAX, f64::MAX);
    for _ in 0..batches {
        least_ours = least_ours.min(batch(&mut ours, n));
        least_theirs = least_theirs.min(batch(&mut theirs, n));
    }
    (least_ours, least_theirs)
}

fn line(what: &str, of: &str, members: usize, (ours, theirs): (f64, f64)) {
    println!("| {what} | {of} | {members} | {ours:.0} | {theirs:.0} | {:.2} |", ours / theirs);
}

fn main() {
    println!("| call | type | members | library ns | beside it ns | ratio |");
    println!("|---|---|---|---|---|---|");
    for members in [1, 30, 300, 2000] {
        for (of, make) in [("flat", flat as fn(usize, u32) -> Datatype), ("nested", nested)] {
            let t = make(members, 4);
            let rows = Flat::of(&t);
            let (table, pool, message) = (rows.words(), rows.pool.clone(), t.serialize());
            let (mut words, mut bytes) = (table.clone(), pool.clone());
            line("read, parse", of, members, times(|| drop(black_box(library::read(black_box(&message), 15, &mut words, &mut bytes))), || drop(black_box(Datatype::parse(black_box(&message))))));
            let mut out = vec![0; message.len()];
            line("write, serialize", of, members, times(|| drop(black_box(library::write(&table, &pool, 3, black_box(&mut out)))), || drop(black_box(black_box(&t).serialize()))));
        }
    }
    for members in [1, 30, 300, 2000] {
        for (of, make) in [("flat", flat as fn(usize, u32) -> Datatype), ("nested", nested)] {
            for (records, stride) in [("packed", 4), ("gapped", 8)] {
                let t = make(members, stride);
                let rows = Flat::of(&t);
                let (table, pool) = (rows.words(), rows.pool.clone());
                let a = vec![1u8; t.type_size() as usize];
                let mut b = a.clone();
                if records == "gapped" {
                    b.iter_mut().enumerate().filter(|(i, _)| i % 8 >= 4).for_each(|(_, x)| *x = 2);
                }
                let same = library::same(&table, &pool, &a, &b);
                assert_eq!(same, Ok(true));
                let kind = format!("{of}, {records}");
                line("same, plain walk", &kind, members, times(|| drop(black_box(library::same(&table, &pool, black_box(&a), &b))), || drop(black_box(walk::agree(&t, black_box(&a), &b)))));
                line("same, checked plain walk", &kind, members, times(|| drop(black_box(library::same(&table, &pool, black_box(&a), &b))), || drop(black_box(walk::checked_agree(&t, black_box(&a), &b)))));
            }
        }
    }
    // NUL-terminated names of 16 bytes, the bytes behind their NUL differing: as members and as one array
    let name = Datatype::String { size: 16, padding: StringPadding::NullTerminate, charset: CharacterSet::Ascii };
    let members = (0..300).map(|i| CompoundMember { name: format!("stop_{i}"), byte_offset: i * 16, datatype: name.clone() }).collect();
    let array = Datatype::Array { base_type: Box::new(name), dimensions: vec![300] };
    for (of, t) in [("300 names", Datatype::Compound { size: 4800, members }), ("array of 300 names", array)] {
        let rows = Flat::of(&t);
        let (table, pool) = (rows.words(), rows.pool.clone());
        let (a, b) = (names(0x55), names(0x66));
        assert_eq!(library::same(&table, &pool, &a, &b), Ok(true));
        let (checks, _) = times(|| drop(black_box(library::type_size(black_box(&table), &pool))), || ());
        let (whole, walked) = times(|| drop(black_box(library::same(&table, &pool, black_box(&a), &b))), || drop(black_box(walk::agree(&t, black_box(&a), &b))));
        println!("| same, plain walk | {of} with leftovers | 300 | {whole:.0}, its checks {checks:.0} | {walked:.0} | {:.2}, without the checks {:.2} |", whole / walked, (whole - checks) / walked);
        line("same, checked plain walk", &format!("{of} with leftovers"), 300, times(|| drop(black_box(library::same(&table, &pool, black_box(&a), &b))), || drop(black_box(walk::checked_agree(&t, black_box(&a), &b)))));
    }
    // equal packed records: what comparing costs beside the checks that type_size makes too
    for size in [4096, 1 << 20] {
        let t = Datatype::Array { base_type: Box::new(number(4)), dimensions: vec![size / 4] };
        let rows = Flat::of(&t);
        let (table, pool) = (rows.words(), rows.pool.clone());
        let a = vec![1u8; size as usize];
        let b = a.clone();
        let (checks, _) = times(|| drop(black_box(library::type_size(black_box(&table), &pool))), || ());
        let (whole, compared) = times(|| drop(black_box(library::same(&table, &pool, black_box(&a), &b))), || drop(black_box(black_box(&a[..]) == black_box(&b[..]))));
        println!("| same, memcmp | array of {size} equal bytes | 0 | {whole:.0}, its checks {checks:.0} | {compared:.0} | {:.2}, without the checks {:.2} |", whole / compared, (whole - checks) / compared);
        let (again, loaded) = times(|| drop(black_box(library::same(&table, &pool, black_box(&a), &b))), || drop(black_box(equal_by_16(black_box(&a), black_box(&b)))));
        println!("| same, loads of 16 bytes | array of {size} equal bytes | 0 | {again:.0}, its checks {checks:.0} | {loaded:.0} | {:.2}, without the checks {:.2} |", again / loaded, (again - checks) / loaded);
    }
    // an enumeration of 4,000 names inside an array beside one of 1: its names are looked at once, by the checks, and not for each entry
    let beside = |what: &str, many: (f64, f64), few: (f64, f64)| {
        let ((many, few), (checks_many, checks_few)) = ((many.0, few.0), (many.1, few.1));
        println!("| {what} | array of 100,000 entries with an enumeration of 4,000 names, of 1 name | | {many:.0}, its checks {checks_many:.0} | {few:.0}, its checks {checks_few:.0} | {:.2}, without the checks {:.2} |", many / few, (many - checks_many) / (few - checks_few));
    };
    let rows_of = |t: Datatype| {
        let rows = Flat::of(&t);
        (rows.words(), rows.pool.clone())
    };
    let (many, few) = (rows_of(entries(4000, 2, vec![])), rows_of(entries(1, 2, vec![])));
    let checks = times(|| drop(black_box(library::type_size(black_box(&many.0), &many.1))), || drop(black_box(library::type_size(black_box(&few.0), &few.1))));
    let (a, b) = (vec![1u8; 200_000], (0..200_000).map(|i| 1 + i as u8 % 2).collect::<Vec<u8>>());
    assert_eq!(library::same(&many.0, &many.1, &a, &b), Ok(true));
    let whole = times(|| drop(black_box(library::same(&many.0, &many.1, black_box(&a), &b))), || drop(black_box(library::same(&few.0, &few.1, black_box(&a), &b))));
    beside("same, same", (whole.0, checks.0), (whole.1, checks.1));
    let pointer = || vec![CompoundMember { name: "points".into(), byte_offset: 8, datatype: Datatype::Reference { size: 8, ref_type: ReferenceType::Object } }];
    let (many, few) = (rows_of(entries(4000, 16, pointer())), rows_of(entries(1, 16, pointer())));
    let checks = times(|| drop(black_box(library::type_size(black_box(&many.0), &many.1))), || drop(black_box(library::type_size(black_box(&few.0), &few.1))));
    let (mut slots, mut again) = (vec![0; 100_000], vec![0; 100_000]);
    assert_eq!(library::embedded_reference_slots(&many.0, &many.1, &mut slots), Ok(100_000));
    let whole = times(|| drop(black_box(library::embedded_reference_slots(&many.0, &many.1, black_box(&mut slots)))), || drop(black_box(library::embedded_reference_slots(&few.0, &few.1, black_box(&mut again)))));
    beside("slots, slots", (whole.0, checks.0), (whole.1, checks.1));
    grouping::lines();
    joining::lines();
}
