//! One message or type given to the library and to the oracle, or, where the oracle has no answer, to the plain walk. The run ends at the first
//! difference.
use crate::counts::{Call, Counts};
use crate::datatype::{self, Datatype};
use crate::duplicates;
use crate::error::FormatError;
use crate::flat::Flat;
use crate::generate::Random;
use crate::join;
use crate::walk;
use datatype_message::{self as library, Refusal, POOL, ROW, ROWS};

/// The largest type whose slots the oracle is asked to list, and the most slots.
const LISTED: u32 = 1 << 26;
const SLOTS: u64 = 1 << 16;

pub fn hex(bytes: &[u8]) -> String {
    bytes.iter().map(|b| format!("{b:02X}")).collect::<Vec<_>>().join(" ")
}

pub fn differs(what: &str, of: &str, ours: impl std::fmt::Debug, theirs: impl std::fmt::Debug) -> ! {
    println!("differs in {what}: {of}");
    println!("  here {ours:?}");
    println!("  there {theirs:?}");
    std::process::exit(1);
}

/// The number and values that document 01 gives the oracle's error.
pub fn refusal(e: &FormatError) -> (u32, u64, u64) {
    match e {
        FormatError::UnexpectedEof { expected, available } => (4, *expected as u64, *available as u64),
        FormatError::InvalidDatatypeClass(c) => (6, u64::from(*c), 0),
        FormatError::InvalidDatatypeVersion { class, version } => (7, u64::from(*class), u64::from(*version)),
        FormatError::InvalidStringPadding(p) => (8, u64::from(*p), 0),
        FormatError::InvalidCharacterSet(c) => (9, u64::from(*c), 0),
        FormatError::InvalidReferenceType(k) => (10, u64::from(*k), 0),
        FormatError::ZeroSizedDatatype { class } => (12, u64::from(*class), 0),
        other => panic!("an error that reading never gives: {other:?}"),
    }
}

pub fn number<T>(answer: &Result<T, Refusal>) -> u32 {
    answer.as_ref().err().map_or(0, |e| e.number_and_values().0)
}

/// Reads a message by both, into so many rows and pool bytes; gives the oracle's type where both accept it.
fn reading(message: &[u8], rows: usize, room: usize, counts: &mut Counts) -> Option<(Datatype, Flat, usize)> {
    let (mut table, mut pool) = (vec![7; rows * ROW], vec![7; room]);
    let limit = [15, 16, u32::MAX][message.len() % 3];
    let ours = library::read(message, limit, &mut table, &mut pool);
    if ours.is_err() && (table.iter().any(|w| *w != 0) || pool.iter().any(|b| *b != 0)) {
        differs("zeros after a refusal", &hex(message), ours, 0);
    }
    if let Err(Refusal::TooDeep | Refusal::TooMany | Refusal::PoolFull) = ours {
        counts.left_out(Call::Read, number(&ours));
        return None;
    }
    counts.compared(Call::Read, number(&ours));
    let (t, consumed) = match Datatype::parse(message) {
        Err(e) => {
            if ours.map_err(Refusal::number_and_values) != Err(refusal(&e)) {
                differs("the refusal", &hex(message), ours, e);
            }
            return None;
        }
        Ok(read) => read,
    };
    if ours != Ok(consumed) {
        differs("the length", &hex(message), ours, consumed);
    }
    let flat = Flat::of(&t);
    let words = flat.words();
    if table[..words.len()] != words[..] || table[words.len()..].iter().any(|w| *w != 0) {
        differs("the rows", &hex(message), &table[..words.len()], &words);
    }
    if pool[..flat.pool.len()] != flat.pool[..] || pool[flat.pool.len()..].iter().any(|b| *b != 0) {
        differs("the pool", &hex(message), &pool[..flat.pool.len()], &flat.pool);
    }
    Some((t, flat, consumed))
}

/// A message: read with all the room that can be used, with just enough, with a row or a pool byte less; then every call on its type.
pub fn message(message: &[u8], r: &mut Random, counts: &mut Counts) {
    let Some((t, flat, _)) = reading(message, ROWS, POOL, counts) else { return };
    counts.classes[usize::from(message[0] & 15)] += 1;
    counts.versions[usize::from(message[0] >> 4)] += 1;
    counts.levels[flat.depth] += 1;
    let (rows, room) = (flat.words().len() / ROW, flat.pool.len());
    reading(message, rows, room, counts);
    if reading(message, rows - 1, room, counts).is_some() || room > 0 && reading(message, rows, room - 1, counts).is_some() {
        differs("what a table and pool hold", &hex(message), rows, room);
    }
    on_type(&t, r, counts);
}

/// The table and pool of a type; of some, longer ones than it needs.
pub fn lent(t: &Datatype, r: &mut Random) -> (Vec<u32>, Vec<u8>) {
    let flat = Flat::of(t);
    let (mut table, mut pool) = (flat.words(), flat.pool.clone());
    if r.below(4) == 0 {
        table.extend([0; 21]);
        pool.extend([0; 5]);
    }
    (table, pool)
}

/// Every call on the table of a type.
pub fn on_type(t: &Datatype, r: &mut Random, counts: &mut Counts) {
    let (table, pool) = lent(t, r);
    sizes(t, &table, &pool, counts);
    predicates(t, &table, &pool, counts);
    for edition in 0..5 {
        writing(t, &table, &pool, edition, counts);
    }
    let slots = slots(t, &table, &pool, counts);
    references(t, &slots, r, counts);
    for _ in 0..2 {
        records(t, &table, &pool, r, counts);
    }
    damaged(table, pool, r, counts);
}

fn sizes(t: &Datatype, table: &[u32], pool: &[u8], counts: &mut Counts) {
    let ours = library::type_size(table, pool);
    if ours != Ok(t.type_size()) {
        differs("the size", &format!("{t:?}"), ours, t.type_size());
    }
    counts.compared(Call::Size, number(&ours));
    let ours = library::element_size(table, pool);
    let theirs = t.element_size().map(|n| n.get()).map_err(|e| refusal(&e));
    if ours.map_err(Refusal::number_and_values) != theirs {
        differs("the element size", &format!("{t:?}"), ours, theirs);
    }
    counts.compared(Call::Size, number(&ours));
}

fn predicates(t: &Datatype, table: &[u32], pool: &[u8], counts: &mut Counts) {
    let ours = [library::datatype_holds_object_address(table, pool), library::datatype_holds_file_address(table, pool)];
    let theirs = [Ok(datatype::datatype_holds_object_address(t)), Ok(datatype::datatype_holds_file_address(t))];
    if ours != theirs {
        differs("the address predicates", &format!("{t:?}"), ours, theirs);
    }
    for answer in ours {
        counts.compared(Call::Predicates, number(&answer));
    }
}

/// The predicate over each first byte of a message.
pub fn first_bytes(counts: &mut Counts) {
    for byte in 0..=255 {
        let (ours, theirs) = (library::class_may_hold_object_address(byte), datatype::class_may_hold_object_address(byte));
        if ours != theirs {
            differs("class_may_hold_object_address", &format!("{byte:02X}"), ours, theirs);
        }
        counts.compared(Call::Predicates, 0);
    }
}

fn writing(t: &Datatype, table: &[u32], pool: &[u8], edition: u32, counts: &mut Counts) {
    let of = format!("edition {edition} of {t:?}");
    let mut out = vec![7; 1 << 17];
    let ours = library::write(table, pool, edition, &mut out);
    let Ok(n) = ours else {
        if number(&ours) != walk::not_written(t, edition).unwrap_or(0) || out.iter().any(|b| *b != 7) {
            differs("the refusal to write", &of, ours, walk::not_written(t, edition));
        }
        counts.walked(Call::Write, number(&ours));
        return;
    };
    if out[n..].iter().any(|b| *b != 7) {
        differs("what lies behind the message", &of, n, 7);
    }
    counts.editions[edition as usize] += 1;
    if edition == 3 {
        let theirs = t.serialize();
        if out[..n] != theirs[..] {
            differs("the message", &of, hex(&out[..n]), hex(&theirs));
        }
        counts.compared(Call::Write, 0);
    }
    match Datatype::parse(&out[..n]) {
        Ok((back, consumed)) if back == *t && consumed == n => counts.compared(Call::ReadBack, 0),
        other => differs("what the Rust reads of the message", &of, hex(&out[..n]), other.map_err(|e| refusal(&e))),
    }
    let mut short = vec![7; n - 1];
    let ours = library::write(table, pool, edition, &mut short);
    if ours != Err(Refusal::NoRoom { needed: n as u64 }) || short.iter().any(|b| *b != 7) {
        differs("NoRoom", &of, ours, n);
    }
    counts.left_out(Call::Write, 21);
}

fn slots(t: &Datatype, table: &[u32], pool: &[u8], counts: &mut Counts) -> Vec<u64> {
    let mut out = [7; 4];
    let mut ours = library::embedded_reference_slots(table, pool, &mut out);
    let mut listed = out.to_vec();
    if let Err(Refusal::NoRoom { needed }) = ours {
        counts.left_out(Call::Slots, 21);
        if needed > SLOTS {
            return vec![];
        }
        listed = vec![7; needed as usize + 1];
        ours = library::embedded_reference_slots(table, pool, &mut listed);
    }
    if let Err(Refusal::ZeroSize { class }) = ours {
        if walk::zero_class(t) != Some(class) {
            differs("ZeroSize in slots", &format!("{t:?}"), class, walk::zero_class(t));
        }
        counts.walked(Call::Slots, 12);
        return vec![];
    }
    if t.type_size() > LISTED {
        counts.left_out(Call::Slots, number(&ours));
        return vec![];
    }
    let theirs: Option<Vec<u64>> = datatype::embedded_reference_slots(t).map(|slots| slots.into_iter().map(|s| s as u64).collect());
    counts.compared(Call::Slots, number(&ours));
    match (ours, theirs) {
        (Err(Refusal::Unmapped), None) => vec![],
        (Ok(n), Some(theirs)) if listed[..n] == theirs[..] && listed[n..].iter().all(|s| *s == 7) => theirs,
        (ours, theirs) => differs("the slots", &format!("{t:?}"), ours, theirs),
    }
}

fn references(t: &Datatype, slots: &[u64], r: &mut Random, counts: &mut Counts) {
    let record = match r.below(8) {
        0 => 0,
        1 => r.below(24),
        _ => u64::from(t.type_size()).min(4096),
    };
    let block: Vec<u8> = (0..r.below(4) * record + r.below(9)).map(|_| r.next() as u8).collect();
    let whole = block.len() as u64 / record.max(1);
    let needed = whole * slots.len() as u64;
    let room = if r.below(4) == 0 { needed.saturating_sub(1) } else { needed + r.below(2) } as usize;
    let (mut places, mut values) = (vec![7; room], vec![7; room]);
    let ours = library::stored_object_references(&block, record, slots, &mut places, &mut values);
    let outside = slots.iter().any(|s| s + 8 > record.max(1));
    let expected = if outside { 20 } else if (room as u64) < needed { 21 } else { 0 };
    if number(&ours) != expected || ours.is_err() && places.iter().chain(&values).any(|w| *w != 7) {
        differs("references", &format!("{slots:?} of {record}"), ours, expected);
    }
    if let Ok(n) = ours {
        let theirs: Vec<usize> = slots.iter().map(|s| *s as usize).collect();
        let theirs: Vec<(u64, u64)> = datatype::stored_object_references(&block, record as usize, &theirs).map(|(p, v)| (p as u64, v)).collect();
        let listed: Vec<(u64, u64)> = places[..n].iter().copied().zip(values[..n].iter().copied()).collect();
        if listed != theirs || places[n..].iter().chain(&values[n..]).any(|w| *w != 7) {
            differs("references", &format!("{slots:?} of {record}"), listed, theirs);
        }
        counts.compared(Call::References, 0);
    } else {
        counts.left_out(Call::References, expected);
    }
}

/// Changes a record where that may or may not matter: anywhere, or only at bytes that no field counts, or at bytes that one field counts and
/// a string that shares them does not.
pub fn changed(t: &Datatype, a: &[u8], r: &mut Random) -> Vec<u8> {
    let mut b = a.to_vec();
    let how = if walk::not_admitted(t, a, a).is_some() { 0 } else { r.below(4) };
    if how < 2 {
        for _ in 0..r.below(4) {
            if !b.is_empty() {
                b[r.below(a.len() as u64) as usize] = r.below(3) as u8;
            }
        }
        return b;
    }
    for (byte, of) in b.iter_mut().zip(walk::bytes(t, a)) {
        if (of.past == of.owners || how == 3 && of.past > 0) && r.below(2) == 0 {
            *byte = r.next() as u8;
        }
    }
    b
}

/// Many pairs of records of a type of names.
pub fn names(t: &Datatype, r: &mut Random, counts: &mut Counts) {
    let flat = Flat::of(t);
    for _ in 0..12 {
        records(t, &flat.words(), &flat.pool, r, counts);
    }
}

fn records(t: &Datatype, table: &[u32], pool: &[u8], r: &mut Random, counts: &mut Counts) {
    let size = if t.type_size() > 4096 || r.below(16) == 0 { r.below(9) as usize } else { t.type_size() as usize };
    let a: Vec<u8> = (0..size).map(|_| r.below(3) as u8).collect();
    let mut b = changed(t, &a, r);
    if r.below(32) == 0 {
        b.push(0);
    }
    let ours = library::same(table, pool, &a, &b);
    let theirs = walk::same(t, &a, &b);
    if ours.map_err(|e| (e.number_and_values().0, e.number_and_values().1)) != theirs {
        differs("same", &format!("{} and {} of {t:?}", hex(&a), hex(&b)), ours, theirs);
    }
    counts.walked(Call::Same, number(&ours));
    if let Ok(same) = theirs {
        counts.names(&walk::bytes(t, &a), &walk::bytes(t, &b), same);
    }
}

/// A word or byte changed: every call says BadTable, or none does.
fn damaged(mut table: Vec<u32>, mut pool: Vec<u8>, r: &mut Random, counts: &mut Counts) {
    let at = r.below(table.len() as u64) as usize;
    let by = [1, 2, 255, 65536][r.below(4) as usize];
    table[at] = table[at].wrapping_add(by);
    if r.below(8) == 0 {
        pool.push(1);
    }
    let bad = library::type_size(&table, &pool).is_err();
    let mut out = [7; 16];
    let mut listed = [7; 4];
    let answers = [
        (Call::Size, number(&library::element_size(&table, &pool))),
        (Call::Predicates, number(&library::datatype_holds_object_address(&table, &pool))),
        (Call::Predicates, number(&library::datatype_holds_file_address(&table, &pool))),
        (Call::Write, number(&library::write(&table, &pool, 3, &mut out))),
        (Call::Slots, number(&library::embedded_reference_slots(&table, &pool, &mut listed))),
        (Call::Same, number(&library::same(&table, &pool, &[], &[]))),
    ];
    for (call, n) in answers.into_iter().chain(duplicates::damaged(&table, &pool)).chain([join::damaged(&table, &pool)]) {
        if (n == 1) != bad {
            differs("BadTable", &format!("{table:?} {pool:?}"), n, bad);
        }
        if bad {
            counts.left_out(call, 1);
        }
    }
}
