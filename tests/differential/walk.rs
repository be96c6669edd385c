//! Plain walks over the oracle's type: what documents 01 and 02 say of comparing and of Storable, which the Rust has no functions for.
use crate::datatype::{Datatype, DatatypeByteOrder, ReferenceType, StringPadding};

/// The types directly inside a type.
pub fn inside(t: &Datatype) -> Vec<&Datatype> {
    match t {
        Datatype::Compound { members, .. } => members.iter().map(|m| &m.datatype).collect(),
        Datatype::Enumeration { base_type, .. } | Datatype::VariableLength { base_type, .. } | Datatype::Array { base_type, .. } => vec![base_type],
        _ => vec![],
    }
}

/// Some type at any level, in reading order.
fn first<'a>(t: &'a Datatype, test: &dyn Fn(&Datatype) -> bool) -> Option<&'a Datatype> {
    if test(t) {
        return Some(t);
    }
    inside(t).into_iter().find_map(|i| first(i, test))
}

fn true_size(t: &Datatype) -> u128 {
    match t {
        Datatype::Array { base_type, dimensions } => dimensions.iter().fold(true_size(base_type), |n, d| n.saturating_mul(u128::from(*d))),
        _ => u128::from(t.type_size()),
    }
}

/// The class of the first type of size 0.
pub fn zero_class(t: &Datatype) -> Option<u8> {
    first(t, &|t| t.type_size() == 0).map(Datatype::class_code)
}

fn outside(t: &Datatype) -> bool {
    match t {
        Datatype::Compound { size, members } => members.iter().any(|m| m.byte_offset + u64::from(m.datatype.type_size()) > u64::from(*size)),
        Datatype::Array { .. } => true_size(t) > u128::from(u32::MAX),
        _ => false,
    }
}

fn heap_held(t: &Datatype) -> bool {
    matches!(t, Datatype::VariableLength { .. } | Datatype::Reference { ref_type: ReferenceType::DatasetRegion, .. })
}

/// The number of a refusal with its value, where the type or a record's length is not admitted to comparison.
pub fn not_admitted(t: &Datatype, a: &[u8], b: &[u8]) -> Option<(u32, u64)> {
    if let Some(class) = zero_class(t) {
        return Some((12, class.into()));
    }
    if first(t, &outside).is_some() {
        return Some((16, 0));
    }
    if first(t, &heap_held).is_some() {
        return Some((17, 0));
    }
    let size = t.type_size() as usize;
    (a.len() != size || b.len() != size).then_some((18, 0))
}

fn nul_terminated(t: &Datatype) -> bool {
    matches!(t, Datatype::String { padding: StringPadding::NullTerminate, .. })
}

/// The fields of a type that begins at a place, reached through compounds and arrays only: place, type.
fn fields<'a>(t: &'a Datatype, at: usize, found: &mut Vec<(usize, &'a Datatype)>) {
    match t {
        Datatype::Compound { members, .. } => members.iter().for_each(|m| fields(&m.datatype, at + m.byte_offset as usize, found)),
        Datatype::Array { base_type, dimensions } => {
            let entries: usize = dimensions.iter().map(|d| *d as usize).product();
            (0..entries).for_each(|k| fields(base_type, at + k * base_type.type_size() as usize, found));
        }
        _ => found.push((at, t)),
    }
}

/// How many runs an admitted type has: fields one behind the other that count whole are one, a NUL-terminated string is one by itself.
pub fn runs(t: &Datatype) -> usize {
    let mut found = Vec::new();
    fields(t, 0, &mut found);
    let (mut runs, mut open) = (0, None);
    for (place, field) in found {
        let behind = (!nul_terminated(field)).then_some(place + field.type_size() as usize);
        runs += usize::from(behind.is_none() || open != Some(place));
        open = behind;
    }
    runs
}

/// A byte of a record: its value, how many fields own it, and how many of these are NUL-terminated strings that are past their end there.
#[derive(Clone, Copy)]
pub struct Byte {
    pub value: u8,
    pub owners: usize,
    pub past: usize,
}

impl Byte {
    /// The byte as document 02 takes it: "as zero only if every field that owns it is such a string and past its end there". None where no
    /// field owns it.
    pub fn taken(&self) -> Option<u8> {
        (self.owners > 0).then_some(if self.past == self.owners { 0 } else { self.value })
    }
}

/// The bytes of a record of an admitted type.
pub fn bytes(t: &Datatype, record: &[u8]) -> Vec<Byte> {
    let mut bytes: Vec<Byte> = record.iter().map(|b| Byte { value: *b, owners: 0, past: 0 }).collect();
    let mut found = Vec::new();
    fields(t, 0, &mut found);
    for (place, field) in found {
        let mut ended = false;
        for byte in &mut bytes[place..place + field.type_size() as usize] {
            byte.owners += 1;
            byte.past += usize::from(ended);
            ended = ended || nul_terminated(field) && byte.value == 0;
        }
    }
    bytes
}

/// Compares two records by the bytes as they are taken: the number of a refusal with its value, or whether they are the same.
pub fn same(t: &Datatype, a: &[u8], b: &[u8]) -> Result<bool, (u32, u64)> {
    match not_admitted(t, a, b) {
        Some(refusal) => Err(refusal),
        None => Ok(bytes(t, a).iter().zip(&bytes(t, b)).all(|(x, y)| x.taken() == y.taken())),
    }
}

/// Whether two records of an admitted type are the same, field by field: the walk that a Rust programmer would write. The benchmark's.
pub fn agree(t: &Datatype, a: &[u8], b: &[u8]) -> bool {
    match t {
        Datatype::Compound { members, .. } => members.iter().all(|m| {
            let from = m.byte_offset as usize;
            let to = from + m.datatype.type_size() as usize;
            agree(&m.datatype, &a[from..to], &b[from..to])
        }),
        Datatype::Array { base_type, .. } => {
            let stride = base_type.type_size() as usize;
            a.chunks_exact(stride).zip(b.chunks_exact(stride)).all(|(a, b)| agree(base_type, a, b))
        }
        Datatype::String { padding: StringPadding::NullTerminate, .. } => {
            for (x, y) in a.iter().zip(b) {
                if x != y {
                    return false;
                }
                if *x == 0 {
                    break;
                }
            }
            true
        }
        _ => a == b,
    }
}

/// Appends the bytes of a record of an admitted type that count, field by field, a NUL-terminated string's up to and with its NUL: two records
/// are the same exactly when these are equal. The benchmark's.
pub fn counted(t: &Datatype, record: &[u8], out: &mut Vec<u8>) {
    match t {
        Datatype::Compound { members, .. } => members.iter().for_each(|m| {
            let from = m.byte_offset as usize;
            counted(&m.datatype, &record[from..from + m.datatype.type_size() as usize], out);
        }),
        Datatype::Array { base_type, .. } => record.chunks_exact(base_type.type_size() as usize).for_each(|entry| counted(base_type, entry, out)),
        Datatype::String { padding: StringPadding::NullTerminate, .. } => {
            let end = record.iter().position(|b| *b == 0).map_or(record.len(), |nul| nul + 1);
            out.extend_from_slice(&record[..end]);
        }
        _ => out.extend_from_slice(record),
    }
}

/// The same, behind the tests of admission.
pub fn checked_agree(t: &Datatype, a: &[u8], b: &[u8]) -> Result<bool, (u32, u64)> {
    not_admitted(t, a, b).map_or_else(|| Ok(agree(t, a, b)), Err)
}

fn unstorable(t: &Datatype) -> bool {
    let vax = |o: &DatatypeByteOrder| matches!(o, DatatypeByteOrder::Vax);
    t.type_size() == 0
        || match t {
            Datatype::FixedPoint { byte_order, .. } | Datatype::Time { byte_order, .. } | Datatype::BitField { byte_order, .. } => vax(byte_order),
            Datatype::FloatingPoint { size, .. } => *size > 536_870_911,
            Datatype::Opaque { tag, .. } => tag.len() > 255,
            Datatype::Compound { size, members } => {
                let greatest = if *size <= 255 { 255 } else if *size <= 65535 { 65535 } else { u64::from(u32::MAX) };
                members.len() > 65535 || members.iter().any(|m| m.byte_offset > greatest || m.name.contains('\0'))
            }
            Datatype::Enumeration { base_type, members, .. } => {
                members.len() > 65535 || members.iter().any(|m| m.name.contains('\0') || m.value.len() as u64 != u64::from(base_type.type_size()))
            }
            Datatype::VariableLength { is_string, padding, charset, .. } => padding.is_some() != *is_string || charset.is_some() != *is_string,
            Datatype::Array { dimensions, .. } => dimensions.len() > 255,
            _ => false,
        }
}

/// The refusal of writing in an edition, if there is one.
pub fn not_written(t: &Datatype, edition: u32) -> Option<u32> {
    if !(1..=3).contains(&edition) {
        return Some(13);
    }
    if first(t, &unstorable).is_some() {
        return Some(14);
    }
    if edition == 1 && first(t, &|t| matches!(t, Datatype::Array { .. })).is_some() {
        return Some(15);
    }
    None
}
