//! Messages: short ones exhaustively, random types in every version, damaged copies. Types that no message gives.
use crate::compare;
use crate::counts::Counts;
use crate::duplicates;
use crate::join;
use crate::datatype::{CharacterSet, CompoundMember, Datatype, DatatypeByteOrder, EnumMember, ReferenceType, StringPadding};

pub struct Random(u64);

impl Random {
    pub fn new(seed: u64) -> Random {
        Random(seed.wrapping_mul(0x9E37_79B9_7F4A_7C15) | 1)
    }

    pub fn next(&mut self) -> u64 {
        self.0 ^= self.0 << 13;
        self.0 ^= self.0 >> 7;
        self.0 ^= self.0 << 17;
        self.0
    }

    pub fn below(&mut self, n: u64) -> u64 {
        self.next() % n
    }
}

fn header(out: &mut Vec<u8>, class: u8, version: u8, f0: u8, f1: u8, size: u32) {
    out.extend_from_slice(&[class | version << 4, f0, f1, 0]);
    out.extend_from_slice(&size.to_le_bytes());
}

fn name(r: &mut Random, out: &mut Vec<u8>, padded: bool) {
    let start = out.len();
    for _ in 0..r.below(12) {
        let b = match r.below(8) {
            0 => 0x80 + r.below(0x80) as u8,
            1 => [0xC2, 0xE0, 0xE2, 0xED, 0xEF, 0xF0, 0xF4, 0xBF][r.below(8) as usize],
            _ => b'a' + r.below(26) as u8,
        };
        out.push(b);
    }
    out.push(0);
    while padded && (out.len() - start) % 8 != 0 {
        out.push(0);
    }
}

fn size(r: &mut Random) -> u32 {
    match r.below(8) {
        0 => 0,
        1 => 255 + r.below(3) as u32,
        2 => 65534 + r.below(4) as u32,
        3 => r.next() as u32,
        _ => 1 + r.below(16) as u32,
    }
}

fn good_size(r: &mut Random) -> u32 {
    loop {
        let n = size(r);
        if n != 0 || r.below(20) == 0 {
            return n;
        }
    }
}

/// A message of a random type, most often a good one.
fn message(r: &mut Random, out: &mut Vec<u8>, levels: u64) {
    let class = if levels == 0 { [0, 1, 2, 3, 4, 5, 7][r.below(7) as usize] } else { r.below(12) as u8 };
    let version = if r.below(12) == 0 { r.below(16) as u8 } else { 1 + r.below(4) as u8 };
    let n = good_size(r);
    match class {
        0 | 4 => {
            header(out, class, version, r.next() as u8, 0, n);
            out.extend_from_slice(&r.next().to_le_bytes()[..4]);
        }
        1 => {
            header(out, 1, version, r.next() as u8, r.next() as u8, n);
            out.extend_from_slice(&r.next().to_le_bytes());
            out.extend_from_slice(&r.next().to_le_bytes()[..4]);
        }
        2 => {
            header(out, 2, version, r.next() as u8, 0, n);
            out.extend_from_slice(&r.next().to_le_bytes()[..2]);
        }
        3 => header(out, 3, version, (r.below(4) | r.below(3) << 4) as u8, 0, n),
        5 => {
            let tag = r.below(20) as u8;
            header(out, 5, version, tag, 0, n);
            for _ in 0..tag as usize + (8 - tag as usize % 8) % 8 {
                out.push(r.next() as u8);
            }
        }
        6 | 11 => {
            let layout = if class == 11 { 3 } else { version };
            let count = r.below(5) as u8;
            header(out, class, version, count, 0, n);
            for _ in 0..count {
                name(r, out, layout < 3);
                let width = if layout < 3 { 4 } else if n <= 255 { 1 } else if n <= 65535 { 2 } else { 4 };
                out.extend_from_slice(&r.next().to_le_bytes()[..width]);
                if layout == 1 {
                    out.extend_from_slice(&[0; 28]);
                }
                message(r, out, levels - 1);
            }
        }
        7 => header(out, 7, version, r.below(3) as u8, 0, n),
        8 => {
            let count = r.below(5) as u8;
            header(out, 8, version, count, 0, n);
            let base = 1 + r.below(4) as u32;
            header(out, 0, 1, 0, 0, base);
            out.extend_from_slice(&[0, 0, 8, 0]);
            for _ in 0..count {
                name(r, out, version < 3);
            }
            for _ in 0..count as u32 * base {
                out.push(r.next() as u8);
            }
        }
        9 => {
            header(out, 9, version, (r.below(3) | r.below(4) << 4) as u8, r.below(3) as u8, n);
            message(r, out, levels - 1);
        }
        _ => {
            let version = if r.below(10) == 0 { version } else { 2 + r.below(2) as u8 };
            header(out, 10, version, 0, 0, n);
            let rank = r.below(4) as u8;
            out.push(rank);
            if version == 2 {
                out.extend_from_slice(&[0; 3]);
            }
            for _ in 0..rank {
                let d = if r.below(12) == 0 { r.next() as u32 } else { 1 + r.below(5) as u32 };
                out.extend_from_slice(&if r.below(30) == 0 { 0u32 } else { d }.to_le_bytes());
            }
            if version == 2 {
                out.extend_from_slice(&vec![0; rank as usize * 4]);
            }
            message(r, out, levels - 1);
        }
    }
}

/// A message with so many levels: compounds, variable lengths, arrays and enumerations round a leaf.
fn nested(r: &mut Random, out: &mut Vec<u8>, levels: u64) {
    if levels <= 1 {
        return message(r, out, 0);
    }
    match r.below(4) {
        0 => {
            header(out, 6, 3, 1, 0, 255);
            name(r, out, false);
            out.push(r.below(8) as u8);
            nested(r, out, levels - 1);
        }
        1 => {
            header(out, 10, 3, 0, 0, 0);
            out.extend_from_slice(&[1, 1 + r.below(2) as u8, 0, 0, 0]);
            nested(r, out, levels - 1);
        }
        2 => {
            header(out, 8, 3, 0, 0, 8);
            nested(r, out, levels - 1);
        }
        _ => {
            header(out, 9, 1, 0, 0, 16);
            nested(r, out, levels - 1);
        }
    }
}

fn order(r: &mut Random) -> DatatypeByteOrder {
    match r.below(12) {
        0..=5 => DatatypeByteOrder::LittleEndian,
        6..=10 => DatatypeByteOrder::BigEndian,
        _ => DatatypeByteOrder::Vax,
    }
}

fn padding(r: &mut Random) -> StringPadding {
    [StringPadding::NullTerminate, StringPadding::NullPad, StringPadding::SpacePad][r.below(3) as usize].clone()
}

fn charset(r: &mut Random) -> CharacterSet {
    if r.below(2) == 0 { CharacterSet::Ascii } else { CharacterSet::Utf8 }
}

fn text(r: &mut Random) -> String {
    let mut name = String::new();
    for _ in 0..r.below(6) {
        let letters = if r.below(60) == 0 { 4000 } else { 25 };
        name.push(char::from_u32(97 + r.below(letters) as u32).unwrap_or('a'));
    }
    if r.below(200) == 0 {
        name.push('\0');
    }
    name
}

fn leaf(r: &mut Random) -> Datatype {
    let size = if r.below(12) == 0 { size(r) } else { 1 + r.below(8) as u32 };
    match r.below(7) {
        0 => Datatype::FixedPoint { size, byte_order: order(r), signed: r.below(2) == 0, bit_offset: r.next() as u16, bit_precision: r.next() as u16 },
        1 => Datatype::FloatingPoint {
            size,
            byte_order: order(r),
            bit_offset: r.next() as u16,
            bit_precision: r.next() as u16,
            exponent_location: r.next() as u8,
            exponent_size: r.next() as u8,
            mantissa_location: r.next() as u8,
            mantissa_size: r.next() as u8,
            exponent_bias: r.next() as u32,
        },
        2 => Datatype::Time { size, byte_order: order(r), bit_precision: r.next() as u16 },
        3 => Datatype::String { size, padding: padding(r), charset: charset(r) },
        4 => Datatype::BitField { size, byte_order: order(r), bit_offset: r.next() as u16, bit_precision: r.next() as u16 },
        5 => Datatype::Opaque { size, tag: vec![b't'; if r.below(40) == 0 { 254 + r.below(4) } else { r.below(10) } as usize] },
        _ => {
            let region = r.below(6) == 0;
            let size = if r.below(8) == 0 { size } else { 8 };
            Datatype::Reference { size, ref_type: if region { ReferenceType::DatasetRegion } else { ReferenceType::Object } }
        }
    }
}

/// A type whose members most often lie within their compound, with gaps and overlaps.
fn datatype(r: &mut Random, levels: u64) -> Datatype {
    if levels == 0 {
        return leaf(r);
    }
    match r.below(12) {
        0..=5 => {
            let mut end = 0;
            let mut members = Vec::new();
            for _ in 0..r.below(6) {
                let inner = datatype(r, levels - 1);
                let offset = if r.below(10) == 0 { r.below(u64::from(end) + 1) as u32 } else { end + r.below(3) as u32 };
                end = end.max(offset.saturating_add(inner.type_size().min(1 << 20)));
                members.push(CompoundMember { name: text(r), byte_offset: u64::from(offset), datatype: inner });
            }
            let size = if r.below(40) == 0 { r.below(u64::from(end) + 1) as u32 } else { end + 1 + r.below(2) as u32 };
            Datatype::Compound { size, members }
        }
        6..=8 => {
            let rank = if r.below(60) == 0 { 254 + r.below(4) } else { r.below(4) };
            let dimensions = (0..rank).map(|_| if rank > 4 { 1 } else if r.below(40) == 0 { [0, 65536, u32::MAX][r.below(3) as usize] } else { 1 + r.below(3) as u32 }).collect();
            Datatype::Array { base_type: Box::new(datatype(r, levels - 1)), dimensions }
        }
        9 => {
            let base = if r.below(4) == 0 { datatype(r, levels - 1) } else { leaf(r) };
            let wide = base.type_size().min(300);
            let members = (0..r.below(4)).map(|_| EnumMember { name: text(r), value: vec![1; wide as usize + usize::from(r.below(40) == 0)] }).collect();
            Datatype::Enumeration { size: 1 + r.below(9) as u32, base_type: Box::new(base), members }
        }
        10 if r.below(3) == 0 => {
            let is_string = r.below(2) == 0;
            let odd = r.below(20) == 0;
            let (padding, charset) = ((is_string != odd).then(|| padding(r)), is_string.then(|| charset(r)));
            Datatype::VariableLength { is_string, padding, charset, base_type: Box::new(datatype(r, levels - 1)) }
        }
        _ => leaf(r),
    }
}

/// A type of names: NUL-terminated strings, arrays of them, and what else they may share bytes with. Of a compound's members one in three begins
/// inside what the others have.
fn named(r: &mut Random, levels: u64) -> Datatype {
    let size = 1 + r.below(8) as u32;
    let name = Datatype::String { size, padding: StringPadding::NullTerminate, charset: charset(r) };
    match r.below(if levels == 0 { 6 } else { 10 }) {
        0..=2 => name,
        3 => Datatype::String { size, padding: padding(r), charset: charset(r) },
        4 => Datatype::FixedPoint { size: 1 + size % 4, byte_order: order(r), signed: false, bit_offset: 0, bit_precision: 8 },
        5 => Datatype::Enumeration { size: 1 + r.below(4) as u32, base_type: Box::new(name), members: vec![] },
        6 | 7 => {
            let dimensions = (0..1 + r.below(2)).map(|_| 1 + r.below(3) as u32).collect();
            Datatype::Array { base_type: Box::new(named(r, levels - 1)), dimensions }
        }
        _ => {
            let (mut end, mut members) = (0, Vec::new());
            for _ in 0..1 + r.below(5) {
                let inner = named(r, levels - 1);
                let offset = if r.below(3) == 0 { r.below(u64::from(end) + 1) as u32 } else { end + r.below(2) as u32 };
                end = end.max(offset + inner.type_size());
                members.push(CompoundMember { name: text(r), byte_offset: u64::from(offset), datatype: inner });
            }
            Datatype::Compound { size: end + r.below(2) as u32, members }
        }
    }
}

fn all_headers(r: &mut Random, counts: &mut Counts) {
    let tails: [&[u8]; 4] = [&[], &[0; 6], &[0, 0, 1, 0, 0, 0, 0, 0, 8, 0, 0, 0], &[0, 0, 4, 0, 0, 0, b'a', 0, 0, 0x10, 0, 0, 0, 1, 0, 0, 0, 0, 0, 8, 0, 0, 0, 0]];
    for first in 0..=255u8 {
        compare::message(&[first], r, counts);
        for second in 0..=255u8 {
            for tail in tails {
                let mut m = vec![first, second];
                m.extend_from_slice(tail);
                compare::message(&m, r, counts);
            }
        }
    }
}

/// A good message with its prefixes, damaged copies, and bytes behind.
fn round(mut m: Vec<u8>, r: &mut Random, counts: &mut Counts) {
    compare::message(&m, r, counts);
    if m.len() < 64 {
        for end in 0..m.len() {
            compare::message(&m[..end], r, counts);
        }
    }
    for _ in 0..4 {
        let mut d = m.clone();
        for _ in 0..1 + r.below(3) {
            let at = r.below(d.len() as u64) as usize;
            d[at] = r.next() as u8;
        }
        compare::message(&d, r, counts);
    }
    m.extend_from_slice(&r.next().to_le_bytes());
    compare::message(&m, r, counts);
}

/// A few messages for a file of samples: a good one, a prefix and a damaged copy.
pub fn sample(i: u64, r: &mut Random) -> Vec<Vec<u8>> {
    let mut good = Vec::new();
    if i % 8 == 0 {
        nested(r, &mut good, 1 + i / 8 % 32);
    } else {
        let levels = r.below(4);
        message(r, &mut good, levels);
    }
    let prefix = good[..r.below(good.len() as u64) as usize].to_vec();
    let mut damaged = good.clone();
    let at = r.below(good.len() as u64) as usize;
    damaged[at] = r.next() as u8;
    vec![good, prefix, damaged]
}

pub fn run(seed: u64, rounds: u64, counts: &mut Counts) {
    let r = &mut Random::new(seed);
    compare::message(&[], r, counts);
    compare::first_bytes(counts);
    all_headers(r, counts);
    for i in 0..rounds {
        let mut m = Vec::new();
        let levels = r.below(5);
        message(r, &mut m, levels);
        if m.len() <= 60_000 {
            round(m, r, counts);
        }
        if i % 4 == 0 {
            let mut m = Vec::new();
            nested(r, &mut m, 1 + i / 4 % 33);
            round(m, r, counts);
        }
        let levels = r.below(4);
        let t = datatype(r, levels);
        compare::on_type(&t, r, counts);
        duplicates::block(&t, r, counts);
        join::blocks(&t, r, counts);
        let t = named(r, 3);
        compare::on_type(&t, r, counts);
        compare::names(&t, r, counts);
        duplicates::block(&t, r, counts);
        join::blocks(&t, r, counts);
    }
}
