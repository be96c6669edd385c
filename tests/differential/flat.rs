//! The oracle's type as a table and pool, by document 01's words and DESIGN's columns.
use crate::datatype::{CharacterSet, Datatype, DatatypeByteOrder, ReferenceType, StringPadding};

/// The oracle's type as rows and pool bytes.
#[derive(Default)]
pub struct Flat {
    rows: Vec<[u32; 16]>,
    pub pool: Vec<u8>,
    pub depth: usize,
}

fn order(o: &DatatypeByteOrder) -> u32 {
    match o {
        DatatypeByteOrder::LittleEndian => 0,
        DatatypeByteOrder::BigEndian => 1,
        DatatypeByteOrder::Vax => 2,
    }
}

fn padding(p: &StringPadding) -> u32 {
    match p {
        StringPadding::NullTerminate => 0,
        StringPadding::NullPad => 1,
        StringPadding::SpacePad => 2,
    }
}

fn charset(c: &CharacterSet) -> u32 {
    match c {
        CharacterSet::Ascii => 0,
        CharacterSet::Utf8 => 1,
    }
}

impl Flat {
    pub fn of(t: &Datatype) -> Flat {
        let mut flat = Flat::default();
        flat.add(t, 1);
        flat
    }

    /// The words of the rows.
    pub fn words(&self) -> Vec<u32> {
        self.rows.concat()
    }

    fn piece(&mut self, bytes: &[u8]) -> u32 {
        let place = self.pool.len() as u32;
        self.pool.extend_from_slice(bytes);
        place
    }

    fn push(&mut self, columns: &[(usize, u32)]) -> usize {
        let mut row = [0; 16];
        for &(c, v) in columns {
            row[c] = v;
        }
        self.rows.push(row);
        self.rows.len() - 1
    }

    pub fn add(&mut self, t: &Datatype, level: usize) {
        self.depth = self.depth.max(level);
        match t {
            Datatype::FixedPoint { size, byte_order, signed, bit_offset, bit_precision } => {
                self.push(&[(0, 1), (1, *size), (5, order(byte_order)), (6, *signed as u32), (7, *bit_offset as u32), (8, *bit_precision as u32)]);
            }
            Datatype::FloatingPoint { size, byte_order, bit_offset, bit_precision, exponent_location, exponent_size, mantissa_location, mantissa_size, exponent_bias } => {
                self.push(&[
                    (0, 2),
                    (1, *size),
                    (5, order(byte_order)),
                    (7, *bit_offset as u32),
                    (8, *bit_precision as u32),
                    (9, *exponent_location as u32),
                    (10, *exponent_size as u32),
                    (11, *mantissa_location as u32),
                    (12, *mantissa_size as u32),
                    (13, *exponent_bias),
                ]);
            }
            Datatype::Time { size, byte_order, bit_precision } => {
                self.push(&[(0, 3), (1, *size), (5, order(byte_order)), (8, *bit_precision as u32)]);
            }
            Datatype::String { size, padding: p, charset: c } => {
                self.push(&[(0, 4), (1, *size), (5, padding(p)), (6, charset(c))]);
            }
            Datatype::BitField { size, byte_order, bit_offset, bit_precision } => {
                self.push(&[(0, 5), (1, *size), (5, order(byte_order)), (7, *bit_offset as u32), (8, *bit_precision as u32)]);
            }
            Datatype::Opaque { size, tag } => {
                let place = self.piece(tag);
                self.push(&[(0, 6), (1, *size), (2, place), (3, tag.len() as u32)]);
            }
            Datatype::Compound { size, members } => {
                self.push(&[(0, 7), (1, *size), (4, members.len() as u32)]);
                for m in members {
                    let place = self.piece(m.name.as_bytes());
                    self.push(&[(0, 12), (1, m.byte_offset as u32), (2, place), (3, m.name.len() as u32)]);
                    self.add(&m.datatype, level + 1);
                }
            }
            Datatype::Reference { size, ref_type } => {
                let kind = match ref_type {
                    ReferenceType::Object => 0,
                    ReferenceType::DatasetRegion => 1,
                };
                self.push(&[(0, 8), (1, *size), (5, kind)]);
            }
            Datatype::Enumeration { size, base_type, members } => {
                self.push(&[(0, 9), (1, *size), (4, members.len() as u32)]);
                self.add(base_type, level + 1);
                for m in members {
                    let place = self.piece(m.name.as_bytes());
                    self.push(&[(0, 13), (2, place), (3, m.name.len() as u32), (4, m.value.len() as u32)]);
                }
                for m in members {
                    self.piece(&m.value);
                }
            }
            Datatype::VariableLength { is_string, padding: p, charset: c, base_type } => {
                self.push(&[(0, 10), (5, *is_string as u32), (6, p.as_ref().map_or(0, |p| padding(p) + 1)), (7, c.as_ref().map_or(0, |c| charset(c) + 1))]);
                self.add(base_type, level + 1);
            }
            Datatype::Array { base_type, dimensions } => {
                let bytes: Vec<u8> = dimensions.iter().flat_map(|d| d.to_le_bytes()).collect();
                let place = self.piece(&bytes);
                self.push(&[(0, 11), (2, place), (3, dimensions.len() as u32)]);
                self.add(base_type, level + 1);
            }
        }
    }
}
