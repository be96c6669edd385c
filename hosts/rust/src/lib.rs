//! Safe calls of the proved library of HDF5 datatype messages (HDF5 File Format Specification, IV.A.2.d).
//!
//! The script `tests/archive`, in the repository of the library, makes the archive that this crate links; the variable `DATATYPE_ABI`
//! names the folder of the archive where that is not target/staticlib of the repository.
//!
//! [`Type`] owns a type that was read from a message:
//!
//! ```
//! use datatype_message::Type;
//!
//! // a NUL-terminated string of 4 bytes
//! let (name, length) = Type::from_message(&[0x13, 0, 0, 0, 4, 0, 0, 0], 5)?;
//! assert_eq!(length, 8);
//! assert!(name.same(b"A\0xy", b"A\0zz")?);
//! # Ok::<(), datatype_message::Refusal>(())
//! ```
//!
//! The functions take a type as it is: a table of rows, 16 words a row, and a pool of bytes, both lent by the caller. [`read`] fills them
//! from a message; the other calls take them. [`ROW`], [`ROWS`] and [`POOL`] say how much of either can be used, and include/datatype.h of
//! the repository what each column of a row has. Each call looks at all that is lent: with 65,536 words and 65,536 bytes, comparing two
//! records of a small compound takes 6 microseconds; with both cut to what [`extent`] says, as those of a [`Type`] are, 0.1.
//!
//! ```
//! use datatype_message::{read, same, write, ROW, Refusal};
//!
//! // a compound of size 4: a byte at 0 and two bytes at 2
//! let message = [
//!     0x36, 2, 0, 0, 4, 0, 0, 0, //
//!     b'a', 0, 0, 0x10, 0, 0, 0, 1, 0, 0, 0, 0, 0, 8, 0, //
//!     b'b', 0, 2, 0x10, 0, 0, 0, 2, 0, 0, 0, 0, 0, 16, 0,
//! ];
//! let mut table = [0; 8 * ROW];
//! let mut pool = [0; 64];
//! assert_eq!(read(&message, 15, &mut table, &mut pool), Ok(38));
//!
//! // the byte at 1 belongs to no field
//! assert_eq!(same(&table, &pool, &[1, 0xFF, 5, 0], &[1, 0, 5, 0]), Ok(true));
//! assert_eq!(same(&table, &pool, &[1, 0xFF, 5, 0], &[2, 0, 5, 0]), Ok(false));
//! assert_eq!(same(&table, &pool, &[1, 0xFF, 5], &[1, 0, 5]), Err(Refusal::WrongLength));
//!
//! let mut out = [0; 64];
//! assert_eq!(write(&table, &pool, 3, &mut out), Ok(38));
//! assert_eq!(out[..38], message);
//! assert_eq!(write(&table, &pool, 1, &mut out), Err(Refusal::NoRoom { needed: 112 }));
//! ```
#![no_std]
#![warn(missing_docs)]

extern crate alloc;
#[cfg(feature = "std")]
extern crate std;

use alloc::{vec, vec::Vec};
use core::fmt;

/// Words in a row of a table.
pub const ROW: usize = 16;
/// The most rows of a type.
pub const ROWS: usize = 4096;
/// The most pool bytes of a type.
pub const POOL: usize = 65536;

/// Why a call gives no result, with the library's number.
#[derive(Debug, Clone, Copy, PartialEq, Eq)]
pub enum Refusal {
    /// 1: the table and pool do not set out exactly one type.
    BadTable,
    /// 2: level 33 is entered.
    TooDeep,
    /// 3: a further row is wanted.
    TooMany,
    /// 4: bytes are lacking, counted within the innermost message.
    Short {
        /// How far the message would have to reach.
        expected: u64,
        /// How many bytes there are.
        available: u64,
    },
    /// 5: a header is above the version limit.
    TooNew {
        /// Its version.
        version: u8,
    },
    /// 6: there is no such class.
    BadClass {
        /// The class.
        class: u8,
    },
    /// 7: the class has no such version.
    BadVersion {
        /// The class.
        class: u8,
        /// Its version.
        version: u8,
    },
    /// 8: there is no such string padding.
    BadPadding {
        /// The code.
        code: u8,
    },
    /// 9: there is no such character set.
    BadCharset {
        /// The code.
        code: u8,
    },
    /// 10: there is no such kind of reference.
    BadReferenceKind {
        /// The code.
        code: u8,
    },
    /// 11: a piece does not fit the pool.
    PoolFull,
    /// 12: a type of size 0.
    ZeroSize {
        /// Its class.
        class: u8,
    },
    /// 13: the edition is not 1, 2 or 3.
    NoSuchEdition,
    /// 14: the type cannot be stored in a message.
    Unstorable,
    /// 15: an array in edition 1.
    NotInEdition,
    /// 16: a member ends past its compound, or an array is too large.
    OutsideRecord,
    /// 17: the type holds a variable-length type or a region reference.
    HeapHeld,
    /// 18: a record does not have the type's size.
    WrongLength,
    /// 19: the references have no slots that could be listed.
    Unmapped,
    /// 20: a slot ends past the record.
    SlotOutside,
    /// 21: what is lent for the result is too short.
    NoRoom {
        /// How much the result needs.
        needed: u64,
    },
}

mod abi {
    extern "C" {
        pub fn datatype_read(data: *const u8, data_length: usize, limit: u32, table: *mut u32, table_length: usize, pool: *mut u8, pool_length: usize, first: *mut u64, second: *mut u64) -> u32;
        pub fn datatype_write(table: *const u32, table_length: usize, pool: *const u8, pool_length: usize, edition: u32, out: *mut u8, out_length: usize, first: *mut u64, second: *mut u64) -> u32;
        pub fn datatype_compare(
            table: *const u32,
            table_length: usize,
            pool: *const u8,
            pool_length: usize,
            a: *const u8,
            a_length: usize,
            b: *const u8,
            b_length: usize,
            first: *mut u64,
            second: *mut u64,
        ) -> u32;
        pub fn datatype_size(table: *const u32, table_length: usize, pool: *const u8, pool_length: usize, first: *mut u64, second: *mut u64) -> u32;
        pub fn datatype_element_size(table: *const u32, table_length: usize, pool: *const u8, pool_length: usize, first: *mut u64, second: *mut u64) -> u32;
        pub fn datatype_extent(table: *const u32, table_length: usize, pool: *const u8, pool_length: usize, first: *mut u64, second: *mut u64) -> u32;
        pub fn datatype_slots(table: *const u32, table_length: usize, pool: *const u8, pool_length: usize, out: *mut u64, out_length: usize, first: *mut u64, second: *mut u64) -> u32;
        pub fn datatype_duplicates(
            table: *const u32,
            table_length: usize,
            pool: *const u8,
            pool_length: usize,
            block: *const u8,
            block_length: usize,
            numbers: *mut u64,
            numbers_length: usize,
            sizes: *mut u64,
            sizes_length: usize,
            work: *mut u64,
            work_length: usize,
            first: *mut u64,
            second: *mut u64,
        ) -> u32;
        pub fn datatype_duplicates_words(table: *const u32, table_length: usize, pool: *const u8, pool_length: usize, records: u64, first: *mut u64, second: *mut u64) -> u32;
        pub fn datatype_join(
            table: *const u32,
            table_length: usize,
            pool: *const u8,
            pool_length: usize,
            a: *const u8,
            a_length: usize,
            b: *const u8,
            b_length: usize,
            out: *mut u8,
            out_length: usize,
            work: *mut u64,
            work_length: usize,
            first: *mut u64,
            second: *mut u64,
        ) -> u32;
        pub fn datatype_references(
            block: *const u8,
            block_length: usize,
            record_size: u64,
            slots: *const u64,
            slots_length: usize,
            places: *mut u64,
            places_length: usize,
            values: *mut u64,
            values_length: usize,
            first: *mut u64,
            second: *mut u64,
        ) -> u32;
        pub fn datatype_member_name(table: *const u32, table_length: usize, pool: *const u8, pool_length: usize, row: u64, first: *mut u64, second: *mut u64) -> u32;
        pub fn datatype_holds_object_address(table: *const u32, table_length: usize, pool: *const u8, pool_length: usize, first: *mut u64, second: *mut u64) -> u32;
        pub fn datatype_holds_file_address(table: *const u32, table_length: usize, pool: *const u8, pool_length: usize, first: *mut u64, second: *mut u64) -> u32;
        pub fn class_may_hold_object_address(byte: u8) -> u32;
    }
}

/// The answer that a number and two values stand for.
fn answer(number: u32, first: u64, second: u64) -> Result<(u64, u64), Refusal> {
    let code = first as u8;
    Err(match number {
        0 => return Ok((first, second)),
        1 => Refusal::BadTable,
        2 => Refusal::TooDeep,
        3 => Refusal::TooMany,
        4 => Refusal::Short { expected: first, available: second },
        5 => Refusal::TooNew { version: code },
        6 => Refusal::BadClass { class: code },
        7 => Refusal::BadVersion { class: code, version: second as u8 },
        8 => Refusal::BadPadding { code },
        9 => Refusal::BadCharset { code },
        10 => Refusal::BadReferenceKind { code },
        11 => Refusal::PoolFull,
        12 => Refusal::ZeroSize { class: code },
        13 => Refusal::NoSuchEdition,
        14 => Refusal::Unstorable,
        15 => Refusal::NotInEdition,
        16 => Refusal::OutsideRecord,
        17 => Refusal::HeapHeld,
        18 => Refusal::WrongLength,
        19 => Refusal::Unmapped,
        20 => Refusal::SlotOutside,
        21 => Refusal::NoRoom { needed: first },
        _ => unreachable!("the library has refusals 1 to 21"),
    })
}

/// A count, place or length that the library gives; the archive links where `usize` has 64 bits.
fn count(n: u64) -> usize {
    usize::try_from(n).expect("usize has 64 bits")
}

/// Calls with places for the two values.
fn ask_two(call: impl FnOnce(*mut u64, *mut u64) -> u32) -> Result<(u64, u64), Refusal> {
    let (mut first, mut second) = (0, 0);
    let number = call(&mut first, &mut second);
    answer(number, first, second)
}

/// The same, for a result of one value.
fn ask(call: impl FnOnce(*mut u64, *mut u64) -> u32) -> Result<u64, Refusal> {
    ask_two(call).map(|(first, _)| first)
}

impl Refusal {
    /// The number and the values, 0 where there is none.
    ///
    /// ```
    /// use datatype_message::Refusal;
    /// assert_eq!(Refusal::Short { expected: 8, available: 0 }.number_and_values(), (4, 8, 0));
    /// ```
    pub fn number_and_values(self) -> (u32, u64, u64) {
        match self {
            Refusal::BadTable => (1, 0, 0),
            Refusal::TooDeep => (2, 0, 0),
            Refusal::TooMany => (3, 0, 0),
            Refusal::Short { expected, available } => (4, expected, available),
            Refusal::TooNew { version } => (5, version.into(), 0),
            Refusal::BadClass { class } => (6, class.into(), 0),
            Refusal::BadVersion { class, version } => (7, class.into(), version.into()),
            Refusal::BadPadding { code } => (8, code.into(), 0),
            Refusal::BadCharset { code } => (9, code.into(), 0),
            Refusal::BadReferenceKind { code } => (10, code.into(), 0),
            Refusal::PoolFull => (11, 0, 0),
            Refusal::ZeroSize { class } => (12, class.into(), 0),
            Refusal::NoSuchEdition => (13, 0, 0),
            Refusal::Unstorable => (14, 0, 0),
            Refusal::NotInEdition => (15, 0, 0),
            Refusal::OutsideRecord => (16, 0, 0),
            Refusal::HeapHeld => (17, 0, 0),
            Refusal::WrongLength => (18, 0, 0),
            Refusal::Unmapped => (19, 0, 0),
            Refusal::SlotOutside => (20, 0, 0),
            Refusal::NoRoom { needed } => (21, needed, 0),
        }
    }
}

/// One plain sentence, with the values.
///
/// ```
/// use datatype_message::Refusal;
/// assert_eq!(Refusal::Short { expected: 8, available: 1 }.to_string(), "the message is cut off: 8 bytes are wanted and 1 are there");
/// ```
impl fmt::Display for Refusal {
    fn fmt(&self, f: &mut fmt::Formatter<'_>) -> fmt::Result {
        match self {
            Refusal::BadTable => f.write_str("the table and pool do not set out exactly one type"),
            Refusal::TooDeep => f.write_str("the type has more than 32 levels"),
            Refusal::TooMany => f.write_str("the type has more rows than the table holds"),
            Refusal::Short { expected, available } => write!(f, "the message is cut off: {expected} bytes are wanted and {available} are there"),
            Refusal::TooNew { version } => write!(f, "the message has version {version}, which is above the limit"),
            Refusal::BadClass { class } => write!(f, "there is no datatype class {class}"),
            Refusal::BadVersion { class, version } => write!(f, "datatype class {class} has no version {version}"),
            Refusal::BadPadding { code } => write!(f, "there is no string padding {code}"),
            Refusal::BadCharset { code } => write!(f, "there is no character set {code}"),
            Refusal::BadReferenceKind { code } => write!(f, "there is no kind of reference {code}"),
            Refusal::PoolFull => f.write_str("the names, tags, values and dimensions of the type do not fit the pool"),
            Refusal::ZeroSize { class } => write!(f, "a type of class {class} has size 0"),
            Refusal::NoSuchEdition => f.write_str("the edition is not 1, 2 or 3"),
            Refusal::Unstorable => f.write_str("the type cannot be stored in a message"),
            Refusal::NotInEdition => f.write_str("edition 1 has no arrays"),
            Refusal::OutsideRecord => f.write_str("a member ends past its compound, or an array has more than 4,294,967,295 bytes"),
            Refusal::HeapHeld => f.write_str("the type holds a variable-length type or a region reference, which records hold outside themselves"),
            Refusal::WrongLength => f.write_str("a record does not have the size of the type"),
            Refusal::Unmapped => f.write_str("the type holds references that have no slots in its records"),
            Refusal::SlotOutside => f.write_str("a slot ends past the record"),
            Refusal::NoRoom { needed } => write!(f, "what is lent for the result is too short: {needed} elements are needed"),
        }
    }
}

impl core::error::Error for Refusal {}

/// A type of its own, cut to the rows and pool bytes that it uses. Two are equal if they are the same type: the same rows and pool bytes.
#[derive(Debug, Clone, PartialEq, Eq)]
pub struct Type {
    table: Vec<u32>,
    pool: Vec<u8>,
}

impl Type {
    /// The type of a message, each of its headers held to the version limit (15 or more for none), and the number of bytes that the
    /// message takes, as [`read`] gives it.
    ///
    /// ```
    /// use datatype_message::{Refusal, Type};
    ///
    /// // a compound of size 4: a byte at 0 and two bytes at 2
    /// let message = [
    ///     0x36, 2, 0, 0, 4, 0, 0, 0, //
    ///     b'a', 0, 0, 0x10, 0, 0, 0, 1, 0, 0, 0, 0, 0, 8, 0, //
    ///     b'b', 0, 2, 0x10, 0, 0, 0, 2, 0, 0, 0, 0, 0, 16, 0,
    /// ];
    /// let (pair, length) = Type::from_message(&message, 5)?;
    /// assert_eq!((length, pair.size()), (38, 4));
    /// assert!(pair.same(&[1, 0xFF, 5, 0], &[1, 0, 5, 0])?);
    /// assert_eq!(pair.message(3)?, message);
    /// assert_eq!(pair.message(1)?.len(), 112);
    /// assert_eq!((pair.table().len(), pair.pool()), (5 * 16, &b"ab"[..]));
    /// assert_eq!(pair.member_name(3), b"b");
    ///
    /// let (again, _) = Type::from_message(&pair.message(1)?, 5)?;
    /// assert_eq!(again, pair);
    /// assert_eq!(Type::from_message(&[], 5), Err(Refusal::Short { expected: 8, available: 0 }));
    /// assert_eq!(Type::from_message(&message, 2), Err(Refusal::TooNew { version: 3 }));
    /// # Ok::<(), Refusal>(())
    /// ```
    pub fn from_message(message: &[u8], limit: u32) -> Result<(Type, usize), Refusal> {
        // Every row takes a byte of the message or more, and a byte of a name becomes three at most.
        let mut table = vec![0; ROW * message.len().saturating_add(1).min(ROWS)];
        let mut pool = vec![0; message.len().saturating_mul(3).min(POOL)];
        let length = read(message, limit, &mut table, &mut pool)?;
        let (rows, bytes) = extent(&table, &pool)?;
        table.truncate(ROW * rows);
        pool.truncate(bytes);
        table.shrink_to_fit();
        pool.shrink_to_fit();
        Ok((Type { table, pool }, length))
    }

    /// The type that a table and pool set out, copied.
    ///
    /// ```
    /// use datatype_message::{Refusal, Type};
    /// let (word, _) = Type::from_message(&[0x10, 0, 0, 0, 2, 0, 0, 0, 0, 0, 16, 0], 5)?;
    /// let mut table = [0; 64];
    /// table[..16].copy_from_slice(word.table());
    /// assert_eq!(Type::from_table(&table, &[0; 8])?, word);
    /// assert_eq!(Type::from_table(&table, &[1]), Err(Refusal::BadTable));
    /// # Ok::<(), Refusal>(())
    /// ```
    pub fn from_table(table: &[u32], pool: &[u8]) -> Result<Type, Refusal> {
        let (rows, bytes) = extent(table, pool)?;
        Ok(Type { table: table[..ROW * rows].to_vec(), pool: pool[..bytes].to_vec() })
    }

    /// Its rows, 16 words a row.
    pub fn table(&self) -> &[u32] {
        &self.table
    }

    /// Its names, tags, values and dimensions.
    pub fn pool(&self) -> &[u8] {
        &self.pool
    }

    /// Its message in edition 1, 2 or 3.
    pub fn message(&self, edition: u32) -> Result<Vec<u8>, Refusal> {
        filled(|out| write(&self.table, &self.pool, edition, out))
    }

    /// Whether two records are the same: see [`same`].
    pub fn same(&self, a: &[u8], b: &[u8]) -> Result<bool, Refusal> {
        same(&self.table, &self.pool, a, b)
    }

    /// Which records of a block are the same, in a workspace of its own: see [`duplicates`]. With feature `std`, from which it takes the random
    /// word that keeps those who make the records from making the call slow.
    ///
    /// ```
    /// use datatype_message::{Refusal, Type};
    ///
    /// // NUL-terminated strings of 4 bytes
    /// let (name, _) = Type::from_message(&[0x13, 0, 0, 0, 4, 0, 0, 0], 5)?;
    /// let found = name.duplicates(b"A\0xyB\0\0\0A\0zzA\0\0\0")?;
    /// assert_eq!(found.numbers, [0, 1, 0, 0]);
    /// assert_eq!(found.sizes, [3, 1]);
    /// assert_eq!(name.duplicates(b"A\0xyB"), Err(Refusal::WrongLength));
    /// # Ok::<(), Refusal>(())
    /// ```
    #[cfg(feature = "std")]
    pub fn duplicates(&self, block: &[u8]) -> Result<Duplicates, Refusal> {
        let records = match duplicates(&self.table, &self.pool, block, &mut [], &mut [], &mut []) {
            Err(Refusal::NoRoom { needed }) => needed,
            other => return other.map(|_| Duplicates { numbers: Vec::new(), sizes: Vec::new() }),
        };
        let mut work = self.workspace(records, block.len())?;
        let (mut numbers, mut sizes) = (vec![0; count(records)], vec![0; count(records)]);
        let (_, distinct) = duplicates(&self.table, &self.pool, block, &mut numbers, &mut sizes, &mut work)?;
        sizes.truncate(distinct);
        Ok(Duplicates { numbers, sizes })
    }

    /// The block of two made one, and how many records it has, in a workspace of its own: see [`join`]. With feature `std`, as
    /// [`Type::duplicates`].
    ///
    /// ```
    /// use datatype_message::{Refusal, Type};
    ///
    /// // NUL-terminated strings of 4 bytes
    /// let (name, _) = Type::from_message(&[0x13, 0, 0, 0, 4, 0, 0, 0], 5)?;
    /// assert_eq!(name.join(b"A\0xyB\0\0\0A\0zz", b"B\0yyC\0\0\0C\0xx")?, (b"A\0xyB\0\0\0C\0\0\0".to_vec(), 3));
    /// assert_eq!(name.join(b"A\0xy", b"B"), Err(Refusal::WrongLength));
    /// # Ok::<(), Refusal>(())
    /// ```
    #[cfg(feature = "std")]
    pub fn join(&self, a: &[u8], b: &[u8]) -> Result<(Vec<u8>, usize), Refusal> {
        let both = a.len() + b.len();
        let mut work = self.workspace(both as u64 / u64::from(self.size().max(1)), both)?;
        let mut out = vec![0; both];
        let (bytes, records) = join(&self.table, &self.pool, a, b, &mut out, &mut work)?;
        out.truncate(bytes);
        Ok((out, records))
    }

    /// A workspace with a random first word, for so many records in so many bytes.
    #[cfg(feature = "std")]
    fn workspace(&self, records: u64, bytes: usize) -> Result<Vec<u64>, Refusal> {
        use core::hash::{BuildHasher, Hasher};
        // More than this is told only where fields share bytes, and then it may be very much more: a shorter workspace does.
        let most = bytes.saturating_mul(5).saturating_add(2);
        let mut work = vec![0; duplicates_words(&self.table, &self.pool, records)?.min(most)];
        if let Some(seed) = work.first_mut() {
            *seed = std::hash::RandomState::new().build_hasher().finish();
        }
        Ok(work)
    }

    /// The size of a record in bytes: see [`type_size`].
    pub fn size(&self) -> u32 {
        type_size(&self.table, &self.pool).expect("a type's table is good")
    }

    /// The same, refused where it is 0.
    pub fn element_size(&self) -> Result<u32, Refusal> {
        element_size(&self.table, &self.pool)
    }

    /// The offsets of the 8-byte object references in a record: see [`embedded_reference_slots`].
    ///
    /// ```
    /// use datatype_message::Type;
    /// // an array of two object references
    /// let (two, _) = Type::from_message(&[0x3A, 0, 0, 0, 0, 0, 0, 0, 1, 2, 0, 0, 0, 0x17, 0, 0, 0, 8, 0, 0, 0], 5)?;
    /// assert_eq!(two.slots()?, [0, 8]);
    /// assert!(two.holds_object_address() && two.holds_file_address());
    /// # Ok::<(), datatype_message::Refusal>(())
    /// ```
    pub fn slots(&self) -> Result<Vec<u64>, Refusal> {
        filled(|out| embedded_reference_slots(&self.table, &self.pool, out))
    }

    /// The name of the member at a row, empty where the row is no member's: see [`member_name`].
    pub fn member_name(&self, row: u64) -> &[u8] {
        member_name(&self.table, &self.pool, row)
    }

    /// Whether it holds a reference at any level.
    pub fn holds_object_address(&self) -> bool {
        datatype_holds_object_address(&self.table, &self.pool).expect("a type's table is good")
    }

    /// Whether it holds a reference or a variable-length type at any level.
    pub fn holds_file_address(&self) -> bool {
        datatype_holds_file_address(&self.table, &self.pool).expect("a type's table is good")
    }
}

/// Which records of a block are the same.
#[derive(Debug, Clone, PartialEq, Eq)]
pub struct Duplicates {
    /// For each record the number, from 0, of the earliest record that is the same: its own where there is none before.
    pub numbers: Vec<u64>,
    /// For each record that is its own earliest, in rising order of its number, how many records name it.
    pub sizes: Vec<u64>,
}

/// The result of a call that writes to a lent slice, which is asked first how much it needs.
fn filled<T: Clone + Default>(call: impl Fn(&mut [T]) -> Result<usize, Refusal>) -> Result<Vec<T>, Refusal> {
    match call(&mut []) {
        Ok(_) => Ok(Vec::new()),
        Err(Refusal::NoRoom { needed }) => {
            let mut out = vec![T::default(); count(needed)];
            call(&mut out)?;
            Ok(out)
        }
        Err(e) => Err(e),
    }
}

/// Reads a message, each of its headers held to the version limit (15 or more for none), and gives the number of bytes that it takes,
/// which is greater than `data.len()` where the padding of a tag at the end is lacking. What is not used of table and pool is zero; all of
/// both where the message is refused.
///
/// ```
/// use datatype_message::{read, Refusal};
/// let (mut table, mut pool) = ([0; 16], [0; 8]);
/// assert_eq!(read(&[], 15, &mut table, &mut pool), Err(Refusal::Short { expected: 8, available: 0 }));
/// ```
pub fn read(data: &[u8], limit: u32, table: &mut [u32], pool: &mut [u8]) -> Result<usize, Refusal> {
    // SAFETY: pointers and lengths are those of the slices, and the slices that are written are borrowed mutably.
    ask(|first, second| unsafe { abi::datatype_read(data.as_ptr(), data.len(), limit, table.as_mut_ptr(), table.len(), pool.as_mut_ptr(), pool.len(), first, second) }).map(count)
}

/// Writes the message of the type in edition 1, 2 or 3 to the start of `out`, and gives its length. A refusal leaves `out` as it was.
pub fn write(table: &[u32], pool: &[u8], edition: u32, out: &mut [u8]) -> Result<usize, Refusal> {
    // SAFETY: as for `read`.
    ask(|first, second| unsafe { abi::datatype_write(table.as_ptr(), table.len(), pool.as_ptr(), pool.len(), edition, out.as_mut_ptr(), out.len(), first, second) }).map(count)
}

/// Whether two records agree on each byte that a field owns. Behind the first NUL of a NUL-terminated string a byte counts only if another
/// field counts it.
///
/// ```
/// use datatype_message::{read, same, ROW};
///
/// // a NUL-terminated string of 4 bytes
/// let (mut table, mut pool) = ([0; ROW], []);
/// assert_eq!(read(&[0x13, 0, 0, 0, 4, 0, 0, 0], 15, &mut table, &mut pool), Ok(8));
/// assert_eq!(same(&table, &pool, b"A\0xy", b"A\0zz"), Ok(true));
/// assert_eq!(same(&table, &pool, b"A\0xy", b"AB\0y"), Ok(false));
/// ```
pub fn same(table: &[u32], pool: &[u8], a: &[u8], b: &[u8]) -> Result<bool, Refusal> {
    // SAFETY: as for `read`.
    ask(|first, second| unsafe { abi::datatype_compare(table.as_ptr(), table.len(), pool.as_ptr(), pool.len(), a.as_ptr(), a.len(), b.as_ptr(), b.len(), first, second) }).map(|n| n == 0)
}

/// Which records of a block are the same, as [`same`] says it. Writes for each record the number, from 0, of the earliest record that is the
/// same to the start of `numbers`, and for each record that is its own earliest, in rising order of its number, how many records name it to
/// the start of `sizes`; gives the number of records and how many of them are distinct.
///
/// `NoRoom` tells the number of records where `numbers` is shorter, then that of distinct records where `sizes` is. A refusal leaves both as
/// they were. The workspace does not change the answer and is all zero afterwards in every case: with as many words as [`duplicates_words`]
/// says, or more, the time grows little faster than the block; with a shorter one, or none, each record is compared with those before it, so
/// that the time may grow with the square of the records. Its first word as lent seeds the hash: fill it at random where the records come
/// from somebody who is not trusted.
///
/// ```
/// use datatype_message::{duplicates, duplicates_words, read, Refusal, ROW};
///
/// // a compound of size 4: a byte at 0 and two bytes at 2
/// let message = [
///     0x36, 2, 0, 0, 4, 0, 0, 0, //
///     b'a', 0, 0, 0x10, 0, 0, 0, 1, 0, 0, 0, 0, 0, 8, 0, //
///     b'b', 0, 2, 0x10, 0, 0, 0, 2, 0, 0, 0, 0, 0, 16, 0,
/// ];
/// let (mut table, mut pool) = ([0; 5 * ROW], [0; 2]);
/// assert_eq!(read(&message, 15, &mut table, &mut pool), Ok(38));
///
/// // the byte at 1 belongs to no field
/// let block = [1, 0xFF, 5, 0, 2, 0, 5, 0, 1, 0, 5, 0];
/// let mut work = vec![0; duplicates_words(&table, &pool, 3)?];
/// let (mut numbers, mut sizes) = ([9; 4], [9; 4]);
/// assert_eq!(duplicates(&table, &pool, &block, &mut numbers[..2], &mut sizes, &mut work), Err(Refusal::NoRoom { needed: 3 }));
/// assert_eq!(duplicates(&table, &pool, &block, &mut numbers, &mut sizes[..1], &mut []), Err(Refusal::NoRoom { needed: 2 }));
/// assert_eq!(duplicates(&table, &pool, &block, &mut numbers, &mut sizes, &mut work), Ok((3, 2)));
/// assert_eq!((numbers, sizes), ([0, 1, 0, 9], [2, 1, 9, 9]));
/// # Ok::<(), Refusal>(())
/// ```
pub fn duplicates(table: &[u32], pool: &[u8], block: &[u8], numbers: &mut [u64], sizes: &mut [u64], work: &mut [u64]) -> Result<(usize, usize), Refusal> {
    // SAFETY: as for `read`.
    ask_two(|first, second| unsafe {
        abi::datatype_duplicates(
            table.as_ptr(),
            table.len(),
            pool.as_ptr(),
            pool.len(),
            block.as_ptr(),
            block.len(),
            numbers.as_mut_ptr(),
            numbers.len(),
            sizes.as_mut_ptr(),
            sizes.len(),
            work.as_mut_ptr(),
            work.len(),
            first,
            second,
        )
    })
    .map(|(records, distinct)| (count(records), count(distinct)))
}

/// How many words of workspace make [`duplicates`] fast on a block of so many records, and [`join`] on two of so many together.
pub fn duplicates_words(table: &[u32], pool: &[u8], records: u64) -> Result<usize, Refusal> {
    // SAFETY: as for `read`.
    ask(|first, second| unsafe { abi::datatype_duplicates_words(table.as_ptr(), table.len(), pool.as_ptr(), pool.len(), records, first, second) }).map(count)
}

/// Two blocks of records of one type made one. Writes to the start of `out`, in order and byte for byte, the records of `a` that are the same
/// as no earlier one of `a`, then the records of `b` that are the same as none of `a` and no earlier one of `b`, as [`same`] says it; gives
/// the number of bytes and of records written.
///
/// `NoRoom` tells the number of bytes where `out` is shorter; room for both blocks is always enough. A refusal leaves `out` as it was. The
/// workspace is as that of [`duplicates`], with as many words as [`duplicates_words`] says for the records of both blocks together.
///
/// ```
/// use datatype_message::{duplicates_words, join, read, Refusal, ROW};
///
/// // a compound of size 4: a byte at 0 and two bytes at 2
/// let message = [
///     0x36, 2, 0, 0, 4, 0, 0, 0, //
///     b'a', 0, 0, 0x10, 0, 0, 0, 1, 0, 0, 0, 0, 0, 8, 0, //
///     b'b', 0, 2, 0x10, 0, 0, 0, 2, 0, 0, 0, 0, 0, 16, 0,
/// ];
/// let (mut table, mut pool) = ([0; 5 * ROW], [0; 2]);
/// assert_eq!(read(&message, 15, &mut table, &mut pool), Ok(38));
///
/// // the byte at 1 belongs to no field
/// let (a, b) = ([1, 0xFF, 5, 0, 1, 0, 5, 0, 2, 0, 5, 0], [2, 0x99, 5, 0, 3, 0, 0, 0]);
/// let mut work = vec![0; duplicates_words(&table, &pool, 5)?];
/// let mut out = [9; 20];
/// assert_eq!(join(&table, &pool, &a, &b, &mut out[..11], &mut work), Err(Refusal::NoRoom { needed: 12 }));
/// assert_eq!(join(&table, &pool, &a, &b, &mut out, &mut work), Ok((12, 3)));
/// assert_eq!(out, [1, 0xFF, 5, 0, 2, 0, 5, 0, 3, 0, 0, 0, 9, 9, 9, 9, 9, 9, 9, 9]);
/// # Ok::<(), Refusal>(())
/// ```
pub fn join(table: &[u32], pool: &[u8], a: &[u8], b: &[u8], out: &mut [u8], work: &mut [u64]) -> Result<(usize, usize), Refusal> {
    // SAFETY: as for `read`.
    ask_two(|first, second| unsafe {
        abi::datatype_join(
            table.as_ptr(),
            table.len(),
            pool.as_ptr(),
            pool.len(),
            a.as_ptr(),
            a.len(),
            b.as_ptr(),
            b.len(),
            out.as_mut_ptr(),
            out.len(),
            work.as_mut_ptr(),
            work.len(),
            first,
            second,
        )
    })
    .map(|(bytes, records)| (count(bytes), count(records)))
}

/// The size of a record in bytes: 16 for a variable-length type, at most 4,294,967,295 for an array.
pub fn type_size(table: &[u32], pool: &[u8]) -> Result<u32, Refusal> {
    // SAFETY: as for `read`.
    ask(|first, second| unsafe { abi::datatype_size(table.as_ptr(), table.len(), pool.as_ptr(), pool.len(), first, second) }).map(|n| n as u32)
}

/// The same, refused where it is 0.
pub fn element_size(table: &[u32], pool: &[u8]) -> Result<u32, Refusal> {
    // SAFETY: as for `read`.
    ask(|first, second| unsafe { abi::datatype_element_size(table.as_ptr(), table.len(), pool.as_ptr(), pool.len(), first, second) }).map(|n| n as u32)
}

/// How many rows and pool bytes the type uses: a table and pool cut to them set out the same type.
///
/// ```
/// use datatype_message::{extent, read, Refusal, ROW};
/// let message = [0x36, 1, 0, 0, 1, 0, 0, 0, b'a', b'b', 0, 0, 0x10, 0, 0, 0, 1, 0, 0, 0, 0, 0, 8, 0];
/// let (mut table, mut pool) = ([0; 8 * ROW], [0; 64]);
/// assert_eq!(read(&message, 15, &mut table, &mut pool), Ok(24));
/// assert_eq!(extent(&table, &pool), Ok((3, 2)));
/// assert_eq!(extent(&table[..3 * ROW], &pool[..2]), Ok((3, 2)));
/// assert_eq!(extent(&table[..2 * ROW], &pool[..2]), Err(Refusal::BadTable));
/// ```
pub fn extent(table: &[u32], pool: &[u8]) -> Result<(usize, usize), Refusal> {
    // SAFETY: as for `read`.
    ask_two(|first, second| unsafe { abi::datatype_extent(table.as_ptr(), table.len(), pool.as_ptr(), pool.len(), first, second) }).map(|(rows, bytes)| (count(rows), count(bytes)))
}

/// Writes the offsets of the 8-byte object references in a record to the start of `out`, and gives how many there are.
///
/// ```
/// use datatype_message::{embedded_reference_slots, read, stored_object_references};
/// // an array of two object references
/// let message = [0x3A, 0, 0, 0, 0, 0, 0, 0, 1, 2, 0, 0, 0, 0x17, 0, 0, 0, 8, 0, 0, 0];
/// let (mut table, mut pool) = ([0; 32], [0; 4]);
/// assert_eq!(read(&message, 15, &mut table, &mut pool), Ok(21));
/// let mut slots = [9; 3];
/// assert_eq!(embedded_reference_slots(&table, &pool, &mut slots), Ok(2));
/// assert_eq!(slots, [0, 8, 9]);
///
/// let block: Vec<u8> = (0..32).collect();
/// let (mut places, mut values) = ([0; 4], [0; 4]);
/// assert_eq!(stored_object_references(&block, 16, &slots[..2], &mut places, &mut values), Ok(4));
/// assert_eq!(places, [0, 8, 16, 24]);
/// assert_eq!(values[1], 0x0F0E0D0C0B0A0908);
/// ```
pub fn embedded_reference_slots(table: &[u32], pool: &[u8], out: &mut [u64]) -> Result<usize, Refusal> {
    // SAFETY: as for `read`.
    ask(|first, second| unsafe { abi::datatype_slots(table.as_ptr(), table.len(), pool.as_ptr(), pool.len(), out.as_mut_ptr(), out.len(), first, second) }).map(count)
}

/// Writes the places in the block and the values of the references that each whole record has at the slots, and gives how many there are.
pub fn stored_object_references(block: &[u8], record_size: u64, slots: &[u64], places: &mut [u64], values: &mut [u64]) -> Result<usize, Refusal> {
    // SAFETY: as for `read`.
    ask(|first, second| unsafe {
        abi::datatype_references(
            block.as_ptr(),
            block.len(),
            record_size,
            slots.as_ptr(),
            slots.len(),
            places.as_mut_ptr(),
            places.len(),
            values.as_mut_ptr(),
            values.len(),
            first,
            second,
        )
    })
    .map(count)
}

/// The name of the member at a row: a part of the pool; the empty part at the pool's start where the row is no member's or the table is bad.
///
/// ```
/// use datatype_message::{member_name, read};
/// let message = [0x36, 1, 0, 0, 1, 0, 0, 0, b'a', b'b', 0, 0, 0x10, 0, 0, 0, 1, 0, 0, 0, 0, 0, 8, 0];
/// let (mut table, mut pool) = ([0; 48], [0; 8]);
/// assert_eq!(read(&message, 15, &mut table, &mut pool), Ok(24));
/// assert_eq!(member_name(&table, &pool, 1), b"ab");
/// assert_eq!(member_name(&table, &pool, 0), b"");
/// ```
pub fn member_name<'a>(table: &[u32], pool: &'a [u8], row: u64) -> &'a [u8] {
    let (mut place, mut length) = (0, 0);
    // SAFETY: as for `read`.
    unsafe { abi::datatype_member_name(table.as_ptr(), table.len(), pool.as_ptr(), pool.len(), row, &mut place, &mut length) };
    let place = count(place);
    &pool[place..place + count(length)]
}

/// Whether the type holds a reference at any level.
pub fn datatype_holds_object_address(table: &[u32], pool: &[u8]) -> Result<bool, Refusal> {
    // SAFETY: as for `read`.
    ask(|first, second| unsafe { abi::datatype_holds_object_address(table.as_ptr(), table.len(), pool.as_ptr(), pool.len(), first, second) }).map(|n| n == 1)
}

/// Whether the type holds a reference or a variable-length type at any level.
pub fn datatype_holds_file_address(table: &[u32], pool: &[u8]) -> Result<bool, Refusal> {
    // SAFETY: as for `read`.
    ask(|first, second| unsafe { abi::datatype_holds_file_address(table.as_ptr(), table.len(), pool.as_ptr(), pool.len(), first, second) }).map(|n| n == 1)
}

/// Whether a message with this first byte may hold an object address. Class 11 is not named, though it can hold a reference.
pub fn class_may_hold_object_address(byte: u8) -> bool {
    // SAFETY: the call takes a number.
    unsafe { abi::class_may_hold_object_address(byte) == 1 }
}

#[cfg(test)]
mod tests {
    extern crate std;

    use super::*;
    use std::vec::Vec;

    /// Random numbers below n (xorshift).
    fn below(state: &mut u64, n: usize) -> usize {
        *state ^= *state << 13;
        *state ^= *state >> 7;
        *state ^= *state << 17;
        (*state >> 20) as usize % n
    }

    /// The type of a message by way of as much table and pool as any type can use.
    fn by_full_room(message: &[u8]) -> Result<(Type, usize), Refusal> {
        let (mut table, mut pool) = (vec![0; ROW * ROWS], vec![0; POOL]);
        let length = read(message, 5, &mut table, &mut pool)?;
        Ok((Type::from_table(&table, &pool)?, length))
    }

    fn enumeration(count: u16, names: &[u8]) -> Vec<u8> {
        let mut message = vec![0x38, count as u8, (count >> 8) as u8, 0, 1, 0, 0, 0, 0x10, 0, 0, 0, 1, 0, 0, 0, 0, 0, 8, 0];
        message.extend_from_slice(names);
        message.resize(message.len() + usize::from(count), 7);
        message
    }

    #[test]
    fn the_room_of_from_message_is_enough() {
        let compound = [0x36, 2, 0, 0, 4, 0, 0, 0, b'a', 0xFF, 0, 0, 0x10, 0, 0, 0, 1, 0, 0, 0, 0, 0, 8, 0, 0xC3, 0x28, 0, 2, 0x10, 0, 0, 0, 2, 0, 0, 0, 0, 0, 16, 0];
        let array = [0x3A, 0, 0, 0, 0, 0, 0, 0, 1, 2, 0, 0, 0, 0x15, 3, 0, 0, 5, 0, 0, 0, b'a', b'b', b'c'];
        let mut samples = vec![compound.to_vec(), array.to_vec(), enumeration(2, b"no\0yes\0")];
        samples.push(enumeration(4094, &[0; 4094]));
        samples.push(enumeration(4095, &[0; 4095]));
        samples.push(enumeration(3, &[[0xFF; 99].as_slice(), &[0, 0, 0]].concat()));
        samples.push(enumeration(1, &[[0xFF; 22000].as_slice(), &[0]].concat()));
        for sample in &samples {
            assert_eq!(Type::from_message(sample, 5), by_full_room(sample));
        }
        let mut state = 1;
        for _ in 0..4000 {
            let mut message = samples[below(&mut state, 3)].clone();
            for _ in 0..below(&mut state, 4) {
                let at = below(&mut state, message.len());
                message[at] = below(&mut state, 256) as u8;
            }
            message.truncate(message.len() + 1 - below(&mut state, message.len() / 2));
            assert_eq!(Type::from_message(&message, 5), by_full_room(&message), "{message:?}");
        }
    }

    /// Types whose records have gaps, names with leftovers, bytes of two fields, and no fields: messages.
    fn recorded() -> Vec<Vec<u8>> {
        let word = [0x10, 0, 0, 0, 2, 0, 0, 0, 0, 0, 16, 0];
        let name = [0x13, 0, 0, 0, 4, 0, 0, 0];
        let gaps = [[0x36, 2, 0, 0, 6, 0, 0, 0, b'a', 0, 0].as_slice(), &word, &[b'b', 0, 3], &word].concat();
        let shared = [[0x36, 2, 0, 0, 6, 0, 0, 0, b'a', 0, 0].as_slice(), &name, &[b'b', 0, 2], &name].concat();
        let names = [[0x3A, 0, 0, 0, 0, 0, 0, 0, 1, 3, 0, 0, 0].as_slice(), &name].concat();
        vec![gaps, shared, names, name.to_vec(), word.to_vec(), vec![0x36, 0, 0, 0, 3, 0, 0, 0]]
    }

    /// The answer by comparing each record with those before it.
    fn by_pairs(of: &Type, block: &[u8]) -> Duplicates {
        let records: Vec<&[u8]> = block.chunks_exact(of.size() as usize).collect();
        let numbers: Vec<u64> = records.iter().map(|k| records.iter().position(|j| of.same(j, k).unwrap()).unwrap() as u64).collect();
        let firsts = (0..records.len() as u64).filter(|k| numbers[*k as usize] == *k);
        let sizes = firsts.map(|f| numbers.iter().filter(|n| **n == f).count() as u64).collect();
        Duplicates { numbers, sizes }
    }

    #[test]
    fn duplicates_are_those_of_same() {
        let mut state = 1;
        for message in recorded() {
            let of = Type::from_message(&message, 5).unwrap().0;
            for _ in 0..300 {
                let records = below(&mut state, 20);
                let block: Vec<u8> = (0..records * of.size() as usize).map(|_| below(&mut state, 2) as u8).collect();
                let expected = by_pairs(&of, &block);
                let told = duplicates_words(of.table(), of.pool(), records as u64).unwrap();
                for length in [0, 1, told / 2, told.saturating_sub(1), told, told + 5] {
                    let mut work: Vec<u64> = (0..length).map(|_| below(&mut state, 1 << 40) as u64).collect();
                    let (mut numbers, mut sizes) = (vec![77; records + 1], vec![77; records + 1]);
                    let found = duplicates(of.table(), of.pool(), &block, &mut numbers, &mut sizes, &mut work);
                    assert_eq!(found, Ok((records, expected.sizes.len())));
                    assert_eq!((&numbers[..records], numbers[records]), (&expected.numbers[..], 77));
                    assert_eq!(sizes[..expected.sizes.len()], expected.sizes);
                    assert!(sizes[expected.sizes.len()..].iter().all(|n| *n == 77));
                    assert!(work.iter().all(|w| *w == 0));
                }
                #[cfg(feature = "std")]
                assert_eq!(of.duplicates(&block), Ok(expected));
            }
        }
    }

    #[test]
    fn refused_duplicates_leave_the_lists_as_they_were() {
        let gaps = Type::from_message(&recorded()[0], 5).unwrap().0;
        let block = [1, 0, 9, 2, 0, 9, 1, 0, 8, 2, 0, 8, 3, 0, 7, 2, 0, 7];
        let refused = |length: usize, room: usize, places: usize| {
            let (mut numbers, mut sizes, mut work) = ([77; 3], [77; 3], [77; 40]);
            let answer = duplicates(gaps.table(), gaps.pool(), &block[..length], &mut numbers[..room], &mut sizes[..places], &mut work);
            assert_eq!((numbers, sizes, work), ([77; 3], [77; 3], [0; 40]));
            answer
        };
        assert_eq!(refused(17, 0, 0), Err(Refusal::WrongLength));
        assert_eq!(refused(18, 2, 0), Err(Refusal::NoRoom { needed: 3 }));
        assert_eq!(refused(18, 3, 1), Err(Refusal::NoRoom { needed: 2 }));
        assert_eq!(refused(0, 0, 0), Ok((0, 0)));
        let region = Type::from_message(&[0x17, 1, 0, 0, 12, 0, 0, 0], 5).unwrap().0;
        assert_eq!(duplicates(region.table(), region.pool(), &[], &mut [], &mut [], &mut []), Err(Refusal::HeapHeld));
        assert_eq!(duplicates_words(region.table(), region.pool(), 1), Err(Refusal::HeapHeld));
        assert_eq!(duplicates_words(&[], &[], 1), Err(Refusal::BadTable));
    }

    /// The joined block by comparing each record with all before it.
    fn joined_by_pairs(of: &Type, a: &[u8], b: &[u8]) -> Vec<u8> {
        let both = [a, b].concat();
        let records: Vec<&[u8]> = both.chunks_exact(of.size() as usize).collect();
        let kept = (0..records.len()).filter(|k| !records[..*k].iter().any(|j| of.same(j, records[*k]).unwrap()));
        kept.flat_map(|k| records[k].iter().copied()).collect()
    }

    #[test]
    fn joined_blocks_are_those_of_same() {
        let mut state = 1;
        for message in recorded() {
            let of = Type::from_message(&message, 5).unwrap().0;
            let size = of.size() as usize;
            for _ in 0..300 {
                let [a, b] = [(); 2].map(|()| (0..below(&mut state, 12) * size).map(|_| below(&mut state, 2) as u8).collect::<Vec<u8>>());
                let expected = joined_by_pairs(&of, &a, &b);
                let n = expected.len();
                let told = duplicates_words(of.table(), of.pool(), ((a.len() + b.len()) / size) as u64).unwrap();
                for length in [0, 1, told / 2, told.saturating_sub(1), told, told + 5] {
                    let mut work: Vec<u64> = (0..length).map(|_| below(&mut state, 1 << 40) as u64).collect();
                    let mut out = vec![77; n + 3];
                    assert_eq!(join(of.table(), of.pool(), &a, &b, &mut out, &mut work), Ok((n, n / size)));
                    assert_eq!((&out[..n], &out[n..]), (&expected[..], &[77; 3][..]));
                    assert!(work.iter().all(|w| *w == 0));
                }
                #[cfg(feature = "std")]
                assert_eq!(of.join(&a, &b), Ok((expected, n / size)));
            }
        }
    }

    /// A compound of size 4, a byte at 0 and two bytes at 2, and two blocks of three records, each with a byte behind them.
    fn pair() -> (Type, [u8; 13], [u8; 13]) {
        let message = [0x36, 2, 0, 0, 4, 0, 0, 0, b'a', 0, 0, 0x10, 0, 0, 0, 1, 0, 0, 0, 0, 0, 8, 0, b'b', 0, 2, 0x10, 0, 0, 0, 2, 0, 0, 0, 0, 0, 16, 0];
        (Type::from_message(&message, 5).unwrap().0, [1, 0xFF, 5, 0, 1, 0, 5, 0, 2, 0, 5, 0, 9], [2, 0x99, 5, 0, 3, 0, 0, 0, 3, 1, 0, 0, 9])
    }

    #[test]
    fn a_join_keeps_the_first_of_each() {
        let (of, a, b) = pair();
        let joined = |first: &[u8], second: &[u8], expected: &[u8]| {
            let n = expected.len();
            for (room, words) in [(n, 40), (24, 40), (n, 0), (24, 0)] {
                let (mut out, mut work) = ([77; 24], [77; 40]);
                assert_eq!(join(of.table(), of.pool(), first, second, &mut out[..room], &mut work[..words]), Ok((n, n / 4)));
                assert_eq!((&out[..n], &out[n..]), (expected, &[77; 24][n..]));
                assert_eq!((&work[..words], &work[words..]), (&[0; 40][..words], &[77; 40][words..]));
            }
            #[cfg(feature = "std")]
            assert_eq!(of.join(first, second), Ok((expected.to_vec(), n / 4)));
        };
        joined(&a[..12], &b[..12], &[1, 0xFF, 5, 0, 2, 0, 5, 0, 3, 0, 0, 0]);
        joined(&b[..12], &a[..12], &[2, 0x99, 5, 0, 3, 0, 0, 0, 1, 0xFF, 5, 0]);
        joined(&a[..12], &[], &[1, 0xFF, 5, 0, 2, 0, 5, 0]);
        joined(&[], &b[..12], &[2, 0x99, 5, 0, 3, 0, 0, 0]);
        joined(&a[..12], &a[..12], &[1, 0xFF, 5, 0, 2, 0, 5, 0]);
        joined(&[], &[], &[]);
    }

    #[test]
    fn refused_joins_leave_out_as_it_was() {
        let (of, a, b) = pair();
        let refused = |first: &[u8], second: &[u8], room: usize| {
            let [told, none] = [40, 0].map(|words| {
                let (mut out, mut work) = ([77; 24], [77; 40]);
                let answer = join(of.table(), of.pool(), first, second, &mut out[..room], &mut work[..words]);
                assert_eq!(out, [77; 24]);
                assert_eq!((&work[..words], &work[words..]), (&[0; 40][..words], &[77; 40][words..]));
                answer
            });
            assert_eq!(told, none);
            told
        };
        assert_eq!(refused(&a[..12], &b[..12], 11), Err(Refusal::NoRoom { needed: 12 }));
        assert_eq!(refused(&a[..12], &b[..12], 0), Err(Refusal::NoRoom { needed: 12 }));
        for room in [0, 24] {
            assert_eq!(refused(&a[..12], &b, room), Err(Refusal::WrongLength));
            assert_eq!(refused(&a, &b[..12], room), Err(Refusal::WrongLength));
            assert_eq!(refused(&a, &b, room), Err(Refusal::WrongLength));
            // whole laid end to end, and neither whole
            assert_eq!(refused(&a[..11], &b, room), Err(Refusal::WrongLength));
        }
        assert_eq!(refused(&[], &[], 0), Ok((0, 0)));
        let region = Type::from_message(&[0x17, 1, 0, 0, 12, 0, 0, 0], 5).unwrap().0;
        assert_eq!(join(region.table(), region.pool(), &[0], &[], &mut [], &mut []), Err(Refusal::HeapHeld));
        assert_eq!(join(&[], &[], &[0], &[0], &mut [], &mut []), Err(Refusal::BadTable));
        #[cfg(feature = "std")]
        {
            assert_eq!(region.join(&[0], &[]), Err(Refusal::HeapHeld));
            assert_eq!(of.join(&a[..11], &b), Err(Refusal::WrongLength));
        }
    }
}
