//! What was compared with the Rust's answers, what with the plain walk of walk.rs alone, and what document 01 leaves out of the comparison.
use crate::walk::Byte;

#[derive(Clone, Copy)]
pub enum Call {
    Read,
    Write,
    ReadBack,
    Size,
    Predicates,
    Slots,
    References,
    Same,
    Duplicates,
    DuplicatesWords,
    Join,
}

pub const CALLS: [&str; 11] = ["read", "write", "written and read by the Rust", "sizes", "predicates", "slots", "references", "same", "duplicates", "words of its workspace", "join"];

/// What pairs of compared records may have: see `Counts::names`.
pub const NAMES: [&str; 7] = [
    "leftovers behind a name",
    "leftovers that no owner of several counts",
    "same though owned bytes differ",
    "bytes of two fields",
    "bytes of a name past its end and of a field that counts them",
    "differ in such bytes only",
    "differ in where a name ends",
];

/// What is lent to a call of `duplicates`.
#[derive(Clone, Copy)]
pub enum Lent {
    Exact,
    FewNumbers,
    FewSizes,
    FewBoth,
    More,
    NoWork,
    ShortWork,
    ToldWork,
    NotWhole,
    Uncounted,
}

pub const LENT: [&str; 10] = [
    "exact rooms",
    "numbers one entry too few",
    "sizes one entry too few",
    "both one entry too few",
    "rooms larger than needed",
    "no workspace",
    "a workspace shorter than told",
    "a workspace of the told length or more",
    "no whole number of records",
    "bytes changed that do not count",
];

/// What blocks of records may have: see `Counts::blocks`.
pub const BLOCKS: [&str; 7] = [
    "no records",
    "all records the same, of several",
    "all records distinct, of several",
    "groups of several beside others",
    "a record the same as an earlier one though bytes differ",
    "leftovers behind a name in such records",
    "bytes of two fields",
];

/// What is lent to a call of `join`.
#[derive(Clone, Copy)]
pub enum JoinLent {
    Exact,
    ByteShort,
    NoRoom,
    More,
    Both,
    NoWork,
    ShortWork,
    ToldWork,
    FirstNotWhole,
    SecondNotWhole,
    NeitherWhole,
    WholeTogether,
    Uncounted,
}

pub const JOIN_LENT: [&str; 13] = [
    "exact room",
    "room one byte too short",
    "no room",
    "more room than needed",
    "room for both blocks",
    "no workspace",
    "a workspace shorter than told",
    "a workspace of the told length or more",
    "the first block no whole number of records",
    "the second block no whole number of records",
    "neither a whole number of records",
    "neither a whole number of records, but both laid end to end",
    "bytes changed that do not count",
];

/// What two blocks of records may have: see `Counts::joins`.
pub const JOINS: [&str; 12] = [
    "no records in either",
    "no records in the first alone",
    "no records in the second alone",
    "records of the first the same as an earlier one there",
    "records of the second the same as an earlier one there and none of the first",
    "records in common",
    "such records though bytes differ",
    "such records though owned bytes differ",
    "records of both, none left out",
    "records of the second, all left out",
    "records in common beside others in both",
    "bytes of two fields",
];

#[derive(Default)]
pub struct Counts {
    /// By call: answers compared with the Rust's; answers that the Rust has not, compared with the walk's; answers compared with neither.
    pub compared: [u64; 11],
    pub walked: [u64; 11],
    pub left_out: [u64; 11],
    /// By call and number of the answer, 0 for a result.
    pub numbers: [[u64; 22]; 11],
    /// Types read, by class and version of the outermost header, and by levels.
    pub classes: [u64; 12],
    pub versions: [u64; 16],
    pub levels: Vec<u64>,
    /// Messages written, by edition.
    pub editions: [u64; 4],
    /// Pairs of records, by `NAMES`.
    pub names: [u64; 7],
    /// Calls of `duplicates`, by `LENT`, and the blocks given to it, by `BLOCKS`.
    pub lent: [u64; 10],
    pub blocks: [u64; 7],
    /// Calls of `join`, by `JOIN_LENT`, and the blocks given to it, by `JOINS`.
    pub join_lent: [u64; 13],
    pub joins: [u64; 12],
}

impl Counts {
    pub fn new() -> Counts {
        Counts { levels: vec![0; 33], ..Counts::default() }
    }

    pub fn compared(&mut self, call: Call, number: u32) {
        self.compared[call as usize] += 1;
        self.numbers[call as usize][number as usize] += 1;
    }

    pub fn walked(&mut self, call: Call, number: u32) {
        self.walked[call as usize] += 1;
        self.numbers[call as usize][number as usize] += 1;
    }

    pub fn left_out(&mut self, call: Call, number: u32) {
        self.left_out[call as usize] += 1;
        self.numbers[call as usize][number as usize] += 1;
    }

    /// Two records that were compared, byte by byte, and whether they are the same.
    pub fn names(&mut self, a: &[Byte], b: &[Byte], same: bool) {
        let pairs = || a.iter().zip(b);
        let either = |test: fn(&Byte) -> bool| pairs().any(|(x, y)| test(x) || test(y));
        let shared = |x: &Byte| 0 < x.past && x.past < x.owners;
        let met = [
            either(|x| x.taken() == Some(0) && x.value != 0),
            either(|x| x.taken() == Some(0) && x.value != 0 && x.owners > 1),
            same && pairs().any(|(x, y)| x.owners > 0 && x.value != y.value),
            either(|x| x.owners > 1),
            either(|x| 0 < x.past && x.past < x.owners),
            !same && pairs().filter(|(x, y)| x.taken() != y.taken()).all(|(x, y)| shared(x) && shared(y)),
            !same && pairs().any(|(x, y)| x.past != y.past),
        ];
        for (n, met) in self.names.iter_mut().zip(met) {
            *n += u64::from(met);
        }
    }

    pub fn lent(&mut self, what: Lent) {
        self.lent[what as usize] += 1;
    }

    /// The records of a block, and for each the number of the earliest that is the same.
    pub fn blocks(&mut self, records: &[Vec<Byte>], numbers: &[u64]) {
        let distinct = numbers.iter().enumerate().filter(|(k, n)| **n == *k as u64).count();
        let again = |test: fn(&Byte, &Byte) -> bool| records.iter().zip(numbers).any(|(a, n)| a.iter().zip(&records[*n as usize]).any(|(x, y)| test(x, y)));
        let met = [
            records.is_empty(),
            records.len() > 1 && distinct == 1,
            records.len() > 1 && distinct == records.len(),
            1 < distinct && distinct < records.len(),
            again(|x, y| x.value != y.value),
            again(|x, y| x.value != y.value && x.owners > 0),
            records.iter().flatten().any(|x| x.owners > 1),
        ];
        for (n, met) in self.blocks.iter_mut().zip(met) {
            *n += u64::from(met);
        }
    }

    pub fn join_lent(&mut self, what: JoinLent) {
        self.join_lent[what as usize] += 1;
    }

    /// The records of two blocks, and the numbers of those that are kept, in both laid end to end.
    pub fn joins(&mut self, a: &[Vec<Byte>], b: &[Vec<Byte>], kept: &[usize]) {
        let of_first = kept.iter().filter(|k| **k < a.len()).count();
        let of_second = kept.len() - of_first;
        let same = |x: &[Byte], y: &[Byte]| x.iter().zip(y).all(|(x, y)| x.taken() == y.taken());
        let common: Vec<(&[Byte], &[Byte])> = b.iter().flat_map(|y| a.iter().find(|x| same(x, y)).map(|x| (&x[..], &y[..]))).collect();
        let though = |test: fn(&Byte, &Byte) -> bool| common.iter().any(|(x, y)| x.iter().zip(*y).any(|(x, y)| test(x, y)));
        let met = [
            a.is_empty() && b.is_empty(),
            a.is_empty() && !b.is_empty(),
            !a.is_empty() && b.is_empty(),
            of_first < a.len(),
            of_second + common.len() < b.len(),
            !common.is_empty(),
            though(|x, y| x.value != y.value),
            though(|x, y| x.value != y.value && x.owners > 0),
            !a.is_empty() && !b.is_empty() && kept.len() == a.len() + b.len(),
            !b.is_empty() && of_second == 0,
            !common.is_empty() && of_second > 0 && a.iter().any(|x| !b.iter().any(|y| same(x, y))),
            a.iter().chain(b).flatten().any(|x| x.owners > 1),
        ];
        for (n, met) in self.joins.iter_mut().zip(met) {
            *n += u64::from(met);
        }
    }

    pub fn print(&self) {
        for (i, name) in CALLS.iter().enumerate() {
            let met: Vec<String> = self.numbers[i].iter().enumerate().filter(|(_, n)| **n > 0).map(|(k, n)| format!("{k}: {n}")).collect();
            let (rust, walk, out) = (self.compared[i], self.walked[i], self.left_out[i]);
            println!("{name}: {rust} compared with the Rust, {walk} with the walk, {out} left out; by number {}", met.join(", "));
        }
        println!("types read, by class {:?}", self.classes);
        println!("types read, by version {:?}", self.versions);
        println!("types read, by levels {:?}", &self.levels[1..]);
        println!("messages written, by edition {:?}", &self.editions[1..]);
        for (what, n) in NAMES.iter().zip(self.names) {
            println!("records compared, {what}: {n}");
        }
        for (what, n) in LENT.iter().zip(self.lent) {
            println!("duplicates, {what}: {n}");
        }
        for (what, n) in BLOCKS.iter().zip(self.blocks) {
            println!("blocks of duplicates, {what}: {n}");
        }
        for (what, n) in JOIN_LENT.iter().zip(self.join_lent) {
            println!("join, {what}: {n}");
        }
        for (what, n) in JOINS.iter().zip(self.joins) {
            println!("blocks of join, {what}: {n}");
        }
    }

    /// What was tried less often than it must be.
    pub fn lacking(&self, least: u64) -> Vec<String> {
        let mut lacking = Vec::new();
        let mut want = |n: u64, least: u64, what: String| {
            if n < least {
                lacking.push(format!("{what}: {n} of {least}"));
            }
        };
        let wanted: [(Call, &[u32]); 11] = [
            (Call::Read, &[0, 2, 3, 4, 6, 7, 8, 9, 10, 11, 12]),
            (Call::Write, &[0, 1, 13, 14, 15, 21]),
            (Call::ReadBack, &[0]),
            (Call::Size, &[0, 1, 12]),
            (Call::Predicates, &[0, 1]),
            (Call::Slots, &[0, 1, 12, 19, 21]),
            (Call::References, &[0, 20, 21]),
            (Call::Same, &[0, 1, 12, 16, 17, 18]),
            (Call::Duplicates, &[0, 1, 12, 16, 17, 18, 21]),
            (Call::DuplicatesWords, &[0, 1, 12, 16, 17]),
            (Call::Join, &[0, 1, 12, 16, 17, 18, 21]),
        ];
        for (call, numbers) in wanted {
            for n in numbers {
                want(self.numbers[call as usize][*n as usize], least, format!("{}, number {n}", CALLS[call as usize]));
            }
        }
        for (class, n) in self.classes.iter().enumerate() {
            want(*n, least, format!("class {class}"));
        }
        for (version, n) in self.versions.iter().enumerate() {
            want(*n, least, format!("version {version}"));
        }
        for (level, n) in self.levels.iter().enumerate().skip(1) {
            want(*n, least.min(20), format!("{level} levels"));
        }
        for (edition, n) in self.editions.iter().enumerate().skip(1) {
            want(*n, least, format!("edition {edition}"));
        }
        for (what, n) in NAMES.iter().zip(self.names) {
            want(n, least * 10, format!("records, {what}"));
        }
        for (what, n) in LENT.iter().zip(self.lent) {
            want(n, least * 10, format!("duplicates, {what}"));
        }
        for (what, n) in BLOCKS.iter().zip(self.blocks) {
            want(n, least, format!("blocks of duplicates, {what}"));
        }
        for (what, n) in JOIN_LENT.iter().zip(self.join_lent) {
            want(n, least * 10, format!("join, {what}"));
        }
        for (what, n) in JOINS.iter().zip(self.joins) {
            want(n, least, format!("blocks of join, {what}"));
        }
        lacking
    }
}
