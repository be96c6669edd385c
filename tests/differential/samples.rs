//! Makes the files that the program `replay` runs: messages with the answers of the Rust of the papers, and that a type is Unstorable from
//! the plain walk of walk.rs. Arguments: a seed and a number of
//! rounds for messages of this generator, or a file of messages (each a length of 4 bytes and the bytes); then the file to write. The
//! format is set out in crates/replay/src.
#![allow(dead_code, unused_imports)]
mod bytes;
mod compare;
mod convert;
mod counts;
mod datatype;
mod display;
mod duplicates;
mod error;
mod flat;
mod generate;
mod join;
mod message_type;
mod walk;

use datatype::Datatype;
use flat::Flat;
use generate::Random;

/// The most slots that an entry lists, and the largest type that the oracle is asked to list slots of.
const SLOTS: usize = 4096;
const LISTED: u32 = 1 << 20;

fn number(out: &mut Vec<u8>, n: usize) {
    out.extend_from_slice(&(n as u32).to_le_bytes());
}

/// The entry of a message, unless its answer is one that document 01 leaves out of the comparison.
fn entry(message: &[u8]) -> Option<Vec<u8>> {
    let mut out = Vec::new();
    number(&mut out, message.len());
    out.extend_from_slice(message);
    let (t, consumed) = match Datatype::parse(message) {
        Err(e) => {
            let (n, first, second) = compare::refusal(&e);
            number(&mut out, n as usize);
            out.extend_from_slice(&first.to_le_bytes());
            out.extend_from_slice(&second.to_le_bytes());
            return Some(out);
        }
        Ok(read) => read,
    };
    let flat = Flat::of(&t);
    let words = flat.words();
    if flat.depth > 32 || words.len() > 4096 * 16 || flat.pool.len() > 65536 || t.type_size() > LISTED {
        return None;
    }
    number(&mut out, 0);
    out.extend_from_slice(&(consumed as u64).to_le_bytes());
    out.extend_from_slice(&0u64.to_le_bytes());
    number(&mut out, words.len());
    words.iter().for_each(|w| out.extend_from_slice(&w.to_le_bytes()));
    number(&mut out, flat.pool.len());
    out.extend_from_slice(&flat.pool);
    out.extend_from_slice(&t.type_size().to_le_bytes());
    out.push(datatype::datatype_holds_object_address(&t).into());
    out.push(datatype::datatype_holds_file_address(&t).into());
    let written = walk::not_written(&t, 3);
    let bytes = if written.is_none() { t.serialize() } else { vec![] };
    number(&mut out, written.unwrap_or(0) as usize);
    number(&mut out, bytes.len());
    out.extend_from_slice(&bytes);
    let slots = datatype::embedded_reference_slots(&t);
    number(&mut out, if slots.is_some() { 0 } else { 19 });
    let slots = slots.unwrap_or_default();
    number(&mut out, slots.len());
    slots.iter().for_each(|s| out.extend_from_slice(&(*s as u64).to_le_bytes()));
    (slots.len() <= SLOTS).then_some(out)
}

fn main() {
    let arguments: Vec<String> = std::env::args().skip(1).collect();
    let mut messages = Vec::new();
    if let [seed, rounds, _] = &arguments[..] {
        let r = &mut Random::new(seed.parse().expect("a seed"));
        for i in 0..rounds.parse().expect("a number of rounds") {
            messages.extend(generate::sample(i, r));
        }
    } else {
        let file = std::fs::read(&arguments[0]).expect("a file of messages");
        let mut rest = &file[..];
        while let Some((length, after)) = rest.split_first_chunk() {
            let (message, behind) = after.split_at(u32::from_le_bytes(*length) as usize);
            messages.push(message.to_vec());
            rest = behind;
        }
    }
    let entries: Vec<Vec<u8>> = messages.iter().filter_map(|m| entry(m)).collect();
    let to = arguments.last().expect("a file to write");
    std::fs::write(to, entries.concat()).expect("the file written");
    println!("{to}: {} entries, {} bytes", entries.len(), entries.concat().len());
}
