//! The nodes of a HAMT from its entries.
use crate::cbor::{add_head, head, skip, string};
use sha2::{Digest, Sha256};

/// How many entries a bucket holds at most.
pub const BUCKET_SIZE: usize = 3;

/// A key, and the spelling of its value.
pub struct Row {
    pub key: String,
    pub value: Vec<u8>,
}

/// A block with its id.
pub struct Block {
    pub id: [u8; 32],
    pub bytes: Vec<u8>,
}

impl Block {
    pub fn of(bytes: Vec<u8>) -> Block {
        Block { id: Sha256::digest(&bytes).into(), bytes }
    }
}

struct Hashed<'r> {
    hash: [u8; 32],
    row: &'r Row,
}

fn add_bucket(out: &mut Vec<u8>, entries: &[Hashed]) {
    add_head(out, 4, entries.len() as u64);
    for entry in entries {
        add_head(out, 4, 2);
        add_head(out, 2, entry.row.key.len() as u64);
        out.extend_from_slice(entry.row.key.as_bytes());
        out.extend_from_slice(&entry.row.value);
    }
}

fn add_link(out: &mut Vec<u8>, id: &[u8; 32]) {
    out.extend_from_slice(&[0xd8, 0x2a, 0x58, 0x25, 0, 1, 0x71, 0x12, 0x20]);
    out.extend_from_slice(id);
}

/// The node of entries in the order of their keys. The blocks beneath it are appended, each behind those beneath it.
fn node(entries: &mut [Hashed], depth: usize, blocks: &mut Vec<Block>) -> Vec<u8> {
    let mut map = [0u8; 32];
    let mut slots = Vec::with_capacity(entries.len().min(512) * 24);
    let mut count = 0;
    entries.sort_by_key(|entry| entry.hash[depth]);
    for part in entries.chunk_by_mut(|a, b| a.hash[depth] == b.hash[depth]) {
        let index = part[0].hash[depth] as usize;
        map[index / 8] |= 1 << (index % 8);
        count += 1;
        if part.len() <= BUCKET_SIZE {
            add_bucket(&mut slots, part);
        } else {
            let child = Block::of(node(part, depth + 1, blocks));
            add_link(&mut slots, &child.id);
            blocks.push(child);
        }
    }
    let mut out = Vec::with_capacity(slots.len() + 40);
    add_head(&mut out, 4, 2);
    add_head(&mut out, 2, map.len() as u64);
    out.extend_from_slice(&map);
    add_head(&mut out, 4, count);
    out.extend_from_slice(&slots);
    out
}

fn hash_of(row: &Row) -> [u8; 32] {
    Sha256::digest(row.key.as_bytes()).into()
}

/// The root node of rows in the order of their keys, and the blocks beneath it.
pub fn plan(rows: &[Row]) -> (Vec<u8>, Vec<Block>) {
    let hashed = |row| Hashed { hash: hash_of(row), row };
    let mut blocks = Vec::new();
    let root = node(&mut rows.iter().map(hashed).collect::<Vec<_>>(), 0, &mut blocks);
    (root, blocks)
}

/// The entries of the map that a block is.
pub fn rows(b: &[u8]) -> Vec<Row> {
    let mut p = 0;
    let (_, count) = head(b, &mut p).expect("a map");
    let mut rows = Vec::with_capacity(count as usize);
    for _ in 0..count {
        let (_, length) = head(b, &mut p).expect("a key");
        let key = String::from_utf8(string(b, &mut p, length).expect("a key").to_vec()).expect("a text");
        let from = p;
        skip(b, &mut p);
        rows.push(Row { key, value: b[from..p].to_vec() });
    }
    rows
}
