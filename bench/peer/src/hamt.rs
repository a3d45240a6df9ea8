//! A HAMT under sets and deletes, its nodes kept as blocks: each edit reads the nodes on its key's way, checks them, and writes
//! them anew.
use crate::cbor::{add_head, check, head, skip, string};
use sha2::{Digest, Sha256};
use std::collections::hash_map::Entry;
use std::collections::HashMap;

type Id = [u8; 32];

enum Slot<'b> {
    /// The keys and the spelled values of a bucket.
    Bucket(Vec<(&'b [u8], &'b [u8])>),
    Child(Id),
}

/// The used slots of a node, by their indices.
type Node<'b> = Vec<(u8, Slot<'b>)>;

fn parse_slot<'b>(b: &'b [u8], p: &mut usize) -> Option<Slot<'b>> {
    let (major, n) = head(b, p).ok()?;
    if major == 6 {
        let (_, n) = head(b, p).ok()?;
        let cid = string(b, p, n).ok()?;
        return Some(Slot::Child(cid[5..].try_into().ok()?));
    }
    if major != 4 || n == 0 || n > 3 {
        return None;
    }
    let mut entries: Vec<(&[u8], &[u8])> = Vec::with_capacity(4);
    for _ in 0..n {
        if head(b, p).ok()? != (4, 2) {
            return None;
        }
        let (major, n) = head(b, p).ok()?;
        let key = string(b, p, n).ok()?;
        if major != 2 || std::str::from_utf8(key).is_err() || entries.last().is_some_and(|(last, _)| *last >= key) {
            return None;
        }
        let from = *p;
        skip(b, p);
        entries.push((key, &b[from..*p]));
    }
    Some(Slot::Bucket(entries))
}

fn parse(b: &[u8]) -> Option<Node<'_>> {
    check(b).ok()?;
    let mut p = 0;
    if head(b, &mut p).ok()? != (4, 2) || head(b, &mut p).ok()? != (2, 32) {
        return None;
    }
    let map = string(b, &mut p, 32).ok()?;
    let (major, n) = head(b, &mut p).ok()?;
    let mut node = Vec::with_capacity(n as usize + 1);
    for i in 0..256usize {
        if map[i / 8] >> (i % 8) & 1 == 1 {
            node.push((i as u8, parse_slot(b, &mut p)?));
        }
    }
    (major == 4 && p == b.len() && node.len() as u64 == n).then_some(node)
}

fn spell(node: &Node<'_>) -> Vec<u8> {
    let mut map = [0u8; 32];
    for (i, _) in node {
        map[*i as usize / 8] |= 1 << (i % 8);
    }
    let mut out = Vec::new();
    out.extend_from_slice(&[0x82, 0x58, 0x20]);
    out.extend_from_slice(&map);
    add_head(&mut out, 4, node.len() as u64);
    for (_, slot) in node {
        match slot {
            Slot::Child(id) => {
                out.extend_from_slice(&[0xd8, 0x2a, 0x58, 0x25, 0, 1, 0x71, 0x12, 0x20]);
                out.extend_from_slice(id);
            }
            Slot::Bucket(entries) => {
                add_head(&mut out, 4, entries.len() as u64);
                for (key, value) in entries {
                    out.push(0x82);
                    add_head(&mut out, 2, key.len() as u64);
                    out.extend_from_slice(key);
                    out.extend_from_slice(value);
                }
            }
        }
    }
    out
}

/// A node in the node above: its id, or the entries that a bucket takes; or the root.
pub enum Lifted {
    Root(Vec<u8>),
    Child(Id),
    Few(Vec<(Vec<u8>, Vec<u8>)>),
}

pub struct Hamt {
    pub blocks: HashMap<Id, Vec<u8>>,
    /// The blocks that came, in order.
    pub came: Vec<Id>,
}

pub fn hash(key: &[u8]) -> Id {
    Sha256::digest(key).into()
}

/// The slot of an index in the block of a node, without those before it.
fn slot_at(block: &[u8], index: u8) -> Option<Slot<'_>> {
    let map = &block[3..35];
    let index = index as usize;
    if map[index / 8] >> (index % 8) & 1 == 0 {
        return None;
    }
    let before: u32 = map[..index / 8].iter().map(|byte| byte.count_ones()).sum::<u32>() + (map[index / 8] & ((1 << (index % 8)) - 1)).count_ones();
    let mut p = 35;
    head(block, &mut p).ok()?;
    for _ in 0..before {
        skip(block, &mut p);
    }
    parse_slot(block, &mut p)
}

/// The node without entries.
pub fn empty() -> Vec<u8> {
    spell(&Vec::new())
}

impl Hamt {
    /// The spelled value at a key. The nodes beneath the root are checked, as they come from where blocks are kept.
    pub fn found(&self, block: &[u8], key: &[u8], hashed: &Id, depth: usize) -> Option<Vec<u8>> {
        match slot_at(block, hashed[depth])? {
            Slot::Bucket(entries) => entries.iter().find(|(k, _)| *k == key).map(|(_, value)| value.to_vec()),
            Slot::Child(id) => {
                let below = &self.blocks[&id];
                check(below).ok()?;
                self.found(below, key, hashed, depth + 1)
            }
        }
    }

    /// How many entries are beneath a node, each of which stands where its hash says.
    pub fn walked(&self, block: &[u8], depth: usize) -> Option<usize> {
        let mut count = 0;
        for (index, slot) in parse(block)? {
            match slot {
                Slot::Bucket(entries) => {
                    if entries.iter().any(|(key, _)| hash(key)[depth] != index) {
                        return None;
                    }
                    count += entries.len();
                }
                Slot::Child(id) => count += self.walked(self.blocks.get(&id)?, depth + 1)?,
            }
        }
        Some(count)
    }

    pub fn put(&mut self, block: Vec<u8>) -> Id {
        let id = hash(&block);
        if let Entry::Vacant(free) = self.blocks.entry(id) {
            free.insert(block);
            self.came.push(id);
        }
        id
    }

    /// The slot of entries, whose hashes come with them, in a node above a depth.
    fn split<'b>(&mut self, entries: Vec<((&'b [u8], &'b [u8]), Id)>, depth: usize) -> Slot<'b> {
        if entries.len() <= 3 {
            return Slot::Bucket(entries.into_iter().map(|(entry, _)| entry).collect());
        }
        let mut node: Node = Vec::new();
        for i in 0..=255u8 {
            let part: Vec<_> = entries.iter().filter(|(_, hash)| hash[depth] == i).copied().collect();
            if !part.is_empty() {
                node.push((i, self.split(part, depth + 1)));
            }
        }
        Slot::Child(self.put(spell(&node)))
    }

    /// What a changed node is in the node above.
    fn lifted(&mut self, node: &Node<'_>, depth: usize) -> Lifted {
        if depth == 0 {
            return Lifted::Root(spell(node));
        }
        let count: usize = node.iter().map(|(_, slot)| match slot { Slot::Bucket(entries) => entries.len(), Slot::Child(_) => 4 }).sum();
        if count > 3 {
            return Lifted::Child(self.put(spell(node)));
        }
        let mut few = Vec::new();
        for (_, slot) in node {
            if let Slot::Bucket(entries) = slot {
                few.extend(entries.iter().map(|(k, v)| (k.to_vec(), v.to_vec())));
            }
        }
        few.sort();
        Lifted::Few(few)
    }

    /// The node of a block with the key set or removed, or `None` where a key to remove isn't there.
    pub fn edited(&mut self, block: &[u8], key: &[u8], hashed: &Id, value: Option<&[u8]>, depth: usize) -> Option<Lifted> {
        let mut node = parse(block).expect("a node");
        let index = hashed[depth];
        let few;
        match node.binary_search_by_key(&index, |(i, _)| *i) {
            Err(place) => node.insert(place, (index, Slot::Bucket(vec![(key, value?)]))),
            Ok(place) => match &mut node[place].1 {
                Slot::Bucket(entries) => {
                    match (entries.binary_search_by_key(&key, |(k, _)| k), value) {
                        (Ok(i), Some(value)) => entries[i].1 = value,
                        (Err(i), Some(value)) => entries.insert(i, (key, value)),
                        (Ok(i), None) => {
                            entries.remove(i);
                        }
                        (Err(_), None) => return None,
                    }
                    if entries.is_empty() {
                        node.remove(place);
                    } else if entries.len() > 3 {
                        let keyed = entries.iter().map(|entry| (*entry, if entry.0 == key { *hashed } else { hash(entry.0) })).collect();
                        node[place].1 = self.split(keyed, depth + 1);
                    }
                }
                Slot::Child(id) => {
                    let below = self.blocks[id].clone();
                    node[place].1 = match self.edited(&below, key, hashed, value, depth + 1)? {
                        Lifted::Child(id) => Slot::Child(id),
                        Lifted::Few(owned) => {
                            few = owned;
                            Slot::Bucket(few.iter().map(|(k, v)| (k.as_slice(), v.as_slice())).collect())
                        }
                        Lifted::Root(_) => unreachable!(),
                    };
                }
            },
        }
        Some(self.lifted(&node, depth))
    }
}

/// The key with a number: eight letters.
fn key(high: u8, low: u8) -> [u8; 8] {
    let nibbles = [high >> 4, high & 15, low >> 4, low & 15];
    std::array::from_fn(|i| b'a' + nibbles[i % 4])
}

/// A sum over the root after all edits of an empty HAMT, of four bytes each: what is done, two of the key, and one that says nothing.
pub fn edit_all(bytes: &[u8]) -> u64 {
    let mut hamt = Hamt { blocks: HashMap::new(), came: Vec::new() };
    let mut root = empty();
    for edit in bytes.chunks_exact(4) {
        let key = key(edit[1], edit[2]);
        let value = [edit[0] % 24];
        let value = (edit[0] >= 96).then_some(value.as_slice());
        if let Some(Lifted::Root(next)) = hamt.edited(&root, &key, &hash(&key), value, 0) {
            root = next;
        }
    }
    hash(&root).iter().take(4).fold(0, |sum, byte| sum << 8 | *byte as u64)
}
