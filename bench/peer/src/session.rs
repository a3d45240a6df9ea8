//! A script of `get` and `set` on a HAMT of integers inside a batch: its nodes are kept as blocks in memory. The first line of the input is
//! the JSON of its entries. And the generator, in memory or over a folder.
use crate::bulk::{plan, Row};
use crate::cbor::{add_int, head};
use crate::create::{root_block, row};
use crate::folder::{cid_text, write};
use crate::hamt::{empty, hash, Hamt, Lifted};
use crate::json::{read, Tree};
use std::collections::{BTreeSet, HashMap};
use std::path::Path;

pub struct Session {
    hamt: Hamt,
    /// The root node, as it stands in the root block.
    root: Vec<u8>,
}

/// The HAMT of the first line, and the lines behind it.
pub fn begun(input: &[u8]) -> (Session, &str) {
    let end = input.iter().position(|byte| *byte == b'\n').expect("a first line");
    let Ok(Tree::Map(members)) = read(&input[..end]) else { panic!("an object") };
    let mut rows: Vec<Row> = members.into_iter().map(row).collect();
    rows.sort_by(|a, b| a.key.cmp(&b.key));
    let (root, blocks) = plan(&rows);
    let blocks = blocks.into_iter().map(|block| (block.id, block.bytes)).collect::<HashMap<_, _>>();
    let script = std::str::from_utf8(&input[end + 1..]).expect("a text");
    (Session { hamt: Hamt { blocks, came: Vec::new() }, root }, script)
}

fn integer(spelled: &[u8]) -> i128 {
    match head(spelled, &mut 0).expect("an integer") {
        (0, n) => n as i128,
        (_, n) => -1 - n as i128,
    }
}

impl Session {
    fn get(&self, root: &[u8], key: &str) -> String {
        match self.hamt.found(root, key.as_bytes(), &hash(key.as_bytes()), 0) {
            Some(value) => format!("ok {}", integer(&value)),
            None => "no 2 path".into(),
        }
    }

    fn set(&mut self, root: &mut Vec<u8>, key: &str, json: &str) -> String {
        let Ok(value) = serde_json::from_str::<serde_json::Value>(json) else { return "no 3 json".into() };
        let Some(n) = value.as_i64() else { return "no 4 mismatch".into() };
        let mut spelled = Vec::new();
        add_int(&mut spelled, n as i128);
        let edited = self.hamt.edited(root, key.as_bytes(), &hash(key.as_bytes()), Some(&spelled), 0);
        let Some(Lifted::Root(next)) = edited else { panic!("a root") };
        *root = next;
        self.hamt.put(root_block(root).bytes);
        "ok null".into()
    }

    /// The replies to the lines, from the first root on, whose tree is checked.
    pub fn answer(&mut self, script: &str) -> String {
        let mut root = self.root.clone();
        self.hamt.walked(&root, 0).expect("a trie");
        let mut out = String::new();
        for line in script.lines() {
            let mut words = line.splitn(3, ' ');
            let (verb, path, json) = (words.next(), words.next(), words.next());
            let reply = match (verb, path.and_then(|path| path.strip_prefix('/')), json) {
                (Some("get"), Some(key), None) => self.get(&root, key),
                (Some("set"), Some(key), Some(json)) => self.set(&mut root, key, json),
                _ => "no 1 line".into(),
            };
            out.push_str(&reply);
            out.push('\n');
        }
        out
    }
}

/// How many steps, and from which seed.
pub fn words_of(input: &[u8]) -> (u64, u64) {
    let text = std::str::from_utf8(input).expect("a text");
    let mut words = text.split_whitespace().map(|word| word.parse().expect("a number"));
    (words.next().expect("a count"), words.next().expect("a seed"))
}

/// What the generator comes to.
pub struct Made {
    pub sets: u64,
    pub dels: u64,
    pub absent: u64,
    pub len: u64,
    pub root: [u8; 32],
}

impl std::fmt::Display for Made {
    fn fmt(&self, out: &mut std::fmt::Formatter<'_>) -> std::fmt::Result {
        let Made { sets, dels, absent, len, root } = self;
        writeln!(out, "sets {sets}\ndels {dels}\nabsent {absent}\nlen {len}\nroot {}", cid_text(root))
    }
}

/// The steps of the generator, each of which writes its new blocks into the folder, if there is one.
pub fn generate(count: u64, seed: u64, folder: Option<&Path>) -> Made {
    let mut hamt = Hamt { blocks: HashMap::new(), came: Vec::new() };
    let (mut node, mut keys) = (empty(), BTreeSet::new());
    let mut made = Made { sets: 0, dels: 0, absent: 0, len: 0, root: [0; 32] };
    let mut written = 0;
    let mut x = seed;
    for i in 0..=count {
        let block = root_block(&node);
        made.root = block.id;
        hamt.put(block.bytes);
        if let Some(folder) = folder {
            for id in &hamt.came[written..] {
                write(folder, &cid_text(id), &hamt.blocks[id]);
            }
            written = hamt.came.len();
        }
        if i == count {
            break;
        }
        x = x.wrapping_mul(6364136223846793005).wrapping_add(1442695040888963407);
        let key = format!("k{}", x >> 40 & 0xffff);
        let mut value = Vec::new();
        add_int(&mut value, i as i128);
        let value = (x >> 32 & 3 != 0).then_some(value.as_slice());
        match hamt.edited(&node, key.as_bytes(), &hash(key.as_bytes()), value, 0) {
            Some(Lifted::Root(next)) => {
                node = next;
                if value.is_some() {
                    made.sets += 1;
                    keys.insert(key);
                } else {
                    made.dels += 1;
                    keys.remove(&key);
                }
            }
            Some(_) => panic!("a root"),
            None => made.absent += 1,
        }
    }
    made.len = keys.len() as u64;
    made
}
