//! A script of `set`, `get`, `del` and `root` over a plain map from texts to integers, kept in one block.
use crate::cbor::{add_head, add_int, key_order};
use crate::folder::{cid_text, write};
use sha2::{Digest, Sha256};
use std::collections::HashMap;
use std::path::PathBuf;

/// Where blocks are kept: in memory, or a file each in a folder.
enum Store {
    Memory(HashMap<[u8; 32], Vec<u8>>),
    Folder(PathBuf),
}

impl Store {
    fn put(&mut self, id: [u8; 32], block: Vec<u8>) {
        match self {
            Store::Memory(blocks) => {
                blocks.insert(id, block);
            }
            Store::Folder(folder) => {
                let name = cid_text(&id);
                if !folder.join(&name).exists() {
                    write(&folder, &name, &block);
                }
            }
        }
    }
}

struct Map {
    entries: Vec<(String, i128)>,
    store: Store,
}

impl Map {
    fn place(&self, key: &str) -> Result<usize, usize> {
        self.entries.binary_search_by(|e| key_order(e.0.as_bytes(), key.as_bytes()))
    }

    fn block(&self) -> Vec<u8> {
        let mut out = Vec::new();
        add_head(&mut out, 5, self.entries.len() as u64);
        for (key, n) in &self.entries {
            add_head(&mut out, 3, key.len() as u64);
            out.extend_from_slice(key.as_bytes());
            add_int(&mut out, *n);
        }
        out
    }

    fn root(&mut self, keep: bool) -> String {
        let block = self.block();
        let id: [u8; 32] = Sha256::digest(&block).into();
        if keep {
            self.store.put(id, block);
        }
        format!("root {}", cid_text(&id))
    }

    fn line(&mut self, line: &str) -> String {
        let mut words = line.splitn(3, ' ');
        let (verb, path, json) = (words.next(), words.next(), words.next());
        let key = path.and_then(|p| p.strip_prefix('/'));
        match (verb, key, json) {
            (Some("root"), None, None) => self.root(false),
            (Some("get"), Some(key), None) => match self.place(key) {
                Ok(i) => format!("ok {}", self.entries[i].1),
                Err(_) => "no 2 path".into(),
            },
            (Some("del"), Some(key), None) => match self.place(key) {
                Ok(i) => {
                    self.entries.remove(i);
                    self.root(true)
                }
                Err(_) => "no 2 path".into(),
            },
            (Some("set"), Some(key), Some(json)) => {
                let Ok(value) = serde_json::from_str::<serde_json::Value>(json) else { return "no 3 json".into() };
                let Some(n) = value.as_i64() else { return "no 4 mismatch".into() };
                match self.place(key) {
                    Ok(i) => self.entries[i].1 = n as i128,
                    Err(i) => self.entries.insert(i, (key.into(), n as i128)),
                }
                self.root(true)
            }
            _ => "no 1 line".into(),
        }
    }
}

fn answer_over(store: Store, script: &[u8]) -> String {
    let mut map = Map { entries: Vec::new(), store };
    let mut out = String::new();
    for line in std::str::from_utf8(script).expect("a text").lines() {
        out.push_str(&map.line(line));
        out.push('\n');
    }
    out
}

/// The replies to a script over a store in memory.
pub fn answer(script: &[u8]) -> String {
    answer_over(Store::Memory(HashMap::new()), script)
}

/// The replies to a script over the folder `blocks`.
pub fn answer_in_folder(script: &[u8]) -> String {
    std::fs::create_dir_all("blocks").expect("the folder can be made");
    answer_over(Store::Folder("blocks".into()), script)
}
