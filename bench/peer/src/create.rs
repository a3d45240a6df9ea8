//! A map from texts to integers, read from JSON and put into the folder `blocks` as a HAMT.
use crate::bulk::{plan, Block, Row, BUCKET_SIZE};
use crate::cbor::{add_head, add_int};
use crate::folder::{cid_text, write};
use crate::json::{read, Tree};
use std::path::Path;

pub fn row((key, tree): (String, Tree)) -> Row {
    let Tree::Int(n) = tree else { panic!("an integer") };
    let mut value = Vec::with_capacity(9);
    add_int(&mut value, n);
    Row { key, value }
}

pub fn root_block(node: &[u8]) -> Block {
    let mut out = Vec::with_capacity(node.len() + 40);
    add_head(&mut out, 5, 3);
    for (key, value) in [("hamt", node), ("hashAlg", &[18]), ("bucketSize", &[BUCKET_SIZE as u8])] {
        add_head(&mut out, 3, key.len() as u64);
        out.extend_from_slice(key.as_bytes());
        out.extend_from_slice(value);
    }
    Block::of(out)
}

/// The text of the root's CID.
pub fn create(json: &[u8]) -> String {
    let Ok(Tree::Map(members)) = read(json) else { panic!("an object") };
    let mut rows: Vec<Row> = members.into_iter().map(row).collect();
    rows.sort_by(|a, b| a.key.cmp(&b.key));
    let (node, mut blocks) = plan(&rows);
    let root = root_block(&node);
    let text = cid_text(&root.id);
    blocks.push(root);
    std::fs::create_dir("blocks").expect("the folder is new");
    for block in &blocks {
        write(Path::new("blocks"), &cid_text(&block.id), &block.bytes);
    }
    text
}
