//! Blocks in a folder, a file each, named by the text of the block's CID.
use sha2::{Digest, Sha256};
use std::path::Path;

const LETTERS: &[u8; 32] = b"abcdefghijklmnopqrstuvwxyz234567";

pub fn cid_text(id: &[u8; 32]) -> String {
    let (mut out, mut held, mut bits) = (String::with_capacity(59), 0u32, 0);
    out.push('b');
    for byte in [1, 0x71, 0x12, 0x20].iter().chain(id) {
        held = held << 8 | *byte as u32;
        bits += 8;
        while bits >= 5 {
            bits -= 5;
            out.push(LETTERS[(held >> bits & 31) as usize] as char);
        }
        held &= (1 << bits) - 1;
    }
    if bits > 0 {
        out.push(LETTERS[(held << (5 - bits) & 31) as usize] as char);
    }
    out
}

/// Writes a block beside its name, and moves it there.
pub fn write(folder: &Path, name: &str, block: &[u8]) {
    let part = folder.join(format!("{name}.part"));
    std::fs::write(&part, block).expect("the folder can be written");
    std::fs::rename(&part, folder.join(name)).expect("the folder can be written");
}

/// Writes the blocks of a folder anew, each hashed for its name, into the folder `again`.
pub fn rewrite(from: &Path, times: u32) {
    let again = Path::new("again");
    let blocks: Vec<Vec<u8>> = std::fs::read_dir(from)
        .expect("the folder is there")
        .map(|entry| std::fs::read(entry.expect("an entry").path()).expect("a block"))
        .collect();
    std::fs::create_dir_all(again).expect("the folder can be made");
    for _ in 0..times {
        for block in &blocks {
            write(again, &cid_text(&Sha256::digest(block).into()), block);
        }
    }
}
