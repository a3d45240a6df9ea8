//! The same work as the engine's, as a good Rust programmer writes it without proofs. Words: WORK FILE TIMES.
mod bulk;
mod cbor;
mod create;
mod folder;
mod hamt;
mod json;
mod map;
mod schema;
mod session;
mod typed;

use sha2::{Digest, Sha256};
use std::hint::black_box;
use std::path::Path;

fn main() {
    let words: Vec<String> = std::env::args().skip(1).collect();
    let [work, file, times] = words.as_slice() else {
        println!("words: WORK FILE TIMES");
        std::process::exit(2);
    };
    if work == "write-blocks" {
        folder::rewrite(std::path::Path::new(file), times.parse().expect("a number"));
        return;
    }
    let bytes = std::fs::read(file).expect("the file is there");
    let times: u32 = times.parse().expect("a number");
    let mut sum = 0u64;
    match work.as_str() {
        "check" => {
            for _ in 0..times {
                sum += cbor::check(black_box(&bytes)).expect("a block") as u64;
            }
        }
        "items" => {
            cbor::check(&bytes).expect("a block");
            for _ in 0..times {
                sum += cbor::items(black_box(&bytes));
            }
        }
        "entries" => {
            cbor::check(&bytes).expect("a block");
            for _ in 0..times {
                sum += cbor::entries(black_box(&bytes));
            }
        }
        "entry" => {
            cbor::check(&bytes).expect("a block");
            let key = cbor::last_key(&bytes).to_vec();
            for _ in 0..times {
                sum += cbor::entry(black_box(&bytes), &key).expect("the key is there") as u64;
            }
        }
        "id" => {
            for _ in 0..times {
                sum += Sha256::digest(black_box(&bytes))[0] as u64;
            }
        }
        "read" => {
            for _ in 0..times {
                let tree = json::read(black_box(&bytes)).expect("JSON of a value");
                black_box(&tree);
                sum += bytes.len() as u64;
            }
        }
        "print" => {
            let tree = json::read(&bytes).expect("JSON of a value");
            for _ in 0..times {
                sum += json::print(black_box(&tree)).len() as u64;
            }
        }
        "spell" => {
            let tree = json::read(&bytes).expect("JSON of a value");
            for _ in 0..times {
                let mut out = Vec::new();
                cbor::spell(&mut out, black_box(&tree));
                sum += out.len() as u64;
            }
        }
        "write" => {
            let people = typed::people(json::read(&bytes).expect("JSON of a value")).expect("people");
            for _ in 0..times {
                let mut out = Vec::new();
                typed::write(&mut out, black_box(&people));
                sum += out.len() as u64;
            }
        }
        "write-list" => {
            let integers = typed::integers(json::read(&bytes).expect("JSON of a value")).expect("integers");
            for _ in 0..times {
                let mut out = Vec::new();
                typed::write_integers(&mut out, black_box(&integers));
                sum += out.len() as u64;
            }
        }
        "compile" => {
            for _ in 0..times {
                sum += schema::compile(black_box(&bytes)).expect("a schema") as u64;
            }
        }
        "bulk" => {
            let rows = bulk::rows(&bytes);
            for _ in 0..times {
                let (root, blocks) = bulk::plan(black_box(&rows));
                sum += root.len() as u64 + blocks.len() as u64;
            }
        }
        "hamt" => {
            for _ in 0..times {
                sum += hamt::edit_all(black_box(&bytes));
            }
        }
        "script" => {
            for _ in 0..times {
                sum += map::answer(black_box(&bytes)).len() as u64;
            }
        }
        "script-hamt" => {
            let (mut session, script) = session::begun(&bytes);
            println!("ok null");
            for _ in 0..times {
                print!("{}", session.answer(black_box(script)));
            }
            return;
        }
        "gen-memory" => {
            let (count, seed) = session::words_of(&bytes);
            for _ in 0..times {
                let made = session::generate(count, seed, None);
                sum += made.sets + made.dels + made.absent + made.len;
                sum += made.root.iter().map(|byte| *byte as u64).sum::<u64>();
            }
        }
        "gen" => {
            let (count, seed) = if times == 0 { (0, 0) } else { session::words_of(&bytes) };
            std::fs::create_dir("blocks").expect("the folder is new");
            print!("{}", session::generate(count, seed, Some(Path::new("blocks"))));
            return;
        }
        "new" => {
            for _ in 0..times {
                println!("root {}", create::create(&bytes));
            }
            return;
        }
        "files" => {
            for _ in 0..times {
                print!("{}", map::answer_in_folder(&bytes));
            }
            return;
        }
        _ => panic!("no such work"),
    }
    println!("sum {sum}");
}
