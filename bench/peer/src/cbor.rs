//! DAG-CBOR without a value in between: the check of a block, walks over its parts, and the spelling of a tree.
use crate::json::Tree;
use std::cmp::Ordering;

type Fault = &'static str;

pub fn head(b: &[u8], p: &mut usize) -> Result<(u8, u64), Fault> {
    let first = *b.get(*p).ok_or("short")?;
    *p += 1;
    let low = first & 31;
    let width = match low {
        0..=23 => return Ok((first >> 5, low as u64)),
        24 => 1,
        25 => 2,
        26 => 4,
        27 => 8,
        _ => return Err("head"),
    };
    let bytes = b.get(*p..*p + width).ok_or("short")?;
    *p += width;
    let n = bytes.iter().fold(0u64, |n, x| n << 8 | *x as u64);
    let shortest = match width {
        1 => n >= 24,
        2 => n >= 1 << 8,
        4 => n >= 1 << 16,
        _ => n >= 1 << 32,
    };
    if shortest { Ok((first >> 5, n)) } else { Err("head") }
}

pub fn string<'b>(b: &'b [u8], p: &mut usize, n: u64) -> Result<&'b [u8], Fault> {
    if n > (b.len() - *p) as u64 {
        return Err("short");
    }
    let string = &b[*p..*p + n as usize];
    *p += n as usize;
    Ok(string)
}

pub fn key_order(a: &[u8], b: &[u8]) -> Ordering {
    a.len().cmp(&b.len()).then_with(|| a.cmp(b))
}

fn item(b: &[u8], p: &mut usize, room: u32) -> Result<(), Fault> {
    let first = *b.get(*p).ok_or("short")?;
    if first >> 5 == 7 {
        *p += 1;
        return if (0xf4..=0xf6).contains(&first) { Ok(()) } else { Err("simple") };
    }
    let (major, n) = head(b, p)?;
    match major {
        0 => Ok(()),
        1 => if n <= i64::MAX as u64 { Ok(()) } else { Err("range") },
        2 => string(b, p, n).map(|_| ()),
        3 => std::str::from_utf8(string(b, p, n)?).map(|_| ()).map_err(|_| "utf8"),
        4 => {
            let room = room.checked_sub(1).ok_or("depth")?;
            for _ in 0..n {
                item(b, p, room)?;
            }
            Ok(())
        }
        5 => {
            let room = room.checked_sub(1).ok_or("depth")?;
            let mut last: Option<&[u8]> = None;
            for _ in 0..n {
                let (major, length) = head(b, p)?;
                if major != 3 {
                    return Err("key kind");
                }
                let key = string(b, p, length)?;
                std::str::from_utf8(key).map_err(|_| "utf8")?;
                if last.is_some_and(|last| key_order(last, key) != Ordering::Less) {
                    return Err("key order");
                }
                last = Some(key);
                item(b, p, room)?;
            }
            Ok(())
        }
        _ => {
            if n != 42 {
                return Err("tag");
            }
            let (major, n) = head(b, p)?;
            let cid = string(b, p, n)?;
            if major == 2 && cid.len() == 37 && cid[..5] == [0, 1, 0x71, 0x12, 0x20] { Ok(()) } else { Err("link") }
        }
    }
}

/// The length of a canonical block.
pub fn check(b: &[u8]) -> Result<usize, Fault> {
    let mut p = 0;
    item(b, &mut p, 96)?;
    if p == b.len() { Ok(p) } else { Err("rest") }
}

/// Passes over one item of a block that was checked.
pub fn skip(b: &[u8], p: &mut usize) {
    let mut left = 1u64;
    while left > 0 {
        left -= 1;
        let (major, n) = head(b, p).expect("checked");
        match major {
            2 | 3 => *p += n as usize,
            4 => left += n,
            5 => left += 2 * n,
            6 => left += 1,
            _ => {}
        }
    }
}

pub fn items(b: &[u8]) -> u64 {
    let mut p = 0;
    let (_, n) = head(b, &mut p).expect("checked");
    let mut sum = 0;
    for _ in 0..n {
        sum += p as u64;
        skip(b, &mut p);
    }
    sum
}

fn next_key<'b>(b: &'b [u8], p: &mut usize) -> &'b [u8] {
    let (_, n) = head(b, p).expect("checked");
    string(b, p, n).expect("checked")
}

pub fn entries(b: &[u8]) -> u64 {
    let mut p = 0;
    let (_, n) = head(b, &mut p).expect("checked");
    let mut sum = 0;
    for _ in 0..n {
        sum += next_key(b, &mut p).len() as u64;
        sum += p as u64;
        skip(b, &mut p);
    }
    sum
}

pub fn last_key(b: &[u8]) -> &[u8] {
    let mut p = 0;
    let (_, n) = head(b, &mut p).expect("checked");
    let mut last: &[u8] = &[];
    for _ in 0..n {
        last = next_key(b, &mut p);
        skip(b, &mut p);
    }
    last
}

pub fn entry(b: &[u8], key: &[u8]) -> Option<usize> {
    let mut p = 0;
    let (_, n) = head(b, &mut p).expect("checked");
    for _ in 0..n {
        if next_key(b, &mut p) == key {
            return Some(p);
        }
        skip(b, &mut p);
    }
    None
}

pub fn add_head(out: &mut Vec<u8>, major: u8, n: u64) {
    let m = major << 5;
    match n {
        0..=23 => out.push(m | n as u8),
        24..=0xff => out.extend_from_slice(&[m | 24, n as u8]),
        0x100..=0xffff => {
            out.push(m | 25);
            out.extend_from_slice(&(n as u16).to_be_bytes());
        }
        0x1_0000..=0xffff_ffff => {
            out.push(m | 26);
            out.extend_from_slice(&(n as u32).to_be_bytes());
        }
        _ => {
            out.push(m | 27);
            out.extend_from_slice(&n.to_be_bytes());
        }
    }
}

pub fn add_int(out: &mut Vec<u8>, n: i128) {
    if n >= 0 { add_head(out, 0, n as u64) } else { add_head(out, 1, (-1 - n) as u64) }
}

pub fn spell(out: &mut Vec<u8>, tree: &Tree) {
    match tree {
        Tree::Null => out.push(0xf6),
        Tree::Bool(b) => out.push(0xf4 + *b as u8),
        Tree::Int(n) => add_int(out, *n),
        Tree::Text(s) => {
            add_head(out, 3, s.len() as u64);
            out.extend_from_slice(s.as_bytes());
        }
        Tree::List(trees) => {
            add_head(out, 4, trees.len() as u64);
            for tree in trees {
                spell(out, tree);
            }
        }
        Tree::Map(entries) => {
            add_head(out, 5, entries.len() as u64);
            for (key, tree) in entries {
                add_head(out, 3, key.len() as u64);
                out.extend_from_slice(key.as_bytes());
                spell(out, tree);
            }
        }
    }
}
