//! Values of one type, as Rust's own structs, written as their block.
use crate::cbor::{add_head, add_int};
use crate::json::Tree;

pub struct Person {
    age: i128,
    mail: String,
    name: String,
    tags: Vec<String>,
    ok: bool,
}

fn text_of(tree: Tree) -> Option<String> {
    match tree {
        Tree::Text(s) => Some(s),
        _ => None,
    }
}

fn texts_of(tree: Tree) -> Option<Vec<String>> {
    match tree {
        Tree::List(trees) => trees.into_iter().map(text_of).collect(),
        _ => None,
    }
}

fn person(tree: Tree) -> Option<Person> {
    let Tree::Map(entries) = tree else { return None };
    let (mut age, mut mail, mut name, mut tags, mut ok) = (None, None, None, None, None);
    for (key, tree) in entries {
        match (key.as_str(), tree) {
            ("age", Tree::Int(n)) => age = Some(n),
            ("mail", tree) => mail = Some(text_of(tree)?),
            ("name", tree) => name = Some(text_of(tree)?),
            ("tags", tree) => tags = Some(texts_of(tree)?),
            ("ok", Tree::Bool(b)) => ok = Some(b),
            _ => return None,
        }
    }
    Some(Person { age: age?, mail: mail?, name: name?, tags: tags?, ok: ok? })
}

pub fn people(tree: Tree) -> Option<Vec<Person>> {
    match tree {
        Tree::List(trees) => trees.into_iter().map(person).collect(),
        _ => None,
    }
}

fn add_text(out: &mut Vec<u8>, s: &str) {
    add_head(out, 3, s.len() as u64);
    out.extend_from_slice(s.as_bytes());
}

/// The fields in the order of their keys.
fn write_person(out: &mut Vec<u8>, person: &Person) {
    add_head(out, 5, 5);
    add_text(out, "ok");
    out.push(0xf4 + person.ok as u8);
    add_text(out, "age");
    add_int(out, person.age);
    add_text(out, "mail");
    add_text(out, &person.mail);
    add_text(out, "name");
    add_text(out, &person.name);
    add_text(out, "tags");
    add_head(out, 4, person.tags.len() as u64);
    for tag in &person.tags {
        add_text(out, tag);
    }
}

pub fn write(out: &mut Vec<u8>, people: &[Person]) {
    add_head(out, 4, people.len() as u64);
    for person in people {
        write_person(out, person);
    }
}

fn integer_of(tree: Tree) -> Option<i64> {
    match tree {
        Tree::Int(n) => i64::try_from(n).ok(),
        _ => None,
    }
}

pub fn integers(tree: Tree) -> Option<Vec<i64>> {
    match tree {
        Tree::List(trees) => trees.into_iter().map(integer_of).collect(),
        _ => None,
    }
}

fn add_integer(out: &mut Vec<u8>, n: i64) {
    if n >= 0 { add_head(out, 0, n as u64) } else { add_head(out, 1, (-1 - n) as u64) }
}

pub fn write_integers(out: &mut Vec<u8>, integers: &[i64]) {
    add_head(out, 4, integers.len() as u64);
    for n in integers {
        add_integer(out, *n);
    }
}
