//! DAG-JSON as trees, over serde_json. Links and bytes don't occur in the inputs, so a map with the only key `/` is refused.
use crate::cbor::key_order;
use serde_json::Value;

pub enum Tree {
    Null,
    Bool(bool),
    Int(i128),
    Text(String),
    List(Vec<Tree>),
    Map(Vec<(String, Tree)>),
}

fn tree_of(value: Value) -> Result<Tree, &'static str> {
    Ok(match value {
        Value::Null => Tree::Null,
        Value::Bool(b) => Tree::Bool(b),
        Value::Number(n) => match (n.as_i64(), n.as_u64()) {
            (Some(n), _) => Tree::Int(n as i128),
            (None, Some(n)) => Tree::Int(n as i128),
            (None, None) => return Err("number"),
        },
        Value::String(s) => Tree::Text(s),
        Value::Array(values) => Tree::List(values.into_iter().map(tree_of).collect::<Result<_, _>>()?),
        Value::Object(values) => {
            if values.len() == 1 && values.contains_key("/") {
                return Err("reserved");
            }
            let mut entries = Vec::with_capacity(values.len());
            for (key, value) in values {
                entries.push((key, tree_of(value)?));
            }
            entries.sort_by(|a, b| key_order(a.0.as_bytes(), b.0.as_bytes()));
            Tree::Map(entries)
        }
    })
}

pub fn read(bytes: &[u8]) -> Result<Tree, &'static str> {
    tree_of(serde_json::from_slice(bytes).map_err(|_| "syntax")?)
}

fn value_of(tree: &Tree) -> Value {
    match tree {
        Tree::Null => Value::Null,
        Tree::Bool(b) => Value::Bool(*b),
        Tree::Int(n) => match u64::try_from(*n) {
            Ok(n) => Value::from(n),
            Err(_) => Value::from(*n as i64),
        },
        Tree::Text(s) => Value::String(s.clone()),
        Tree::List(trees) => Value::Array(trees.iter().map(value_of).collect()),
        Tree::Map(entries) => Value::Object(entries.iter().map(|(key, tree)| (key.clone(), value_of(tree))).collect()),
    }
}

pub fn print(tree: &Tree) -> String {
    serde_json::to_string(&value_of(tree)).expect("a value")
}
