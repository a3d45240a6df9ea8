//! Just enough of the schema language for the input: struct types of fields. Names are looked up, and duplicates refused.
use std::collections::{HashMap, HashSet};

struct Token<'s> {
    text: &'s str,
    is_word: bool,
}

fn tokens(source: &str) -> Result<Vec<Token<'_>>, &'static str> {
    let bytes = source.as_bytes();
    let (mut tokens, mut i) = (Vec::new(), 0);
    while i < bytes.len() {
        match bytes[i] {
            b' ' | b'\t' | b'\r' | b'\n' => i += 1,
            b'#' => {
                while i < bytes.len() && bytes[i] != b'\n' {
                    i += 1;
                }
            }
            c if c.is_ascii_alphabetic() || c == b'_' => {
                let from = i;
                while i < bytes.len() && (bytes[i].is_ascii_alphanumeric() || bytes[i] == b'_') {
                    i += 1;
                }
                tokens.push(Token { text: &source[from..i], is_word: true });
            }
            b'{' | b'}' | b'[' | b']' | b'(' | b')' | b':' | b'=' | b'|' | b'&' => {
                tokens.push(Token { text: &source[i..i + 1], is_word: false });
                i += 1;
            }
            _ => return Err("char"),
        }
    }
    Ok(tokens)
}

struct Field {
    name: String,
    optional: bool,
    ty: String,
}

struct Decl {
    name: String,
    fields: Vec<Field>,
}

struct Reader<'t, 's> {
    tokens: &'t [Token<'s>],
    at: usize,
}

impl<'s> Reader<'_, 's> {
    fn peek(&self) -> Option<&str> {
        self.tokens.get(self.at).map(|t| t.text)
    }

    fn mark(&mut self, text: &str) -> Result<(), &'static str> {
        if self.peek() == Some(text) {
            self.at += 1;
            Ok(())
        } else {
            Err("syntax")
        }
    }

    fn word(&mut self) -> Result<String, &'static str> {
        match self.tokens.get(self.at) {
            Some(token) if token.is_word => {
                self.at += 1;
                Ok(token.text.into())
            }
            _ => Err("syntax"),
        }
    }

    fn decl(&mut self) -> Result<Decl, &'static str> {
        self.mark("type")?;
        let name = self.word()?;
        self.mark("struct")?;
        self.mark("{")?;
        let mut fields = Vec::new();
        while self.peek() != Some("}") {
            let name = self.word()?;
            let mut ty = self.word()?;
            let optional = ty == "optional";
            if optional {
                ty = self.word()?;
            }
            fields.push(Field { name, optional, ty });
        }
        self.at += 1;
        Ok(Decl { name, fields })
    }
}

/// How many types the schema has, where it is one.
pub fn compile(bytes: &[u8]) -> Result<usize, &'static str> {
    let source = std::str::from_utf8(bytes).map_err(|_| "utf8")?;
    let tokens = tokens(source)?;
    let mut reader = Reader { tokens: &tokens, at: 0 };
    let mut decls = Vec::new();
    while reader.peek().is_some() {
        decls.push(reader.decl()?);
    }
    let prelude = ["Any", "Bool", "Bytes", "Int", "Link", "List", "Map", "String"];
    let mut numbers: HashMap<&str, usize> = prelude.iter().enumerate().map(|(i, name)| (*name, i)).collect();
    for (i, decl) in decls.iter().enumerate() {
        if numbers.insert(&decl.name, 8 + i).is_some() {
            return Err("twice");
        }
    }
    let mut rows = Vec::with_capacity(decls.len());
    for decl in &decls {
        let mut names = HashSet::new();
        let mut row = Vec::with_capacity(decl.fields.len());
        for field in &decl.fields {
            if !names.insert(field.name.as_str()) {
                return Err("name clash");
            }
            row.push((*numbers.get(field.ty.as_str()).ok_or("unknown")?, field.optional));
        }
        rows.push(row);
    }
    Ok(8 + rows.len())
}
