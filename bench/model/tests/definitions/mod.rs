//! A file of definitions, each a paragraph `name = term`: words, applications, lists and records.

use std::collections::BTreeMap;

#[derive(Debug)]
pub enum Term {
    Word(String),
    Apply(Vec<Term>),
    List(Vec<Term>),
    Record(BTreeMap<String, Term>),
}

impl Term {
    /// The word that it is, or none.
    pub fn word(&self) -> &str {
        match self {
            Term::Word(word) => word,
            _ => "",
        }
    }

    /// A 64-bit number.
    pub fn number(&self) -> u64 {
        let word = self.word();
        let read = word.strip_prefix("0x").map_or(word.parse(), |hex| u64::from_str_radix(hex, 16));
        read.unwrap_or_else(|_| panic!("no number: {self:?}"))
    }

    /// The bytes of a number of 32 bytes, the top byte first.
    pub fn wide(&self) -> [u8; 32] {
        let digits = format!("{:0>64}", self.word().trim_start_matches("0x"));
        let byte = |at: usize| u8::from_str_radix(&digits[2 * at..2 * at + 2], 16);
        std::array::from_fn(|at| byte(at).unwrap_or_else(|_| panic!("no number: {self:?}")))
    }

    pub fn list(&self) -> &[Term] {
        match self {
            Term::List(terms) => terms,
            Term::Word(word) if word == "[]" => &[],
            _ => panic!("no list: {self:?}"),
        }
    }

    pub fn field(&self, name: &str) -> &Term {
        match self {
            Term::Record(fields) => &fields[name],
            _ => panic!("no record: {self:?}"),
        }
    }

    /// The name that is applied, and what it is applied to.
    pub fn call(&self) -> (&str, &[Term]) {
        match self {
            Term::Apply(terms) => (terms[0].word(), &terms[1..]),
            _ => (self.word(), &[]),
        }
    }
}

/// The definitions of a file by their names.
pub fn read(text: &str) -> BTreeMap<String, Term> {
    text.split("\n\n").filter_map(definition).collect()
}

fn definition(paragraph: &str) -> Option<(String, Term)> {
    let lines = paragraph.lines().filter(|line| {
        let code = line.trim_start();
        !["--", "use ", "abbrev "].iter().any(|start| code.starts_with(start))
    });
    let text = lines.collect::<Vec<_>>().join(" ");
    let (name, body) = text.split_once('=')?;
    let mut words = split(body).into_iter().rev().collect();
    Some((name.trim().to_string(), term(&mut words)))
}

fn split(text: &str) -> Vec<String> {
    let mut spaced = text.to_string();
    for mark in ["(", ")", "{", "}", ";"] {
        spaced = spaced.replace(mark, &format!(" {mark} "));
    }
    spaced.split_whitespace().map(String::from).collect()
}

/// A term from the words that are left, the next one last: items between `∷`, and a list's end `[]`.
fn term(words: &mut Vec<String>) -> Term {
    let mut items = vec![item(words)];
    let mut joined = false;
    while words.last().is_some_and(|word| word == "∷") {
        words.pop();
        joined = true;
        items.push(item(words));
    }
    let ends = items.last().is_some_and(|last| last.word() == "[]");
    if joined || ends {
        assert!(ends, "a list without an end");
        items.pop();
        return Term::List(items);
    }
    items.remove(0)
}

/// Words, terms in brackets and records, up to a mark that ends them.
fn item(words: &mut Vec<String>) -> Term {
    let mut parts = Vec::new();
    while let Some(word) = words.pop() {
        match word.as_str() {
            "(" => parts.push(bracketed(words)),
            "record" => parts.push(record(words)),
            ")" | "}" | ";" | "∷" => {
                words.push(word);
                break;
            }
            _ => parts.push(Term::Word(word)),
        }
    }
    match parts.len() {
        1 => parts.remove(0),
        _ => Term::Apply(parts),
    }
}

fn bracketed(words: &mut Vec<String>) -> Term {
    let inner = term(words);
    assert_eq!(words.pop().as_deref(), Some(")"));
    inner
}

fn record(words: &mut Vec<String>) -> Term {
    let mut fields = BTreeMap::new();
    assert_eq!(words.pop().as_deref(), Some("{"));
    while let Some(name) = words.pop().filter(|word| word != "}") {
        assert_eq!(words.pop().as_deref(), Some("="));
        fields.insert(name, term(words));
        assert_eq!(words.pop().as_deref(), Some(";"));
    }
    Term::Record(fields)
}
