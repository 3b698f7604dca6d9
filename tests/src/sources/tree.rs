//! A source as a tree of words: comments, contracts and literals in quotes left out, and what
//! stands in brackets put together. A form that it does not know ends it: a wrong guess could
//! hide code.

#[derive(Clone, Debug, PartialEq)]
pub enum Tree {
    /// A word or a sign.
    Leaf(String),
    /// The opening bracket, and what stands in it.
    Group(String, Vec<Tree>),
}
use Tree::{Group, Leaf};

/// What could hide the end of a contract: comments and literals in it.
const HIDING: [&str; 7] = ["--", "{-", "//", "/*", "\"", "'{", "'}"];

/// The text after a part of a contract, which must be plain.
fn after_plain(text: &str, length: usize) -> &str {
    let (part, rest) = text.split_at(length);
    let hidden = HIDING.into_iter().find(|mark| part.contains(mark));
    assert!(hidden.is_none(), "{hidden:?} in a contract is a form that is not known: {part}");
    rest
}

/// The text after a clause, from before its opening brace or the name that stands before it.
fn after_clause(text: &str) -> &str {
    let named = text.trim_start();
    let text = named
        .trim_start_matches(|c: char| c.is_ascii_lowercase() || c.is_ascii_digit() || c == '_');
    assert!(text.trim_start().starts_with('{'), "a clause without braces");
    let mut depth = 0;
    for (i, c) in text.char_indices() {
        match c {
            '{' => depth += 1,
            '}' if depth == 1 => return after_plain(text, i + 1),
            '}' => depth -= 1,
            _ => {}
        }
    }
    panic!("a clause without an end")
}

/// The text after `ghost`: a clause, an item that imports what contracts cite, or a field or a
/// member of a trait, by its name, with the semicolon after it.
fn after_ghost(text: &str) -> &str {
    if text.trim_start().starts_with('{') {
        return after_clause(text);
    }
    if text.starts_with(" use ") {
        return after_plain(text, text.find(';').expect("an item that ends") + 1);
    }
    let named =
        text.trim_start().trim_start_matches(|c: char| c.is_ascii_alphanumeric() || c == '_');
    let value = named.trim_start().strip_prefix([':', '=']).map(str::trim_start);
    let value = value.filter(|value| value.starts_with('{'));
    let rest = after_clause(value.expect("a ghost is a clause, a use, a field or a member"));
    rest.trim_start().strip_prefix(';').unwrap_or(rest)
}

/// The text after a literal in quotes, if it begins with one: `"..."`, `'x'`, `'\x41'`.
fn after_literal(text: &str) -> Option<&str> {
    let quote = text.chars().next().filter(|c| *c == '"' || *c == '\'')?;
    let long = quote == '"' || text[1..].starts_with('\\');
    let mut escaped = false;
    for (i, c) in text.char_indices().skip(1) {
        match c {
            _ if escaped => escaped = false,
            '\\' => escaped = true,
            _ if c == quote => return Some(&text[i + 1..]),
            // A lifetime or a label has no second quote.
            _ if !long && i > 1 => return None,
            _ => {}
        }
    }
    panic!("a literal without an end")
}

/// The words and signs of a source.
fn words(mut text: &str) -> Vec<String> {
    let mut words = Vec::new();
    while let Some(c) = text.chars().next() {
        let word: String = text.chars().take_while(|c| c.is_alphanumeric() || *c == '_').collect();
        let rest = &text[word.len()..];
        // A comment in slashes and stars may hold others, and a raw literal ends otherwise.
        assert!(!text.starts_with("/*"), "a form that is not known: /*");
        let raw = ["r", "br"].contains(&word.as_str()) && rest.starts_with(['"', '#']);
        assert!(!raw, "a form that is not known: a raw literal or name");
        if text.starts_with("//") {
            text = text.split_once('\n').map_or("", |(_, rest)| rest);
        } else if word == "requires" || word == "ensures" {
            text = after_clause(rest);
        } else if word == "ghost" {
            text = after_ghost(rest);
        } else if !word.is_empty() {
            text = rest;
            words.push(word);
        } else if let Some(rest) = after_literal(text) {
            text = rest;
        } else {
            let sign = ["::", "=>", "->"].into_iter().find(|sign| text.starts_with(sign));
            let sign = sign.unwrap_or(&text[..c.len_utf8()]);
            text = &text[sign.len()..];
            words.extend(Some(sign.to_string()).filter(|_| !c.is_whitespace()));
        }
    }
    words
}

/// Words and signs up to the bracket that closes, or to the end where there is none.
fn grouped(words: &mut impl Iterator<Item = String>, close: &str) -> Vec<Tree> {
    let mut trees = Vec::new();
    loop {
        let word = words.next().unwrap_or_default();
        let inner = match word.as_str() {
            _ if word == close => return trees,
            "(" => grouped(words, ")"),
            "[" => grouped(words, "]"),
            "{" => grouped(words, "}"),
            ")" | "]" | "}" | "" => panic!("{word:?} stands where {close:?} is wanted"),
            _ => {
                trees.push(Leaf(word));
                continue;
            }
        };
        trees.push(Group(word, inner));
    }
}

/// A whole source.
pub fn trees(text: &str) -> Vec<Tree> {
    grouped(&mut words(text).into_iter(), "")
}

pub fn is(trees: &[Tree], i: usize, word: &str) -> bool {
    trees.get(i).is_some_and(|tree| matches!(tree, Leaf(leaf) if leaf == word))
}

pub fn is_group(trees: &[Tree], i: usize, bracket: &str) -> bool {
    trees.get(i).is_some_and(|tree| matches!(tree, Group(open, _) if open == bracket))
}

/// A name, and no number, sign or group.
pub fn is_name(trees: &[Tree], i: usize) -> bool {
    let begins = |c: char| c.is_alphabetic() || c == '_';
    trees.get(i).is_some_and(|tree| matches!(tree, Leaf(leaf) if leaf.starts_with(begins)))
}

pub fn word(trees: &[Tree], i: usize) -> &str {
    match trees.get(i) {
        Some(Leaf(word)) => word,
        other => panic!("a name is wanted and not {other:?}"),
    }
}

/// Where the first such place from one on is.
pub fn position(trees: &[Tree], from: usize, at: impl Fn(&[Tree], usize) -> bool) -> usize {
    (from..trees.len()).find(|i| at(trees, *i)).expect("an item that ends")
}

/// The parts between commas.
pub fn parts(trees: &[Tree]) -> impl Iterator<Item = &[Tree]> {
    let parts = trees.split(|tree| matches!(tree, Leaf(leaf) if leaf == ","));
    parts.filter(|part| !part.is_empty())
}

/// How many leaves are such words, groups included.
pub fn count(trees: &[Tree], counts: fn(&str) -> bool) -> usize {
    let in_tree = |tree: &Tree| match tree {
        Leaf(leaf) => usize::from(counts(leaf)),
        Group(_, inner) => count(inner, counts),
    };
    trees.iter().map(in_tree).sum()
}

/// Words and signs put together, without the brackets that close.
pub fn text(trees: &[Tree]) -> String {
    let of_tree = |tree: &Tree| match tree {
        Leaf(leaf) => leaf.clone(),
        Group(open, inner) => open.clone() + &text(inner),
    };
    trees.iter().map(of_tree).collect()
}

/// The names of the parameters in angle brackets that begin at a place, lifetimes left out, and
/// the place after them.
pub fn parameters(trees: &[Tree], from: usize) -> (Vec<&str>, usize) {
    let (mut names, mut depth) = (Vec::new(), 0);
    if !is(trees, from, "<") {
        return (names, from);
    }
    for i in from..trees.len() {
        depth += usize::from(is(trees, i, "<"));
        depth -= usize::from(is(trees, i, ">"));
        if depth == 0 {
            return (names, i + 1);
        }
        if i == from || (depth == 1 && is(trees, i, ",")) {
            let at = i + 1 + usize::from(is(trees, i + 1, "const"));
            names.extend(Some(at).filter(|at| is_name(trees, *at)).map(|at| word(trees, at)));
        }
    }
    panic!("parameters without an end")
}
