//! The proved crates' sources, read as text: what a function and all that it calls hold,
//! comments and contracts left out. A form that the reader does not know, or a name that is
//! called and whose source it does not have, is an error: a guess could hide code. The few
//! methods and cases of the language that may be called are named here.

mod tree;

use std::collections::{BTreeMap, BTreeSet};
use std::fs;
use std::path::Path;

use tree::Tree::{Group, Leaf};
use tree::{count, is, is_group, is_name, parameters, parts, position, text, trees, word, Tree};

/// A function's body or a constant's value, and the module whose names it uses.
#[derive(Clone, Debug, PartialEq)]
struct Code {
    module: String,
    trees: Vec<Tree>,
}

/// What a crate declares, each by its whole path, as `rounding::near`.
#[derive(Clone, Debug, PartialEq)]
enum Item {
    Module,
    /// A struct without cases, or an enum with its own.
    Type(Vec<String>),
    /// Which of its functions a name stands for, the type decides.
    Trait,
    Import(String),
    Constant(Code),
    Function(Code),
}

/// The items of every crate.
pub struct Sources {
    items: BTreeMap<String, Item>,
    /// The parameters that stand for types and numbers, each with its module.
    parameters: Vec<(String, String)>,
    /// The traits that types are given, each with its module.
    given: Vec<(String, String)>,
}

/// What a function holds together with all that it calls.
#[derive(Debug, PartialEq)]
pub struct Holding {
    /// The functions and constants, itself among them.
    pub code: Vec<String>,
    /// Signs of a division or a remainder, and methods that are one.
    pub signs: usize,
    /// Words that begin a loop.
    pub loops: usize,
    /// Functions that reach themselves.
    pub recursive: Vec<String>,
    /// How often one call divides at most, on any of its ways; nothing is said where a
    /// function or a loop goes round.
    pub divides: Option<usize>,
}

/// Words that are no names of anything declared.
const WORDS: [&str; 18] = [
    "as", "break", "const", "continue", "else", "false", "for", "if", "in", "let", "loop", "match",
    "move", "mut", "ref", "return", "true", "while",
];
const LOOPS: [&str; 3] = ["for", "loop", "while"];

/// Words that begin an item, which in a body could give a name another meaning.
const ITEMS: [&str; 11] =
    ["async", "enum", "fn", "impl", "mod", "static", "struct", "trait", "type", "unsafe", "use"];

/// Methods of the language that may be called: `unsigned_abs` is a number without its sign, and
/// `or` one of two values; neither divides.
const METHODS: [&str; 2] = ["or", "unsigned_abs"];
/// The language's cases that hold a value, which look like calls.
const CASES: [&str; 3] = ["Err", "Ok", "Some"];

/// Traits of the language that a type may be given. No operator calls their functions. A `?` or a
/// macro may, and is an error in what is reached; so may a `for`, which counts as a loop.
const TRAITS: [&str; 5] = ["Display", "From", "Iterator", "Model", "TryFrom"];

const SIGNS: [&str; 2] = ["/", "%"];
/// Of the language's methods on numbers those divide whose names have one of these parts, as
/// `div_ceil`, `checked_rem` and `is_multiple_of`.
const DIVIDING: [&str; 4] = ["div", "midpoint", "multiple", "rem"];

fn is_sign(word: &str) -> bool {
    SIGNS.contains(&word)
}

fn is_division(word: &str) -> bool {
    is_sign(word) || word.split('_').any(|part| DIVIDING.contains(&part))
}

fn is_loop(word: &str) -> bool {
    LOOPS.contains(&word)
}

/// The module of a file, as `rounding::signed` of `rounding/src/signed.rt`.
fn module_of(file: &str) -> String {
    let (name, rest) = file.split_once("/src/").expect("a file of a crate");
    let rest = rest.strip_suffix(".rt").expect("a file of Rattle");
    match rest.strip_suffix("/mod").unwrap_or(rest) {
        "lib" | "main" => name.to_string(),
        inner => format!("{name}::{}", inner.replace('/', "::")),
    }
}

fn parent(path: &str) -> &str {
    path.rsplit_once("::").map_or(path, |(parent, _)| parent)
}

/// The text of each file by its name from the folder `crates` on.
pub type Files = BTreeMap<String, String>;

/// Every source file of the crates in a folder.
pub fn files(crates: &Path) -> Files {
    let mut files = Files::new();
    let mut folders = vec![crates.to_path_buf()];
    while let Some(folder) = folders.pop() {
        for entry in fs::read_dir(&folder).expect("a folder of sources") {
            let path = entry.expect("a file of the folder").path();
            if path.is_dir() {
                // What a check made of the sources stands in `out`.
                folders.extend(Some(path).filter(|path| !path.ends_with("out")));
            } else if path.extension().is_some_and(|extension| extension == "rt") {
                let name = path.strip_prefix(crates).expect("a file in the folder");
                let name = name.to_str().expect("a name in plain letters").to_string();
                files.insert(name, fs::read_to_string(&path).expect("a source"));
            }
        }
    }
    files
}

/// A declared type. Lengths of arrays in it, and numbers of cases, are no places to compute.
fn declared_type(item: &[Tree]) -> Item {
    assert_eq!(count(item, is_sign), 0, "a type that divides: {item:?}");
    match item.last() {
        Some(Group(_, inner)) if is(item, 0, "enum") => {
            Item::Type(parts(inner).map(|part| word(part, 0).to_string()).collect())
        }
        _ => Item::Type(Vec::new()),
    }
}

/// How many such words an item's own code has.
fn held(item: &Item, counts: fn(&str) -> bool) -> usize {
    match item {
        Item::Constant(code) | Item::Function(code) => count(&code.trees, counts),
        _ => 0,
    }
}

impl Sources {
    pub fn of(files: &Files) -> Self {
        let mut sources =
            Self { items: BTreeMap::new(), parameters: Vec::new(), given: Vec::new() };
        let mut signs = 0;
        for (file, text) in files {
            let (module, trees) = (module_of(file), trees(text));
            sources.put(module.clone(), Item::Module);
            sources.declare(&module, &module, &trees);
            signs += count(&trees, is_sign);
        }
        let within: usize = sources.items.values().map(|item| held(item, is_sign)).sum();
        assert_eq!(within, signs, "a sign that stands in no function and no constant");
        for (module, name) in &sources.parameters {
            let found = sources.find(module, name);
            assert!(found.is_none(), "{name} in {module} is a parameter, and means {found:?} too");
        }
        for (module, name) in &sources.given {
            let found = sources.find(module, name).map(|found| &sources.items[&found]);
            let last = name.rsplit("::").next().unwrap_or(name);
            let known = found == Some(&Item::Trait) || found.is_none() && TRAITS.contains(&last);
            assert!(known, "a trait in {module} that is not known: {name}");
        }
        sources
    }

    fn put(&mut self, path: String, item: Item) {
        let before = self.items.insert(path.clone(), item);
        assert!(before.is_none(), "{path} is declared twice, so a name could mean either");
    }

    /// Puts down the parameters that begin at a place, and answers where they end.
    fn put_parameters(&mut self, module: &str, trees: &[Tree], from: usize) -> usize {
        let (names, end) = parameters(trees, from);
        self.parameters.extend(names.iter().map(|name| (module.to_string(), name.to_string())));
        end
    }

    /// Puts down each item of a module, or of a type's or a trait's functions there, under a path.
    fn declare(&mut self, module: &str, path: &str, trees: &[Tree]) {
        let mut i = 0;
        while i < trees.len() {
            let code = |trees: &[Tree]| Code { module: module.to_string(), trees: trees.to_vec() };
            let (end, item) = match word(trees, i) {
                // Of an item, or of the whole file.
                "#" => (i + 1 + usize::from(is(trees, i + 1, "!")), None),
                "pub" => (i + usize::from(is_group(trees, i + 1, "(")), None),
                "extern" => (i, None),
                "const" if is(trees, i + 1, "fn") => (i, None),
                "const" => {
                    let end = position(trees, i, |t, i| is(t, i, ";"));
                    (end, Some(Item::Constant(code(&trees[i + 2..end]))))
                }
                "fn" => {
                    let end = position(trees, i, |t, i| is(t, i, ";") || is_group(t, i, "{"));
                    assert_eq!(count(&trees[i..end], is_sign), 0, "a type that divides");
                    self.put_parameters(module, trees, i + 2);
                    // A trait's function without a body is each type's own.
                    let body = Some(&trees[end..=end]).filter(|body| is_group(body, 0, "{"));
                    (end, body.map(|body| Item::Function(code(body))))
                }
                "struct" | "enum" | "type" => {
                    let end = position(trees, i, |t, i| is(t, i, ";") || is_group(t, i, "{"));
                    self.put_parameters(module, trees, i + 2);
                    (end, Some(declared_type(&trees[i..=end])))
                }
                _ => (self.declare_other(module, trees, i), None),
            };
            if let Some(item) = item {
                self.put(format!("{path}::{}", word(trees, i + 1)), item);
            }
            i = end + 1;
        }
    }

    /// The same of an item that has no code of its own; where it ends.
    fn declare_other(&mut self, module: &str, trees: &[Tree], i: usize) -> usize {
        let end = position(trees, i, |t, i| is(t, i, ";") || is_group(t, i, "{"));
        match (word(trees, i), &trees[end]) {
            // A file of its own declares the module.
            ("mod", Leaf(_)) => end,
            ("trait", Group(_, inner)) => {
                assert_eq!(count(&trees[i..end], is_sign), 0, "a type that divides");
                self.put_parameters(module, trees, i + 2);
                let path = format!("{module}::{}", word(trees, i + 1));
                self.put(path.clone(), Item::Trait);
                self.declare(module, &path, inner);
                end
            }
            ("impl", Group(_, inner)) => {
                assert_eq!(count(&trees[i..end], is_sign), 0, "a type that divides");
                let from = self.put_parameters(module, trees, i + 1);
                let path = self.implemented(module, &trees[from..end]);
                self.declare(module, &path, inner);
                end
            }
            ("use", _) => {
                let end = position(trees, i, |t, i| is(t, i, ";"));
                self.import(module, "", &trees[i + 1..end]);
                end
            }
            (other, _) => panic!("a form in {module} that is not known: {other}"),
        }
    }

    /// The path of a type's functions, from what stands before them: `counting::Tally` of its own
    /// ones, `packing::<SheetRecord as Part>` of those that a trait wants.
    fn implemented(&mut self, module: &str, trees: &[Tree]) -> String {
        let end = (0..trees.len()).find(|i| is(trees, *i, "where")).unwrap_or(trees.len());
        let before = |sign, end| (0..end).find(|i| is(trees, *i, sign)).unwrap_or(end);
        let of_trait = before("for", end);
        if of_trait < end {
            let name = text(&trees[..before("<", of_trait)]);
            self.given.push((module.to_string(), name));
            let (a_trait, a_type) = (text(&trees[..of_trait]), text(&trees[of_trait + 1..end]));
            return format!("{module}::<{a_type} as {a_trait}>");
        }
        // The type is one of this module: a call looks for its functions there.
        assert_eq!(before("<", end), 1, "a form in {module} that is not known: impl {trees:?}");
        format!("{module}::{}", word(trees, 0))
    }

    /// Puts down what a `use` brings: `a::b`, `a::b as c`, `a::{b, c}`.
    fn import(&mut self, module: &str, before: &str, trees: &[Tree]) {
        let mut path = before.to_string();
        let mut name = "";
        for (i, tree) in trees.iter().enumerate() {
            match tree {
                Group(_, inner) => {
                    return parts(inner).for_each(|part| self.import(module, &path, part));
                }
                Leaf(leaf) if leaf == "as" => {
                    name = word(trees, i + 1);
                    break;
                }
                Leaf(leaf) => {
                    assert_ne!(leaf, "*", "a form in {module} that is not known: {path}*");
                    path.push_str(leaf);
                    name = leaf;
                }
            }
        }
        self.put(format!("{module}::{name}"), Item::Import(path));
    }

    /// The whole path of what a name stands for in a module.
    fn find(&self, module: &str, path: &str) -> Option<String> {
        let (head, rest) = path.split_once("::").unwrap_or((path, ""));
        let crate_name = module.split("::").next().unwrap_or(module);
        let inner = format!("{module}::{head}");
        let mut at = match head {
            "crate" => crate_name.to_string(),
            "self" => module.to_string(),
            "super" => parent(module).to_string(),
            _ if self.items.contains_key(&inner) => self.followed(inner)?,
            _ if self.items.get(head) == Some(&Item::Module) => head.to_string(),
            _ => return None,
        };
        for segment in rest.split("::").filter(|segment| !segment.is_empty()) {
            if self.items.get(&at) == Some(&Item::Trait) {
                return None;
            }
            let case = |cases: &Vec<String>| cases.iter().any(|case| case == segment);
            if matches!(self.items.get(&at), Some(Item::Type(cases)) if case(cases)) {
                return Some(at);
            }
            at = self.followed(format!("{at}::{segment}"))?;
        }
        Some(at)
    }

    /// An item, or what it brings in if it is a `use`.
    fn followed(&self, path: String) -> Option<String> {
        match self.items.get(&path)? {
            Item::Import(target) => self.find(parent(&path), target),
            _ => Some(path),
        }
    }

    /// Whether a function of the crates has this name, wherever it stands.
    fn is_own(&self, name: &str) -> bool {
        let named = |path: &str| path.rsplit("::").next() == Some(name);
        self.items.iter().any(|(path, item)| named(path) && matches!(item, Item::Function(_)))
    }

    /// The code that the word at a place stands for: a function that is called, or a constant.
    fn code_at(&self, module: &str, trees: &[Tree], i: usize) -> Result<Option<String>, String> {
        let after = |sign| i > 0 && is(trees, i - 1, sign);
        if !is_name(trees, i) || WORDS.contains(&word(trees, i)) {
            return Ok(None);
        }
        let (mut path, mut end) = (word(trees, i).to_string(), i + 1);
        while is(trees, end, "::") {
            path = format!("{path}::{}", word(trees, end + 1));
            end += 2;
        }
        // A path is looked up at its head, which is a name.
        if after("::") {
            let headed = i > 1 && is_name(trees, i - 2);
            return if headed { Ok(None) } else { Err(format!("{module}: ::{path}")) };
        }
        let called = is_group(trees, end, "(");
        let macro_called = is(trees, end, "!") && matches!(trees.get(end + 1), Some(Group(..)));
        // After one dot a field or a method, after two the end of a range.
        let of_value = after(".") && !(i > 1 && is(trees, i - 2, "."));
        let found = self.find(module, &path).filter(|_| !of_value && !macro_called);
        match found.as_ref().map(|found| &self.items[found]) {
            Some(Item::Constant(_)) => Ok(found),
            Some(Item::Function(_)) if called => Ok(found),
            Some(Item::Type(_)) => Ok(None),
            None if called && of_value && METHODS.contains(&&*path) && !self.is_own(&path) => {
                Ok(None)
            }
            None if called && !of_value && CASES.contains(&&*path) => Ok(None),
            // A local, or a field of one.
            _ if !called && !macro_called && !path.contains("::") => Ok(None),
            _ => Err(format!("{module}: {path} is not known from the sources")),
        }
    }

    fn code(&self, path: &str) -> &Code {
        match self.items.get(path) {
            Some(Item::Constant(code) | Item::Function(code)) => code,
            other => panic!("{path} is no function: {other:?}"),
        }
    }

    /// What these trees call themselves.
    fn calls(&self, module: &str, trees: &[Tree]) -> Result<BTreeSet<String>, String> {
        let mut calls = BTreeSet::new();
        for (i, tree) in trees.iter().enumerate() {
            if unnamed(trees, i) {
                return Err(format!("{module}: code without a name at {tree:?}"));
            }
            calls.extend(self.code_at(module, trees, i)?);
            if let Group(open, inner) = tree {
                // After a block an expression in brackets may begin.
                if open != "{" && is_group(trees, i + 1, "(") {
                    return Err(format!("{module}: what is called stands in brackets: {tree:?}"));
                }
                calls.append(&mut self.calls(module, inner)?);
            }
        }
        Ok(calls)
    }

    /// A function among these trees that is not called there: handed on, it could be called by
    /// another name. A local may have a function's name.
    fn handed_on(&self, module: &str, trees: &[Tree], locals: &BTreeSet<&str>) -> Option<String> {
        let of_value = |i: usize| i > 0 && (is(trees, i - 1, ".") || is(trees, i - 1, "::"));
        let here = |i: usize| match &trees[i] {
            Group(_, inner) => self.handed_on(module, inner, locals),
            Leaf(leaf) if of_value(i) || locals.contains(leaf.as_str()) => None,
            Leaf(_) if is(trees, i + 1, "::") || is_group(trees, i + 1, "(") => None,
            Leaf(leaf) => {
                let found = self.find(module, leaf)?;
                Some(found).filter(|found| matches!(self.items[found], Item::Function(_)))
            }
        };
        (0..trees.len()).find_map(here)
    }

    /// All that is reached from a function by at least one call.
    fn reached(&self, path: &str) -> Result<BTreeSet<String>, String> {
        let mut reached = BTreeSet::new();
        let mut left = vec![path.to_string()];
        while let Some(next) = left.pop() {
            let Code { module, trees } = self.code(&next);
            let calls = self.calls(module, trees)?;
            if let Some(other) = self.handed_on(module, trees, &locals(trees)) {
                return Err(format!("{module}: {other} is not called where it stands"));
            }
            left.extend(calls.into_iter().filter(|call| reached.insert(call.clone())));
        }
        Ok(reached)
    }

    /// What a function holds, with all that it calls.
    pub fn holding(&self, path: &str) -> Result<Holding, String> {
        let mut code = self.reached(path)?;
        code.insert(path.to_string());
        let mut recursive = Vec::new();
        for function in &code {
            if self.reached(function)?.contains(function) {
                recursive.push(function.clone());
            }
        }
        let total = |counts| code.iter().map(|path| count(&self.code(path).trees, counts)).sum();
        let (signs, loops): (usize, usize) = (total(is_division), total(is_loop));
        let ends = loops == 0 && recursive.is_empty();
        let divides = if ends { Some(self.divides(path)?) } else { None };
        Ok(Holding { code: code.into_iter().collect(), signs, loops, recursive, divides })
    }

    /// Every function and constant that holds such signs itself, with their number.
    pub fn dividing(&self) -> BTreeMap<&str, usize> {
        let signs = |(path, item)| (String::as_str(path), held(item, is_division));
        let items = self.items.iter().map(signs);
        items.filter(|(_, signs)| *signs > 0).collect()
    }

    /// How often one call divides at most.
    fn divides(&self, path: &str) -> Result<usize, String> {
        let Code { module, trees } = self.code(path);
        self.most(module, trees)
    }

    /// How often these trees divide at most, one after the other; of the ways that part at an
    /// `if`, a `match` or a `let .. else` one is gone.
    fn most(&self, module: &str, trees: &[Tree]) -> Result<usize, String> {
        let (mut most, mut i) = (0, 0);
        while i < trees.len() {
            if is(trees, i, "if") || is(trees, i, "match") {
                let Ways { asked, taken, left, end } = self.ways(module, trees, i)?;
                let Some(left) = left else {
                    return Ok(most + asked + taken.max(self.most(module, &trees[end..])?));
                };
                most += asked + taken.max(left);
                i = end;
                continue;
            }
            if is(trees, i, "else") {
                let taken = self.most(module, after_let(&trees[..i], &trees[i + 1..])?)?;
                return Ok(most + taken.max(self.most(module, &trees[i + 2..])?));
            }
            most += match &trees[i] {
                Group(_, inner) => self.most(module, inner)?,
                leaf => count(std::slice::from_ref(leaf), is_division),
            };
            if let Some(call) = self.code_at(module, trees, i)? {
                most += self.divides(&call)?;
            }
            i += 1;
        }
        Ok(most)
    }

    /// The ways that part at an `if` or a `match`.
    fn ways(&self, module: &str, trees: &[Tree], i: usize) -> Result<Ways, String> {
        // A pattern may have braces.
        let from =
            if is(trees, i + 1, "let") { position(trees, i, |t, i| is(t, i, "=")) } else { i };
        let block = position(trees, from, |trees, i| is_group(trees, i, "{"));
        let asked = self.most(module, &trees[i + 1..block])?;
        let Group(_, inner) = &trees[block] else { unreachable!("a block") };
        if is(trees, i, "match") {
            let taken = self.arms(module, inner)?;
            return Ok(Ways { asked, taken, left: Some(0), end: block + 1 });
        }
        let taken = self.most(module, inner)?;
        let end = block + 1;
        Ok(match trees.get(block + 2).filter(|_| is(trees, end, "else")) {
            Some(Group(_, inner)) => {
                Ways { asked, taken, left: Some(self.most(module, inner)?), end: end + 2 }
            }
            Some(_) => {
                let other = self.ways(module, trees, block + 2)?;
                let left = other.asked + other.taken.max(other.left.unwrap_or(0));
                Ways { asked, taken, left: Some(left), end: other.end }
            }
            None => Ways { asked, taken, left: Some(0).filter(|_| !leaves(inner)), end },
        })
    }

    /// The arm of a `match` that divides most.
    fn arms(&self, module: &str, trees: &[Tree]) -> Result<usize, String> {
        let (mut most, mut begin, mut i) = (0, 0, 0);
        while i < trees.len() {
            let block = is(trees, i, "=>") && is_group(trees, i + 1, "{");
            if block || is(trees, i, ",") || i + 1 == trees.len() {
                let end = i + 1 + usize::from(block);
                most = most.max(self.most(module, &trees[begin..end])?);
                (begin, i) = (end, end);
            } else {
                i += 1;
            }
        }
        Ok(most)
    }
}

/// Divisions of what is asked, of the way that is taken then, and of the other one: nothing where
/// that one is all that follows, since the first returns.
struct Ways {
    asked: usize,
    taken: usize,
    left: Option<usize>,
    end: usize,
}

/// The names that each `let` gives.
fn locals(trees: &[Tree]) -> BTreeSet<&str> {
    let mut names = BTreeSet::new();
    for (i, tree) in trees.iter().enumerate() {
        let at = i + 1 + usize::from(is(trees, i + 1, "mut"));
        match tree {
            Group(_, inner) => names.append(&mut locals(inner)),
            Leaf(leaf) if leaf == "let" && is_name(trees, at) => {
                names.insert(word(trees, at));
            }
            Leaf(_) => {}
        }
    }
    names
}

/// Whether code is called at a place, or begins there, that no item's name stands for: what turns
/// one error into another at a `?`, a closure, or an item in a body.
fn unnamed(trees: &[Tree], i: usize) -> bool {
    let value = |i: usize| match &trees[i] {
        Leaf(leaf) => {
            !WORDS.contains(&&**leaf) && leaf.starts_with(|c: char| c.is_alphanumeric() || c == '_')
        }
        Group(open, _) => open != "{",
    };
    // Between two values the sign is an operator, or parts two patterns.
    let closure = is(trees, i, "|") && !(i > 0 && (value(i - 1) || is(trees, i - 1, "|")));
    let item = ITEMS.iter().any(|word| is(trees, i, word));
    closure || item || is(trees, i, "?")
}

/// Whether a block returns, whatever comes before its end.
fn leaves(block: &[Tree]) -> bool {
    let begins = |i: usize| i == 0 || is(block, i - 1, ";") || is_group(block, i - 1, "{");
    (0..block.len()).any(|i| is(block, i, "return") && begins(i))
}

/// The block after an `else` that no `if` has taken: it belongs to a `let`, whose value has no
/// block, and leaves.
fn after_let<'a>(before: &[Tree], after: &'a [Tree]) -> Result<&'a [Tree], String> {
    let from = (0..before.len()).rfind(|i| is(before, *i, "let"));
    let value = from.and_then(|from| (from..before.len()).find(|i| is(before, *i, "=")));
    let plain = |from: usize| {
        let value = &before[from..];
        let block = (0..value.len()).any(|i| is_group(value, i, "{"));
        !block && [";", "if", "match"].iter().all(|word| !value.contains(&Leaf(word.to_string())))
    };
    match after.first() {
        Some(Group(_, inner)) if value.is_some_and(plain) => Ok(inner),
        other => Err(format!("an else that is not known: {other:?}")),
    }
}

#[cfg(test)]
mod tests {
    use super::*;

    /// A crate `up`, whose `f` has this body, with a module `up::side`, over a crate `low`.
    fn sources(body: &str) -> Sources {
        let root = format!(
            "// A comment: a / b.\nghost use lib.X.{{_/_}};\nuse low::{{halved, Kind as Sort}};\n\
             use crate::side::twice;\npub mod side;\nconst TENTH: u64 = 100 / 10;\n\
             pub fn f(a: u64, b: u64) -> u64\n    requires {{ ⌜ {{b}} (a / b) ⌝ }}\n    \
             ensures {{ λ r. ⌜ r ≡ a / b ⌝ }}\n{{\n    {body}\n}}\n"
        );
        let low = "pub enum Kind { One, Two(u64) }\npub struct Pair { pub a: u64 }\n\
                   impl Pair { pub fn half(self) -> u64 { self.a / 2 } }\n\
                   pub fn halved(a: u64) -> u64 { a / 2 }\n\
                   #[no_mangle]\npub extern \"C\" fn none<'a>(a: &'a [u8]) -> u8 { b'/' }\n\
                   pub(crate) struct Whole<'a, T: Copy>(pub(crate) &'a T);\n\
                   struct Few { a: u64, ghost few: { a / 2 ≤ 7 }, }\n\
                   pub trait Part: Copy {\n    ghost Size: { ℕ → Type 0 };\n    \
                   const LONG: u64;\n    fn part(self) -> u64 ensures { a / 2 };\n    \
                   fn again(self) -> u64 { self.part() % 2 }\n}\n\
                   impl Part for Pair {\n    ghost Size = { λ a. a / 2 };\n    \
                   const LONG: u64 = 6 / 3 / 2;\n    type Of = u64;\n    \
                   fn part(self) -> u64 { self.a.div_ceil(3) }\n}\n\
                   impl<'a, T: Copy> Part for Whole<'a, T> where T: Part {\n    \
                   fn part(self) -> u64 { 7 % 2 }\n}\n\
                   impl From<Pair> for Kind { fn from(a: Pair) -> Self { Kind::Two(a.a / 2) } }\n\
                   impl From<u64> for Kind { fn from(a: u64) -> Self { Kind::Two(a / 2 / 2) } }\n\
                   impl<'a, T: Copy> Whole<'a, T> {\n    const DEEP: u64 = 6 / 3;\n    \
                   #[tactic(auto, using(low::proofs::Half::half), unfolding(low::specs::Half))]\n    \
                   pub fn of<const N: usize>(a: u64) -> u64 { a / 5 }\n}\n";
        let side =
            "use super::f;\nuse low::halved as h;\npub fn twice(a: u64) -> u64 { h(h(a)) }\n\
                    pub(crate) fn round(a: u64) -> u64 { f(a, a) }\n";
        let files = [("low/src/lib.rt", low), ("up/src/lib.rt", &root), ("up/src/side.rt", side)];
        let files = files.map(|(name, text)| (name.to_string(), text.to_string()));
        Sources::of(&Files::from(files))
    }

    fn holding(body: &str) -> Result<Holding, String> {
        sources(body).holding("up::f")
    }

    /// Signs, loops, functions that reach themselves, and divisions of one call.
    fn counts(body: &str) -> (usize, usize, usize, Option<usize>) {
        let holding = holding(body).expect("known names");
        (holding.signs, holding.loops, holding.recursive.len(), holding.divides)
    }

    #[test]
    fn comments_contracts_and_literals_are_left_out() {
        assert_eq!(counts("a + b // a / b"), (0, 0, 0, Some(0)));
        let literals = "let c = b'/'; let d = b'\\''; let s = b\"a / \\\" b\"; a";
        assert_eq!(counts(literals), (0, 0, 0, Some(0)));
        assert_eq!(counts("b'\\x41'%'a: loop { break 'a 7; }"), (1, 1, 0, None));
    }

    #[test]
    fn divisions_and_remainders_count() {
        assert_eq!(counts("a / b"), (1, 0, 0, Some(1)));
        assert_eq!(counts("a % b"), (1, 0, 0, Some(1)));
        assert_eq!(counts("let mut c = a; c /= b; c %= a; c"), (2, 0, 0, Some(2)));
        assert_eq!(counts("(a + (b / 2))"), (1, 0, 0, Some(1)));
    }

    /// Functions of types, of traits and of a type's traits, and constants of all of them.
    #[test]
    fn every_sign_has_a_place() {
        let places = [
            ("low::<Kind as From<Pair>>::from", 1),
            ("low::<Kind as From<u64>>::from", 2),
            ("low::<Pair as Part>::LONG", 2),
            ("low::<Pair as Part>::part", 1),
            ("low::<Whole<'a,T> as Part>::part", 1),
            ("low::Pair::half", 1),
            ("low::Part::again", 1),
            ("low::Whole::DEEP", 1),
            ("low::Whole::of", 1),
            ("low::halved", 1),
            ("up::TENTH", 1),
            ("up::f", 5),
        ];
        let body = "let c = |a: u64| a / b; match a { 1 | 2 => c(a) / 2, _ => say!(a; a % b) }
                    + b.checked_div(a)? + (a.is_multiple_of(b) as u64) + a.remaining";
        assert_eq!(sources(body).dividing(), places.into());
    }

    #[test]
    fn a_known_method_is_passed_over() {
        for body in ["a.unsigned_abs()", "Ok(a).or(Err(Some(b)))", "match a { 1 | 2 => 7 | b }"] {
            assert_eq!(counts(body), (0, 0, 0, Some(0)), "{body}");
        }
        assert_eq!(counts("halved(a).or(a / b)"), (2, 0, 0, Some(2)));
        // A type of the crates may have one of its own.
        for own in ["fn or(a: u64) -> u64 { a / 2 }", "struct X; impl X { fn or(self) { 1 / 2 } }"]
        {
            let own = format!("a.or(b) }} {own} fn other() -> u64 {{ 0");
            assert!(holding(&own).is_err(), "{own}");
        }
    }

    #[test]
    fn calls_are_followed_into_every_crate() {
        for call in ["halved(a)", "low::halved(a)", "self::halved(a)", "crate::halved(a)"] {
            assert_eq!(counts(call), (1, 0, 0, Some(1)), "{call}");
            assert_eq!(holding(call).unwrap().code, ["low::halved", "up::f"]);
        }
        assert_eq!(holding("low::Pair::half(a)").unwrap().code, ["low::Pair::half", "up::f"]);
        assert_eq!(holding("low::Whole::of(a)").unwrap().code, ["low::Whole::of", "up::f"]);
        assert_eq!(counts("a + low::Whole::DEEP"), (1, 0, 0, Some(1)));
        // One sign, and it divides twice.
        assert_eq!(counts("twice(a)"), (1, 0, 0, Some(2)));
        assert_eq!(counts("side::twice(halved(a)) / b"), (2, 0, 0, Some(4)));
        assert_eq!(counts("a + TENTH"), (1, 0, 0, Some(1)));
        // A local of a function's name is no call.
        assert_eq!(counts("let halved = halved(a); halved + halved"), (1, 0, 0, Some(1)));
    }

    #[test]
    fn one_way_is_gone() {
        for (body, signs, divides) in [
            ("if a < b { a / b } else { b / a }", 2, 1),
            ("if a % 2 < b { a / b } else if a < 7 { b } else { b / a }", 3, 2),
            ("if a < b { return a / b; } b / a", 2, 1),
            ("if a < b { if b < 7 { return a; } a / b; } b / a", 2, 2),
            ("let x = if a < b { a / b } else { b }; x / 2", 2, 2),
            ("let Sort::Two(c) = k else { return a / b; }; c / a", 2, 1),
            ("let Sort::Two(c) = halved(a / b) else { return a / b; }; c / a", 4, 3),
            ("if let low::Pair { a } = p { a / b } else { b } + b / a", 2, 2),
            (
                "match k { Sort::One => a / b, Sort::Two(c) => { c / a / b } low::Kind::One => 0 }",
                3,
                2,
            ),
        ] {
            assert_eq!(counts(body), (signs, 0, 0, Some(divides)), "{body}");
        }
    }

    #[test]
    fn loops_and_recursion_are_found() {
        assert_eq!(counts("while a < b { a += 1; } a"), (0, 1, 0, None));
        assert_eq!(counts("loop { return a; }"), (0, 1, 0, None));
        assert_eq!(counts("for i in 0..b { halved(i); } a"), (1, 1, 0, None));
        assert_eq!(counts("f(a, b)"), (0, 0, 1, None));
        assert_eq!(holding("side::round(a)").unwrap().recursive, ["up::f", "up::side::round"]);
    }

    #[test]
    fn an_unknown_name_is_no_guess() {
        for body in [
            "a.div_euclid(b)",
            "a.half()",
            "Sort::Three(a)",
            "u64::MAX",
            "bytes::copy(a)",
            "::bytes::copy(a)",
            "<low::Pair>::half(a)",
            "quotient(a, b)",
            "low::third(a)",
            "low::Part::again(a)",
            "low::Part::part(a)",
            "low::Part::LONG",
            "low::Pair::part(a)",
            "low::Pair::LONG",
            "a.again()",
            "a.div_ceil(b)",
            "a.unsigned_abs::<u64>()",
            "unsigned_abs(a)",
            "a.Some(b)",
            "halved(a)?",
            "let c = |a: u64| a % b; a",
            "let halved = |a: u64| a % b; halved(halved(a))",
            "let halved = || b % 7; halved() + halved()",
            "let halved = move |a: u64| a % b; halved(halved(a))",
            "fn halved(a: u64) -> u64 { a % 7 } halved(halved(a))",
            "let twice = halved; twice(twice(a))",
            "low::Whole::of(a, halved)",
            "div!(a, b)",
            "use low::halved as g; g(a)",
            "if a < b { a } b else { a }",
            "(halved)(a)",
            "((halved))\n(a)",
            "let z = if { 5 < b } { 1 } else { halved(b) }; halved(a)",
            "let z = if 5 < { b } { 1 } else { halved(b) }; halved(a)",
            "let z = if b == { a } + 1 { 1 } else { halved(b) }; halved(a)",
            "let y = 1; if b == { a } + 1 { 1 } else { halved(b) } halved(a)",
            "let mut z = 0; if let 5 = { b } { z = 1; } else { z = halved(b); } halved(a)",
        ] {
            assert!(holding(body).is_err(), "{body}");
        }
        for body in ["a.len", "Sort::Two(a)", "low::Kind::One", "low::Pair { a }", "none[a]"] {
            assert_eq!(counts(body), (0, 0, 0, Some(0)), "{body}");
        }
    }

    /// Forms in which code could hide, or a name mean something else.
    #[test]
    fn an_unknown_form_is_no_guess() {
        let ends = "}\nfn decoy(a: u64) -> u64 {\n";
        for body in [
            "let z = /* a /* b */ \" */ b % 7; // \"",
            "let s = br\"\\\"; let z = a % 7; let y = br\"\\\";",
            "let s = r#\"a\"#; a",
            "a ) / b",
            "a } / b",
            "let s = \"a / b;",
            &format!("a {ends} a }} fn decoy(a: u64) -> u64 {{ a"),
            &format!("a {ends} a }} type decoy = u64; fn other() -> u64 {{ 0"),
            &format!("a {ends} a }} use crate::side as decoy; fn other() -> u64 {{ 0"),
            &format!("a {ends} a }} mod low {{ fn halved(a: u64) -> u64 {{ a % 2 }}"),
            &format!("a {ends} a }} use low::*; fn other() -> u64 {{ 0"),
            &format!("a {ends} a }} type T = [u64; 6 / 3]; fn other() -> u64 {{ 0"),
            &format!("a {ends} a }} fn other(c: [u64; 6 / 3]) -> u64 {{ 0"),
            &format!("a {ends} a }} fn other() -> u64 ensures {{ a -- }} {{\n }} {{ 0"),
            &format!("a {ends} a }} fn other() -> u64 ensures {{ \"}}\" }} {{ 0"),
            &format!("a {ends} a }} ghost use lib.X.{{a -- ; fn g() {{\n }}; fn other() {{ 0"),
            &format!("a {ends} a }} ghost fn other() -> u64 {{ 0"),
            &format!("a {ends} a }} ghost other: u64 {{ 0 }} fn other() -> u64 {{ 0"),
            &format!("a {ends} a }} ghost other = {{ \"}}\" }}; fn other() -> u64 {{ 0"),
            &format!("a {ends} a }} impl Div for Sort {{ fn div() {{ }} }} fn other() -> u64 {{ 0"),
            &format!("a {ends} a }} impl low::Pair {{ fn other() {{ }} }} fn other() -> u64 {{ 0"),
            &format!("a {ends} a }} impl X<{{ 6 / 3 }}> {{ fn other() {{ }} }} fn other() {{ 0"),
            &format!("a {ends} a }} fn other<low>(a: low) -> u64 {{ low::halved(a)"),
            &format!("a {ends} a }} fn other<const TENTH: u64>(a: u64) -> u64 {{ TENTH"),
            &format!(
                "a {ends} a }} impl<Sort: Copy> X<Sort> {{ fn other() {{ }} }} fn other() {{ 0"
            ),
            &format!("a {ends} a }} trait T = U; fn other() -> u64 {{ 0"),
            &format!("a {ends} a }} macro_rules! decoy {{ () => {{ 6 / 3 }} }} fn other() {{ 0"),
            &format!("a {ends} a }} thing!(6 / 3); fn other() -> u64 {{ 0"),
        ] {
            assert!(std::panic::catch_unwind(|| holding(body)).is_err(), "{body}");
        }
        let plain = format!("a {ends} a }} fn other() -> u64 ghost {{ ℕ }} {{ 0");
        assert_eq!(counts(&plain), (0, 0, 0, Some(0)));
    }
}
