//! Makes the planted judges: the reference's source with lent.rs and lists.rs, and below them a module for each, with the items that an
//! edit of plants.rs changes. Those that put other expressions in one place share such a module, and have modules of their own that say
//! which it is; each thread says so for itself.
#[path = "../plants.rs"]
mod plants;

use std::collections::HashSet;
use std::path::Path;

const REFERENCE: &str = "../../reference/src/lib.rs";
const LISTS: &str = "../lists.rs";
const LENT: &str = "../lent.rs";

fn main() {
    println!("cargo:rerun-if-changed=build.rs");
    println!("cargo:rerun-if-changed=../plants.rs");
    println!("cargo:rerun-if-changed={REFERENCE}");
    println!("cargo:rerun-if-changed={LISTS}");
    println!("cargo:rerun-if-changed={LENT}");
    plant(Path::new(&std::env::var("OUT_DIR").expect("cargo sets OUT_DIR")));
}

/// Where a text ends that begins here, however either is broken into lines: blanks are passed over, and a comma before a
/// closing bracket.
fn end_of(source: &[u8], old: &[u8], start: usize) -> Option<usize> {
    let next = |text: &[u8], from: usize| {
        let at = |from: usize| (from..text.len()).find(|&at| !text[at].is_ascii_whitespace());
        match at(from) {
            Some(comma) if text[comma] == b',' && at(comma + 1).is_some_and(|at| b")]}".contains(&text[at])) => at(comma + 1),
            other => other,
        }
    };
    let (mut here, mut there) = (start, 0);
    while let Some(wanted) = next(old, there) {
        let found = next(source, here)?;
        if source[found] != old[wanted] {
            return None;
        }
        (here, there) = (found + 1, wanted + 1);
    }
    Some(here)
}

/// The text must stand there exactly once, else the build fails.
fn edit(source: &str, plant: &str, old: &str, new: &str) -> String {
    let (old, bytes) = (old.trim(), source.as_bytes());
    let begins = |&start: &usize| bytes[start] == old.as_bytes()[0];
    let found: Vec<(usize, usize)> = (0..bytes.len())
        .filter(begins)
        .filter_map(|start| end_of(bytes, old.as_bytes(), start).map(|end| (start, end)))
        .collect();
    let [(start, end)] = found[..] else {
        println!("cargo:warning=planted {plant}: stands {} times in {REFERENCE}, not once: {}", found.len(), old.replace('\n', " "));
        return String::new();
    };
    format!("{}{}{}", &source[..start], new.trim(), &source[end..])
}

/// A line that begins so begins a section.
const RULE: &str = "// ------";

/// The items of a source: a line that isn't indented, behind an empty one, begins an item.
fn items(source: &str) -> Vec<String> {
    let (mut items, mut behind_empty) = (vec![String::new()], false);
    for line in source.split_inclusive('\n') {
        if behind_empty && !line.starts_with([' ', '}', '\n']) {
            items.push(String::new());
        }
        items.last_mut().unwrap().push_str(line);
        behind_empty = line == "\n";
    }
    items
}

/// The words of an item's code: not of its comments and strings, and no variables that stand before a field, an index or a
/// type.
fn words(item: &str) -> HashSet<&str> {
    let is_word = |c: char| c == '_' || c.is_alphanumeric();
    let code = item.lines().map(|line| line.split("//").next().unwrap_or(""));
    let mut words = HashSet::new();
    for mut rest in code.flat_map(|line| line.split('"').step_by(2)) {
        while let Some(start) = rest.find(is_word) {
            let end = rest[start..].find(|c| !is_word(c)).map_or(rest.len(), |length| start + length);
            let (word, next) = (&rest[start..end], &rest[end..]);
            let variable = next.starts_with(['.', '[']) || next.starts_with(':') && !next.starts_with("::");
            if !(variable && word.starts_with(char::is_lowercase)) {
                words.insert(word);
            }
            rest = next;
        }
    }
    words
}

/// The names that an item gives; methods stay with their type.
fn names(item: &str) -> Vec<&str> {
    let names = item.lines().filter_map(|line| {
        let mut words = line.strip_prefix("pub ").unwrap_or(line).split(|c: char| c != '_' && !c.is_alphanumeric());
        let item = ["fn", "const", "static", "struct", "enum", "type", "impl"].contains(&words.next()?);
        words.next().filter(|_| item)
    });
    names.collect()
}

/// Which items are changed by edits of these, as they or what they call are edited.
fn changed(items: &[String], words: &[HashSet<&str>], mut changed: Vec<bool>) -> Vec<bool> {
    let mut new: Vec<usize> = (0..items.len()).filter(|&at| changed[at]).collect();
    while let Some(called) = new.pop() {
        let names = names(&items[called]);
        for at in 0..items.len() {
            if !changed[at] && names.iter().any(|name| words[at].contains(name)) {
                changed[at] = true;
                new.push(at);
            }
        }
    }
    changed
}

/// Which items the calls of a judge need; the program's and the tests' others do not matter.
fn needed(items: &[String], words: &[HashSet<&str>]) -> Vec<bool> {
    let names: Vec<Vec<&str>> = items.iter().map(|item| names(item)).collect();
    let is_call = |name: &&str| CALLS.iter().any(|(_, function)| function == name);
    let mut needed: Vec<bool> = names.iter().map(|names| names.iter().any(is_call)).collect();
    let mut new: Vec<usize> = (0..items.len()).filter(|&at| needed[at]).collect();
    while let Some(calling) = new.pop() {
        for at in 0..items.len() {
            if !needed[at] && names[at].iter().any(|name| words[calling].contains(name)) {
                needed[at] = true;
                new.push(at);
            }
        }
    }
    needed
}

/// The text without the sections that have one of these functions.
fn without(source: &str, functions: &[&str]) -> String {
    let has = |section: &str| functions.iter().any(|name| section.contains(&format!("\npub fn {name}(")));
    source.split(RULE).filter(|section| !has(section)).collect()
}

/// The calls of a judge, as in src/lib.rs, and the functions that they are.
const CALLS: [(&str, &str); 9] = [
    ("open", "open"),
    ("step", "step"),
    ("ask", "ask"),
    ("feed_start", "feed_start"),
    ("feed", "feed"),
    ("feed_end", "feed_end"),
    ("balance", "balance_into"),
    ("join", "join"),
    ("whole_log", "whole_log_kept"),
];

/// A module with the items of this source that are not the reference's: those edited, and those that call them. But a join calls
/// most of the others; it stays the reference's unless it is to be wrong itself, so that it isn't compiled once for each.
fn module(out: &Path, name: &str, first: &str, source: &str, whole: &[String], of_join: bool) -> String {
    let edited = items(source);
    let words: Vec<HashSet<&str>> = edited.iter().map(|item| words(item)).collect();
    let changed = changed(&edited, &words, edited.iter().map(|item| !whole.contains(item)).collect());
    let needed = needed(&edited, &words);
    let stays = |item: &str| !of_join && item.contains("\npub fn join(");
    let own = edited.iter().zip(changed.iter().zip(&needed)).filter(|(item, (changed, needed))| **changed && **needed && !stays(item));
    let changed: String = own.map(|(item, _)| item.as_str()).collect();
    written(out, name, &format!("pub use super::*;\n{first}{changed}"))
}

/// The module's line, once its file is written.
fn written(out: &Path, name: &str, text: &str) -> String {
    let path = out.join(format!("{name}.rs"));
    std::fs::write(&path, text).expect("OUT_DIR can be written");
    format!("#[path = {path:?}]\npub mod {name};\n")
}

/// A call of the judge's own, which is the shared module's after saying which it is.
fn own_call(source: &str, shared: &str, which: usize, function: &str) -> String {
    let start = source.find(&format!("\npub fn {function}(")).expect("every call is there");
    let head = source[start + 1..].split(" {\n").next().unwrap_or("");
    let parameters = &head[head.find('(').map_or(0, |at| at + 1)..head.rfind(") ->").expect("every call answers")];
    let given: Vec<&str> = parameters.split(',').filter_map(|one| one.split_once(':')).map(|(name, _)| name.trim()).collect();
    format!(
        "{head} {{\n    super::{shared}::WHICH.set({which});\n    super::{shared}::{function}({})\n}}\n",
        given.join(", ")
    )
}

fn plant(out: &Path) {
    let reference = std::fs::read_to_string(REFERENCE).expect(REFERENCE);
    let reference = edit(&reference, "judges have no tests", "#[cfg(test)]\nmod tests;\n", "");
    let program = reference.find("\npub fn run_log").and_then(|at| reference[..at].rfind(RULE));
    let lent = std::fs::read_to_string(LENT).expect(LENT);
    let reference = format!("{}{RULE}\n\n{lent}", &reference[..program.expect("the program's section is the last")]);
    let whole = items(&reference);
    let (mut modules, mut table, mut well) = (String::new(), String::new(), true);
    // By place: whether it is the join's, the judges that put another expression there, and the expressions.
    let mut shared: Vec<(&str, bool, Vec<(String, &str)>)> = Vec::new();
    for plants::Plant { name, wrong, sights, breaks, of_clash, of_numbers, of_depth, of_release, of_crosslock, of_merge, of_usage, only_fixed, from_join, too, edits, shares } in plants::PLANTS {
        assert!(!edits.is_empty(), "planted {name}: no edit");
        let source = edits.iter().fold(reference.to_string(), |source, (old, new)| edit(&source, name, old, new));
        well &= !source.is_empty();
        let only_of = |functions: &[&str]| without(&source, functions) == without(&reference, functions);
        let (of_feed, of_balance, of_join) = (only_of(&["feed"]), only_of(&["balance", "balance_into"]), only_of(&["join"]));
        let own = format!("plant_{}", name.replace('-', "_"));
        if *shares {
            let [(place, new)] = edits else { panic!("planted {name}: not one edit") };
            match shared.iter_mut().find(|(other, ..)| other == place) {
                Some((.., judges)) => judges.push((own.clone(), new)),
                None => shared.push((place, of_join, vec![(own.clone(), new)])),
            }
        } else {
            modules += &module(out, &own, "", &source, &whole, of_join);
        }
        let calls = CALLS.map(|(call, function)| format!("{call}: judge::{own}::{function}")).join(", ");
        table += &format!(
            "    Plant {{ name: {name:?}, wrong: {wrong:?}, sights: &{sights:?}, breaks: {breaks:?}, of_feed: {of_feed}, of_balance: {of_balance}, of_join: {of_join}, of_clash: {of_clash}, of_numbers: {of_numbers}, of_depth: {of_depth}, of_release: {of_release}, of_crosslock: {of_crosslock}, of_merge: {of_merge}, of_usage: {of_usage}, only_fixed: {only_fixed}, from_join: {from_join}, too: &{too:?}, judge: Judge {{ {calls} }} }},\n"
        );
    }
    assert!(well, "a planted judge has no place to be planted at");
    for (number, (place, of_join, judges)) in shared.iter().enumerate() {
        let name = format!("shared_{number}");
        let which = |(number, (_, new)): (usize, &(String, &str))| format!("{number} => {{ {new} }}\n");
        let arms: String = judges.iter().enumerate().map(which).collect();
        let chosen = format!("match WHICH.get() {{\n{arms}_ => {{ {place} }}\n}}");
        let source = edit(&reference, &name, place, &chosen);
        let first = "thread_local! {\n    pub static WHICH: std::cell::Cell<usize> = const { std::cell::Cell::new(0) };\n}\n";
        modules += &module(out, &name, first, &source, &whole, *of_join);
        for (which, (own, _)) in judges.iter().enumerate() {
            let calls: String = CALLS.iter().map(|(_, function)| own_call(&reference, &name, which, function)).collect();
            modules += &written(out, own, &calls);
        }
    }
    let path = out.join("judge.rs");
    let lists = std::fs::read_to_string(LISTS).expect(LISTS);
    std::fs::write(&path, format!("{reference}\n{lists}\n{modules}")).expect("OUT_DIR can be written");
    let text = format!(
        "#[allow(dead_code, unused_imports, unused_variables)]\n#[path = {path:?}]\nmod judge;\n\npub const PLANTS: &[Plant] = &[\n{table}];\n"
    );
    std::fs::write(out.join("planted.rs"), text).expect("OUT_DIR can be written");
}
