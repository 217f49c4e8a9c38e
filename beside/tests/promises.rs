//! `docs/PROMISES.md` is held to the folders here: each guard that it names stands, each must-fail edit and each group of rows of the table of wrong
//! answers is named, and each public call has a guard or is in the page's list of helpers.

use std::collections::BTreeSet;
use std::fs;
use std::path::{Path, PathBuf};

type Names = BTreeSet<String>;

fn root() -> PathBuf {
    Path::new(env!("CARGO_MANIFEST_DIR")).join("..")
}

fn text_of(path: &Path) -> String {
    fs::read_to_string(path).unwrap_or_else(|e| panic!("{}: {e}", path.display()))
}

/// The names in a folder, without what ends them; none where there is no folder.
fn names_in(folder: &Path, ending: &str) -> Names {
    let Ok(entries) = fs::read_dir(folder) else {
        return Names::new();
    };
    entries
        .map(|entry| entry.expect("an entry").file_name())
        .filter_map(|name| Some(name.to_str()?.strip_suffix(ending)?.to_string()))
        .collect()
}

fn crates() -> Names {
    names_in(&root().join("crates"), "")
}

fn is_library(name: &str) -> bool {
    root().join(format!("crates/{name}/src/lib.rt")).exists()
}

/// All must-fail edits, as `crate/label`.
fn edits() -> Names {
    let labels = |name: &String| {
        let folder = root().join(format!("crates/{name}/must-fail"));
        let of_crate = |label: String| format!("{name}/{label}");
        names_in(&folder, ".edit")
            .into_iter()
            .map(of_crate)
            .collect::<Names>()
    };
    crates().iter().flat_map(labels).collect()
}

/// The texts of the table of wrong answers, and the one that joins its columns last.
fn wrong_texts() -> Vec<String> {
    let folder = root().join("crates/sheet/specs");
    let names = names_in(&folder, ".antt");
    names
        .iter()
        .filter(|name| name.starts_with("Wrong"))
        .map(|name| text_of(&folder.join(format!("{name}.antt"))))
        .collect()
}

/// The names of a sort that a text declares: `abbrev pub wrong-take : List Wrong`.
fn declared<'a>(text: &'a str, sort: &str) -> Vec<&'a str> {
    text.lines()
        .filter_map(|line| {
            line.strip_prefix("abbrev pub ")?
                .strip_suffix(" : List Wrong")
        })
        .filter(|name| name.starts_with(sort))
        .collect()
}

/// The groups of rows.
fn groups() -> Names {
    let texts = wrong_texts();
    let all = texts.iter().flat_map(|text| declared(text, "wrong-"));
    all.map(str::to_string).collect()
}

/// The pieces between backquotes.
fn quoted(text: &str) -> impl Iterator<Item = &str> {
    text.split('`').skip(1).step_by(2)
}

/// The crates that a heading of the page speaks of.
fn spoken_of(heading: &str) -> Names {
    let exported = heading == "The exported calls";
    let is_exported = |name: &String| name.ends_with("_calls") || name == "ardhrumesh_c";
    let meant = |name: &String| name == heading || (exported && is_exported(name));
    crates().into_iter().filter(meant).collect()
}

/// A row of a table of calls: the crates of its heading, the call, and its guards as `crate/label` or `wrong-...`.
struct Call {
    crates: Names,
    name: String,
    guards: Names,
}

/// An edit's label as `crate/label`, with whichever of the crates has it.
fn guard(all: &Names, crates: &Names, label: &str) -> String {
    if label.starts_with("wrong-") {
        return label.to_string();
    }
    let mut named = crates.iter().map(|name| format!("{name}/{label}"));
    let found = named.find(|edit| all.contains(edit));
    found.unwrap_or(label.to_string())
}

fn call(all: &Names, crates: &Names, line: &str) -> Option<Call> {
    let row = line.strip_prefix("| ")?.strip_suffix(" |")?;
    let cells: Vec<&str> = row.split(" | ").collect();
    let name = quoted(cells.first()?).next()?.to_string();
    let labels = quoted(cells.last()?);
    let guards = labels.map(|label| guard(all, crates, label)).collect();
    Some(Call {
        crates: crates.clone(),
        name,
        guards,
    })
}

fn page() -> String {
    text_of(&root().join("docs/PROMISES.md"))
}

/// The rows of the tables of calls.
fn calls(page: &str) -> Vec<Call> {
    let edits = edits();
    let mut all = Vec::new();
    for section in page.split("\n## ").skip(1) {
        let (heading, body) = section.split_once('\n').unwrap_or((section, ""));
        let crates = spoken_of(heading);
        if !crates.is_empty() {
            all.extend(body.lines().filter_map(|line| call(&edits, &crates, line)));
        }
    }
    all
}

/// All guards that the page names: those of the calls, and elsewhere `crate/label` and `wrong-...`.
fn named(page: &str) -> Names {
    let crates = crates();
    let is_edit = |name: &&str| match name.split_once('/') {
        Some((first, label)) => crates.contains(first) && !label.contains(['/', '.']),
        None => name.starts_with("wrong-") && !name.ends_with('.'),
    };
    let elsewhere = page
        .lines()
        .flat_map(quoted)
        .filter(is_edit)
        .map(str::to_string);
    let of_calls = calls(page).into_iter().flat_map(|call| call.guards);
    elsewhere.chain(of_calls).collect()
}

/// The public calls of a library, methods and exported ones too.
fn public(name: &str) -> Names {
    let text = text_of(&root().join(format!("crates/{name}/src/lib.rt")));
    let head = |line: &str| {
        let rest = line
            .strip_prefix("pub fn ")
            .or(line.strip_prefix("pub extern \"C\" fn "))?;
        Some(rest.split(['(', '<']).next()?.to_string())
    };
    text.lines().map(str::trim_start).filter_map(head).collect()
}

#[test]
fn each_guard_that_the_page_names_stands() {
    let standing: Names = edits().union(&groups()).cloned().collect();
    let missing: Vec<String> = named(&page()).difference(&standing).cloned().collect();
    assert!(missing.is_empty(), "named and not there: {missing:?}");
}

#[test]
fn each_edit_and_each_group_of_rows_is_named() {
    let standing: Names = edits().union(&groups()).cloned().collect();
    assert!(standing.len() > 100, "{standing:?}");
    let unnamed: Vec<String> = standing.difference(&named(&page())).cloned().collect();
    assert!(unnamed.is_empty(), "there and not named: {unnamed:?}");
}

#[test]
fn each_public_call_has_a_guard_or_is_a_helper() {
    let page = page();
    let calls = calls(&page);
    for name in crates().iter().filter(|name| is_library(name)) {
        for public in public(name) {
            let helper = page.contains(&format!("`{name}::{public}`"));
            let row = calls
                .iter()
                .find(|call| call.name == public && call.crates.contains(name));
            let row = row.unwrap_or_else(|| panic!("{name}::{public} has no row"));
            assert!(
                helper == row.guards.is_empty(),
                "{name}::{public}: a guard, or a helper"
            );
        }
    }
}

/// A group that no column joins, or a column that the table does not, would be claimed of nothing.
#[test]
fn each_group_of_rows_is_in_the_table() {
    let texts = wrong_texts();
    let uses = |text: &String, name: &str| {
        text.split_whitespace()
            .any(|word| word.trim_matches(['(', ')', '[', ']']) == name)
    };
    for text in &texts {
        let column = text
            .split("abbrev pub column_of_")
            .nth(1)
            .unwrap_or("")
            .to_string();
        for group in declared(text, "wrong-") {
            assert!(uses(&column, group), "{group} is in no column");
        }
        for name in declared(text, "column_of_") {
            let join = |other: &&String| other.contains("pub none_as_wrong") && uses(other, name);
            assert!(
                texts.iter().any(|other| join(&other)),
                "{name} is not joined"
            );
        }
    }
}
