//! The edits that must fail are named in docs/PROMISES.md, and those that it names are there.

use std::collections::BTreeSet;
use std::fs;

const PROMISES: &str = include_str!("../../docs/PROMISES.md");
const CRATES: &str = concat!(env!("CARGO_MANIFEST_DIR"), "/../crates");

/// The names of crates/*/must-fail/*.edit.
fn edits() -> BTreeSet<String> {
    let entries = |path| fs::read_dir(path).into_iter().flatten().flatten();
    let folders = entries(CRATES.into()).map(|of_crate| of_crate.path().join("must-fail"));
    let files = folders.flat_map(entries).map(|file| file.file_name());
    let names = files.filter_map(|name| Some(name.to_str()?.strip_suffix(".edit")?.to_string()));
    names.collect()
}

/// The cells of the columns that have this in their heads.
fn cells(head: &str) -> Vec<&'static str> {
    let cells = |row: &'static str| row.trim_matches(['|', ' ']).split(" | ");
    let mut found = Vec::new();
    for table in PROMISES.split("\n\n").filter(|part| part.starts_with('|')) {
        let mut rows = table.lines();
        let heads: Vec<&str> = rows.next().into_iter().flat_map(cells).collect();
        for row in rows.skip(1) {
            assert_eq!(cells(row).count(), heads.len(), "{row}");
            let columns = heads.iter().zip(cells(row));
            found.extend(
                columns
                    .filter(|(of, _)| of.contains(head))
                    .map(|(_, cell)| cell),
            );
        }
    }
    found
}

/// What a text has in backquotes.
fn quoted(text: &str) -> Vec<&str> {
    text.split('`').skip(1).step_by(2).collect()
}

/// Whether a name is one of an edit where both edits and functions are named: a function of several
/// words stands there with its module.
fn looks_like_an_edit(name: &str) -> bool {
    let inside = |byte: u8| byte == b'_' || byte.is_ascii_lowercase() || byte.is_ascii_digit();
    name.contains('_') && name.bytes().all(inside)
}

#[test]
fn every_edit_that_must_fail_is_named() {
    let edits = edits();
    assert!(edits.len() > 80, "{} edits", edits.len());
    let named: BTreeSet<&str> = quoted(PROMISES).into_iter().collect();
    for edit in &edits {
        assert!(named.contains(&**edit), "{edit} is not named");
    }
}

#[test]
fn every_edit_that_is_named_is_there() {
    let edits = edits();
    let refused = cells("Edit").into_iter().flat_map(quoted);
    let mut named: Vec<&str> = refused.collect();
    assert!(named.len() > 50, "{} edits are named", named.len());
    // A paragraph that speaks of must-fail names edits too.
    let told = PROMISES.split("\n\n").filter(|part| !part.starts_with('|'));
    let told = told.filter(|part| part.contains("must-fail"));
    let ruled_out = cells("must-fail edit").into_iter().chain(told);
    named.extend(
        ruled_out
            .flat_map(quoted)
            .filter(|name| looks_like_an_edit(name)),
    );
    for name in named {
        assert!(edits.contains(name), "there is no edit {name}");
    }
}
