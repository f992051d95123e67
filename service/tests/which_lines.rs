//! The program that answers line by line, on the shipped tables and on what is no table.

#[allow(dead_code)] // its main is not run here
#[path = "../examples/write_tables.rs"]
mod write_tables;

use std::fs;
use std::path::PathBuf;
use std::process::{Command, Output, id};

const ROOM: &str = "not decided; a step table needs more than the room (6); \
    make the rule shorter, or its factors and divisors smaller";
const PERIOD: &str = "not decided; the common factor D or the period P passes 4,096 (7); \
    make the factors and divisors smaller or more alike: D and P are their least common multiples";

fn which_lines(arguments: &[&str]) -> Output {
    let mut program = Command::new(env!("CARGO_BIN_EXE_which-lines"));
    let run = program.current_dir(env!("CARGO_MANIFEST_DIR"));
    run.args(arguments).output().expect("the program")
}

fn text(bytes: Vec<u8>) -> String {
    String::from_utf8(bytes).expect("text")
}

#[test]
fn the_shipped_tables_are_those_of_their_rules() {
    let tables = write_tables::tables().unwrap();
    for (path, table) in &tables {
        assert_eq!(fs::read(path).as_ref().ok(), Some(table), "{path}");
    }
    assert_eq!(fs::read_dir("tables").unwrap().count(), tables.len());
}

#[test]
fn each_line_is_answered() {
    let (matters, may_go) = ("matters", "may be left off");
    let expected = [
        (
            "optimisation-level",
            "(0 < s1 and (0 < s3 + 1 or 0 < 2·s1 - s3)) and 0 < -2·s2 + s4 + 1",
            [matters, matters, may_go, matters, may_go, may_go],
        ),
        (
            "memory-for-each-core",
            "0 < s1 and 0 < -64·s2 + s3 + 1",
            [matters, ROOM, matters, may_go, may_go, may_go],
        ),
        ("large-divisor", "4097 divides s2 and 0 < s1", [PERIOD; 6]),
    ];
    for (name, rule, answers) in expected {
        let mut report = format!("rule: {rule}\neach line alone, all others kept:\n");
        for (setting, answer) in (1..).zip(answers) {
            report += &format!("s{setting}: {answer}\n");
        }
        let run = which_lines(&[&format!("tables/{name}.table")]);
        assert_eq!(text(run.stdout), report, "{name}");
        assert_eq!(text(run.stderr), "", "{name}");
        assert_eq!(run.status.code(), Some(0), "{name}");
    }
}

/// A file of these bytes, and its path.
fn file(name: &str, bytes: &[u8]) -> PathBuf {
    let path = PathBuf::from(env!("CARGO_TARGET_TMPDIR")).join(format!("{}-{name}", id()));
    fs::write(&path, bytes).unwrap();
    path
}

#[test]
fn what_is_no_table_is_refused_with_its_remedy() {
    let (_, table) = write_tables::tables().unwrap().swap_remove(0);
    let mut entry = table.clone();
    entry[4] += 1;
    let mut kind = table.clone();
    kind[40] = 11;
    let mut right = table.clone();
    right[44] += 1;
    let too_long = vec![0; 65_537];
    let refused = [
        ("short", &table[1..], "refused by 1: ", "send whole words"),
        ("long", &too_long, "refused by 1: ", "send whole words"),
        ("entry", &entry, "refused by 2: ", "write the contents from"),
        ("kind", &kind, "refused by 3: ", "keep to kinds 0 to 10"),
        (
            "right",
            &right,
            "refused by 4: ",
            "write the nodes in preorder",
        ),
    ];
    for (name, bytes, refusal, remedy) in refused {
        let path = file(name, bytes);
        let run = which_lines(&[path.to_str().unwrap()]);
        fs::remove_file(path).unwrap();
        let message = text(run.stderr);
        assert!(
            message.contains(refusal) && message.contains(remedy),
            "{message}"
        );
        assert_eq!(text(run.stdout), "", "{name}");
        assert_eq!(run.status.code(), Some(1), "{name}");
    }
}

#[test]
fn one_file_is_asked_for() {
    for arguments in [&[][..], &["tables", "tables"]] {
        let run = which_lines(arguments);
        assert_eq!(text(run.stderr), "usage: which-lines TABLE\n");
        assert_eq!(run.status.code(), Some(2));
    }
    let run = which_lines(&["tables/none.table"]);
    assert!(text(run.stderr).starts_with("which-lines: tables/none.table: "));
    assert_eq!(run.status.code(), Some(1));
}
