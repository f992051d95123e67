//! What the README shows is what the service says.

use service::{Line, MOST_BYTES, Refusal, Rule};
use std::process::Command;

const README: &str = include_str!("../../README.md");

#[test]
fn every_refusal_is_there_with_its_meaning_and_its_remedy() {
    for refusal in Refusal::ALL {
        let (number, meaning, remedy) = (refusal.number(), refusal.meaning(), refusal.remedy());
        let row = format!("\n| {number} | {meaning} | {remedy} |\n");
        assert!(README.contains(&row), "{row}");
    }
}

#[test]
fn the_main_job_prints_what_is_shown() {
    let run = Command::new(env!("CARGO_BIN_EXE_which-lines"))
        .arg("tables/optimisation-level.table")
        .output()
        .expect("the program");
    let shown = format!("```text\n{}```\n", String::from_utf8_lossy(&run.stdout));
    assert!(README.contains(&shown), "{shown}");
}

fn test(rule: &Rule, setting: i32) -> Result<Line, Refusal> {
    let (mut out, mut work) = (vec![0; MOST_BYTES], vec![0; MOST_BYTES]);
    let table = rule.to_table().expect("a table");
    service::leave_off(&table, setting, &mut out, &mut work)
}

#[test]
fn memory_for_each_core_is_decided_up_to_the_factor_5() {
    for factor in 1..=6 {
        let memory = Rule::positive(1, &[0, -factor, 1]);
        let rule = Rule::and(Rule::positive(0, &[1]), memory);
        let decided = if factor <= 5 {
            Ok(Line::Matters)
        } else {
            Err(Refusal::Room)
        };
        assert_eq!(test(&rule, 2), decided, "{factor}");
    }
}

#[test]
fn a_divisor_is_in_the_way_of_other_lines() {
    let rule = Rule::divides(4, 0, &[1]);
    assert_eq!(test(&rule, 1), Ok(Line::Matters));
    for setting in 2..=6 {
        assert_eq!(test(&rule, setting), Err(Refusal::Room), "s{setting}");
    }
}

#[test]
fn the_stack_is_the_one_that_is_told() {
    let told = format!("`STACK_BYTES`, {} MiB", service::STACK_BYTES >> 20);
    assert!(README.contains(&told), "{told}");
}
