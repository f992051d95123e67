//! Which lines of the form may be left off the key? Reads the table of a rule from a file, and says
//! of each line alone whether it matters.

use service::{MOST_BYTES, Refusal, Rule, STACK_BYTES, leave_off};
use std::env;
use std::error::Error;
use std::fmt::Write as _;
use std::fs::File;
use std::io::{self, Read, Write};
use std::path::Path;
use std::process::ExitCode;
use std::thread;

fn main() -> ExitCode {
    let mut arguments = env::args_os().skip(1);
    let (Some(path), None) = (arguments.next(), arguments.next()) else {
        eprintln!("usage: which-lines TABLE");
        return ExitCode::from(2);
    };
    let path = Path::new(&path);
    match run(path) {
        Ok(()) => ExitCode::SUCCESS,
        Err(why) => {
            eprintln!("which-lines: {}: {why}", path.display());
            ExitCode::FAILURE
        }
    }
}

fn run(path: &Path) -> Result<(), Box<dyn Error>> {
    let mut table = Vec::new();
    // A byte more than a table may have is refused as well as any more.
    File::open(path)?
        .take(MOST_BYTES as u64 + 1)
        .read_to_end(&mut table)?;
    let asked = thread::Builder::new()
        .stack_size(STACK_BYTES)
        .spawn(move || report(&table))?
        .join();
    let report = asked.map_err(|_| "the question could not be asked")?;
    let report = report.map_err(|refusal| format!("{refusal}; {}", refusal.remedy()))?;
    io::stdout().write_all(report.as_bytes())?;
    Ok(())
}

/// The rule, and a line for each setting.
fn report(table: &[u8]) -> Result<String, Refusal> {
    let rule = Rule::from_table(table)?;
    let mut text = format!("rule: {rule}\neach line alone, all others kept:\n");
    let (mut out, mut work) = (vec![0; MOST_BYTES], vec![0; MOST_BYTES]);
    for setting in 1..=6 {
        let answer = match leave_off(table, setting, &mut out, &mut work) {
            Ok(line) => line.to_string(),
            Err(limit) if limit.is_limit() => not_decided(limit),
            Err(refusal) => return Err(refusal),
        };
        let _ = writeln!(text, "s{setting}: {answer}");
    }
    Ok(text)
}

fn not_decided(limit: Refusal) -> String {
    let change = match limit {
        // All the room there is was lent: the rule alone is left to change.
        Refusal::Room => "make the rule shorter, or its factors and divisors smaller",
        _ => limit.remedy(),
    };
    let (number, meaning) = (limit.number(), limit.meaning());
    format!("not decided; {meaning} ({number}); {change}")
}
