//! Test lines: a call and all that it leaves. vectors/ says how they are written.

use crate::numbers::Numbers;

#[derive(Debug, PartialEq)]
pub enum Call {
    Eliminate,
    Test(i32),
    Match([i32; 6]),
}

/// A lent buffer after the call.
#[derive(Debug, PartialEq)]
pub enum Buffer {
    Bytes(Vec<u8>),
    Hash { fnv: u64, length: usize },
}

impl Buffer {
    pub fn holds(&self, bytes: &[u8]) -> bool {
        match self {
            Buffer::Bytes(expected) => bytes == expected,
            Buffer::Hash { fnv, length } => bytes.len() == *length && fnv_1a(bytes) == *fnv,
        }
    }
}

fn fnv_1a(bytes: &[u8]) -> u64 {
    let mix = |hash: u64, &byte: &u8| (hash ^ u64::from(byte)).wrapping_mul(0x0100_0000_01b3);
    bytes.iter().fold(0xcbf2_9ce4_8422_2325, mix)
}

#[derive(Debug, PartialEq)]
pub struct Line {
    pub call: Call,
    pub table: Vec<u8>,
    pub out_length: usize,
    pub work_length: usize,
    pub answer: Numbers,
    pub out: Buffer,
    pub work: Buffer,
}

/// The lines of a text with their numbers in it; comments and empty lines are passed over.
pub fn lines(text: &str) -> Vec<(usize, Line)> {
    let numbered = (1..).zip(text.lines());
    let kept = numbered.filter(|(_, text)| !text.is_empty() && !text.starts_with('#'));
    kept.map(|(at, text)| {
        (
            at,
            line(text).unwrap_or_else(|| panic!("line {at} is no test line")),
        )
    })
    .collect()
}

pub fn line(text: &str) -> Option<Line> {
    let (asked, rest) = text.split_once(" => ")?;
    let (answered, left) = rest.split_once(" | ")?;
    let asked: Vec<&str> = asked.split(' ').collect();
    let [name, table, out_length, work_length, ref arguments @ ..] = asked[..] else {
        return None;
    };
    let [number, verdict, words, settings] = answered.split(' ').collect::<Vec<_>>()[..] else {
        return None;
    };
    let (out, work) = left.split_once(' ')?;
    Some(Line {
        call: call(name, arguments)?,
        table: hex(table)?,
        out_length: out_length.parse().ok()?,
        work_length: work_length.parse().ok()?,
        answer: Numbers {
            number: number.parse().ok()?,
            verdict: verdict.parse().ok()?,
            words: words.parse().ok()?,
            settings: settings.parse().ok()?,
        },
        out: buffer(out)?,
        work: buffer(work)?,
    })
}

fn call(name: &str, arguments: &[&str]) -> Option<Call> {
    let numbers: Vec<i32> = arguments
        .iter()
        .map(|text| text.parse().ok())
        .collect::<Option<_>>()?;
    match (name, &numbers[..]) {
        ("elim", []) => Some(Call::Eliminate),
        ("leave", &[setting]) => Some(Call::Test(setting)),
        ("match", values) => Some(Call::Match(values.try_into().ok()?)),
        _ => None,
    }
}

fn buffer(text: &str) -> Option<Buffer> {
    let Some(hash) = text.strip_prefix("fnv:") else {
        return hex(text).map(Buffer::Bytes);
    };
    let (fnv, length) = hash.split_once(':')?;
    Some(Buffer::Hash {
        fnv: u64::from_str_radix(fnv, 16).ok()?,
        length: length.parse().ok()?,
    })
}

fn hex(text: &str) -> Option<Vec<u8>> {
    if text == "-" {
        return Some(Vec::new());
    }
    if text.is_empty() || !text.bytes().all(|byte| byte.is_ascii_hexdigit()) {
        return None;
    }
    let pairs = text
        .as_bytes()
        .chunks(2)
        .map(|pair| std::str::from_utf8(pair).ok());
    pairs
        .map(|pair| {
            pair.filter(|pair| pair.len() == 2)
                .and_then(|p| u8::from_str_radix(p, 16).ok())
        })
        .collect()
}
