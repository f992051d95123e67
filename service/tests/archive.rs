//! What the library's archive leaves to the linker. Without an allocator and without a panic that
//! is at most what moves and fills bytes.

use std::fs;

const ARCHIVE: &str = concat!(
    env!("CARGO_MANIFEST_DIR"),
    "/../target/staticlib/libleaveoff.a"
);
const ALLOWED: [&str; 3] = ["memcpy", "memmove", "memset"];

struct Symbol {
    name: String,
    defined: bool,
}

#[test]
fn the_archive_asks_for_nothing_but_moving_bytes() {
    let archive = fs::read(ARCHIVE).expect("the archive that was linked");
    let symbols: Vec<Symbol> = objects(&archive).into_iter().flat_map(symbols).collect();
    for call in ["leaveoff_match", "leaveoff_eliminate", "leaveoff_test"] {
        let is_call = |symbol: &Symbol| symbol.defined && symbol.name == call;
        assert!(symbols.iter().any(is_call), "there is no {call}");
    }
    let asked = symbols.iter().filter(|symbol| !symbol.defined);
    let others: Vec<&str> = asked
        .map(|symbol| &*symbol.name)
        .filter(|name| !ALLOWED.contains(name))
        .collect();
    assert!(others.is_empty(), "the archive asks for {others:?}");
}

fn number(bytes: &[u8], at: usize, size: usize) -> usize {
    let bytes = bytes[at..at + size].iter().rev();
    bytes.fold(0, |sum, &byte| sum << 8 | usize::from(byte))
}

/// The ELF objects of an archive; its index is none.
fn objects(archive: &[u8]) -> Vec<&[u8]> {
    let mut rest = archive.strip_prefix(b"!<arch>\n").expect("an archive");
    let mut objects = Vec::new();
    while !rest.is_empty() {
        let (header, behind) = rest.split_at(60);
        let size = str::from_utf8(&header[48..58]).expect("a size in digits");
        let size: usize = size.trim_end().parse().expect("a size in digits");
        let (member, behind) = behind.split_at(size);
        if member.starts_with(b"\x7fELF\x02\x01") {
            objects.push(member);
        }
        // A member starts at an even place.
        rest = behind.get(size % 2..).unwrap_or_default();
    }
    objects
}

/// The named symbols of a 64-bit little-endian ELF object.
fn symbols(object: &[u8]) -> Vec<Symbol> {
    const TABLE_OF_SYMBOLS: usize = 2;
    let (start, size) = (number(object, 40, 8), number(object, 58, 2));
    let count = number(object, 60, 2);
    let sections: Vec<&[u8]> = object[start..].chunks_exact(size).take(count).collect();
    let contents = |section: &[u8]| {
        let (start, size) = (number(section, 24, 8), number(section, 32, 8));
        &object[start..start + size]
    };
    let mut symbols = Vec::new();
    for section in &sections {
        if number(section, 4, 4) != TABLE_OF_SYMBOLS {
            continue;
        }
        let names = contents(sections[number(section, 40, 4)]);
        for symbol in contents(section).chunks_exact(24) {
            let name = names[number(symbol, 0, 4)..].split(|&byte| byte == 0);
            let name = name.map(String::from_utf8_lossy).next().unwrap_or_default();
            if !name.is_empty() {
                symbols.push(Symbol {
                    name: name.into_owned(),
                    defined: number(symbol, 6, 2) != 0,
                });
            }
        }
    }
    symbols
}
