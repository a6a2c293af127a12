//! Holds `src/raw.rs` to `include/wairokabi.h`: the same structs with the same fields, the same functions with the same parameters, in the same order.
//! The constants and the words of refusals are held to it too. Rust's declarations are spelled in C for that, and compared.
use std::fs;

fn read(path: &str) -> String {
    let path = format!("{}/{path}", env!("CARGO_MANIFEST_DIR"));
    fs::read_to_string(&path).unwrap_or_else(|e| panic!("{path}: {e}"))
}

/// A source without comments, attributes and directives, its blanks made one.
fn bare(source: &str) -> String {
    let lines = source.lines().map(|l| l.split("//").next().unwrap().trim()).filter(|l| !l.starts_with('#'));
    lines.collect::<Vec<_>>().join(" ").split_whitespace().collect::<Vec<_>>().join(" ")
}

/// `NumberPlace` is `wairokabi_number_place`.
fn c_name(name: &str) -> String {
    let mut c = String::from("wairokabi");
    for letter in name.chars() {
        if letter.is_uppercase() {
            c.push('_');
        }
        c.extend(letter.to_lowercase());
    }
    c
}

fn c_type(rust: &str) -> String {
    match rust {
        "u8" | "u16" | "u32" | "u64" => format!("uint{}_t", &rust[1..]),
        "usize" => "size_t".to_string(),
        "bool" => "bool".to_string(),
        name => c_name(name),
    }
}

/// `name: *const T` is `const T *name`.
fn c_declared(rust: &str) -> String {
    let (name, kind) = rust.trim().trim_start_matches("pub ").split_once(": ").unwrap_or_else(|| panic!("`{rust}`"));
    match (kind.strip_prefix("*const "), kind.strip_prefix("*mut ")) {
        (Some(to), _) => format!("const {} *{name}", c_type(to)),
        (_, Some(to)) => format!("{} *{name}", c_type(to)),
        _ => format!("{} {name}", c_type(kind)),
    }
}

fn listed(rust: &str) -> Vec<String> {
    rust.split(',').filter(|x| !x.trim().is_empty()).map(c_declared).collect()
}

/// What stands between two words, each time.
fn between<'s>(s: &'s str, from: &str, to: &str) -> Vec<&'s str> {
    s.split(from).skip(1).map(|x| x.split(to).next().unwrap().trim()).collect()
}

#[test]
fn structs_are_the_headers() {
    let header = bare(&read("../../include/wairokabi.h"));
    let raw = bare(&read("src/raw.rs"));
    let ours = between(&raw, "pub struct ", "} ").into_iter().map(|s| match s.split_once("(pub ") {
        Some((name, kind)) if !name.contains('{') => format!("{} {{ {} count;", c_name(name), c_type(kind.split(')').next().unwrap())),
        _ => {
            let (name, fields) = s.split_once(" {").unwrap();
            format!("{} {{ {};", c_name(name), listed(fields.trim_end_matches('}')).join("; "))
        }
    });
    let theirs = between(&header, "typedef struct ", " }");
    assert_eq!(ours.collect::<Vec<_>>(), theirs);
    assert!(theirs.len() > 20);
    assert_eq!(read("src/raw.rs").matches("#[repr(C)]").count(), theirs.len());
}

#[test]
fn functions_are_the_headers() {
    let header = bare(&read("../../include/wairokabi.h"));
    let raw = bare(&read("src/raw.rs"));
    let ours = between(&raw, "pub fn ", ";").into_iter().map(|f| {
        let (name, rest) = f.split_once('(').unwrap();
        let (params, answer) = rest.split_once(") -> ").unwrap();
        format!("{} {name}({})", c_type(answer), listed(params).join(", "))
    });
    let theirs = header.split(';').map(str::trim).filter(|x| x.ends_with(')')).map(|x| {
        let call = x.rsplit("} ").next().unwrap().replace("( ", "(");
        call.rsplit("extern \"C\" { ").next().unwrap().to_string()
    });
    let theirs: Vec<_> = theirs.collect();
    assert_eq!(ours.collect::<Vec<_>>(), theirs);
    assert!(theirs.len() > 20);
}

#[test]
fn constants_are_the_headers() {
    let sources = ["src/block.rs", "src/numbers.rs", "src/updates.rs"].map(read).concat();
    let header = read("../../include/wairokabi.h");
    let defined = header.lines().filter_map(|l| l.strip_prefix("#define WAIROKABI_")).filter(|l| l.contains(' '));
    for (name, value) in defined.filter_map(|l| l.split_once(' ')).filter(|(name, _)| *name != "H") {
        let ours = sources.lines().filter_map(|l| l.strip_prefix("pub const ")).find(|l| l.starts_with(&format!("{name}:")));
        assert!(ours.is_some_and(|l| l.ends_with(&format!(" = {value};"))), "{name} {value}: {ours:?}");
    }
}

/// Every number of the header has its words, and `Refused` has no others.
#[test]
fn refusals_have_the_headers_words() {
    let header = read("../../include/wairokabi.h");
    let numbered = header.lines().filter_map(|l| l.strip_prefix("// ")?.trim_start().split_once("  "));
    let theirs: Vec<_> = numbered.filter(|(n, _)| n.parse::<u8>().is_ok_and(|n| n != 0)).collect();
    let source = read("src/refused.rs");
    let ours: Vec<_> = source.lines().filter_map(|l| l.trim().split_once(" => \"")).map(|(n, w)| (n, w.trim_end_matches("\","))).collect();
    assert_eq!(ours[..ours.len() - 1], theirs);
    assert_eq!((ours.len(), ours[18].0), (19, "_"));
}
