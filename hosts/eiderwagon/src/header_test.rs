//! Holds `raw` to the header: the same constants, and the same functions with the same parameters;
//! and the refusals' grounds in words to those of its `eiderwagon_ground`.

use crate::{raw, Ground};
use std::fmt::Debug;
use std::fs;

/// The header without its comments.
fn header() -> String {
    let path = concat!(env!("CARGO_MANIFEST_DIR"), "/../../include/eiderwagon.h");
    let text = fs::read_to_string(path).expect("the header is in the repository");
    let mut parts = text.split("/*");
    let code = parts.next().unwrap_or_default().to_string();
    parts.fold(code, |code, part| code + part.split_once("*/").expect("a comment ends").1)
}

/// Every `EIDERWAGON_X = n`.
fn constants(header: &str) -> Vec<(String, u64)> {
    let constant = |item: &str| {
        let (name, value) = item.trim().strip_prefix("EIDERWAGON_")?.split_once('=')?;
        let number = match value.trim().strip_prefix("0x") {
            Some(digits) => u64::from_str_radix(digits, 16),
            None => value.trim().parse(),
        };
        Some((name.trim().to_string(), number.expect("a number")))
    };
    header.split([',', '{', '}']).filter_map(constant).collect()
}

/// Every function with its parameters, as Rust has them.
fn functions(header: &str) -> Vec<(String, String)> {
    let function = |declaration: &str| {
        let (_, text) = declaration.split_once("uint32_t eiderwagon_")?;
        let (name, parameters) = text.split_once('(').expect("a function has parameters");
        Some((name.to_string(), in_rust(parameters.trim_end_matches(')'))))
    };
    header.split(';').filter_map(function).collect()
}

/// Parameters of C in Rust: a pointer and the size behind it are a slice.
fn in_rust(parameters: &str) -> String {
    let mut rust = Vec::new();
    let mut rest = parameters.split(',').map(str::trim).filter(|parameter| *parameter != "void");
    while let Some(parameter) = rest.next() {
        let (kind, name) = parameter.rsplit_once(' ').expect("a type and a name");
        let Some(name) = name.strip_prefix('*') else {
            rust.push(format!("{name}: {}", number_in_rust(kind)));
            continue;
        };
        assert_eq!(rest.next(), Some(&*format!("size_t {name}_size")), "behind {name}");
        rust.push(match kind.strip_prefix("const ") {
            Some(kind) => format!("{name}: &[{}]", number_in_rust(kind)),
            None => format!("{name}: &mut [{}]", number_in_rust(kind)),
        });
    }
    rust.join(", ")
}

/// `uint8_t` in Rust is `u8`, and so on.
fn number_in_rust(kind: &str) -> String {
    let bits = kind.strip_prefix("uint").and_then(|kind| kind.strip_suffix("_t"));
    format!("u{}", bits.expect("a number without sign"))
}

/// Both lists have the same items in the same order; the first that differs is named.
fn assert_same<T: PartialEq + Debug>(ours: &[T], theirs: &[T]) {
    for (our, their) in ours.iter().zip(theirs) {
        assert_eq!(our, their, "raw.rs has the left one, the header the right one");
    }
    assert_eq!(ours.len(), theirs.len(), "raw.rs and the header: how many");
}

#[test]
fn the_constants_are_the_headers() {
    let ours: Vec<_> = raw::CONSTANTS.iter().map(|&(name, n)| (name.to_string(), n)).collect();
    assert_same(&ours, &constants(&header()));
}

#[test]
fn the_functions_are_the_headers() {
    // What `stringify!` puts between tokens isn't promised, so spaces don't count.
    let tight = |(name, parameters): (&str, &str)| {
        (name.to_string(), parameters.replace(char::is_whitespace, ""))
    };
    let ours: Vec<_> = raw::SIGNATURES.iter().copied().map(tight).collect();
    let theirs: Vec<_> = functions(&header()).iter().map(|(n, p)| tight((n, p))).collect();
    assert_same(&ours, &theirs);
    assert_eq!(ours.len(), 54);
}

#[test]
fn the_refusals_are_the_headers() {
    let ours: Vec<_> = Ground::ALL.iter().map(|ground| u64::from(ground.number())).collect();
    let theirs = constants(&header());
    let theirs = theirs.iter().filter(|(name, _)| name.starts_with("REFUSED_"));
    assert_same(&ours, &theirs.map(|&(_, number)| number).collect::<Vec<_>>());
}

#[test]
fn the_grounds_are_the_headers() {
    let header = header();
    let case = |text: &str| {
        let (name, rest) = text.split_once(':')?;
        let ground = rest.trim().strip_prefix("return \"")?.split_once('"')?.0;
        Some((name.trim().to_string(), ground.to_string()))
    };
    let theirs: Vec<_> =
        header.split("case EIDERWAGON_REFUSED_").skip(1).filter_map(case).collect();
    let name = |ground: &Ground| {
        let named = raw::CONSTANTS.iter().find(|(name, number)| {
            name.starts_with("REFUSED_") && *number == u64::from(ground.number())
        });
        named.expect("a ground has a name").0.trim_start_matches("REFUSED_").to_string()
    };
    let ours: Vec<_> = Ground::ALL.iter().map(|g| (name(g), g.words().to_string())).collect();
    assert_same(&ours, &theirs);
}

#[test]
fn the_version_is_the_headers_and_the_packages() {
    let defined = format!("#define EIDERWAGON_VERSION 0x{:06x}u\n", raw::VERSION);
    assert!(header().contains(&defined));
    let [_, major, minor, patch] = raw::VERSION.to_be_bytes();
    assert_eq!(format!("{major}.{minor}.{patch}"), env!("CARGO_PKG_VERSION"));
}

#[test]
fn a_codes_number_is_its_low_8_bits() {
    assert!(header().contains("#define EIDERWAGON_NUMBER(code) ((code) & 0xFFu)"));
    assert_eq!(raw::number(raw::OK), raw::OK);
    assert_eq!(raw::number(raw::REFUSED_REQUEST_COUNT | 0xFFFF_FF00), raw::REFUSED_REQUEST_COUNT);
}
