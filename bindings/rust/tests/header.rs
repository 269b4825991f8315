//! src/c.rs, the one declaration of the library's functions in Rust, and include/dcps.h have the same functions, with the
//! same arguments in the same order; the header's numbers are this crate's.

use dcps::{Places, Refusal, Sheet};

const HEADER: &str = include_str!("../../../include/dcps.h");
const DECLARED: &str = include_str!("../src/c.rs");

/// The text without its comments and line ends.
fn code(text: &str) -> String {
    let mut code = String::new();
    let mut rest = text;
    while let Some((before, comment)) = rest.split_once("/*") {
        code += before;
        rest = comment.split_once("*/").map_or("", |(_, behind)| behind);
    }
    code += rest;
    let lines = code.lines().map(|line| line.split("//").next().unwrap_or_default());
    let words = lines.filter(|line| !line.starts_with('#')).flat_map(str::split_whitespace);
    words.collect::<Vec<_>>().join(" ")
}

fn rust_type(c: &str) -> &str {
    match c {
        "const uint8_t *" => "*const u8",
        "uint8_t *" => "*mut u8",
        "size_t" => "usize",
        "uint64_t" => "u64",
        "uint32_t" => "u32",
        "int32_t" => "i32",
        "int64_t" => "i64",
        "uint8_t" => "u8",
        other => panic!("{other}"),
    }
}

/// "name: type" of an argument of C.
fn argument(c: &str) -> String {
    let c = c.trim();
    let name = c.rfind([' ', '*']).expect("a type and a name") + 1;
    format!("{}: {}", &c[name..], rust_type(c[..name].trim_end()))
}

/// Each function as "name(argument, ..)", from prototypes that begin with `start` and end with `end`.
fn functions(text: &str, start: &str, end: &str, argument: fn(&str) -> String) -> Vec<String> {
    let prototypes = text.split(start).skip(1);
    let mut functions: Vec<String> = prototypes
        .map(|part| {
            let (name, rest) = part.split_once('(').expect("arguments");
            let (arguments, _) = rest.split_once(end).expect("its end");
            let given = arguments.split(',').map(str::trim);
            let arguments: Vec<_> =
                given.filter(|a| !a.is_empty() && *a != "void").map(argument).collect();
            format!("{name}({})", arguments.join(", "))
        })
        .collect();
    functions.sort();
    functions
}

#[test]
fn one_declaration() {
    let header = functions(&code(HEADER), "uint32_t dcps_", ");", argument);
    let declared = functions(&code(DECLARED), "pub fn dcps_", ") -> u32;", str::to_owned);
    assert_eq!(header, declared);
    assert!(header.len() >= 17);
}

/// The number behind a name of the header, in a macro or an enum.
fn number(name: &str) -> u32 {
    let lines = HEADER.lines().filter_map(|line| {
        let line = line.trim().trim_start_matches("#define ");
        let rest = line.strip_prefix(name)?.trim_start_matches(" =");
        let value = rest.strip_prefix(' ')?.split([',', ' ']).next()?;
        value.strip_prefix("0x").map_or(value.parse().ok(), |hex| u32::from_str_radix(hex, 16).ok())
    });
    let numbers: Vec<u32> = lines.collect();
    assert_eq!(numbers.len(), 1, "{name}: {numbers:?}");
    numbers[0]
}

#[test]
fn version() {
    let of = |part| number(&format!("DCPS_VERSION_{part}"));
    let (major, minor, patch) = (of("MAJOR"), of("MINOR"), of("PATCH"));
    assert_eq!(dcps::version(), (major, minor, patch));
    let version = format!("{major}.{minor}.{patch}");
    assert!(HEADER.contains(&format!("#define DCPS_VERSION \"{version}\"")));
    assert_eq!(env!("CARGO_PKG_VERSION"), version);
    let spdx = include_str!("../../../dcps.spdx");
    assert!(spdx.contains(&format!("\nPackageVersion: {version}\n")));
    assert!(include_str!("../../../CHANGELOG.md").contains(&format!("\n## {version}\n")));
}

/// The names of the header's numbers that begin so, each without that, and its number.
fn numbered(start: &str) -> Vec<(&'static str, u32)> {
    let lines = HEADER.lines().map(str::trim).filter(|line| line.starts_with(start));
    let names = lines.filter_map(|line| line.split_once(" = ")).map(|(name, _)| name);
    names.map(|name| (&name[start.len()..], number(name))).collect()
}

/// Each code has a function of its name that makes its sheet, and there is no other.
#[test]
fn codes() {
    const SHEETS: &str = include_str!("../src/sheet.rs");
    let codes = numbered("DCPS_CODE_");
    for (name, code) in &codes {
        let start = format!("pub fn {}(", name.to_lowercase());
        let (_, function) = SHEETS.split_once(&start).unwrap_or_else(|| panic!("{start}"));
        let (_, body) = function.split_once("Self::of(").expect("a code");
        assert_eq!(body.split(')').next(), Some(code.to_string().as_str()), "{name}");
    }
    assert_eq!(SHEETS.matches("Self::of(").count(), codes.len());
    let place = number("DCPS_SHEET_CODE") as usize;
    assert_eq!(u32::from(Sheet::take_lost().bytes()[place]), number("DCPS_CODE_TAKE_LOST"));
}

/// This crate knows each refusal, and dcps_refusal_text has its words; there is no other.
#[test]
fn refusals() {
    const INLINE: &str = include_str!("../../../include/dcps_inline.h");
    let texts = INLINE.replace(r#"\xc2\xb1" ""#, "±");
    let refusals = numbered("DCPS_REFUSED_");
    for ((name, number), rising) in refusals.iter().zip(1..) {
        assert_eq!(*number, rising, "{name}");
        let refusal = Refusal::from_number(rising as u8).expect("not 0");
        assert_ne!(refusal, Refusal::Other(rising as u8), "{name}");
        assert_eq!(u32::from(refusal.number()), rising);
        let said = refusal.to_string();
        let (_, words) = said.split_once(": ").expect("words behind the number");
        assert!(
            texts.contains(&format!("case DCPS_REFUSED_{name}: return \"{words}\";")),
            "{said}"
        );
    }
    let next = refusals.len() as u8 + 1;
    assert_eq!(Refusal::from_number(next), Some(Refusal::Other(next)));
    assert_eq!(texts.matches("case DCPS_REFUSED_").count(), refusals.len());
}

/// The two sizes.
#[test]
fn places() {
    for (places, small) in [(Places::Small, "SMALL_"), (Places::Large, "")] {
        let of = |name| number(&format!("DCPS_{small}{name}")) as usize;
        assert_eq!(of("INSTANCE_PLACES"), places.count());
        assert_eq!(of("PENS_BYTES"), places.pens_bytes());
        assert_eq!(of("PENS_BYTES"), places.count() * number("DCPS_INSTANCE_BYTES") as usize);
    }
    assert_eq!(number("DCPS_HEAD_PLACES"), 30);
}

/// The largest size that the header says can be stated is that of the library.
#[test]
fn largest_size() {
    let largest = u64::from(number("DCPS_KEY_LARGEST_BYTES"));
    assert_eq!(largest, dcps::KEY_LARGEST_BYTES);
    assert!(dcps::key_hash(&[], largest).is_ok());
    assert_eq!(dcps::key_hash(&[], largest + 1), Err(Refusal::LargestSize));
}

#[test]
fn unknown_remainder() {
    assert_eq!(number("DCPS_REMAINDER_UNKNOWN"), dcps::REMAINDER_UNKNOWN);
}

/// The examples of the README are those that are built and run.
#[test]
fn readme() {
    let readme = include_str!("../../../README.md");
    assert!(readme.contains(include_str!("../../../examples/c/use.c")));
    assert!(readme.contains(include_str!("../examples/use_it.rs")));
}
