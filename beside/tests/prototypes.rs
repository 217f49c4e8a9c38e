//! The archive's object file carries no types. So the prototypes of `include/ardhrumesh.h` and the bindings of `src/archive.rs` are held to the
//! heads of the exported calls here, these to the calls beneath them, promises and all, and the header's refusals to the unit's numbers.

use std::collections::BTreeMap;
use std::fs;
use std::path::{Path, PathBuf};

/// The types of a call, in order, its answer's last: `size`, `u8`, `const u8 *`, `size[7]` ..
type Types = Vec<String>;

/// By the call's name.
type Heads = BTreeMap<String, Types>;

fn root() -> PathBuf {
    Path::new(env!("CARGO_MANIFEST_DIR")).join("..")
}

fn text_of(path: &str) -> String {
    fs::read_to_string(root().join(path)).unwrap_or_else(|e| panic!("{path}: {e}"))
}

/// The pieces `name(parameters) answer` of a text, from each `start` that `ardh_` follows to the next of `ends`.
fn heads_behind<'a>(text: &'a str, start: &str, ends: &[char]) -> Vec<&'a str> {
    text.split(start)
        .skip(1)
        .filter(|rest| rest.starts_with("ardh_"))
        .map(|rest| rest.split(ends).next().unwrap_or(rest))
        .collect()
}

/// The name, the parameters and what stands behind them.
fn cut(head: &str) -> (String, Vec<String>, String) {
    let (front, behind) = head.rsplit_once(')').expect("parameters end");
    let (name, parameters) = front.split_once('(').expect("parameters begin");
    let name = name.split('<').next().unwrap_or(name);
    let parameters = separated(parameters);
    (
        name.trim().to_string(),
        parameters,
        behind.trim().to_string(),
    )
}

fn separated(parameters: &str) -> Vec<String> {
    parameters
        .split(',')
        .map(|part| part.split_whitespace().collect::<Vec<_>>().join(" "))
        .filter(|part| !part.is_empty())
        .collect()
}

/// A number's type in one word, whichever language says it.
fn word(name: &str) -> &str {
    match name {
        "usize" | "size_t" => "size",
        "uint8_t" => "u8",
        "uint16_t" => "u16",
        "int32_t" => "i32",
        other => other,
    }
}

/// `[usize; 7]` as `size[7]`.
fn array(inside: &str) -> Option<String> {
    let (name, length) = inside
        .strip_prefix('[')?
        .strip_suffix(']')?
        .split_once("; ")?;
    Some(format!("{}[{length}]", word(name)))
}

/// The types of a parameter of an exported call: a lent slice is an address and a length.
fn of_unit(parameter: &str) -> Types {
    let (_, kind) = parameter.split_once(": ").expect("a name and a type");
    let kind = kind.replace("'a ", "");
    let (fixed, inside) = match (kind.strip_prefix("&mut "), kind.strip_prefix('&')) {
        (Some(inside), _) => ("", inside),
        (None, Some(inside)) => ("const ", inside),
        (None, None) => return vec![word(&kind).to_string()],
    };
    if let Some(array) = array(inside) {
        return vec![format!("{fixed}{array}")];
    }
    match inside.strip_prefix('[').and_then(|i| i.strip_suffix(']')) {
        Some(name) => vec![format!("{fixed}{} *", word(name)), "size".to_string()],
        None => vec![format!("{fixed}{} *", word(inside))],
    }
}

/// The type of a parameter of the header, as `const uint8_t *bytes` or `size_t item[7]`.
fn of_header(parameter: &str) -> String {
    let (fixed, rest) = match parameter.strip_prefix("const ") {
        Some(rest) => ("const ", rest),
        None => ("", parameter),
    };
    let (kind, name) = rest.split_once(' ').expect("a type and a name");
    match (name.starts_with('*'), name.split_once('[')) {
        (true, _) => format!("{fixed}{} *", word(kind)),
        (false, Some((_, length))) => format!("{fixed}{}[{length}", word(kind)),
        (false, None) => word(kind).to_string(),
    }
}

/// The type of a parameter of a binding, as `bytes: *const u8` or `item: *mut [usize; 7]`.
fn of_binding(parameter: &str) -> String {
    let (_, kind) = parameter.split_once(": ").expect("a name and a type");
    let (fixed, inside) = match (kind.strip_prefix("*mut "), kind.strip_prefix("*const ")) {
        (Some(inside), _) => ("", inside),
        (None, Some(inside)) => ("const ", inside),
        (None, None) => return word(kind).to_string(),
    };
    match array(inside) {
        Some(array) => format!("{fixed}{array}"),
        None => format!("{fixed}{} *", word(inside)),
    }
}

fn answer(behind: &str) -> String {
    let kind = behind.strip_prefix("->").expect("an answer").trim();
    word(kind.split_whitespace().next().unwrap_or(kind)).to_string()
}

const EXPORT: &str = "\n#[unsafe(no_mangle)]\npub extern \"C\" fn ";

fn exports() -> String {
    text_of("crates/ardhrumesh_c/src/lib.rt")
}

fn unit() -> Heads {
    let text = exports();
    let heads = heads_behind(&text, EXPORT, &['{']);
    heads
        .into_iter()
        .map(|head| {
            let before_promises = head.split("ensures").next().unwrap_or(head);
            let (name, parameters, behind) = cut(before_promises);
            let mut types: Types = parameters.iter().flat_map(|p| of_unit(p)).collect();
            types.push(answer(&behind));
            (name, types)
        })
        .collect()
}

/// The heads of a text's calls with their promises, however they are laid out, in the order of the text.
fn promised(text: &str, start: &str) -> Vec<String> {
    text.split(start)
        .skip(1)
        .filter(|rest| rest.starts_with("ardh_"))
        .map(|rest| rest.split("\n{").next().unwrap_or(rest))
        .map(|head| {
            head.split_whitespace()
                .collect::<String>()
                .replace(",)", ")")
        })
        .collect()
}

#[test]
fn the_exported_calls_promise_what_those_beneath_promise() {
    let libraries = ["stream_calls", "report_calls", "pixel_calls", "macro_calls"];
    let text = libraries.map(|name| text_of(&format!("crates/{name}/src/lib.rt")));
    let beneath = promised(&text.concat(), "\npub fn ");
    assert_eq!(beneath.len(), 16);
    assert_eq!(promised(&exports(), EXPORT), beneath);
}

fn header() -> Heads {
    let text = text_of("include/ardhrumesh.h");
    let prototypes = heads_behind(&text, "\nuint8_t ", &[';']);
    prototypes
        .into_iter()
        .map(|head| {
            let (name, parameters, _) = cut(head);
            let mut types: Types = parameters.iter().map(|p| of_header(p)).collect();
            types.push("u8".to_string());
            (name, types)
        })
        .collect()
}

fn bindings() -> Heads {
    let text = text_of("beside/src/archive.rs");
    let raw = text.split("\n}\n").next().unwrap_or(&text);
    // an array's length stands behind a semicolon of its own
    let raw = raw.replace("; ", ";_");
    heads_behind(&raw, "pub fn ", &['\n'; 0])
        .into_iter()
        .map(|rest| {
            let head = rest.split(";\n").next().unwrap_or(rest).replace(";_", "; ");
            let (name, parameters, behind) = cut(&head);
            let mut types: Types = parameters.iter().map(|p| of_binding(p)).collect();
            types.push(answer(&behind));
            (name, types)
        })
        .collect()
}

#[test]
fn the_header_has_the_calls_of_the_unit() {
    let unit = unit();
    assert_eq!(unit.len(), 16);
    assert_eq!(header(), unit);
}

#[test]
fn the_bindings_have_the_calls_of_the_unit() {
    assert_eq!(bindings(), unit());
}

/// `BytesEnd` as `BYTES_END`.
fn in_capitals(name: &str) -> String {
    let mut capitals = String::new();
    for letter in name.chars() {
        if letter.is_uppercase() && !capitals.is_empty() {
            capitals.push('_');
        }
        capitals.extend(letter.to_uppercase());
    }
    capitals
}

#[test]
fn the_header_has_the_numbers_of_the_unit() {
    let header = text_of("include/ardhrumesh.h");
    let unit = text_of("crates/refusals/src/lib.rt");
    let numbers: Vec<(&str, &str)> = unit
        .lines()
        .filter_map(|line| line.trim().strip_prefix("Refusal::")?.strip_suffix(','))
        .filter_map(|line| line.split_once(" => "))
        .collect();
    assert_eq!(numbers.len(), 17);
    for (name, number) in numbers {
        let line = format!("ARDH_{} = {number}", in_capitals(name));
        assert_eq!(header.matches(&line).count(), 1, "{line}");
    }
}
