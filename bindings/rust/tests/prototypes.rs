//! The prototypes of the header and of `raw` are those of the library's source, name by name and type by
//! type. All three are read as text and brought to one form, that of Rust's raw pointers. A board is lent as
//! its words or, by the function that changes one of its fields, as the record of them; that record's fields
//! are those of the two structs here.

use std::fs;
use std::path::{Path, PathBuf};

use juzvanec::{Board, DOMAINS, TEXT_BYTES};

/// The functions that there were when this was written: a shorter list was not read right.
const LEAST: usize = 14;

#[derive(Clone, Debug, PartialEq)]
struct Prototype {
    name: String,
    result: String,
    parameters: Vec<Parameter>,
}

#[derive(Clone, Debug, PartialEq)]
struct Parameter {
    name: String,
    kind: String,
}

/// In the library's source the length of a list has no name of its own: it is the list's behind this mark.
const LENGTH_OF: &str = "length of ";

fn parameter(name: &str, kind: impl Into<String>) -> Parameter {
    Parameter {
        name: name.to_string(),
        kind: kind.into(),
    }
}

/// A function as Rattle and Rust write it: `name: type` for each parameter, `-> type` where it returns
/// something, and anything behind.
fn signature(text: &str, parameters: impl Fn(&str, &str) -> Vec<Parameter>) -> Prototype {
    let (name, rest) = text.split_once('(').expect("parameters");
    let (list, rest) = rest.split_once(')').expect("their end");
    let list = list.split(',').map(str::trim).filter(|one| !one.is_empty());
    let result = rest.trim_start().strip_prefix("-> ").unwrap_or("");
    let result = result.split(|c: char| !c.is_alphanumeric()).next();
    Prototype {
        name: name.to_string(),
        result: result.unwrap_or("").to_string(),
        parameters: list
            .map(|one| one.split_once(": ").expect("a type"))
            .flat_map(|(name, kind)| parameters(name, kind))
            .collect(),
    }
}

/// A parameter of the library: a list is a pointer and a length, any other reference a pointer.
fn lent(name: &str, kind: &str) -> Vec<Parameter> {
    let (pointer, target) = match (kind.strip_prefix("&mut "), kind.strip_prefix('&')) {
        (Some(target), _) => ("*mut ", target),
        (None, Some(target)) => ("*const ", target),
        (None, None) => ("", kind),
    };
    let element = target.strip_prefix('[').and_then(|t| t.strip_suffix(']'));
    match element.filter(|element| !element.contains(';')) {
        Some(element) => vec![
            parameter(name, format!("{pointer}{element}")),
            parameter(&format!("{LENGTH_OF}{name}"), "usize"),
        ],
        None => vec![parameter(name, format!("{pointer}{target}"))],
    }
}

/// A field of a board, and how many words it has.
type Field = (String, usize);

/// The fields of the struct of this name, as Rattle and Rust write them: `pub name: u32` or, for eight words,
/// an array of them. They stand in this order in memory, with `#[repr(C)]` before them.
fn fields(source: &str, name: &str) -> Vec<Field> {
    let start = format!("\npub struct {name} {{\n");
    let (head, rest) = source.split_once(&start).expect("the struct");
    let attributes = head.lines().rev().take_while(|line| line.starts_with("#["));
    assert!({ attributes }.any(|line| line == "#[repr(C)]"), "{name}");
    let (list, _) = rest.split_once("\n}").expect("its end");
    let list = list.lines().map(str::trim);
    let list = list.filter(|line| !line.starts_with("//"));
    let field = list.map(|line| {
        let line = line.strip_prefix("pub ").and_then(|l| l.strip_suffix(','));
        let (name, kind) = line.and_then(|l| l.split_once(": ")).expect("a field");
        let words = match kind {
            "u32" => 1,
            "[u32; 8]" | "[u32; DOMAINS]" => DOMAINS,
            _ => panic!("{name} is {kind}?"),
        };
        (name.to_string(), words)
    });
    field.collect()
}

/// The fields of the header's board.
fn fields_of_header(header: &str) -> Vec<Field> {
    let text = plain(header);
    let (_, rest) = text
        .split_once("struct juzvanec_board {")
        .expect("the struct");
    let (list, _) = rest.split_once('}').expect("its end");
    let list = list.split(';').map(str::trim).filter(|one| !one.is_empty());
    let field = list.map(|one| {
        let field = one.strip_prefix("uint32_t ").expect("a word, or several");
        match field.strip_suffix(']').and_then(|f| f.split_once('[')) {
            None => (field.to_string(), 1),
            Some((name, length)) => {
                let words = constant(header, length).parse().expect("a number");
                (name.to_string(), words)
            }
        }
    });
    field.collect()
}

/// The fields of the library's record.
fn fields_of_library() -> Vec<Field> {
    fields(&text_of("crates/board/src/lib.rt"), "Board")
}

fn words(fields: &[Field]) -> usize {
    fields.iter().map(|(_, words)| words).sum()
}

/// The functions that the library exports. A record is its words.
fn of_library() -> Vec<Prototype> {
    let board = format!("[u32; {}]", words(&fields_of_library()));
    let sources = fs::read_dir(repository().join("crates/juzvanec/src")).expect("sources");
    let sources = sources.map(|entry| fs::read_to_string(entry.expect("a file").path()));
    let sources: Vec<String> = sources.map(|text| text.expect("text")).collect();
    let mark = "#[unsafe(no_mangle)]\npub extern \"C\" fn ";
    let exported = sources.iter().flat_map(|text| text.split(mark).skip(1));
    let parameters = |name: &str, kind: &str| {
        let kind = kind.replace("board::Board", "Board");
        lent(name, &kind.replace("Board", &board))
    };
    in_order(exported.map(|text| signature(text, parameters)).collect())
}

/// The functions of `raw`, whose `Board` is so many words.
fn of_raw(source: &str) -> Vec<Prototype> {
    let words = size_of::<Board>() / size_of::<u32>();
    let kind = |kind: &str| {
        kind.replace("Board", &format!("[u32; {words}]"))
            .replace("TEXT_BYTES", &TEXT_BYTES.to_string())
    };
    let declared = source.split("pub fn ").skip(1);
    let read = |text| signature(text, |name, written| vec![parameter(name, kind(written))]);
    in_order(declared.map(read).collect())
}

/// The number of a constant of the header.
fn constant(header: &str, name: &str) -> String {
    let start = format!("#define {name} ");
    let value = header.lines().find_map(|line| line.strip_prefix(&start));
    let value = value.and_then(|text| text.split('u').next());
    value.expect("the constant").to_string()
}

/// The text without comments and without what the preprocessor takes.
fn plain(header: &str) -> String {
    let mut parts = header.split("/*");
    let mut text = parts.next().unwrap_or("").to_string();
    for part in parts {
        text += part.split_once("*/").expect("the comment's end").1;
    }
    let lines = text.lines().filter(|line| !line.starts_with('#'));
    lines.collect::<Vec<_>>().join(" ")
}

/// A parameter in C. An array of so many bytes is a pointer to them.
fn of_c(header: &str, text: &str) -> Parameter {
    let (pointer, text) = match text.strip_prefix("const ") {
        Some(text) => ("*const ", text),
        None => ("*mut ", text),
    };
    let (kind, name) = text.rsplit_once(' ').expect("a type");
    let words = constant(header, "JUZVANEC_BOARD_WORDS");
    let kind = match kind {
        "uint8_t" => "u8".to_string(),
        "uint16_t" => "u16".to_string(),
        "uint32_t" => "u32".to_string(),
        "uint64_t" => "u64".to_string(),
        "size_t" => "usize".to_string(),
        "struct juzvanec_board" => format!("[u32; {words}]"),
        _ => kind.to_string(),
    };
    match (name.strip_prefix('*'), name.strip_suffix(']')) {
        (Some(name), _) => parameter(name, format!("{pointer}{kind}")),
        (None, Some(array)) => {
            let (name, length) = array.split_once('[').expect("an array");
            let length = constant(header, length);
            parameter(name, format!("{pointer}[{kind}; {length}]"))
        }
        (None, None) => parameter(name, kind),
    }
}

/// The functions that the header declares; those that it defines itself are no prototypes.
fn of_header(header: &str) -> Vec<Prototype> {
    let text = plain(header);
    let declared = text.split([';', '{', '}']).map(str::trim);
    let declared = declared.filter(|text| text.contains(" juzvanec_") && text.ends_with(')'));
    let declared = declared.filter(|text| !text.starts_with("static "));
    let read = declared.map(|text| {
        let (head, list) = text.split_once('(').expect("parameters");
        let (result, name) = head.rsplit_once(' ').expect("a result");
        let list = list.strip_suffix(')').expect("their end");
        let list = list.split(',').map(|one| {
            let words: Vec<&str> = one.split_whitespace().collect();
            words.join(" ")
        });
        let list = list.filter(|one| one != "void");
        Prototype {
            name: name.to_string(),
            result: match result {
                "void" => String::new(),
                _ => of_c(header, &format!("{result} r")).kind,
            },
            parameters: list.map(|one| of_c(header, &one)).collect(),
        }
    });
    in_order(read.collect())
}

fn repository() -> PathBuf {
    Path::new(env!("CARGO_MANIFEST_DIR")).join("../..")
}

fn text_of(path: &str) -> String {
    fs::read_to_string(repository().join(path)).expect("the file is there")
}

fn in_order(mut prototypes: Vec<Prototype>) -> Vec<Prototype> {
    prototypes.sort_by(|one, two| one.name.cmp(&two.name));
    prototypes
}

/// Whether the name is that of the library's parameter. A length is called after its list, one or many
/// (`moves`, `move_words`), and after what it counts.
fn named(library: &str, name: &str) -> bool {
    let Some(list) = library.strip_prefix(LENGTH_OF) else {
        return library == name;
    };
    ["words", "bytes", "count", "room"].iter().any(|unit| {
        let one = list.strip_suffix('s').unwrap_or(list);
        name == format!("{list}_{unit}") || name == format!("{one}_{unit}")
    })
}

/// What is not as in the library, if anything.
fn difference(library: &[Prototype], other: &[Prototype]) -> Option<String> {
    if library.len() < LEAST || library.len() != other.len() {
        return Some(format!("{} functions, {}", library.len(), other.len()));
    }
    let alike = |ours: &Prototype, theirs: &Prototype| {
        let mut both = ours.parameters.iter().zip(&theirs.parameters);
        ours.name == theirs.name
            && ours.result == theirs.result
            && ours.parameters.len() == theirs.parameters.len()
            && both.all(|(one, two)| named(&one.name, &two.name) && one.kind == two.kind)
    };
    let mut both = library.iter().zip(other);
    let unlike = both.find(|(ours, theirs)| !alike(ours, theirs));
    unlike.map(|(ours, theirs)| format!("{ours:?}\n{theirs:?}"))
}

#[test]
fn header_and_raw_have_the_prototypes_of_the_library() {
    let library = of_library();
    let header = of_header(&text_of("include/juzvanec.h"));
    let raw = of_raw(&text_of("bindings/rust/src/raw.rs"));
    assert_eq!(difference(&library, &header), None);
    assert_eq!(difference(&library, &raw), None);
    assert_eq!(header, raw);
}

/// What is read of a record whose fields change, or have another order, would be another domain's.
#[test]
fn header_and_binding_have_the_fields_of_the_librarys_board() {
    let library = fields_of_library();
    let header = text_of("include/juzvanec.h");
    assert_eq!(fields_of_header(&header), library);
    let binding = text_of("bindings/rust/src/board.rs");
    assert_eq!(fields(&binding, "Board"), library);
    let said = constant(&header, "JUZVANEC_BOARD_WORDS");
    assert_eq!(words(&library).to_string(), said);
    assert_eq!(words(&library), size_of::<Board>() / size_of::<u32>());
    assert_eq!(library.len(), 6);
}

/// Every text that has one occurrence of a word replaced.
fn replaced<'a>(text: &'a str, word: &'a str, by: &'a str) -> impl Iterator<Item = String> + 'a {
    text.match_indices(word)
        .map(move |(at, _)| [&text[..at], by, &text[at + word.len()..]].concat())
}

/// Two names of a function's parameters swapped.
fn swapped(prototypes: &[Prototype]) -> Vec<Vec<Prototype>> {
    let mut all = Vec::new();
    for at in 0..prototypes.len() {
        for one in 0..prototypes[at].parameters.len() {
            for two in 0..one {
                let mut wrong = prototypes.to_vec();
                let list = &mut wrong[at].parameters;
                let kept = list[one].name.clone();
                list[one].name = list[two].name.clone();
                list[two].name = kept;
                all.push(wrong);
            }
        }
    }
    all
}

#[test]
fn two_names_swapped_are_noticed() {
    let library = of_library();
    let header = of_header(&text_of("include/juzvanec.h"));
    let wrong = swapped(&header);
    assert!(wrong.len() > 200);
    for prototypes in wrong {
        assert_ne!(difference(&library, &prototypes), None);
    }
}

/// Another type, a `const` too few, a pointer in place of a number or a number in place of a pointer.
#[test]
fn a_wrong_prototype_is_noticed() {
    let library = of_library();
    let header = text_of("include/juzvanec.h");
    let start = header
        .find("uint32_t juzvanec_interface")
        .expect("the first");
    let (head, prototypes) = header.split_at(start);
    let words = [
        ("uint32_t ", "uint64_t "),
        ("uint64_t ", "uint32_t "),
        ("uint16_t ", "uint32_t "),
        ("uint8_t ", "uint16_t "),
        ("size_t ", "uint32_t "),
        ("struct juzvanec_board ", "uint32_t "),
        ("const ", ""),
        ("uint16_t *", "const uint16_t *"),
        ("uint32_t *", "const uint32_t *"),
        (" *", " "),
        ("JUZVANEC_TEXT_BYTES", "JUZVANEC_MOST_TIME"),
        ("void ", "uint32_t "),
    ];
    let mut count = 0;
    for (word, by) in words {
        for wrong in replaced(&plain(prototypes), word, by) {
            let wrong = format!("{head}\n{wrong}");
            // `const` twice is `const`
            if wrong.contains("const const ") {
                continue;
            }
            assert_ne!(difference(&library, &of_header(&wrong)), None, "{wrong}");
            count += 1;
        }
    }
    assert!(count > 150, "{count} are tried");
}
