//! The exported functions, their structs and the version are declared three times: in Rattle, where they are proved, in
//! C and in Rust. The compiled code has no types, so nothing but this test sees a declaration that differs from the
//! others.
use std::collections::BTreeMap;
use std::fs;
use std::path::{Path, PathBuf};

/// By its name, what is declared: the parameters and the result of a function, the members of a struct, the version's
/// value. All in the words of Rust, whatever the language was.
type Declarations = BTreeMap<String, Vec<String>>;

type Tokens = Vec<String>;

const VERSION: &str = "version";

// What stands before the name of an exported function.
const RATTLE_FUNCTION: &str = "# [ unsafe ( no_mangle ) ] pub extern \" C \" fn";
const RUST_FUNCTION: &str = "fn";

fn declare(found: &mut Declarations, name: String, what: Vec<String>) {
    assert!(found.insert(name.clone(), what).is_none(), "{name} is declared twice");
}

/// The names that one has and the other has not, or has otherwise.
fn differences(left: &Declarations, right: &Declarations) -> Vec<String> {
    let names = left.keys().chain(right.keys().filter(|name| !left.contains_key(*name)));
    names.filter(|name| left.get(*name) != right.get(*name)).cloned().collect()
}

// ---- tokens

fn without_comments(text: &str) -> String {
    let mut plain = String::new();
    let mut rest = text;
    while let Some(start) = rest.find("/*").into_iter().chain(rest.find("//")).min() {
        let (end, len) = if rest[start..].starts_with("/*") { ("*/", 2) } else { ("\n", 0) };
        plain.push_str(&rest[..start]);
        plain.push(' ');
        rest = rest[start..].find(end).map_or("", |at| &rest[start + at + len..]);
    }
    plain + rest
}

fn is_word(c: char) -> bool {
    c.is_ascii_alphanumeric() || c == '_'
}

/// Words, and each other character by itself.
fn tokens(text: &str) -> Tokens {
    let mut found = Tokens::new();
    let mut in_word = false;
    for c in without_comments(text).chars() {
        match found.last_mut() {
            Some(word) if in_word && is_word(c) => word.push(c),
            _ if c.is_whitespace() => {}
            _ => found.push(c.to_string()),
        }
        in_word = is_word(c);
    }
    found
}

/// The tokens between the opening bracket at `start` and the one that closes it, and the place behind that.
fn bracketed(tokens: &[String], start: usize) -> (&[String], usize) {
    let mut depth = 0;
    for (at, token) in tokens.iter().enumerate().skip(start) {
        match token.as_str() {
            "(" | "[" | "{" => depth += 1,
            ")" | "]" | "}" => depth -= 1,
            _ => {}
        }
        if depth == 0 {
            return (&tokens[start + 1..at], at + 1);
        }
    }
    panic!("a bracket stays open: {:?}", &tokens[start..]);
}

fn split<'a>(tokens: &'a [String], separator: &str) -> Vec<&'a [String]> {
    tokens.split(|token| token == separator).filter(|part| !part.is_empty()).collect()
}

fn starts(tokens: &[String], words: &str) -> bool {
    let mut rest = tokens.iter();
    words.split(' ').all(|word| rest.next().is_some_and(|token| token == word))
}

// ---- Rattle and Rust

/// A struct's name has a prefix in Rattle.
fn rust_type(tokens: &[String]) -> String {
    tokens.iter().map(|token| token.trim_start_matches("Tushalets")).collect::<Vec<_>>().join(" ")
}

/// A slice is a pointer and a length; a reference to an array is a pointer. `result` is a word of contracts in Rattle, which
/// has `res`.
fn rust_parameter(parameter: &[String]) -> Vec<String> {
    let name = match parameter[0].as_str() {
        "res" => "result",
        name => name,
    };
    let of = &parameter[2..];
    let (pointer, of) = match of {
        _ if starts(of, "& mut") => ("* mut", &of[2..]),
        _ if starts(of, "&") => ("* const", &of[1..]),
        _ => return vec![format!("{name}: {}", rust_type(of))],
    };
    match of {
        [_, element, _] => vec![format!("{name}: {pointer} {element}"), format!("{name}_len: usize")],
        _ => vec![format!("{name}: {pointer} {}", rust_type(of))],
    }
}

fn rust_function(rest: &[String]) -> Vec<String> {
    let (parameters, end) = bracketed(rest, 1);
    let mut what: Vec<String> = split(parameters, ",").into_iter().flat_map(rust_parameter).collect();
    let result = if starts(&rest[end..], "- >") { rust_type(&rest[end + 2..end + 3]) } else { "()".to_string() };
    what.push(format!("-> {result}"));
    what
}

fn declared_in_rust(tokens: &[String], before_function: &str) -> Declarations {
    let mut found = Declarations::new();
    for at in 0..tokens.len() {
        let rest = &tokens[at..];
        if starts(rest, before_function) {
            let function = &rest[before_function.split(' ').count()..];
            if function[0].starts_with("tushalets_") {
                declare(&mut found, function[0].clone(), rust_function(function));
            }
        } else if starts(rest, "# [ repr ( C ) ]") {
            let name = rest.iter().position(|token| token == "struct").expect("repr(C) of a struct") + 1;
            let members = split(bracketed(rest, name + 1).0, ",");
            let what = members.iter().map(|member| format!("{}: {}", member[1], rust_type(&member[3..])));
            declare(&mut found, format!("struct {}", rust_type(&rest[name..=name])), what.collect());
        } else if starts(rest, "pub const VERSION : u32 =") {
            declare(&mut found, VERSION.to_string(), vec![rest[6].clone()]);
        }
    }
    found
}

// ---- C

/// The tokens of a header. `#define NAME VALUE` becomes a statement; other directives are left out.
fn c_tokens(text: &str) -> Tokens {
    let plain = without_comments(text);
    let lines = plain.lines().map(|line| match line.trim_start().strip_prefix('#') {
        Some(directive) if directive.starts_with("define") => format!("{directive};\n"),
        Some(_) => String::new(),
        None => format!("{line}\n"),
    });
    tokens(&lines.collect::<String>())
}

/// The type in Rust; of a struct, its name in Rust.
fn c_type(word: &str) -> String {
    let fixed = match word {
        "uint8_t" => "u8",
        "uint32_t" => "u32",
        "uint64_t" => "u64",
        "int32_t" => "i32",
        "size_t" => "usize",
        "void" => "()",
        _ => match word.strip_prefix("tushalets_") {
            Some(name) => return name[..1].to_uppercase() + &name[1..],
            None => word,
        },
    };
    fixed.to_string()
}

/// A member or a parameter. `type` is a keyword in Rust and Rattle, which have `type_number`.
fn c_variable(variable: &[String], is_parameter: bool) -> String {
    let is_const = starts(variable, "const");
    let rest = &variable[is_const as usize..];
    let is_pointer = rest[1] == "*";
    let name = match rest[1 + is_pointer as usize].as_str() {
        "type" => "type_number",
        name => name,
    };
    let element = c_type(&rest[0]);
    let length = rest.iter().position(|token| token == "[").map(|at| &rest[at + 1]);
    let of = length.map_or(element.clone(), |length| format!("[ {element} ; {length} ]"));
    match (is_pointer || is_parameter && length.is_some(), is_const) {
        (true, true) => format!("{name}: * const {of}"),
        (true, false) => format!("{name}: * mut {of}"),
        (false, _) => format!("{name}: {of}"),
    }
}

fn c_function(rest: &[String]) -> Vec<String> {
    let parameters = split(bracketed(rest, 2).0, ",");
    let parameters = parameters.into_iter().filter(|parameter| !starts(parameter, "void"));
    let result = format!("-> {}", c_type(&rest[0]));
    parameters.map(|parameter| c_variable(parameter, true)).chain([result]).collect()
}

fn declared_in_c(tokens: &[String]) -> Declarations {
    let mut found = Declarations::new();
    let mut rest = tokens;
    while let Some(stop) = rest.iter().position(|token| token == "{" || token == ";") {
        let mut end = stop + 1;
        let has_block = rest[stop] == "{" && !starts(rest, "extern \" C \" {");
        if has_block {
            end = bracketed(rest, stop).1;
        }
        if has_block && starts(rest, "typedef struct") {
            let members = split(&rest[stop + 1..end - 1], ";");
            let what = members.into_iter().map(|member| c_variable(member, false));
            declare(&mut found, format!("struct {}", c_type(&rest[end])), what.collect());
        } else if starts(rest, "define TUSHALETS_VERSION") {
            declare(&mut found, VERSION.to_string(), vec![rest[2].clone()]);
        } else if !has_block && stop > 2 && rest[2] == "(" && rest[1].starts_with("tushalets_") {
            declare(&mut found, rest[1].clone(), c_function(rest));
        }
        rest = &rest[end..];
    }
    found
}

// ---- numbers with a name

fn number(token: &str) -> Option<u64> {
    let digits = token.replace('_', "");
    match digits.strip_prefix("0x") {
        Some(hex) => u64::from_str_radix(hex, 16).ok(),
        None => digits.parse().ok(),
    }
}

fn numbers_in_c(tokens: &[String]) -> BTreeMap<String, u64> {
    let name = |token: &str| token.strip_prefix("TUSHALETS_").map(str::to_string);
    let named = tokens.windows(3).filter_map(|three| match three[1].as_str() {
        "=" => Some((name(&three[0])?, number(&three[2])?)),
        _ if three[0] == "define" => Some((name(&three[1])?, number(&three[2])?)),
        _ => None,
    });
    named.collect()
}

/// Shapes and acts have their module's name in C. A reply's type, which is a sum, has no name there.
fn numbers_in_rust(tokens: &[String]) -> BTreeMap<String, u64> {
    let mut found = BTreeMap::new();
    let mut prefix = "";
    for at in 0..tokens.len() {
        let rest = &tokens[at..];
        if starts(rest, "pub mod") {
            prefix = match rest[2].as_str() {
                "shapes" => "SHAPE_",
                "acts" => "ACT_",
                _ => "",
            };
        } else if starts(rest, "pub const") && rest[5] == "=" && rest[7] == ";" {
            if let Some(number) = number(&rest[6]) {
                found.insert(format!("{prefix}{}", rest[2]), number);
            }
        }
    }
    found
}

// ---- the texts

fn crate_file(path: &str) -> PathBuf {
    Path::new(env!("CARGO_MANIFEST_DIR")).join(path)
}

fn text(path: &Path) -> String {
    fs::read_to_string(path).unwrap_or_else(|error| panic!("{}: {error}", path.display()))
}

fn files_in(folder: &Path) -> Vec<PathBuf> {
    let files = fs::read_dir(folder).unwrap_or_else(|error| panic!("{}: {error}", folder.display()));
    let mut files: Vec<PathBuf> = files.map(|file| file.expect("a file").path()).collect();
    files.sort();
    files
}

/// All files of the static library, which has the functions, and of the crates of the exports, which have the structs,
/// however many there are.
fn rattle() -> Tokens {
    let is_export = |folder: &PathBuf| {
        let name = folder.file_name().unwrap_or_default().to_string_lossy();
        name == "tushalets_c" || name.starts_with("exports")
    };
    let folders = files_in(&crate_file("../../crates")).into_iter().filter(is_export);
    folders.flat_map(|folder| files_in(&folder.join("src"))).flat_map(|file| tokens(&text(&file))).collect()
}

fn c() -> Tokens {
    c_tokens(&text(&crate_file("../c/tushalets.h")))
}

fn rust(paths: &[&str]) -> Tokens {
    paths.iter().flat_map(|path| tokens(&text(&crate_file(path)))).collect()
}

fn rust_declarations() -> Tokens {
    rust(&["src/lib.rs", "src/raw.rs"])
}

// ---- tests

#[test]
fn the_same_in_three_languages() {
    let rattle = declared_in_rust(&rattle(), RATTLE_FUNCTION);
    for (language, other) in
        [("C", declared_in_c(&c())), ("Rust", declared_in_rust(&rust_declarations(), RUST_FUNCTION))]
    {
        let shown =
            |name: &String| format!("{name}\n  Rattle {:?}\n  {language} {:?}", rattle.get(name), other.get(name));
        let differing: Vec<String> = differences(&rattle, &other).iter().map(shown).collect();
        assert!(differing.is_empty(), "{}", differing.join("\n"));
    }
}

/// A declaration that no parser saw would be equal in all three.
#[test]
fn every_export_is_seen() {
    let rattle = rattle();
    let declared = declared_in_rust(&rattle, RATTLE_FUNCTION);
    let count = |word: &str| rattle.iter().filter(|token| *token == word).count();
    assert_eq!(declared.keys().filter(|name| name.starts_with("tushalets_")).count(), count("no_mangle"));
    assert_eq!(declared.keys().filter(|name| name.starts_with("struct ")).count(), count("repr"));
    assert_eq!(declared[VERSION], [tushalets::VERSION.to_string()]);
}

#[test]
fn names_of_numbers_are_the_same_in_c_and_rust() {
    assert_eq!(numbers_in_c(&c()), numbers_in_rust(&rust(&["src/lib.rs", "src/numbers.rs"])));
}

/// The tokens with one place altered.
fn altered(tokens: &[String], from: &str, to: &str) -> Tokens {
    let text = tokens.join(" ");
    assert_eq!(text.matches(from).count(), 1, "`{from}` does not stand there once");
    text.replace(from, to).split_whitespace().map(str::to_string).collect()
}

/// What is to differ, and the words that are altered.
type Alteration = (&'static str, &'static str, &'static str);

fn all_are_seen(tokens: &[String], declared: impl Fn(&[String]) -> Declarations, alterations: &[Alteration]) {
    let right = declared(tokens);
    for (name, from, to) in alterations {
        assert_eq!(differences(&right, &declared(&altered(tokens, from, to))), [*name], "`{from}` to `{to}`");
    }
}

#[test]
fn wrong_rattle_is_seen() {
    let alterations = [
        ("struct Reading", "pub shape : u32 , pub number : u32", "pub number : u32 , pub shape : u32"),
        ("struct Reading", "fields : [ u64 ; 17 ] , }", "fields : [ u64 ; 16 ] , }"),
        (
            "struct Name",
            "# [ repr ( C ) ] # [ derive ( Drop ) ] pub struct TushaletsName",
            "# [ derive ( Drop ) ] pub struct TushaletsName",
        ),
        ("struct Fronted", "pub act : u32 ,", ""),
        (
            "tushalets_front",
            "# [ unsafe ( no_mangle ) ] pub extern \" C \" fn tushalets_front",
            "pub fn tushalets_front",
        ),
        (
            "tushalets_next_name",
            "\" C \" fn tushalets_next_name ( message : & [ u8 ] , at : usize , left : u32 )",
            "\" C \" fn tushalets_next_name ( message : & [ u8 ] , left : u32 , at : usize )",
        ),
        (
            "tushalets_list_request",
            "\" C \" fn tushalets_list_request ( message : & [ u8 ] ,",
            "\" C \" fn tushalets_list_request (",
        ),
        ("tushalets_version", "\" C \" fn tushalets_version ( ) - > u32", "\" C \" fn tushalets_version ( ) - > u64"),
        ("struct Looked", "pub held : u32 ,", "pub held : usize ,"),
        (
            "tushalets_empty",
            "\" C \" fn tushalets_empty ( records : & mut [ u64 ]",
            "\" C \" fn tushalets_empty ( records : & [ u64 ]",
        ),
        (
            "tushalets_look",
            "\" C \" fn tushalets_look ( records : & [ u64 ]",
            "\" C \" fn tushalets_look ( records : & [ u32 ]",
        ),
        (VERSION, "VERSION : u32 =", "VERSION : u32 = 9"),
    ];
    all_are_seen(&rattle(), |tokens| declared_in_rust(tokens, RATTLE_FUNCTION), &alterations);
}

#[test]
fn wrong_c_is_seen() {
    let alterations = [
        ("struct Reading", "uint32_t id ; uint32_t type ;", "uint32_t type ; uint32_t id ;"),
        ("struct Reading", "size_t known ;", "uint32_t known ;"),
        ("struct Reading", "fields [ 17 ] ;", "fields [ 15 ] ;"),
        ("tushalets_write_request", "const uint64_t numbers [ 5 ]", "const uint64_t numbers [ 14 ]"),
        ("tushalets_write_request", "const uint8_t * first", "uint8_t * first"),
        ("tushalets_write_reply", "const uint32_t * lengths", "const uint64_t * lengths"),
        ("tushalets_write_reply", "int32_t result", "uint32_t result"),
        ("tushalets_next_name", "size_t at , uint32_t left", "uint32_t left , size_t at"),
        ("tushalets_well_formed_end", ", size_t text_len", ""),
        ("struct Looked", "uint32_t held ; uint32_t type ;", "uint32_t type ; uint32_t held ;"),
        ("tushalets_enter", "uint32_t id , uint8_t type ) ;", "uint8_t type , uint32_t id ) ;"),
        ("tushalets_look", "const uint64_t * records", "uint64_t * records"),
        ("tushalets_version", "uint32_t tushalets_version ( void ) ;", ""),
        ("tushalets_more", "uint32_t tushalets_version", "void tushalets_more ( void ) ; uint32_t tushalets_version"),
        (VERSION, "define TUSHALETS_VERSION", "define TUSHALETS_VERSION 9"),
    ];
    all_are_seen(&c(), declared_in_c, &alterations);
}

#[test]
fn wrong_rust_is_seen() {
    let alterations = [
        ("struct Name", "pub start : usize , pub len : usize", "pub len : usize , pub start : usize"),
        ("struct Reading", "pub known : usize , pub fields", "pub known : u64 , pub fields"),
        (
            "tushalets_write_failure",
            "type_number : u8 , code : i32 , out : * mut u8",
            "type_number : u8 , out : * mut u8",
        ),
        ("tushalets_write_request", "numbers : * const [ u64 ; 5 ]", "numbers : * const [ u64 ; 6 ]"),
        ("tushalets_write_request", "first : * const u8 , first_len", "first : * mut u8 , first_len"),
        ("struct Looked", "pub type_number : u32 , pub count : usize", "pub type_number : usize , pub count : usize"),
        ("tushalets_arrive", "records : * mut u64 , records_len : usize , message", "message"),
        ("tushalets_look", "records : * const u64", "records : * const u32"),
        ("tushalets_version", "fn tushalets_version ( ) - > u32 ;", ""),
        ("tushalets_more", "fn tushalets_version ( )", "fn tushalets_more ( ) ; fn tushalets_version ( )"),
        (VERSION, "VERSION : u32 =", "VERSION : u32 = 9"),
    ];
    all_are_seen(&rust_declarations(), |tokens| declared_in_rust(tokens, RUST_FUNCTION), &alterations);
}
