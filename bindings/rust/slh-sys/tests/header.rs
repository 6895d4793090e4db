//! The declarations of this crate against the headers of the library.

const DECLARATIONS: &str = include_str!("../src/lib.rs");
const HEADERS: [&str; 2] =
    [include_str!("../../../../c/include/slh.h"), include_str!("../../../../c/include/slh_verify.h")];

/// The parameters between the brackets of a declaration, without line feeds.
fn parameters(declaration: &str) -> Vec<String> {
    let inside = declaration.split_once('(').and_then(|(_, rest)| rest.split_once(')')).expect("brackets").0;
    let words = inside.split_whitespace().collect::<Vec<_>>().join(" ");
    words.split(',').map(|it| it.trim().to_owned()).filter(|it| !it.is_empty() && it != "void").collect()
}

/// A parameter of C as Rust declares it.
fn in_rust(parameter: &str) -> String {
    let at = parameter.rfind([' ', '*']).expect("a type and a name") + 1;
    let (kind, name) = parameter.split_at(at);
    let kind = match kind.trim() {
        "uint32_t" => "u32",
        "size_t" => "usize",
        "const uint8_t *" => "*const u8",
        "uint8_t *" => "*mut u8",
        "uint32_t *" => "*mut u32",
        "size_t *" => "*mut usize",
        "const slh_signed *" => "*const slh_signed",
        "uint64_t" => "u64",
        "char *" => "*mut c_char",
        "void *" => "*mut c_void",
        other => panic!("no type {other}"),
    };
    format!("{name}: {kind}")
}

#[test]
fn numbers_are_those_of_the_header() {
    let lines = HEADERS.iter().flat_map(|header| header.lines()).filter(|line| !line.starts_with(" *"));
    let numbers: Vec<_> = lines.filter_map(|line| line.trim().trim_end_matches(',').split_once(" = ")).collect();
    for (name, number) in &numbers {
        assert!(DECLARATIONS.contains(&format!("pub const {name}: u32 = {number};")), "{name} is not {number}");
    }
    assert!(numbers.len() > 25, "{} numbers", numbers.len());
}

#[test]
fn fields_of_an_item_are_those_of_the_header() {
    let inside = |text: &'static str, from: &str| {
        text.split_once(from).and_then(|(_, rest)| rest.split_once('}')).expect("a struct").0
    };
    let in_c = inside(HEADERS[0], "typedef struct slh_signed {").split(';').map(str::trim).filter(|it| !it.is_empty());
    let fields = inside(DECLARATIONS, "pub struct slh_signed {").lines().map(str::trim);
    let declared: Vec<_> = fields.filter_map(|it| it.strip_prefix("pub ")).collect();
    assert_eq!(declared, in_c.map(|it| in_rust(it) + ",").collect::<Vec<_>>());
    assert_eq!(declared.len(), 8);
}

/// The types of results: as they stand in C before a call, and in Rust behind it.
const RESULTS: [(&str, &str); 3] =
    [("\nuint32_t ", " -> u32;"), ("\nvoid ", ";"), ("\nconst char *", " -> *const c_char;")];

#[test]
fn calls_are_those_of_the_headers() {
    let after = |kind| HEADERS.iter().flat_map(move |header| header.split(kind).skip(1));
    let calls: Vec<_> = RESULTS.iter().flat_map(|(kind, result)| after(*kind).map(move |it| (it, *result))).collect();
    for (call, result) in &calls {
        let name = call.split('(').next().expect("a name");
        let found = DECLARATIONS.split(&format!("pub fn {name}(")).nth(1).expect(name);
        let declared = parameters(&format!("({found}"));
        assert_eq!(declared, parameters(call).iter().map(|it| in_rust(it)).collect::<Vec<_>>(), "{name}");
        let rest = found.split_once(')').expect("a bracket").1;
        assert!(rest.starts_with(result), "{name} returns{result}");
    }
    let is_listed = |name: &str| calls.iter().any(|(call, _)| call.split('(').next() == Some(name));
    let declared = DECLARATIONS.split("pub fn ").skip(1).filter_map(|it| it.split('(').next());
    let others: Vec<_> = declared.filter(|it| !is_listed(it)).collect();
    assert!(others.is_empty(), "no header has {others:?}");
}

#[test]
fn the_version_is_that_of_the_library() {
    // SAFETY: the call takes nothing.
    assert_eq!(slh_sys::SLH_VERSION_NUMBER, unsafe { slh_sys::slh_version() });
}
