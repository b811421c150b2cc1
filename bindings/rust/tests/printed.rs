//! How faults and names are printed: in one line, with control characters as escapes.

use rigyomad::{encode, names, parse_file, parse_str};

/// Characters that could send a command to a terminal, begin a line of a log, or change the order of
/// a line.
const CONTROLS: &str = concat!(
    "\0\x07\t\n\r\x1b\x7f\u{85}\u{9b}\u{61c}\u{200e}\u{200f}\u{2028}\u{2029}",
    "\u{202a}\u{202b}\u{202c}\u{202d}\u{202e}\u{2066}\u{2067}\u{2068}\u{2069}"
);

/// How they are printed.
const ESCAPES: &str = concat!(
    r"\u{0}\u{7}\t\n\r\u{1b}\u{7f}\u{85}\u{9b}\u{61c}\u{200e}\u{200f}\u{2028}\u{2029}",
    r"\u{202a}\u{202b}\u{202c}\u{202d}\u{202e}\u{2066}\u{2067}\u{2068}\u{2069}"
);

#[test]
fn control_characters_of_a_message_are_escaped() {
    let id: String = CONTROLS.chars().map(|it| format!("\\u{{{:x}}}", it as u32)).collect();
    let text = format!("(module (start $\"{id}\"))");
    let fault = encode(&text).unwrap_err();
    let message = format!("unknown func: failed to find name `${ESCAPES}`");
    assert_eq!(fault.message(), format!("unknown func: failed to find name `${CONTROLS}`"));
    assert_eq!(fault.to_string(), format!("1:16: {message}"));
    assert!(
        format!("{fault:#}").starts_with(&format!("{message}\n --> 1:16\n  |\n1 | (module (start"))
    );
    let name = names(&format!("(module (func $\"{id}\"))")).unwrap().remove(0);
    assert_eq!(name.to_string(), format!("func $\"{ESCAPES}\" 0"));
}

#[test]
fn control_characters_of_a_source_line_are_escaped() {
    let controls = CONTROLS.replace('\n', "");
    let shown = ESCAPES.replace(r"\n", "").replace(r"\t", "\t");
    let fault = encode(&format!("(;{controls};) (start $f)")).unwrap_err();
    let lines = format!("1 | (;{shown};) (start $f)\n  | ");
    let blanks: String = format!("(;{shown};) (start ")
        .chars()
        .map(|it| if it == '\t' { it } else { ' ' })
        .collect();
    assert!(format!("{fault:#}").ends_with(&format!("{lines}{blanks}^~")), "{fault:#}");
}

#[test]
fn control_characters_of_a_path_are_escaped() {
    let mut error = parse_str("(module").unwrap_err();
    error.set_path(CONTROLS);
    assert!(error.to_string().starts_with(&format!("{ESCAPES}:1:8: ")));
    assert!(format!("{error:#}").contains(&format!("\n --> {ESCAPES}:1:8\n")));
    let error = parse_file(format!("no/{}", CONTROLS.replace('\0', ""))).unwrap_err();
    assert!(error
        .to_string()
        .starts_with(&format!("cannot read no/{}: ", ESCAPES.replace(r"\u{0}", ""))));
    assert_eq!(error.to_string(), format!("{error:#}"));
}

#[test]
fn names_are_printed_as_the_command_does() {
    let all = names(r#"(module (func $f) (memory $"a b" 1) (type $"\"\\é" (func)))"#).unwrap();
    let all: Vec<_> = all.iter().map(ToString::to_string).collect();
    assert_eq!(all, ["func $f 0", r#"memory $"a b" 0"#, r#"type $"\"\\\u{e9}" 0"#]);
    for byte in "(),;[]{}".chars() {
        let name = names(&format!("(module (func $\"{byte}\"))")).unwrap().remove(0);
        assert_eq!(name.to_string(), format!("func $\"{byte}\" 0"));
    }
}
