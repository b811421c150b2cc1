//! What the calls return.

use rigyomad::{
    encode, names, names_within, resolve, version, Error, Fault, Kind, Place, Space, Within,
    VERSION,
};

/// Two items in each index space, of which the second has an id.
const NAMED: &str = r#"(module (type (func)) (type $t (func)) (func) (func $f)
    (table 1 funcref) (table $x 1 funcref) (memory 1) (memory $m 1) (global i32 (i32.const 0))
    (global $g i32 (i32.const 0)) (tag) (tag $e) (elem func) (elem $s func) (data "")
    (data $d ""))"#;

#[test]
fn faults_have_numbers_places_and_messages() {
    let fault = encode("(module\n  (start $f))").unwrap_err();
    assert_eq!(fault.number(), Some(4));
    assert_eq!(fault.kind(), Kind::Unknown);
    assert_eq!(fault.place(), Some(Place { offset: 17, line: 2, column: 10 }));
    assert_eq!(fault.message(), "unknown func: failed to find name `$f`");
    let fault = encode("(modul)").unwrap_err();
    assert_eq!((fault.number(), fault.kind()), (None, Kind::Malformed));
    assert_eq!(fault.place().map(|place| place.line), Some(1));
}

#[test]
fn faults_show_the_line_of_their_place() {
    let fault = encode("(module\r\n\t(start $f) ;; é\r\n)").unwrap_err();
    let shown = format!("{fault:#}");
    let lines: Vec<_> = shown.lines().collect();
    let wanted = [
        "unknown func: failed to find name `$f`",
        " --> 2:9",
        "  |",
        "2 | \t(start $f) ;; é",
        "  | \t       ^~",
    ];
    assert_eq!(lines, wanted);
    let fault = encode(&format!("{}(module (start $f))", "\n".repeat(99))).unwrap_err();
    assert!(
        format!("{fault:#}").contains("\n   --> 100:16\n    |\n100 | (module (start $f))\n    | ")
    );
}

#[test]
fn kinds_have_the_numbers_of_their_faults() {
    let texts = [
        ("(module (func) (import \"\" \"\" (func)))", Kind::ImportAfter),
        ("(module (func $f) (func $f))", Kind::Duplicate),
        ("(module (func (param $x i32) (local $x i32)))", Kind::Duplicate),
        ("(module (type (struct (field $x i32) (field $x i32))))", Kind::DuplicateField),
        ("(module (start $f))", Kind::Unknown),
        ("(module (type (struct)) (func (type 0) (param i32)))", Kind::NotFunc),
        ("(module (func (type 0) (param i32)))", Kind::OutOfBounds),
        ("(module (type (func)) (func (type 0) (param i32)))", Kind::NoMatch),
        ("(module (func block $a end $b))", Kind::Labels),
        ("(module (type $s (struct (field i32))) (func struct.get $s $x))", Kind::NoNamedFields),
        ("(module (type (func)) (type (cont 0)))", Kind::Uncovered),
        ("(module", Kind::Malformed),
        ("(component)", Kind::Malformed),
    ];
    for (text, kind) in texts {
        let fault = encode(text).unwrap_err();
        assert_eq!((fault.kind(), fault.number()), (kind, kind.number()), "{text}: {fault}");
        assert!(fault.place().is_some(), "{text}");
    }
}

#[test]
fn kinds_have_texts() {
    assert_eq!(Kind::Unknown.to_string(), "nothing has this name");
    assert_eq!(format!("{:5}.", Kind::Malformed), "the text is not a module.");
}

#[test]
fn errors_go_between_threads() {
    fn is_error<T: std::error::Error + Send + Sync + 'static>() {}
    is_error::<Fault>();
    is_error::<Error>();
}

#[test]
fn archive_is_that_of_the_crate() {
    assert_eq!(version(), VERSION);
}

#[test]
fn unsupported_construct_has_a_place() {
    let fault = encode("(module (type (func)) (type (cont 0)))").unwrap_err();
    assert_eq!(fault.kind(), Kind::Uncovered);
    assert_eq!(fault.place().map(|place| place.line), Some(1));
}

#[test]
fn long_messages_are_whole() {
    let name = "n".repeat(1000);
    let fault = encode(&format!("(module (start ${name}))")).unwrap_err();
    assert!(fault.message().ends_with(&format!("`${name}`")));
}

#[test]
fn names_have_numbers() {
    for (space, name) in Space::ALL.iter().zip(["f", "x", "m", "g", "e", "s", "d", "t"]) {
        for asked in Space::ALL {
            let number = if asked == *space { Some(1) } else { None };
            assert_eq!(resolve(NAMED, asked, name), Ok(number));
        }
    }
    assert!(resolve("(module (func $f) (func $f))", Space::Func, "f").is_err());
}

#[test]
fn names_are_listed_by_space_and_number() {
    let all = names(NAMED).unwrap();
    assert_eq!(all.len(), Space::ALL.len());
    for (name, space) in all.iter().zip(Space::ALL) {
        assert_eq!((name.space, name.number), (space, 1));
        assert_eq!(NAMED[name.offset..].strip_prefix('$').unwrap()[..1], name.name);
    }
    let all = names("(module (func $b) (func) (func $a))").unwrap();
    let all: Vec<_> = all.iter().map(|it| (it.name.as_str(), it.number)).collect();
    assert_eq!(all, [("b", 0), ("a", 2)]);
}

#[test]
fn names_with_escapes_are_listed_without_them() {
    let all = names(r#"(module (func $"a\20b") (func $"\u{e9}"))"#).unwrap();
    let all: Vec<_> = all.iter().map(|it| it.name.as_str()).collect();
    assert_eq!(all, ["a b", "é"]);
}

#[test]
fn generated_ids_are_not_listed() {
    assert_eq!(names(r#"(module (func (export "a")) (table funcref (elem)))"#), Ok(vec![]));
}

/// The names of locals, labels and fields of a text, each with its kind, owner and number.
fn within(text: &str) -> Vec<(Within, u32, u32, String)> {
    let all = names_within(text).unwrap();
    all.into_iter().map(|it| (it.kind, it.owner, it.number, it.name)).collect()
}

#[test]
fn names_of_locals_labels_and_fields_are_listed() {
    let text = r#"(module (import "" "" (func (param $p i32)))
        (type (func (param i32)))
        (type $s (struct (field $x i32) (field i32) (field $"y z" i64)))
        (func (param i32) (local $a i32) (local $b (@name "c") i64)
            block $l loop if $l end end end)
        (func (if $l (i32.const 0) (then block $m end))))"#;
    let wanted = [
        (Within::Local, 0, 0, "p"),
        (Within::Local, 1, 1, "a"),
        (Within::Local, 1, 2, "c"),
        (Within::Label, 1, 0, "l"),
        (Within::Label, 1, 2, "l"),
        (Within::Label, 2, 0, "l"),
        (Within::Label, 2, 1, "m"),
        (Within::Field, 1, 0, "x"),
        (Within::Field, 1, 2, "y z"),
    ];
    assert_eq!(
        within(text),
        wanted.map(|(kind, owner, number, name)| (kind, owner, number, name.to_owned()))
    );
    assert_eq!(within("(module (func $f))"), []);
    assert_eq!(within("(module)"), []);
    assert!(names_within("(module (start $f))").is_err());
}

#[test]
fn names_of_a_custom_section_are_listed() {
    let text = r#"(module (@custom "name" "\02\06\01\00\01\07\01z") (func (local $a i32)))"#;
    assert_eq!(within(text), [(Within::Local, 0, 7, "z".to_owned())]);
    assert_eq!(within(r#"(module (@custom "name" "\02\06\01") (func (local $a i32)))"#), []);
    let text = r#"(module (@custom "name" "\02\07\01\00\01\07\02z\ff"))"#;
    assert_eq!(within(text), [(Within::Local, 0, 7, "z".to_owned())]);
}

#[test]
fn names_that_do_not_resolve_are_a_fault() {
    let fault = names("(module (start $f))").unwrap_err();
    assert_eq!(fault.kind(), Kind::Unknown);
}

#[test]
fn calls_of_threads_do_not_meet() {
    let texts: Vec<String> = (1..=8).map(|n| format!("(module {})", "(func)".repeat(n))).collect();
    let threads: Vec<_> = texts
        .clone()
        .into_iter()
        .map(|text| {
            std::thread::spawn(move || (0..100).map(|_| encode(&text).unwrap().len()).max())
        })
        .collect();
    for (text, thread) in texts.iter().zip(threads) {
        assert_eq!(Some(encode(text).unwrap().len()), thread.join().unwrap());
    }
}
