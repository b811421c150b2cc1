//! Scripts of tests: their commands in the shape of `wast::WastDirective`.

use rigyomad::script::{
    AbstractHeapType, Arg, Directive, Execute, Form, HeapType, Index, NanPattern, Ret, Script,
    Span, V128Const, V128Pattern, F32, F64,
};
use rigyomad::Kind;

/// The commands of a script, printed.
fn printed(text: &str) -> Vec<String> {
    Script::parse(text).unwrap().directives().map(|it| format!("{it:?}")).collect()
}

/// The line and the column of each command.
fn places(text: &str) -> Vec<(usize, usize)> {
    let script = Script::parse(text).unwrap();
    script.directives().map(|it| (it.span().line, it.span().column)).collect()
}

/// The only command of a script, which is handed to a function.
fn with_one<T>(text: &str, check: impl Fn(Directive<'_>) -> T) -> T {
    let script = Script::parse(text).unwrap();
    let mut directives = script.directives();
    let directive = directives.next().unwrap();
    assert!(directives.next().is_none());
    check(directive)
}

/// The arguments of the only command.
fn args_of(values: &str) -> Vec<String> {
    with_one(&format!("(invoke \"f\" {values})"), |it| match it {
        Directive::Invoke(invoke) => invoke.args.iter().map(|arg| format!("{arg:?}")).collect(),
        other => panic!("{other:?}"),
    })
}

/// The results of the only command are these.
fn has_results(values: &str, wanted: &[Ret<'_>]) {
    with_one(&format!("(assert_return (invoke \"f\") {values})"), |it| match it {
        Directive::AssertReturn { results, .. } => assert_eq!(results, wanted),
        other => panic!("{other:?}"),
    })
}

#[test]
fn commands_have_the_variants_of_their_words() {
    let text = r#"(module $m (func (export "f"))) (module definition $d) (module instance $i $d)
(register "m" $m) (invoke $m "f") (get "g") (assert_return (invoke "f"))
(assert_trap (invoke "f") "a") (assert_exhaustion (invoke "f") "b") (assert_exception (get "g"))
(assert_suspension (invoke "f") "c") (assert_malformed (module quote "(") "d")
(assert_malformed_custom (module quote "(") "e") (assert_invalid (module) "f")
(assert_invalid_custom (module) "g") (assert_unlinkable (module) "h") (wait $t)"#;
    let wanted = [
        "Module",
        "ModuleDefinition",
        "ModuleInstance",
        "Register",
        "Invoke",
        "Get",
        "AssertReturn",
        "AssertTrap",
        "AssertExhaustion",
        "AssertException",
        "AssertSuspension",
        "AssertMalformed",
        "AssertMalformedCustom",
        "AssertInvalid",
        "AssertInvalidCustom",
        "AssertUnlinkable",
        "Wait",
    ];
    let words = printed(text);
    let words: Vec<_> = words.iter().map(|it| it.split([' ', '(']).next().unwrap()).collect();
    assert_eq!(words, wanted);
}

#[test]
fn commands_have_places() {
    let text =
        "(register \"m\" $M) (get \"h\")\n(module\n  (func)) (assert_return\n  (invoke \"f\"))\n";
    assert_eq!(places(text), [(1, 2), (1, 20), (2, 2), (3, 12)]);
    assert_eq!(places("(func) (memory 1)"), [(1, 1)]);
    assert_eq!(places(""), [(1, 1)]);
    with_one("\n (assert_trap\n  (invoke\n $m \"f\") \"é\")", |it| match it {
        Directive::AssertTrap { span, exec: Execute::Invoke(invoke), message } => {
            assert_eq!(span, Span { offset: 3, line: 2, column: 3 });
            assert_eq!(invoke.span, Span { offset: 18, line: 3, column: 4 });
            assert_eq!((invoke.module, invoke.name, message), (Some("m"), "f", "é"));
        }
        other => panic!("{other:?}"),
    });
}

/// Commands, each with its message.
const COMMANDS: [(&str, &str); 18] = [
    ("(module)", ""),
    ("(module definition $d)", ""),
    ("(module instance $i $d)", ""),
    ("(register \"m\" $i)", ""),
    ("(invoke \"f\")", ""),
    ("(get \"g\")", ""),
    ("(assert_return (invoke \"f\"))", ""),
    ("(assert_exception (invoke \"f\"))", ""),
    ("(assert_trap (invoke \"f\") \"a\")", "a"),
    ("(assert_exhaustion (invoke \"f\") \"b\")", "b"),
    ("(assert_suspension (invoke \"f\") \"c\")", "c"),
    ("(assert_malformed (module quote \"\") \"d\")", "d"),
    ("(assert_malformed_custom (module quote \"\") \"e\")", "e"),
    ("(assert_invalid (module) \"f\")", "f"),
    ("(assert_invalid_custom (module) \"g\")", "g"),
    ("(assert_unlinkable (module) \"h\")", "h"),
    ("(thread $T (wait $U))", ""),
    ("(wait $T)", ""),
];

#[test]
fn each_command_has_its_place_and_its_message() {
    let (mut text, mut places) = (String::new(), Vec::new());
    for (number, (command, _)) in COMMANDS.iter().enumerate() {
        let offset = text.len() + number + 2;
        places.push(Span { offset, line: number + 2, column: number + 2 });
        text += &format!("\n{}{command}", " ".repeat(number));
    }
    let script = Script::parse(&text).unwrap();
    assert_eq!(script.text(), text);
    assert_eq!(format!("{:?}", script.directives()), "Directives(0..20)");
    for (number, directive) in script.directives().enumerate() {
        let (printed, (command, message)) = (format!("{directive:?}"), COMMANDS[number]);
        assert_eq!(directive.span(), places[number], "{command}");
        assert!(printed.contains(&format!("{{ span: {:?}", places[number])), "{printed}");
        assert!(message.is_empty() || printed.ends_with(&format!("message: {message:?} }}")));
    }
}

#[test]
fn script_may_have_many_commands() {
    assert_eq!(Script::parse(&"(wait $t)".repeat(1000)).unwrap().directives().count(), 1000);
}

#[test]
fn global_is_of_its_module() {
    with_one("(get $m \"g\")", |it| match it {
        Directive::Get(get) => assert_eq!((get.module, get.global), (Some("m"), "g")),
        other => panic!("{other:?}"),
    });
}

#[test]
fn register_has_its_name_and_its_module() {
    with_one("\n(register \"a b\" $M)", |it| match it {
        Directive::Register { span, name, module } => {
            assert_eq!((span.line, name, module), (2, "a b", Some("M")));
        }
        other => panic!("{other:?}"),
    });
    with_one("(module instance $I $M)", |it| match it {
        Directive::ModuleInstance { instance, module, .. } => {
            assert_eq!((instance, module), (Some("I"), Some("M")));
        }
        other => panic!("{other:?}"),
    });
}

/// The modules of a script, each with its form, its id, its quoted text, and its bytes or its fault, printed.
fn modules(text: &str) -> Vec<String> {
    let script = Script::parse(text).unwrap();
    let print = |directive| match directive {
        Directive::Module(module)
        | Directive::AssertMalformed { module, .. }
        | Directive::AssertInvalid { module, .. } => {
            let quoted = module.quoted().map(String::from_utf8_lossy);
            let answer = module.encode().map_err(|fault| fault.to_string());
            format!("{:?} {:?} {quoted:?} {answer:?}", module.form(), module.id())
        }
        other => panic!("{other:?}"),
    };
    script.directives().map(print).collect()
}

#[test]
fn modules_have_bytes_or_faults() {
    let text = r#"(module binary "\00asm" "\01\00\00\00") (module $q quote "(memory" " 1)")
(assert_malformed (module quote "(func") "a") (assert_invalid (module (func (call $x))) "b")"#;
    let wanted = [
        "Binary None None Ok([0, 97, 115, 109, 1, 0, 0, 0])",
        // the id is in a name section, as that of a module with fields is
        "Quote Some(\"q\") Some(\"(memory 1)\") Ok([0, 97, 115, 109, 1, 0, 0, 0, 5, 3, 1, 0, 1, \
         0, 9, 4, 110, 97, 109, 101, 0, 2, 1, 113])",
        "Quote None Some(\"(func\") Err(\"2:33: expected `)` in `\\\"(func\\\"`\")",
        "Fields None None Err(\"2:83: unknown func: failed to find name `$x`\")",
    ];
    assert_eq!(modules(text), wanted);
    let form = with_one("(module)", |it| match it {
        Directive::Module(module) => module.form(),
        other => panic!("{other:?}"),
    });
    assert_eq!(form, Form::Fields);
}

#[test]
fn each_module_has_its_own_bytes() {
    let texts = [
        "(module (func (export \"a\")))",
        "(module (memory 1))",
        "(module $m (start $f) (func $f))",
    ];
    let text = texts.join("\n");
    let script = Script::parse(&text).unwrap();
    for (directive, alone) in script.directives().zip(texts) {
        match directive {
            Directive::Module(module) => {
                assert_eq!(module.encode().unwrap(), rigyomad::encode(alone).unwrap());
                assert_eq!(module.source(), alone);
            }
            other => panic!("{other:?}"),
        }
    }
    assert_eq!(script.directives().count(), 3);
}

#[test]
fn fault_of_a_module_has_the_place_in_the_script() {
    let text = "(module)\n(module\n  (start $f))";
    let script = Script::parse(text).unwrap();
    let fault = match script.directives().nth(1) {
        Some(Directive::Module(module)) => module.encode().unwrap_err(),
        other => panic!("{other:?}"),
    };
    assert_eq!((fault.kind(), fault.to_string()), (Kind::Unknown, fault_text().to_owned()));
    assert_eq!(fault.span(), Some(26..28));
    let lines: Vec<_> = format!("{fault:#}").lines().skip(3).map(str::to_owned).collect();
    assert_eq!(lines, ["3 |   (start $f))", "  |          ^~"]);
}

#[test]
fn fault_of_a_module_is_that_of_its_text() {
    let texts = [
        "(module (func $f)\n (func $f))",
        "(module (func $first) (start $fist))",
        "(module (func i32.ad))",
        "(module (func (block (func))))",
        "(module (func i64.add128))",
        "(module quote \"(fnu\" \"c)\")",
        "(module (type $t (struct)) (func (type $t) (param i32)))",
    ];
    for text in texts {
        let script = format!("(module)\n  {text}");
        let script = Script::parse(&script).unwrap();
        let fault = match script.directives().nth(1) {
            Some(Directive::Module(module)) => module.encode().unwrap_err(),
            other => panic!("{other:?}"),
        };
        assert_eq!(fault, rigyomad::encode(&format!("        \n  {text}")).unwrap_err());
    }
}

#[test]
fn unsupported_construct_of_a_definition_has_its_word() {
    let script = Script::parse("(module)\n(module definition $M (func i64.add128))").unwrap();
    match script.directives().nth(1) {
        Some(Directive::ModuleDefinition(module)) => {
            let fault = module.encode().unwrap_err();
            let message = "2:29: uncovered form: instruction beyond the table: `i64.add128`";
            assert_eq!((fault.to_string().as_str(), fault.span()), (message, Some(37..47)));
        }
        other => panic!("{other:?}"),
    }
}

#[test]
fn long_token_of_a_module_is_in_its_fault_whole() {
    let text = format!("(module)\n(assert_malformed (module (@name {})) \"a\")", "x".repeat(300));
    let script = Script::parse(&text).unwrap();
    match script.directives().nth(1) {
        Some(Directive::AssertMalformed { module, .. }) => {
            let fault = module.encode().unwrap_err();
            assert_eq!(fault.span().map(|it| it.len()), Some(300));
        }
        other => panic!("{other:?}"),
    }
}

fn fault_text() -> &'static str {
    "3:10: unknown func: failed to find name `$f`"
}

#[test]
fn unsupported_construct_is_no_fault_of_the_script() {
    let text = "(module)\n(module (type (func)) (type (cont 0)))";
    let script = Script::parse(text).unwrap();
    match script.directives().nth(1) {
        Some(Directive::Module(module)) => {
            let fault = module.encode().unwrap_err();
            assert_eq!((fault.number(), fault.place().unwrap().line), (Some(11), 2));
        }
        other => panic!("{other:?}"),
    }
}

#[test]
fn text_that_is_no_script_has_a_fault() {
    let fault = Script::parse("(module)\n(assert_foo)").unwrap_err();
    assert_eq!(fault.to_string(), "2:2: expected a command, found `assert_foo`");
    assert_eq!(fault.kind(), Kind::Malformed);
}

#[test]
fn arguments_are_numbers_vectors_and_references() {
    let values = r#"(i32.const -1) (i64.const 0x8000000000000000) (f32.const -0) (f64.const nan:0x1)
(v128.const i16x8 0 1 2 3 4 5 6 -1) (ref.null func) (ref.null $t) (ref.null 65537) (ref.extern 65538) (ref.host 65539)"#;
    let bits = F64 { bits: 0x7ff0_0000_0000_0001 };
    let abstracted = HeapType::Abstract { shared: false, ty: AbstractHeapType::Func };
    let wanted = [
        Arg::I32(-1),
        Arg::I64(i64::MIN),
        Arg::F32(F32 { bits: 0x8000_0000 }),
        Arg::F64(bits),
        Arg::V128(V128Const::I16x8([0, 1, 2, 3, 4, 5, 6, -1])),
        Arg::RefNull(abstracted),
        Arg::RefNull(HeapType::Concrete(Index::Id("t"))),
        Arg::RefNull(HeapType::Concrete(Index::Num(65537))),
        Arg::RefExtern(65538),
        Arg::RefHost(65539),
    ];
    let wanted: Vec<_> = wanted.iter().map(|it| format!("{it:?}")).collect();
    assert_eq!(args_of(values), wanted);
}

/// Vectors of each shape, with their bits.
fn vectors() -> [(&'static str, V128Const, u128); 6] {
    let (f32s, f64s) = ([0, 0x3f80_0000, 0x8000_0000, 0x7fc0_0001], [0x3ff0 << 48, 0x7ff0 << 48]);
    let bytes = [0, 1, 2, 3, 4, 5, 6, 7, 8, 9, 10, 11, 12, 13, 14, -1];
    [
        (
            "i8x16 0 1 2 3 4 5 6 7 8 9 10 11 12 13 14 -1",
            V128Const::I8x16(bytes),
            0xff0e_0d0c_0b0a_0908_0706_0504_0302_0100,
        ),
        (
            "i16x8 0 1 2 3 4 5 256 -2",
            V128Const::I16x8([0, 1, 2, 3, 4, 5, 256, -2]),
            0xfffe_0100_0005_0004_0003_0002_0001_0000,
        ),
        (
            "i32x4 1 -1 2147483647 -2147483648",
            V128Const::I32x4([1, -1, i32::MAX, i32::MIN]),
            0x8000_0000_7fff_ffff_ffff_ffff_0000_0001,
        ),
        (
            "i64x2 0x100000001 -2",
            V128Const::I64x2([0x1_0000_0001, -2]),
            0xffff_ffff_ffff_fffe_0000_0001_0000_0001,
        ),
        (
            "f32x4 0 1 -0 nan:0x400001",
            V128Const::F32x4(f32s.map(|bits| F32 { bits })),
            0x7fc0_0001_8000_0000_3f80_0000_0000_0000,
        ),
        (
            "f64x2 1 inf",
            V128Const::F64x2(f64s.map(|bits| F64 { bits })),
            0x7ff0_0000_0000_0000_3ff0_0000_0000_0000,
        ),
    ]
}

#[test]
fn vectors_of_each_shape_have_lanes_and_bytes() {
    for (text, vector, bits) in vectors() {
        let text = format!("(v128.const {text})");
        let pattern = match vector {
            V128Const::I8x16(lanes) => V128Pattern::I8x16(lanes),
            V128Const::I16x8(lanes) => V128Pattern::I16x8(lanes),
            V128Const::I32x4(lanes) => V128Pattern::I32x4(lanes),
            V128Const::I64x2(lanes) => V128Pattern::I64x2(lanes),
            V128Const::F32x4(lanes) => V128Pattern::F32x4(lanes.map(NanPattern::Value)),
            V128Const::F64x2(lanes) => V128Pattern::F64x2(lanes.map(NanPattern::Value)),
        };
        assert_eq!(args_of(&text), [format!("{:?}", Arg::V128(vector))]);
        has_results(&text, &[Ret::V128(pattern)]);
        assert_eq!(u128::from_le_bytes(vector.to_le_bytes()), bits, "{text}");
    }
    let nans = [NanPattern::ArithmeticNan, NanPattern::CanonicalNan];
    has_results(
        "(v128.const f64x2 nan:arithmetic nan:canonical)",
        &[Ret::V128(V128Pattern::F64x2(nans))],
    );
}

/// The abstract heap types, by their words.
const HEAP_TYPES: [(&str, AbstractHeapType); 14] = [
    ("func", AbstractHeapType::Func),
    ("extern", AbstractHeapType::Extern),
    ("exn", AbstractHeapType::Exn),
    ("noexn", AbstractHeapType::NoExn),
    ("any", AbstractHeapType::Any),
    ("eq", AbstractHeapType::Eq),
    ("struct", AbstractHeapType::Struct),
    ("array", AbstractHeapType::Array),
    ("nofunc", AbstractHeapType::NoFunc),
    ("noextern", AbstractHeapType::NoExtern),
    ("none", AbstractHeapType::None),
    ("i31", AbstractHeapType::I31),
    ("cont", AbstractHeapType::Cont),
    ("nocont", AbstractHeapType::NoCont),
];

#[test]
fn each_heap_type_has_its_word() {
    for (word, ty) in HEAP_TYPES {
        for (shared, word) in [(false, word.to_owned()), (true, format!("(shared {word})"))] {
            let (text, heap) = (format!("(ref.null {word})"), HeapType::Abstract { shared, ty });
            assert_eq!(args_of(&text), [format!("{:?}", Arg::RefNull(heap))]);
            has_results(&text, &[Ret::RefNull(Some(heap))]);
        }
    }
}

#[test]
fn results_have_patterns() {
    let one = F32 { bits: 0x3f80_0000 };
    has_results(
        "(f32.const nan:canonical) (f64.const nan:arithmetic) (f32.const 1)",
        &[
            Ret::F32(NanPattern::CanonicalNan),
            Ret::F64(NanPattern::ArithmeticNan),
            Ret::F32(NanPattern::Value(one)),
        ],
    );
    let lanes = [
        NanPattern::Value(F32 { bits: 0 }),
        NanPattern::CanonicalNan,
        NanPattern::ArithmeticNan,
        NanPattern::Value(one),
    ];
    has_results(
        "(v128.const f32x4 0 nan:canonical nan:arithmetic 1)",
        &[Ret::V128(V128Pattern::F32x4(lanes))],
    );
    has_results(
        "(v128.const i8x16 0 1 2 3 4 5 6 7 8 9 10 11 12 13 14 -1)",
        &[Ret::V128(V128Pattern::I8x16([0, 1, 2, 3, 4, 5, 6, 7, 8, 9, 10, 11, 12, 13, 14, -1]))],
    );
    has_results("(v128.const i64x2 1 -2)", &[Ret::V128(V128Pattern::I64x2([1, -2]))]);
}

#[test]
fn results_are_references_of_types() {
    let shared = HeapType::Abstract { shared: true, ty: AbstractHeapType::Any };
    has_results(
        "(ref.null) (ref.null (shared any)) (ref.null 65537) (ref.extern) (ref.extern 65538) (ref.func) (ref.func 65539) (ref.func $f)",
        &[
            Ret::RefNull(None),
            Ret::RefNull(Some(shared)),
            Ret::RefNull(Some(HeapType::Concrete(Index::Num(65537)))),
            Ret::RefExtern(None),
            Ret::RefExtern(Some(65538)),
            Ret::RefFunc(None),
            Ret::RefFunc(Some(Index::Num(65539))),
            Ret::RefFunc(Some(Index::Id("f"))),
        ],
    );
    has_results(
        "(ref.any) (ref.eq) (ref.array) (ref.struct) (ref.i31) (ref.i31_shared) (ref.host 65540)",
        &[
            Ret::RefAny,
            Ret::RefEq,
            Ret::RefArray,
            Ret::RefStruct,
            Ret::RefI31,
            Ret::RefI31Shared,
            Ret::RefHost(65540),
        ],
    );
}

#[test]
fn alternatives_are_one_result() {
    has_results(
        "(either (i32.const 1) (i64.const 2)) (i32.const 3)",
        &[Ret::Either(vec![Ret::I32(1), Ret::I64(2)]), Ret::I32(3)],
    );
    has_results(
        "(either (i32.const 1)) (either (i32.const 2)) (i32.const 3)",
        &[Ret::Either(vec![Ret::I32(1)]), Ret::Either(vec![Ret::I32(2)]), Ret::I32(3)],
    );
}

#[test]
fn threads_have_their_commands() {
    let text =
        r#"(thread $T (shared (module $M)) (register "m" $M) (thread $U (invoke "f"))) (wait $T)"#;
    let script = Script::parse(text).unwrap();
    let directives: Vec<_> = script.directives().collect();
    assert_eq!(directives.len(), 2);
    match &directives[0] {
        Directive::Thread(outer) => {
            assert_eq!((outer.name, outer.shared_module), ("T", Some("M")));
            let inner: Vec<_> = outer.directives.clone().collect();
            assert_eq!(inner.len(), 2);
            match &inner[1] {
                Directive::Thread(it) => {
                    assert_eq!((it.name, it.directives.clone().count()), ("U", 1));
                }
                other => panic!("{other:?}"),
            }
        }
        other => panic!("{other:?}"),
    }
    assert!(matches!(directives[1], Directive::Wait { thread: "T", .. }));
}

#[test]
fn threads_may_be_nested_deeply() {
    let depth = 20_000;
    let text = format!("{}{}", "(thread $T ".repeat(depth), ")".repeat(depth));
    let script = Script::parse(&text).unwrap();
    let mut found = 0;
    let mut directives = script.directives();
    while let Some(Directive::Thread(thread)) = directives.next() {
        found += 1;
        directives = thread.directives;
    }
    assert_eq!(found, depth);
}
