//! Runs a script of tests over an engine: run_script FILE. It prints where each command is that fails, and
//! how many passed, failed and were skipped. `engine/mod.rs` has the trait where an engine plugs in.

mod engine;

use engine::{made::Made, Engine, Outcome, Value};
use rigyomad::script::{Arg, Directive, Execute, Invoke, Module, NanPattern, Ret, Script};
use std::{env, fs, process};

/// An argument as the engine has it.
fn value_of(arg: &Arg<'_>) -> Option<Value> {
    match arg {
        Arg::I32(value) => Some(Value::I32(*value)),
        Arg::I64(value) => Some(Value::I64(*value)),
        Arg::F32(value) => Some(Value::F32(value.bits)),
        Arg::F64(value) => Some(Value::F64(value.bits)),
        _ => None,
    }
}

/// Whether a value is what a result has to be. NaNs, vectors and references are left to you.
fn is_wanted(ret: &Ret<'_>, value: &Value) -> bool {
    match ret {
        Ret::I32(wanted) => *value == Value::I32(*wanted),
        Ret::I64(wanted) => *value == Value::I64(*wanted),
        Ret::F32(NanPattern::Value(wanted)) => *value == Value::F32(wanted.bits),
        Ret::F64(NanPattern::Value(wanted)) => *value == Value::F64(wanted.bits),
        Ret::Either(alternatives) => alternatives.iter().any(|it| is_wanted(it, value)),
        _ => false,
    }
}

/// Whether values are what results have to be.
fn are_wanted(rets: &[Ret<'_>], values: &[Value]) -> bool {
    rets.len() == values.len() && rets.iter().zip(values).all(|(ret, it)| is_wanted(ret, it))
}

fn instantiate(engine: &mut impl Engine, module: &Module<'_>) -> Outcome {
    match module.encode() {
        Ok(bytes) => engine.instantiate(module.id(), bytes),
        Err(_) => Outcome::Rejected,
    }
}

fn invoke(engine: &mut impl Engine, call: &Invoke<'_>) -> Outcome {
    match call.args.iter().map(value_of).collect::<Option<Vec<_>>>() {
        Some(args) => engine.invoke(call.module, call.name, &args),
        None => Outcome::Unsupported,
    }
}

fn execute(engine: &mut impl Engine, exec: &Execute<'_>) -> Outcome {
    match exec {
        Execute::Wat(module) => instantiate(engine, module),
        Execute::Get(get) => engine.get(get.module, get.global),
        Execute::Invoke(call) => invoke(engine, call),
    }
}

/// Whether what a command runs came to this; `None` if the engine does not support it.
fn came_to(outcome: Outcome, is_right: impl Fn(&Outcome) -> bool) -> Option<bool> {
    Some(is_right(&outcome)).filter(|_| outcome != Outcome::Unsupported)
}

/// Whether a command passes; `None` if it is skipped.
fn passes(engine: &mut impl Engine, directive: Directive<'_>) -> Option<bool> {
    let returned = |it: &Outcome| matches!(it, Outcome::Returned(_));
    match directive {
        Directive::Module(module) => came_to(instantiate(engine, &module), returned),
        Directive::ModuleDefinition(module) => module.encode().err().map(|_| false),
        Directive::Register { name, module, .. } => {
            came_to(engine.register(name, module), returned)
        }
        Directive::Invoke(call) => came_to(invoke(engine, &call), returned),
        Directive::AssertReturn { exec, results, .. } => came_to(
            execute(engine, &exec),
            |it| matches!(it, Outcome::Returned(values) if are_wanted(&results, values)),
        ),
        Directive::AssertTrap { exec, .. } => {
            came_to(execute(engine, &exec), |it| *it == Outcome::Trapped)
        }
        Directive::AssertExhaustion { call, .. } => {
            came_to(invoke(engine, &call), |it| *it == Outcome::Exhausted)
        }
        Directive::AssertMalformed { module, .. } | Directive::AssertInvalid { module, .. } => {
            Some(module.encode().map_or(true, |bytes| !engine.accepts(bytes)))
        }
        _ => None,
    }
}

fn main() {
    let text = fs::read_to_string(env::args().nth(1).expect("run_script FILE")).expect("a text");
    let script = Script::parse(&text).unwrap_or_else(|fault| {
        eprintln!("error: {fault}");
        process::exit(2)
    });
    let (mut engine, mut passed, mut failed, mut skipped) = (Made::default(), 0, 0, 0);
    for directive in &script {
        let span = directive.span();
        match passes(&mut engine, directive) {
            Some(true) => passed += 1,
            None => skipped += 1,
            Some(false) => {
                failed += 1;
                println!("{span}: failed");
            }
        }
    }
    println!("{passed} passed, {failed} failed, {skipped} skipped");
    process::exit(i32::from(failed > 0));
}
