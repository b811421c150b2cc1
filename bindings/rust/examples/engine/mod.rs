//! What the runner of `run_script.rs` needs of an engine: implement [`Engine`] for yours, and name it in
//! `main` in place of `Made`.

pub mod made;

/// A value of the engine. Add the other types that yours has, and their cases in `value_of` and `is_wanted`.
#[derive(Clone, Debug, PartialEq)]
#[allow(dead_code)]
pub enum Value {
    I32(i32),
    I64(i64),
    F32(u32),
    F64(u64),
}

/// What a call came to.
#[derive(Clone, Debug, PartialEq)]
#[allow(dead_code)]
pub enum Outcome {
    /// It returned these values.
    Returned(Vec<Value>),
    /// It trapped.
    Trapped,
    /// It exhausted the stack.
    Exhausted,
    /// The module is not well formed, or not valid.
    Rejected,
    /// The engine does not support something that the command needs.
    Unsupported,
}

/// An engine with its instances. An instance without an id is the last one.
pub trait Engine {
    /// Whether a module is well formed and valid.
    fn accepts(&mut self, bytes: &[u8]) -> bool;
    /// Instantiates a module, under its id if it has one. It returns no values.
    fn instantiate(&mut self, id: Option<&str>, bytes: &[u8]) -> Outcome;
    /// Lets later modules import the exports of an instance from a name.
    fn register(&mut self, name: &str, id: Option<&str>) -> Outcome;
    /// Calls an exported function.
    fn invoke(&mut self, id: Option<&str>, name: &str, args: &[Value]) -> Outcome;
    /// Reads an exported global.
    fn get(&mut self, id: Option<&str>, name: &str) -> Outcome;
}
