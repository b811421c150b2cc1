//! Scripts of tests (`.wast`): modules, and commands that run them and assert results.
//!
//! [`Script::parse`] reads a script, and [`Script::directives`] walks its commands. They have the shape of
//! `wast::WastDirective`: the same variants, with ids without their `$`. No process is run, and no file
//! is written.
//!
//! # Example
//!
//! ```
//! use rigyomad::script::{Directive, Execute, Ret, Script};
//!
//! # fn main() -> Result<(), rigyomad::Fault> {
//! let text = r#"(module $m (func (export "f") (result i32) i32.const 7))
//! (assert_return (invoke $m "f") (i32.const 7))"#;
//! let script = Script::parse(text)?;
//! let mut directives = script.directives();
//! match directives.next() {
//!     Some(Directive::Module(module)) => assert_eq!(&module.encode()?[..4], b"\0asm"),
//!     other => panic!("{other:?}"),
//! }
//! match directives.next() {
//!     Some(Directive::AssertReturn { span, exec: Execute::Invoke(invoke), results }) => {
//!         assert_eq!((span.line, span.column), (2, 2));
//!         assert_eq!((invoke.module, invoke.name), (Some("m"), "f"));
//!         assert_eq!(results, [Ret::I32(7)]);
//!     }
//!     other => panic!("{other:?}"),
//! }
//! assert!(directives.next().is_none());
//! # Ok(())
//! # }
//! ```

mod records;
mod values;

pub use crate::Place as Span;
pub use values::{
    AbstractHeapType, Arg, HeapType, Index, NanPattern, Ret, V128Const, V128Pattern, F32, F64,
};

use crate::archive::{self, Diagnosis};
use crate::{room, Fault};
use records::{Record, Records};
use std::fmt;
use std::ops::Range;

extern "C" {
    fn rigyomad_c_script(
        text: *const u8,
        text_size: usize,
        out: *mut u8,
        out_size: usize,
        size: *mut usize,
        message: *mut u8,
        message_size: usize,
        diagnosis: *mut Diagnosis,
    ) -> u32;
}

/// The status, the size of the records, and what is wrong.
fn script(text: &str, out: &mut [u8], message: &mut [u8]) -> (u32, usize, Diagnosis) {
    archive::check_version();
    let (mut size, mut at) = (0, Diagnosis::default());
    // SAFETY: the pointers are those of slices and of places, which last for the call; the ones that are written to are lent to
    // nobody else.
    let status = unsafe {
        rigyomad_c_script(
            text.as_ptr(),
            text.len(),
            out.as_mut_ptr(),
            out.len(),
            &mut size,
            message.as_mut_ptr(),
            message.len(),
            &mut at,
        )
    };
    (status, size, at)
}

/// Enough bytes for the records of most scripts of this length.
fn first_room(text: &str) -> usize {
    text.len().saturating_mul(8).saturating_add(4096).min(isize::MAX as usize)
}

/// The records of a script.
fn records_of(text: &str) -> Result<Vec<u8>, Fault> {
    let (mut size, mut message_size) = (first_room(text), 256);
    loop {
        let (mut out, mut message) = (room::filled(size)?, room::filled(message_size)?);
        let (status, wanted, at) = script(text, &mut out, &mut message);
        match status {
            archive::DONE => {
                out.truncate(wanted);
                return Ok(out);
            }
            archive::SHORT => size = wanted,
            archive::FAULT if at.size > message_size => message_size = at.size,
            archive::FAULT => return Err(Fault::new(text, &at, &message[..at.size])),
            _ => return Err(Fault::out_of_memory()),
        }
    }
}

/// The threads of a script: the numbers of the command that begins each, and of its end. They are sorted.
fn threads_of(records: &Records) -> Result<Vec<(usize, usize)>, Fault> {
    let (mut threads, mut open) = (Vec::new(), Vec::new());
    for number in 0..records.commands() {
        match records.command(number).word(0) {
            THREAD => {
                room::reserve_more(&mut threads)?;
                room::reserve_more(&mut open)?;
                open.push(threads.len());
                threads.push((number, number));
            }
            THREAD_END => {
                if let Some(thread) = open.pop() {
                    threads[thread].1 = number;
                }
            }
            _ => {}
        }
    }
    Ok(threads)
}

/// The number of the type of a thread.
const THREAD: u64 = 15;

/// The number of the type of the end of a thread.
const THREAD_END: u64 = 16;

/// The number of the kind of an action that reads a global.
const GET: u64 = 1;

/// A script that was read.
pub struct Script<'a> {
    text: &'a str,
    records: Records,
    threads: Vec<(usize, usize)>,
}

impl<'a> Script<'a> {
    /// Reads a script: its commands, or one module without its parentheses.
    ///
    /// Each module is encoded too, and [`Module::encode`] returns its bytes or its fault. A module that
    /// is wrong is no fault of the script, because assertions are about such modules.
    ///
    /// # Errors
    ///
    /// - no number: the text is no script;
    /// - E12: allocation failed, in the archive or here.
    ///
    /// # Panics
    ///
    /// If the archive is another than this crate needs ([`VERSION`](crate::VERSION)).
    pub fn parse(text: &'a str) -> Result<Script<'a>, Fault> {
        let records = Records::new(records_of(text)?);
        let threads = threads_of(&records)?;
        Ok(Script { text, records, threads })
    }

    /// Returns the text of the script.
    pub fn text(&self) -> &'a str {
        self.text
    }

    /// Walks the commands of the script. Lists of arguments and results are allocated as they are
    /// walked.
    pub fn directives(&self) -> Directives<'_> {
        Directives { script: self, numbers: 0..self.records.commands() }
    }

    /// The module of a record's number.
    fn module(&self, number: usize) -> Module<'_> {
        Module { text: self.text, record: self.records.module(number) }
    }

    /// The number of the end of a thread.
    fn end_of(&self, thread: usize) -> usize {
        match self.threads.binary_search_by_key(&thread, |(start, _)| *start) {
            Ok(at) => self.threads[at].1,
            Err(_) => thread,
        }
    }

    /// What a command runs.
    fn execute(&self, command: Record<'_>) -> Execute<'_> {
        match command.index(ACTION) {
            Some(action) if self.records.action(action).word(0) == GET => {
                Execute::Get(self.get(action))
            }
            Some(action) => Execute::Invoke(self.invoke(action)),
            None => Execute::Wat(self.module(command.size(MODULE))),
        }
    }

    /// A call, of the number of the action's record.
    fn invoke(&self, number: usize) -> Invoke<'_> {
        let action = self.records.action(number);
        Invoke {
            span: action.span(1),
            module: action.text(4),
            name: action.text(6).unwrap_or_default(),
            args: values::args(&self.records, action.range(8)),
        }
    }

    /// The reading of a global, of the number of the action's record.
    fn get(&self, number: usize) -> Get<'_> {
        let action = self.records.action(number);
        let global = action.text(6).unwrap_or_default();
        Get { span: action.span(1), module: action.text(4), global }
    }
}

impl fmt::Debug for Script<'_> {
    fn fmt(&self, f: &mut fmt::Formatter<'_>) -> fmt::Result {
        f.debug_list().entries(self.directives()).finish()
    }
}

impl<'s> IntoIterator for &'s Script<'_> {
    type Item = Directive<'s>;
    type IntoIter = Directives<'s>;

    fn into_iter(self) -> Directives<'s> {
        self.directives()
    }
}

/// The words of a command's record.
const SPAN: usize = 1;
const ID: usize = 4;
const OF: usize = 6;
const TEXT: usize = 8;
const MODULE: usize = 10;
const ACTION: usize = 11;
const RESULTS: usize = 12;

/// The commands of a script, or of a thread in it.
#[derive(Clone)]
pub struct Directives<'s> {
    script: &'s Script<'s>,
    numbers: Range<usize>,
}

impl fmt::Debug for Directives<'_> {
    fn fmt(&self, f: &mut fmt::Formatter<'_>) -> fmt::Result {
        write!(f, "Directives({:?})", self.numbers)
    }
}

impl<'s> Directives<'s> {
    /// The commands of a thread, which are skipped.
    fn thread(&mut self, number: usize, command: Record<'s>) -> Directive<'s> {
        let end = self.script.end_of(number);
        self.numbers.start = end + 1;
        Directive::Thread(Thread {
            span: command.span(SPAN),
            name: command.text(ID).unwrap_or_default(),
            shared_module: command.text(OF),
            directives: Directives { script: self.script, numbers: number + 1..end },
        })
    }

    /// A command without a thread.
    fn directive(&self, command: Record<'s>) -> Directive<'s> {
        let script = self.script;
        let span = command.span(SPAN);
        let message = command.text(TEXT).unwrap_or_default();
        let module = || script.module(command.size(MODULE));
        let exec = || script.execute(command);
        match command.word(0) {
            0 => Directive::Module(module()),
            1 => Directive::ModuleDefinition(module()),
            2 => Directive::ModuleInstance {
                span,
                instance: command.text(ID),
                module: command.text(OF),
            },
            3 => Directive::Register { span, name: message, module: command.text(OF) },
            4 => match exec() {
                Execute::Get(get) => Directive::Get(get),
                Execute::Invoke(invoke) => Directive::Invoke(invoke),
                Execute::Wat(module) => Directive::Module(module),
            },
            5 => {
                let results = values::results(&script.records, command.range(RESULTS));
                Directive::AssertReturn { span, exec: exec(), results }
            }
            6 => Directive::AssertTrap { span, exec: exec(), message },
            7 => Directive::AssertExhaustion {
                span,
                call: script.invoke(command.size(ACTION)),
                message,
            },
            8 => Directive::AssertException { span, exec: exec() },
            9 => Directive::AssertSuspension { span, exec: exec(), message },
            10 => Directive::AssertMalformed { span, module: module(), message },
            11 => Directive::AssertMalformedCustom { span, module: module(), message },
            12 => Directive::AssertInvalid { span, module: module(), message },
            13 => Directive::AssertInvalidCustom { span, module: module(), message },
            14 => Directive::AssertUnlinkable { span, module: module(), message },
            17 => Directive::Wait { span, thread: command.text(ID).unwrap_or_default() },
            other => panic!("librigyomad.a has a command of type {other}"),
        }
    }
}

impl<'s> Iterator for Directives<'s> {
    type Item = Directive<'s>;

    fn next(&mut self) -> Option<Directive<'s>> {
        let number = self.numbers.next()?;
        let command = self.script.records.command(number);
        Some(match command.word(0) {
            THREAD => self.thread(number, command),
            _ => self.directive(command),
        })
    }
}

/// A command of a script. Messages are those of the reference interpreter.
#[derive(Clone, Debug)]
#[non_exhaustive]
pub enum Directive<'s> {
    /// `(module ..)`: a module that is instantiated.
    Module(Module<'s>),
    /// `(module definition ..)`: a module that is not instantiated.
    ModuleDefinition(Module<'s>),
    /// `(module instance $i $m)`: an instance `$i` of the definition `$m`.
    ModuleInstance {
        /// Where the command is.
        span: Span,
        /// The id of the instance.
        instance: Option<&'s str>,
        /// The id of the definition; if there is none, the last module before it.
        module: Option<&'s str>,
    },
    /// The module cannot be read.
    AssertMalformed {
        /// Where the command is.
        span: Span,
        /// The module.
        module: Module<'s>,
        /// Why it cannot be read.
        message: &'s str,
    },
    /// The module is not valid.
    AssertInvalid {
        /// Where the command is.
        span: Span,
        /// The module.
        module: Module<'s>,
        /// Why it is not valid.
        message: &'s str,
    },
    /// An annotation or a custom section of the module cannot be read.
    AssertMalformedCustom {
        /// Where the command is.
        span: Span,
        /// The module.
        module: Module<'s>,
        /// Why it cannot be read.
        message: &'s str,
    },
    /// An annotation or a custom section of the module is not valid.
    AssertInvalidCustom {
        /// Where the command is.
        span: Span,
        /// The module.
        module: Module<'s>,
        /// Why it is not valid.
        message: &'s str,
    },
    /// `(register "name" $m)`: the exports of a module can be imported from this name.
    Register {
        /// Where the command is.
        span: Span,
        /// The name.
        name: &'s str,
        /// The id of the module; if there is none, the last instance before it.
        module: Option<&'s str>,
    },
    /// `(invoke ..)` alone.
    Invoke(Invoke<'s>),
    /// `(get ..)` alone, which `wast` does not have.
    Get(Get<'s>),
    /// It traps.
    AssertTrap {
        /// Where the command is.
        span: Span,
        /// What is run.
        exec: Execute<'s>,
        /// Why it traps.
        message: &'s str,
    },
    /// These are the results.
    AssertReturn {
        /// Where the command is.
        span: Span,
        /// What is run.
        exec: Execute<'s>,
        /// What the results have to be.
        results: Vec<Ret<'s>>,
    },
    /// It exhausts the stack.
    AssertExhaustion {
        /// Where the command is.
        span: Span,
        /// What is called.
        call: Invoke<'s>,
        /// What is exhausted.
        message: &'s str,
    },
    /// The module cannot be linked.
    AssertUnlinkable {
        /// Where the command is.
        span: Span,
        /// The module.
        module: Module<'s>,
        /// Why it cannot be linked.
        message: &'s str,
    },
    /// It throws an exception.
    AssertException {
        /// Where the command is.
        span: Span,
        /// What is run.
        exec: Execute<'s>,
    },
    /// It suspends without a handler.
    AssertSuspension {
        /// Where the command is.
        span: Span,
        /// What is run.
        exec: Execute<'s>,
        /// Why it is not handled.
        message: &'s str,
    },
    /// `(thread ..)`: commands that run in a thread.
    Thread(Thread<'s>),
    /// `(wait $t)`: waits for a thread to end.
    Wait {
        /// Where the command is.
        span: Span,
        /// The id of the thread.
        thread: &'s str,
    },
}

impl Directive<'_> {
    /// Returns where the command is: the place of its keyword.
    pub fn span(&self) -> Span {
        match self {
            Directive::Module(module) | Directive::ModuleDefinition(module) => module.span(),
            Directive::Invoke(invoke) => invoke.span,
            Directive::Get(get) => get.span,
            Directive::Thread(thread) => thread.span,
            Directive::ModuleInstance { span, .. }
            | Directive::AssertMalformed { span, .. }
            | Directive::AssertInvalid { span, .. }
            | Directive::AssertMalformedCustom { span, .. }
            | Directive::AssertInvalidCustom { span, .. }
            | Directive::Register { span, .. }
            | Directive::AssertTrap { span, .. }
            | Directive::AssertReturn { span, .. }
            | Directive::AssertExhaustion { span, .. }
            | Directive::AssertUnlinkable { span, .. }
            | Directive::AssertException { span, .. }
            | Directive::AssertSuspension { span, .. }
            | Directive::Wait { span, .. } => *span,
        }
    }
}

/// What an assertion runs.
#[derive(Clone, Debug)]
pub enum Execute<'s> {
    /// `(invoke ..)`: it calls an exported function.
    Invoke(Invoke<'s>),
    /// `(module ..)`: it is instantiated.
    Wat(Module<'s>),
    /// `(get ..)`: it reads an exported global.
    Get(Get<'s>),
}

/// `(invoke $m "f" (i32.const 1))`: it calls an exported function.
#[derive(Clone, Debug, PartialEq)]
pub struct Invoke<'s> {
    /// Where its keyword is.
    pub span: Span,
    /// The id of the module; if there is none, the last instance before it.
    pub module: Option<&'s str>,
    /// The name of the export.
    pub name: &'s str,
    /// The arguments.
    pub args: Vec<Arg<'s>>,
}

/// `(get $m "g")`: it reads an exported global.
#[derive(Clone, Copy, Debug, PartialEq, Eq)]
pub struct Get<'s> {
    /// Where its keyword is.
    pub span: Span,
    /// The id of the module; if there is none, the last instance before it.
    pub module: Option<&'s str>,
    /// The name of the export.
    pub global: &'s str,
}

/// Commands that run in a thread.
#[derive(Clone, Debug)]
pub struct Thread<'s> {
    /// Where the command is.
    pub span: Span,
    /// The id of the thread.
    pub name: &'s str,
    /// The id of the module that the thread shares.
    pub shared_module: Option<&'s str>,
    /// Its commands.
    pub directives: Directives<'s>,
}

/// The form in which a script has a module.
#[derive(Clone, Copy, Debug, PartialEq, Eq, Hash)]
pub enum Form {
    /// Fields in the text format.
    Fields,
    /// `(module binary "..")`: the bytes of a module.
    Binary,
    /// `(module quote "..")`: a text that may be wrong on purpose.
    Quote,
}

/// A module of a script.
#[derive(Clone, Copy)]
pub struct Module<'s> {
    text: &'s str,
    record: Record<'s>,
}

impl<'s> Module<'s> {
    /// Returns where its keyword is, or its first token if there is none.
    pub fn span(&self) -> Span {
        self.record.span(1)
    }

    /// Returns its id.
    pub fn id(&self) -> Option<&'s str> {
        self.record.text(4)
    }

    /// Returns its form.
    pub fn form(&self) -> Form {
        match self.record.word(0) {
            1 => Form::Binary,
            2 => Form::Quote,
            _ => Form::Fields,
        }
    }

    /// Returns its text in the script, from its parenthesis to its end.
    pub fn source(&self) -> &'s str {
        let (start, size) = (self.record.size(6), self.record.size(7));
        self.text.get(start..start + size).unwrap_or_default()
    }

    /// Returns the text of a quoted module, which may not be UTF-8.
    pub fn quoted(&self) -> Option<&'s [u8]> {
        self.record.bytes(8)
    }

    /// Returns the bytes of the module, in each of its forms: those of a binary module as they are.
    ///
    /// # Errors
    ///
    /// Those of [`encode`](crate::encode), but for E12, with a place in the text of the script.
    pub fn encode(&self) -> Result<&'s [u8], Fault> {
        if let Some(bytes) = self.record.bytes(11) {
            return Ok(bytes);
        }
        let span = self.record.span(14);
        let at = Diagnosis {
            number: self.record.word(13) as u32,
            offset: span.offset,
            line: span.line,
            column: span.column,
            end_offset: self.record.size(17),
            ..Diagnosis::default()
        };
        Err(Fault::new(self.text, &at, self.record.bytes(18).unwrap_or_default()))
    }
}

impl fmt::Debug for Module<'_> {
    fn fmt(&self, f: &mut fmt::Formatter<'_>) -> fmt::Result {
        f.debug_struct("Module")
            .field("span", &self.span())
            .field("id", &self.id())
            .field("form", &self.form())
            .field("source", &self.source())
            .finish()
    }
}
