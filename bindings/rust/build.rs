//! Links the proved encoder. If `RIGYOMAD_LIB` names a folder with the archive `librigyomad.a`, or
//! pkg-config finds `rigyomad`, it is that one, which `tools/build archive` and `tools/install` make
//! (docs/LIBRARIES.md).
//!
//! Otherwise C is compiled that is made of the compiled module in `bindings/js`: the folder `c` of a
//! packed crate has it, and in the repository `tools/c` writes it, by Python. It needs a C compiler,
//! `CC` or `cc`, and `ar`, `AR`. On docs.rs, which sets `DOCS_RS`, nothing is linked.

use std::env;
use std::path::{Path, PathBuf};
use std::process::{exit, Command};

/// The variables that say where pkg-config looks.
const PKG_CONFIG: [&str; 4] =
    ["PKG_CONFIG", "PKG_CONFIG_PATH", "PKG_CONFIG_LIBDIR", "PKG_CONFIG_SYSROOT_DIR"];

/// In so many parts the C is compiled.
const PARTS: usize = 8;

/// The value of a variable. The build runs again if it changes.
fn variable(name: &str) -> Option<String> {
    println!("cargo:rerun-if-env-changed={name}");
    env::var(name).ok().filter(|value| !value.is_empty())
}

/// The folder of the archive, if pkg-config is installed and finds it.
fn installed_folder() -> Option<String> {
    let [program, ..] = PKG_CONFIG.map(variable);
    let program = program.unwrap_or_else(|| "pkg-config".to_owned());
    let ran = Command::new(program).args(["--variable=libdir", "rigyomad"]).output().ok()?;
    // a blank is printed with a backslash
    let folder = String::from_utf8(ran.stdout).ok()?.trim().replace("\\ ", " ");
    Some(folder).filter(|folder| ran.status.success() && !folder.is_empty())
}

/// Looks for the archive in a folder.
fn search(folder: &str) {
    let archive = Path::new(folder).join("librigyomad.a");
    println!("cargo:rerun-if-changed={}", archive.display());
    println!("cargo:rustc-link-search=native={folder}");
    if !archive.is_file() {
        println!(
            "cargo:warning=there is no {}: `tools/build archive {folder}` of Rigyomad writes it",
            archive.display()
        );
    }
}

/// A command that takes a program from a variable, which can have options after it.
fn command(name: &str, program: &str) -> Command {
    let given = variable(name).unwrap_or_else(|| program.to_owned());
    let mut words = given.split_whitespace();
    let mut command = Command::new(words.next().unwrap_or(program));
    command.args(words);
    command
}

/// Runs commands in parallel. If one fails, the build ends with what is needed.
fn run(commands: Vec<Command>) {
    let begun: Vec<_> =
        commands.into_iter().map(|mut it| (format!("{it:?}"), it.spawn())).collect();
    for (words, child) in begun {
        let ended = child.and_then(|mut it| it.wait());
        if !ended.as_ref().map_or(false, |it| it.success()) {
            eprintln!("error: {words}: {ended:?}");
            eprintln!(
                "error: without an archive, `cc` and `ar` are needed, and `python3` in a clone"
            );
            exit(1);
        }
    }
}

/// The C: that of the packed crate, or what `tools/c` writes.
fn source(out: &Path) -> PathBuf {
    let packed = Path::new("c/rigyomad.c");
    if packed.is_file() {
        println!("cargo:rerun-if-changed=c");
        return packed.to_owned();
    }
    for path in ["../js/rigyomad.wasm", "../c", "../../tools/c", "../../tools/lib/to_c.py"] {
        println!("cargo:rerun-if-changed={path}");
    }
    let mut tool = command("PYTHON", "python3");
    tool.arg("../../tools/c").arg(out).stdout(std::process::Stdio::null());
    run(vec![tool]);
    out.join("rigyomad.c")
}

/// Compiles the C to an archive.
fn compile(out: &Path) {
    let source = source(out);
    let objects: Vec<_> = (0..PARTS).map(|part| out.join(format!("rigyomad_{part}.o"))).collect();
    let compile_part = |(part, object): (usize, &PathBuf)| {
        let mut cc = command("CC", "cc");
        cc.args(["-std=c99", "-O1", "-fPIC", "-c"]).arg(format!("-DRIGYOMAD_PART={part}"));
        cc.arg(&source).arg("-o").arg(object);
        cc
    };
    run(objects.iter().enumerate().map(compile_part).collect());
    let archive = out.join("librigyomad.a");
    let _ = std::fs::remove_file(&archive);
    let mut ar = command("AR", "ar");
    ar.arg("rcs").arg(&archive).args(&objects);
    run(vec![ar]);
    println!("cargo:rustc-link-search=native={}", out.display());
}

fn main() {
    println!("cargo:rerun-if-changed=build.rs");
    if variable("DOCS_RS").is_some() {
        return;
    }
    match variable("RIGYOMAD_LIB").or_else(installed_folder) {
        Some(folder) => search(&folder),
        None => compile(&PathBuf::from(env::var_os("OUT_DIR").expect("cargo sets OUT_DIR"))),
    }
    println!("cargo:rustc-link-lib=static=rigyomad");
}
