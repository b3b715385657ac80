//! Makes the library's assembly text ready for `global_asm!`, or compiles the C of `portable/` where no text fits the
//! target. `HAYRO_JBIG2_PORTABLE=1` takes the C in any case. `CC_` and the target's name (with `_` for `-`), `TARGET_CC` or
//! `CC` names the compiler.
//!
//! The text is assembled together with the code that rustc makes for this crate. Local labels of both begin with `.L`
//! and are numbered alike, so those of the text get names of their own. Its other names, and those of this crate that
//! it calls, are hidden: a library that is linked of this crate exports none of them.

use std::path::{Path, PathBuf};
use std::process::Command;
use std::{env, fs};

/// The texts of the repository, and their copies in a packaged crate: a processor, as targets name it, and two files.
/// `HAYRO_JBIG2_TEXT` may name another.
const TEXTS: [(&str, [&str; 2]); 2] = [
    ("x86_64", ["../../dist/x86_64/libhayro_jbig2.s", "text/x86_64/libhayro_jbig2.s"]),
    ("aarch64", ["../../dist/aarch64/libhayro_jbig2.s", "text/aarch64/libhayro_jbig2.s"]),
];

/// What the text calls of `src/library/memory.rs`.
const CALLED: [&str; 2] = ["jbig2_c_take", "jbig2_c_give_back"];

/// The largest file of the C: in the repository, and in a packaged crate. The others are beside it.
const MODULES: [&str; 2] = ["../portable/hayro_jbig2_module.c", "portable/hayro_jbig2_module.c"];
const PORTABLE_FILES: [&str; 9] = [
    "hayro_jbig2_module.c",
    "instance.c",
    "handles.c",
    "drawing.c",
    "bytes.c",
    "segments.c",
    "written.c",
    "../c/handles.c",
    "../c/texts.c",
];

const PORTABLE_HEADERS: [&str; 6] =
    ["hayro_jbig2_module.h", "instance.h", "held.h", "calls.h", "wasm-rt.h", "../c/hayro_jbig2.h"];

/// A note of ELF, for x86-64: the program needs a processor of the level x86-64-v2. The loader of glibc 2.33 and later then
/// refuses an older one, before the first instruction (`tools/build/linked/processor.h`), where GNU ld has linked the program.
/// LLD drops the note, so `src/library/processor.rs` looks too.
const LEVEL: &str = "\t.section .note.gnu.property,\"a\",@note\n\t.p2align 3\n\t.long 4, 16, 5\n\t.asciz \"GNU\"\n\
                     \t.long 0xc0008002, 4, 3, 0\n\t.text\n";

fn main() {
    let target = env::var("TARGET").expect("cargo names the target");
    let made = PathBuf::from(env::var_os("OUT_DIR").expect("cargo names a folder"));
    println!("cargo::rustc-check-cfg=cfg(hayro_jbig2_portable)");
    println!("cargo::rerun-if-env-changed=HAYRO_JBIG2_PORTABLE");
    if let Some(texts) = texts_for(&target) {
        prepare_text(&target, texts, &made);
    } else {
        println!("cargo::rustc-cfg=hayro_jbig2_portable");
        compile_portable(&target, &made);
    }
}

/// Where the text is that fits the target, if there is one.
fn texts_for(target: &str) -> Option<&'static [&'static str; 2]> {
    let width = env::var("CARGO_CFG_TARGET_POINTER_WIDTH").expect("cargo names the width of pointers");
    let is_passed_over = env::var("HAYRO_JBIG2_PORTABLE").as_deref() == Ok("1");
    let fits = target.contains("-linux-") && width == "64" && !is_passed_over;
    let processor = target.split('-').next();
    TEXTS.iter().find(|(name, _)| fits && processor == Some(name)).map(|(_, texts)| texts)
}

fn prepare_text(target: &str, texts: &[&'static str; 2], made: &Path) {
    let text = env::var("HAYRO_JBIG2_TEXT").unwrap_or_else(|_| found(texts).to_owned());
    println!("cargo::rerun-if-env-changed=HAYRO_JBIG2_TEXT");
    println!("cargo::rerun-if-changed={text}");
    let read = fs::read_to_string(&text).unwrap_or_else(|error| panic!("the library's text {text}: {error}"));
    let prepared = prepared(&read) + if target.starts_with("x86_64-") { LEVEL } else { "" };
    fs::write(made.join("libhayro_jbig2.s"), prepared).expect("the text can be written into cargo's folder");
}

/// A program of C and its first options: what the variables say that name it for the target, or the usual one. The path
/// of a program may have spaces.
fn program(name: &str, target: &str, usual: &str) -> Vec<String> {
    let variables = [format!("{name}_{}", target.replace('-', "_")), format!("TARGET_{name}"), name.to_owned()];
    variables.iter().for_each(|variable| println!("cargo::rerun-if-env-changed={variable}"));
    let named = variables.iter().filter_map(|variable| env::var(variable).ok()).find(|value| !value.trim().is_empty());
    let words = named.unwrap_or_else(|| usual.to_owned());
    if Path::new(&words).is_file() { vec![words] } else { words.split_whitespace().map(str::to_owned).collect() }
}

fn command(words: &[String]) -> Command {
    let mut command = Command::new(&words[0]);
    command.args(&words[1..]);
    command
}

fn run(command: &mut Command, target: &str) {
    match command.status() {
        Ok(status) if status.success() => {}
        Ok(status) => panic!("the C of portable/ was not compiled for {target}: {command:?}: {status}"),
        Err(error) => panic!("{target} needs a C compiler for portable/: set CC and AR to their names ({error})"),
    }
}

fn compile_portable(target: &str, made: &Path) {
    assert!(
        !target.ends_with("-msvc"),
        "portable/ was not tried with MSVC: take a target that ends in -gnu, not {target}"
    );
    let folder = Path::new(found(&MODULES)).parent().expect("a file is in a folder");
    let cross = env::var("HOST").is_ok_and(|host| host != target);
    let (compiler, archiver) = (program("CC", target, "cc"), program("AR", target, "ar"));
    assert!(
        !cross || compiler != ["cc"],
        "{target} needs a cross compiler: set CC and AR to the names of its programs"
    );
    for file in PORTABLE_FILES.iter().chain(&PORTABLE_HEADERS) {
        println!("cargo::rerun-if-changed={}", folder.join(file).display());
    }
    let archive = made.join("libhayro_jbig2_portable.a");
    let mut objects = Vec::new();
    for (number, file) in PORTABLE_FILES.iter().enumerate() {
        let object = made.join(format!("{number}.o"));
        let mut command = command(&compiler);
        command.args(["-O2", "-std=c99", "-fPIC", "-fvisibility=hidden", "-c", "-I"]);
        command.arg(folder).arg("-I").arg(folder.join("../c")).arg(folder.join(file)).arg("-o").arg(&object);
        run(&mut command, target);
        objects.push(object);
    }
    let _ = fs::remove_file(&archive);
    run(command(&archiver).arg("rcs").arg(&archive).args(&objects), target);
    println!("cargo::rustc-link-search=native={}", made.display());
    println!("cargo::rustc-link-lib=static=hayro_jbig2_portable");
}

fn found(names: &[&'static str; 2]) -> &'static str {
    names.iter().find(|name| Path::new(name).exists()).unwrap_or_else(|| {
        panic!(
            "there is neither {} nor {}: `cargo vendor` leaves it out of the repository's crate, and bindings/rust/package writes \
             a crate that has it",
            names[0], names[1]
        )
    })
}

fn prepared(text: &str) -> String {
    let defined = text.lines().filter_map(|line| line.trim_start().strip_prefix(".globl")).map(str::trim);
    let hidden: String = defined.chain(CALLED).map(|name| format!("\t.hidden\t{name}\n")).collect();
    text.replace(".L", ".Lproved") + &hidden
}
