//! Takes in the archive of the folder CALLBOARD_BEFORE, if that is set: a copy of it whose symbols
//! begin with `before_`, and for each function of the C interface a jump to the one or the other,
//! which the calls of bindings/rust take (src/before.rs).

use std::collections::BTreeSet;
use std::path::{Path, PathBuf};
use std::process::Command;
use std::{env, fs};

fn main() {
    println!("cargo:rerun-if-env-changed=CALLBOARD_BEFORE");
    println!("cargo:rerun-if-changed=build.rs");
    println!("cargo:rustc-check-cfg=cfg(before)");
    let Ok(folder) = env::var("CALLBOARD_BEFORE") else {
        return;
    };
    let out = PathBuf::from(env::var("OUT_DIR").unwrap());
    let archive = Path::new(&folder).join("libcallboard.a");
    println!("cargo:rerun-if-changed={}", archive.display());
    let defined = defined(&archive);
    copy_renamed(&archive, &defined, &out);
    let package = PathBuf::from(env::var("CARGO_MANIFEST_DIR").unwrap());
    let raw = package.join("../bindings/rust/src/raw.rs");
    println!("cargo:rerun-if-changed={}", raw.display());
    let raw = fs::read_to_string(raw).unwrap();
    let functions = functions(&raw);
    fs::write(out.join("jumps.rs"), jumps(&functions, &defined)).unwrap();
    println!("cargo:rustc-cfg=before");
    println!("cargo:rustc-link-search=native={}", out.display());
    println!("cargo:rustc-link-lib=static=callboard_before");
    for function in functions {
        println!("cargo:rustc-link-arg=-Wl,--wrap=callboard_{function}");
    }
}

fn run(command: &mut Command) -> String {
    let output = command.output().unwrap();
    assert!(output.status.success(), "{command:?}: {output:?}");
    String::from_utf8(output.stdout).unwrap()
}

/// The global symbols that the archive defines.
fn defined(archive: &Path) -> BTreeSet<String> {
    let nm = ["--defined-only", "--extern-only", "--format=just-symbols"];
    let names = run(Command::new("nm").args(nm).arg(archive));
    let is_symbol = |line: &&str| !line.is_empty() && !line.ends_with(':');
    names.lines().filter(is_symbol).map(String::from).collect()
}

fn copy_renamed(archive: &Path, defined: &BTreeSet<String>, out: &Path) {
    let (names, copy) = (out.join("names"), out.join("libcallboard_before.a"));
    let lines = defined.iter().map(|name| format!("{name} before_{name}\n"));
    fs::write(&names, lines.collect::<String>()).unwrap();
    let rename = format!("--redefine-syms={}", names.display());
    run(Command::new("objcopy").arg(rename).arg(archive).arg(copy));
}

/// The functions that the bindings declare.
fn functions(raw: &str) -> Vec<&str> {
    let from_name = raw
        .lines()
        .filter_map(|line| line.split_once("fn callboard_"));
    let names = from_name.filter_map(|(_, from_name)| from_name.split_once('('));
    names.map(|(name, _)| name).collect()
}

/// Where a call goes: to the function before if `asked` says so, else to the port's. In place of a
/// function that the archive before lacks, the port's is called, and `lacking` says so.
fn jumps(functions: &[&str], defined: &BTreeSet<String>) -> String {
    let jump = |name: &&str| {
        let mut lines = format!(
            "__wrap_callboard_{name}:
            cmp byte ptr [rip + {{asked}}], 0
            jne before_callboard_{name}
            jmp __real_callboard_{name}
            .global __wrap_callboard_{name}\n"
        );
        if !defined.contains(&format!("callboard_{name}")) {
            lines += &format!(
                "before_callboard_{name}:
                mov byte ptr [rip + {{lacking}}], 1
                jmp __real_callboard_{name}\n"
            );
        }
        lines
    };
    let mut lines: String = functions.iter().map(jump).collect();
    lines += "/* {lacking}, if nothing is lacking */";
    format!(r#"std::arch::global_asm!("{lines}", asked = sym ASKED, lacking = sym LACKING);"#)
}
