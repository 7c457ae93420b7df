//! The header as C programs see it: `header.c` is compiled against it and the archive, as C and as
//! C++, and run.

use crate::common::driver::say;
use std::process::Command;
use std::{env, fs, path::Path, process};

#[test]
fn samples_in_c() {
    compile_and_run("c", "c99");
}

#[test]
fn samples_in_cpp() {
    compile_and_run("c++", "c++11");
}

/// `cc` is there, since cargo links with it; whether it knows C++ is its own affair.
fn compile_and_run(language: &str, standard: &str) {
    let host = Path::new(env!("CARGO_MANIFEST_DIR"));
    let program = env::temp_dir().join(format!("binnaclebox-{language}-{}", process::id()));
    let compiled = Command::new("cc")
        .args(["-Wall", "-Wextra", "-Werror", "-pedantic", "-O2"])
        .args(["-x", language, &format!("-std={standard}")])
        .arg("-I")
        .arg(host.join("../include"))
        .arg(host.join("tests/header.c"))
        .args(["-x", "none"])
        .arg(host.join("target/archive/libcapi.a"))
        .arg("-o")
        .arg(&program)
        .output()
        .expect("cc is on the path");
    let messages = String::from_utf8_lossy(&compiled.stderr);
    if language == "c++" && messages.contains("cc1plus") {
        say("cc has no C++ here: skipped");
        return;
    }
    assert!(compiled.status.success(), "{messages}");
    let ran = Command::new(&program).output();
    fs::remove_file(&program).expect("the program was made");
    let ran = ran.expect("the program runs");
    let differ = String::from_utf8_lossy(&ran.stdout);
    assert!(ran.status.success(), "{differ}");
}
