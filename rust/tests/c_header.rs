//! Programs in C and in C++ that include the header link with the archive and run.
use std::path::Path;
use std::process::Command;

/// Compiles `tests/c/NAME.c` by the compiler and the words, without a warning, links the archive, runs it, and gives
/// what it printed.
fn compiled_and_run(compiler: &str, words: &[&str], name: &str) -> String {
    let package = Path::new(env!("CARGO_MANIFEST_DIR"));
    let program = Path::new(env!("CARGO_TARGET_TMPDIR")).join(format!("{name}_{compiler}"));
    let compiled = Command::new(compiler)
        .args(words)
        .args(["-Wall", "-Wextra", "-Werror", "-pedantic", "-O2", "-I"])
        .arg(package.join("../include"))
        .arg(package.join(format!("tests/c/{name}.c")))
        .args(["-x", "none"])
        .arg(Path::new(env!("OUT_DIR")).join("libpaqelzim.a"))
        .arg("-o")
        .arg(&program)
        .output()
        .unwrap_or_else(|e| panic!("{compiler} cannot be run: {e}"));
    assert!(
        compiled.status.success(),
        "{}",
        String::from_utf8_lossy(&compiled.stderr)
    );
    let ran = Command::new(&program).output().expect("the program runs");
    let printed = String::from_utf8_lossy(&ran.stdout).into_owned();
    assert!(ran.status.success(), "{printed}");
    printed
}

const C11: (&str, &[&str]) = ("gcc", &["-std=c11"]);
const CPP17: (&str, &[&str]) = ("g++", &["-x", "c++", "-std=c++17"]);

/// Every call, each number checked by the program itself.
#[test]
fn calls_as_c11() {
    assert_eq!(compiled_and_run(C11.0, C11.1, "calls"), "");
}

#[test]
fn calls_as_cpp17() {
    assert_eq!(compiled_and_run(CPP17.0, CPP17.1, "calls"), "");
}

/// The example prints what the show program does.
#[test]
fn example_as_c11_and_cpp17() {
    let shown = include_str!("../../crates/show/stdout");
    for (compiler, words) in [C11, CPP17] {
        assert_eq!(compiled_and_run(compiler, words, "two_faces"), shown);
    }
}
