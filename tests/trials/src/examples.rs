//! The library's examples, in Rust over its wrapper and in C over `include/desk.h`: each is built, run, and compared with
//! the lines that it is to print.

use crate::tally::Tally;
use std::path::{Path, PathBuf};
use std::process::Command;

/// An example's name in either language, and its lines.
type Example = (&'static str, &'static str);

const EXAMPLES: [Example; 5] = [
    (
        "printed_case",
        include_str!("../../../library/printed_case.txt"),
    ),
    ("spans", include_str!("../../../library/spans.txt")),
    ("samples", include_str!("../../../library/samples.txt")),
    ("clauses", include_str!("../../../library/clauses.txt")),
    ("witness", include_str!("../../../library/witness.txt")),
];

pub fn all(tally: &mut Tally) {
    let here = Path::new(env!("CARGO_MANIFEST_DIR"));
    let (root, built) = (here.join("../.."), here.join("target/library"));
    std::fs::create_dir_all(&built).expect("a folder for the examples");
    for (name, wanted) in EXAMPLES {
        let rust = printed(Command::new(in_rust(name, &root, &built)));
        prints(tally, &format!("{name} in Rust"), &rust, wanted);
        let c = printed(Command::new(in_c(name, &root, &built)));
        prints(tally, &format!("{name} in C"), &c, wanted);
    }
}

fn prints(tally: &mut Tally, what: &str, given: &str, wanted: &str) {
    let lines = [given, wanted].map(|text| text.lines().count());
    tally.same(&format!("{what}: its lines"), lines[0], lines[1]);
    for (given, wanted) in given.lines().zip(wanted.lines()) {
        tally.same(what, given, wanted);
    }
}

fn in_rust(name: &str, root: &Path, built: &Path) -> PathBuf {
    let cargo = std::env::var("CARGO").unwrap_or_else(|_| "cargo".to_string());
    let mut build = Command::new(cargo);
    build.args(["build", "--release", "--offline", "--quiet", "--example"]);
    build.args([name, "--manifest-path"]);
    build.arg(root.join("library/rust/Cargo.toml"));
    build.arg("--target-dir").arg(built);
    printed(build);
    built.join("release/examples").join(name)
}

fn in_c(name: &str, root: &Path, built: &Path) -> PathBuf {
    let program = built.join(name);
    let mut build = Command::new("cc");
    build.args([
        "-std=c11",
        "-O2",
        "-Wall",
        "-Wextra",
        "-pedantic",
        "-Werror",
    ]);
    build.arg("-I").arg(root.join("include"));
    build.arg(root.join("library/c").join(name).with_extension("c"));
    build.arg(root.join("target/staticlib/libdesk.a"));
    build.arg("-o").arg(&program);
    printed(build);
    program
}

/// What a command prints; one that fails ends the trials.
fn printed(mut command: Command) -> String {
    let output = command.output().expect("a command that starts");
    let told = String::from_utf8_lossy(&output.stderr);
    assert!(output.status.success(), "{command:?}: {told}");
    String::from_utf8(output.stdout).expect("lines of text")
}
