//! A copy of the second evaluator that has every fault: the body of a function with faults is a choice of bodies, by the
//! number of the fault that the run has. The trials are built with the copy in the second evaluator's place.

use super::edits::{Edit, Fault};
use std::collections::BTreeMap;
use std::fs;
use std::ops::Range;
use std::path::{Path, PathBuf};
use std::process::Command;

/// At the end of the copy's root. No fault has the number 0.
const FAULT: &str = "
/// The number of the fault that this run has.
pub fn fault() -> usize {
    static FAULT: std::sync::OnceLock<usize> = std::sync::OnceLock::new();
    let given = || std::env::var(\"FAULT\").ok()?.parse().ok();
    *FAULT.get_or_init(|| given().unwrap_or(0))
}
";

/// The trials with a faulty second evaluator.
pub struct FaultyTrials {
    program: PathBuf,
}

impl FaultyTrials {
    pub fn build(faults: &[Fault]) -> FaultyTrials {
        let here = Path::new(env!("CARGO_MANIFEST_DIR"));
        let folder = here.join("target/faults");
        write(&here.join("../second"), &folder.join("second"), faults);
        let copy = format!("paths=[{:?}]", folder.join("second"));
        let cargo = std::env::var("CARGO").unwrap_or_else(|_| "cargo".to_string());
        let output = Command::new(cargo)
            .current_dir(here)
            .args(["build", "--release", "--offline", "--quiet"])
            .args(["--config", &copy, "--config", "profile.release.opt-level=1"])
            .args(["--config", "build.rustflags=['-Awarnings']"])
            .arg("--target-dir")
            .arg(&folder)
            .output()
            .expect("cargo");
        let told = String::from_utf8_lossy(&output.stderr);
        assert!(output.status.success(), "{told}");
        let program = folder.join("release/trials");
        FaultyTrials { program }
    }

    /// Whether the trials of a group come to a difference with a fault; or what they tell where they do not end.
    pub fn notice(&self, group: &str, fault: usize) -> Result<bool, String> {
        let output = Command::new(&self.program)
            .args(["limits", group, "first"])
            .env("FAULT", fault.to_string())
            .output()
            .expect("the trials");
        let lines = String::from_utf8_lossy(&output.stdout);
        let told = lines.trim_end().strip_suffix(" differences");
        let differences = told.and_then(|line| line.rsplit(' ').next()?.parse::<u64>().ok());
        differences
            .map(|differences| differences > 0)
            .ok_or_else(|| String::from_utf8_lossy(&output.stderr).to_string())
    }
}

/// The manifest, and the sources with their faults.
fn write(second: &Path, copy: &Path, faults: &[Fault]) {
    fs::create_dir_all(copy.join("src")).expect("a folder for the copy");
    fs::copy(second.join("Cargo.toml"), copy.join("Cargo.toml")).expect("a manifest");
    for entry in fs::read_dir(second.join("src")).expect("the sources") {
        let path = entry.expect("a source").path();
        if path.is_file() {
            let file = path.file_name().and_then(|name| name.to_str());
            let file = file.expect("a name");
            let source = fs::read_to_string(&path).expect("a source");
            let mut text = faulty(file, &source, faults);
            if file == "lib.rs" {
                text.push_str(FAULT);
            }
            fs::write(copy.join("src").join(file), text).expect("a copy");
        }
    }
}

/// A file with every fault that it can have.
fn faulty(file: &str, source: &str, faults: &[Fault]) -> String {
    let mut text = source.to_string();
    for body in bodies(source).into_iter().rev() {
        let mut arms = String::new();
        for (number, fault) in (1..).zip(faults) {
            let edits = fault.edits.iter().filter(|edit| edit.file == file);
            let edits: BTreeMap<usize, &Edit> = edits
                .map(|edit| (place(source, fault, edit), edit))
                .filter(|(at, _)| body.contains(at))
                .collect();
            if !edits.is_empty() {
                let other = edited(source, &body, &edits);
                arms.push_str(&format!("{number} => {{\n{other}}}\n"));
            }
        }
        if !arms.is_empty() {
            let good = &source[body.clone()];
            let choice = format!("match crate::fault() {{\n{arms}_ => {{\n{good}}}\n}}\n");
            text.replace_range(body, &choice);
        }
    }
    text
}

/// Where the one text of an edit stands, in some function's body.
fn place(source: &str, fault: &Fault, edit: &Edit) -> usize {
    let found: Vec<usize> = source.match_indices(&edit.old).map(|(at, _)| at).collect();
    let within = |at: &usize| bodies(source).iter().any(|body| body.contains(at));
    match found[..] {
        [at] if within(&at) => at,
        _ => panic!(
            "{}, {}: not once in a body of {}",
            fault.group, fault.name, edit.file
        ),
    }
}

/// A body with the edits at their places.
fn edited(source: &str, body: &Range<usize>, edits: &BTreeMap<usize, &Edit>) -> String {
    let mut text = source[body.clone()].to_string();
    for (at, edit) in edits.iter().rev() {
        let at = at - body.start;
        text.replace_range(at..at + edit.old.len(), &edit.new);
    }
    text
}

/// Where the lines of each function's body stand: after the line that ends its head, and before the brace below the head.
fn bodies(source: &str) -> Vec<Range<usize>> {
    let mut bodies = Vec::new();
    let (mut head, mut start) = (None, None);
    let mut at = 0;
    for line in source.split_inclusive('\n') {
        let words = line.trim_start();
        let set_in = line.len() - words.len();
        if head.is_none() && (words.starts_with("fn ") || words.starts_with("pub fn ")) {
            head = Some(set_in);
        }
        if head.is_some() && start.is_none() && line.ends_with("{\n") {
            start = Some(at + line.len());
        } else if head == Some(set_in) && words == "}\n" {
            bodies.extend(start.map(|start| start..at));
            (head, start) = (None, None);
        }
        at += line.len();
    }
    bodies
}
