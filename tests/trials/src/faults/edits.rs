//! The files of faults, one for each group of trials.

use std::path::Path;

/// What stands otherwise in a faulty second evaluator, and the group of the trials that must notice it.
pub struct Fault {
    pub group: &'static str,
    pub name: String,
    pub edits: Vec<Edit>,
}

/// A text that stands once in a file, and what stands there instead.
pub struct Edit {
    pub file: String,
    pub old: String,
    pub new: String,
}

pub fn of_group(group: &'static str) -> Vec<Fault> {
    let folder = Path::new(env!("CARGO_MANIFEST_DIR")).join("../second/faults");
    let file = folder.join(group).with_extension("edits");
    let text = std::fs::read_to_string(&file).expect("a file of faults for each group");
    text.split("\nfault: ")
        .skip(1)
        .map(|part| fault(group, part))
        .collect()
}

/// After its name, a fault has the name of a file, then pairs of an old and a new text. A line that is set in as far as
/// these goes on with the one before; `#` begins a remark.
fn fault(group: &'static str, part: &str) -> Fault {
    let mut lines = part.lines().filter(|line| !line.starts_with('#'));
    let name = lines.next().unwrap_or_default().to_string();
    let (mut file, mut edits) = (String::new(), Vec::<Edit>::new());
    let mut in_new = false;
    for line in lines.filter(|line| !line.is_empty()) {
        let (key, text) = line.split_at_checked(5).unwrap_or((line, ""));
        match (key, edits.last_mut()) {
            ("file:", _) => file = text.trim().to_string(),
            ("old: ", _) => {
                in_new = false;
                edits.push(Edit {
                    file: file.clone(),
                    old: text.to_string(),
                    new: String::new(),
                });
            }
            ("new: " | "new:", Some(edit)) => {
                in_new = true;
                edit.new = text.to_string();
            }
            ("     ", Some(edit)) => {
                let place = if in_new { &mut edit.new } else { &mut edit.old };
                place.push('\n');
                place.push_str(text);
            }
            _ => panic!("{group}, {name}: {line}"),
        }
    }
    Fault { group, name, edits }
}
