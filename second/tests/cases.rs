//! Every file of the folders of hand-made cases.

use second::exchange::exchange;
use second::{answer, answer_interchange, Entry};
use std::collections::BTreeSet;
use std::fs;
use std::path::PathBuf;

/// The cases of one program.
struct Folder {
    path: &'static str,
    /// Under which their table stands in `cases/README.md`.
    heading: &'static str,
    entry: Entry,
    fewest: usize,
    refusals: &'static [u8],
}

const ACK: Folder = Folder {
    path: "",
    heading: "## The cases of `ack`",
    entry: answer,
    fewest: 100,
    refusals: &[1, 2, 3, 4, 5, 6, 7, 8, 9, 10, 11, 12, 13, 14],
};

/// Its buffer is always long enough.
const TA1: Folder = Folder {
    path: "ta1",
    heading: "## The cases of `ta1`",
    entry: answer_interchange,
    fewest: 40,
    refusals: &[1, 2, 3, 4, 5, 15],
};

fn cases() -> PathBuf {
    PathBuf::from(env!("CARGO_MANIFEST_DIR")).join("../cases")
}

impl Folder {
    fn path(&self) -> PathBuf {
        cases().join(self.path)
    }

    /// The names of the files with this extension.
    fn names(&self, extension: &str) -> BTreeSet<String> {
        fs::read_dir(self.path())
            .unwrap()
            .map(|entry| entry.unwrap().path())
            .filter(|path| path.extension().is_some_and(|found| found == extension))
            .map(|path| path.file_stem().unwrap().to_str().unwrap().to_string())
            .collect()
    }

    fn read(&self, name: &str, extension: &str) -> Vec<u8> {
        fs::read(self.path().join(format!("{name}.{extension}"))).unwrap()
    }

    fn outputs(&self) -> BTreeSet<Vec<u8>> {
        let names = self.names("out");
        names.iter().map(|name| self.read(name, "out")).collect()
    }

    /// The first cells of the rows under the heading of the cases.
    fn names_in_readme(&self) -> Vec<String> {
        let readme = fs::read_to_string(cases().join("README.md")).unwrap();
        let lines = readme.lines().skip_while(|&line| line != self.heading);
        lines
            .skip(1)
            .take_while(|line| !line.starts_with("## "))
            .filter_map(|line| line.strip_prefix("| ")?.split_once(" |"))
            .map(|(name, _)| name.to_string())
            .filter(|name| name != "Name")
            .collect()
    }
}

#[test]
fn every_input_gives_its_output() {
    for folder in [ACK, TA1] {
        let inputs = folder.names("in");
        assert!(inputs.len() >= folder.fewest);
        for name in inputs {
            let printed = exchange(folder.entry, &folder.read(&name, "in"));
            let expected = folder.read(&name, "out");
            assert_eq!(
                String::from_utf8_lossy(&printed),
                String::from_utf8_lossy(&expected),
                "{name}"
            );
            assert_eq!(printed, expected, "{name}");
        }
    }
}

#[test]
fn inputs_outputs_and_the_table_agree_one_to_one() {
    for folder in [ACK, TA1] {
        let listed = folder.names_in_readme();
        let listed_once: BTreeSet<String> = listed.iter().cloned().collect();
        assert_eq!(listed.len(), listed_once.len(), "a name is listed twice");
        assert_eq!(folder.names("in"), listed_once);
        assert_eq!(folder.names("out"), listed_once);
    }
}

#[test]
fn every_refusal_number_is_among_the_outputs() {
    for folder in [ACK, TA1] {
        let outputs = folder.outputs();
        for number in folder.refusals {
            let refused = format!("refused {number}\n").into_bytes();
            assert!(outputs.contains(&refused), "{} {number}", folder.path);
        }
    }
}

#[test]
fn every_note_code_is_among_the_outputs() {
    let outputs = TA1.outputs();
    let has = |note: &str| {
        let mut texts = outputs.iter().map(|output| String::from_utf8_lossy(output));
        texts.any(|text| text.contains(note))
    };
    for note in ["*A*000~", "*R*001~", "*R*021~", "*R*022~", "*R*023~"] {
        assert!(has(note), "{note}");
    }
}
