//! The listings in samples/ are what the proved program and the second implementation print.

use bench::both;
use bench::program::root;
use std::collections::BTreeSet;
use std::fs;

/// The sheets' names, each with its listing and its marks, and nothing else but the sums of the batch.
#[test]
fn listings() {
    let folder = root().join("samples");
    let files: BTreeSet<String> = fs::read_dir(&folder)
        .expect("the samples")
        .map(|entry| entry.expect("a file").file_name().into_string().expect("a name"))
        .collect();
    let names: Vec<&str> = files.iter().filter_map(|file| file.strip_suffix(".sheet")).collect();
    let mut wanted: BTreeSet<String> =
        names.iter().flat_map(|name| ["sheet", "listing", "marks"].map(|kind| format!("{name}.{kind}"))).collect();
    wanted.extend(["README.md".to_string(), "batch.marks".to_string()]);
    assert_eq!(files, wanted);
    assert!(names.len() >= 5);
    for name in names {
        let read = |kind: &str| fs::read(folder.join(format!("{name}.{kind}"))).expect("a file");
        let sheet = read("sheet");
        assert!(both::listing(&sheet) == read("listing"), "{name}.listing is not what is printed");
        both::everything(&sheet);
    }
}

/// The README goes through the frames of P1 and of its listing, each as it stands in samples/.
#[test]
fn first_sheet_in_readme() {
    let read = |path: &str| fs::read_to_string(root().join(path)).expect("a file");
    let readme = read("README.md");
    let (_, section) = readme.split_once("### A first sheet").expect("the section");
    let (section, _) = section.split_once("\n## ").expect("its end");
    let rows = section.lines().filter_map(|line| line.strip_prefix("| `")?.split_once('`').map(|(frame, _)| frame));
    let frames: String = rows.map(|frame| format!("{frame}\n")).collect();
    assert_eq!(frames, read("samples/p1.sheet") + &read("samples/p1.listing"));
}
