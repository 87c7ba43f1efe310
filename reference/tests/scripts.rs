//! The stored outputs beside the hand-written scripts are what is run.

use reference::script::Session;
use std::fs;
use std::path::{Path, PathBuf};

fn scripts() -> Vec<PathBuf> {
    let folder = Path::new(env!("CARGO_MANIFEST_DIR")).join("scripts");
    let mut paths: Vec<PathBuf> = fs::read_dir(folder)
        .unwrap()
        .map(|entry| entry.unwrap().path())
        .filter(|path| {
            path.extension()
                .is_some_and(|extension| extension == "script")
        })
        .collect();
    paths.sort();
    paths
}

#[test]
fn stored_outputs() {
    let paths = scripts();
    assert!(paths.len() >= 40);
    for path in paths {
        let script = fs::read_to_string(&path).unwrap();
        let expected = fs::read_to_string(path.with_extension("out")).unwrap();
        let output = Session::default().run_script(&script);
        for (number, (got, expected)) in output.lines().zip(expected.lines()).enumerate() {
            assert_eq!(
                got,
                expected,
                "{} output line {}",
                path.display(),
                number + 1
            );
        }
        assert_eq!(output, expected, "{}", path.display());
    }
}

/// Short enough to be read, and each one explained.
#[test]
fn scripts_are_short_and_explained() {
    let readme = Path::new(env!("CARGO_MANIFEST_DIR")).join("scripts/README.md");
    let readme = fs::read_to_string(readme).unwrap();
    for path in scripts() {
        let script = fs::read_to_string(&path).unwrap();
        assert!(script.lines().count() < 60, "{}", path.display());
        let name = path.file_stem().unwrap().to_str().unwrap();
        assert!(
            readme.contains(&format!("## {name}\n")),
            "{name} is not explained"
        );
    }
}
