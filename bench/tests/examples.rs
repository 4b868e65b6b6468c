//! Every NAME.in of ../examples gives NAME.out, with the test of 14 and without.

use std::path::{Path, PathBuf};

fn rehearsed<const TEST_14: bool>(script: &[u8]) -> Vec<u8> {
    let mut out = Vec::new();
    floor::script::run::<TEST_14>(script, &mut out).unwrap();
    out
}

fn scripts(folder: &Path) -> Vec<PathBuf> {
    let mut scripts: Vec<PathBuf> = std::fs::read_dir(folder)
        .unwrap()
        .map(|entry| entry.unwrap().path())
        .filter(|path| path.extension().is_some_and(|extension| extension == "in"))
        .collect();
    scripts.sort();
    scripts
}

#[test]
fn examples() {
    let folder = Path::new(env!("CARGO_MANIFEST_DIR")).join("../examples");
    let scripts = scripts(&folder);
    assert!(!scripts.is_empty());
    for path in scripts {
        let script = std::fs::read(&path).unwrap();
        let expected = std::fs::read(path.with_extension("out")).unwrap();
        assert!(rehearsed::<true>(&script) == expected, "{}", path.display());
        assert!(
            rehearsed::<false>(&script) == expected,
            "{} without 14",
            path.display()
        );
    }
}
