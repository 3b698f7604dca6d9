//! Trees of the proved crates for a measurement, in a folder for what lasts no longer than a
//! session: each has a crate `near_alone` more, which lets C call `near`, and one has another `quotient` in
//! `rounding`, of the same contract and proved, with a division and a remainder.

use std::fs;
use std::path::{Path, PathBuf};
use std::process::Command;

/// The folder that the repository is in.
pub fn root() -> PathBuf {
    let tests = Path::new(env!("CARGO_MANIFEST_DIR"));
    tests.parent().expect("the repository's root").to_path_buf()
}

/// Runs a command in a folder; what it says is shown where it fails.
fn run(folder: &Path, program: &str, words: &[&str]) {
    let ran = Command::new(program).args(words).current_dir(folder).output();
    let ran = ran.unwrap_or_else(|error| panic!("{program} does not start: {error}"));
    let said = String::from_utf8_lossy(&ran.stdout);
    let complained = String::from_utf8_lossy(&ran.stderr);
    assert!(ran.status.success(), "{program} {words:?}: {said}{complained}");
}

/// Writes a file, and the folders that it is in.
fn write(file: &Path, text: &str) {
    fs::create_dir_all(file.parent().expect("a folder")).expect("a folder to write to");
    fs::write(file, text).expect("a file to write");
}

/// Copies a folder of crates, without what checks made in `out`.
fn copy(from: &Path, to: &Path) {
    fs::create_dir_all(to).expect("a folder to write to");
    for entry in fs::read_dir(from).expect("a folder to copy") {
        let path = entry.expect("an entry of the folder").path();
        let name = path.file_name().expect("a name");
        if path.is_dir() && name != "out" {
            copy(&path, &to.join(name));
        } else if path.is_file() {
            fs::copy(&path, to.join(name)).expect("a file to copy");
        }
    }
}

/// A tree of the crates as they are, with `near` for C to call.
pub fn tree(name: &str) -> PathBuf {
    let tree = std::env::temp_dir().join("irga-trial").join(name);
    if tree.exists() {
        fs::remove_dir_all(&tree).expect("the tree of an earlier run");
    }
    fs::create_dir_all(&tree).expect("a folder for the tree");
    copy(&root().join("crates"), &tree.join("crates"));
    let list = fs::read_to_string(root().join("crates.txt")).expect("the list of crates");
    write(&tree.join("crates.txt"), &(list + "near_alone staticlib: rounding\n"));
    let crate_file = tree.join("crates/near_alone/src/lib.rt");
    write(&crate_file, include_str!("../trials/near_alone.txt"));
    tree
}

/// The body of `quotient` as it is.
const ONE_SIGN: &str = "{\n    (2 * m + b) / (2 * b)\n}";

/// The same tree, `near` with a division and a remainder in it.
pub fn two_signs(name: &str) -> PathBuf {
    let tree = tree(name);
    let source = tree.join("crates/rounding/src/lib.rt");
    let text = fs::read_to_string(&source).expect("the source of near");
    assert_eq!(text.matches(ONE_SIGN).count(), 1, "quotient is not as the trial has it");
    let body = format!("{{\n{}}}", include_str!("../trials/two_signs.txt"));
    write(&source, &text.replace(ONE_SIGN, &body));
    tree
}

/// Proves a crate of a tree, and those that it stands on.
pub fn prove(tree: &Path, crate_name: &str) {
    run(&tree.join("crates").join(crate_name), "rt", &["check"]);
}

/// Proves a library of a tree and makes its archive; its folder.
pub fn archive(tree: &Path, crate_name: &str) -> PathBuf {
    let folder = tree.join("crates").join(crate_name);
    run(&folder, "rt", &["lib"]);
    folder.join("out")
}
