//! The example `day` writes what is stored beside it.

use std::fs;
use std::path::Path;
use std::process::Command;

#[test]
fn the_day_is_the_stored_one() {
    let package = Path::new(env!("CARGO_MANIFEST_DIR"));
    let output = Command::new(env!("CARGO"))
        .args(["run", "--quiet", "--offline", "--example", "day"])
        .current_dir(package)
        .output()
        .expect("cargo runs");
    let errors = String::from_utf8_lossy(&output.stderr);
    assert!(output.status.success(), "{errors}");
    let stored = fs::read(package.join("examples/day.stdout")).expect("examples/day.stdout");
    let (text, stored_text) = (
        String::from_utf8_lossy(&output.stdout),
        String::from_utf8_lossy(&stored),
    );
    assert!(
        output.stdout == stored,
        "the example wrote:\n{text}\nstored:\n{stored_text}"
    );
}
