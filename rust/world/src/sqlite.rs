//! The sqlite3 program.

use std::io::Write;
use std::path::Path;
use std::process::{Command, Stdio};

/// Feeds a script to `sqlite3 DB` and answers what it prints. Panics where it fails or complains.
pub fn run(db: &Path, script: &str) -> String {
    run_named(db.to_str().expect("the path is text"), script)
}

/// The same, for a name that may be a `file:` URI.
pub fn run_named(db: &str, script: &str) -> String {
    attempt(db, script).unwrap_or_else(|error| panic!("sqlite3 {db}: {error}"))
}

/// What `sqlite3 DB` prints, or its complaint.
pub fn attempt(db: &str, script: &str) -> Result<String, String> {
    let mut child = Command::new("sqlite3")
        .args(["-batch", "-bail", "-noheader", "-list", db])
        .stdin(Stdio::piped())
        .stdout(Stdio::piped())
        .stderr(Stdio::piped())
        .spawn()
        .expect("sqlite3 runs");
    let mut stdin = child.stdin.take().expect("stdin is piped");
    let script = script.to_owned();
    let writer = std::thread::spawn(move || stdin.write_all(script.as_bytes()));
    let output = child.wait_with_output().expect("sqlite3 ends");
    let _ = writer.join().expect("the writer ends");
    let errors = String::from_utf8_lossy(&output.stderr).into_owned();
    if !output.status.success() || !errors.is_empty() {
        return Err(format!("{}: {errors}", output.status));
    }
    Ok(String::from_utf8(output.stdout).expect("sqlite3 prints text"))
}

/// The version of the sqlite3 program.
pub fn version() -> String {
    let output = Command::new("sqlite3").arg("--version").output().expect("sqlite3 runs");
    String::from_utf8_lossy(&output.stdout).trim().to_owned()
}
