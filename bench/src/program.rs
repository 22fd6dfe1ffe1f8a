//! The programs: a sheet on standard input, its listing on standard output.

use std::io::Write;
use std::path::{Path, PathBuf};
use std::process::{Command, Stdio};
use std::time::Duration;

/// The repository.
pub fn root() -> &'static Path {
    Path::new(env!("CARGO_MANIFEST_DIR")).parent().expect("the repository")
}

/// The proved program, which `./build` builds, unless the variable EXAMINER names another.
pub fn examiner() -> PathBuf {
    let path = std::env::var_os("EXAMINER").map_or_else(|| root().join("target/bin/examiner"), PathBuf::from);
    assert!(path.is_file(), "there is no program {}: `./build` builds it", path.display());
    path
}

/// What a program prints for a sheet. It must end well and write nothing else.
pub fn listing(program: &Path, sheet: &[u8]) -> Vec<u8> {
    listing_of_pieces(program, sheet, sheet.len().max(1), Duration::ZERO)
}

/// The same, of a sheet that arrives in pieces of so many bytes with a pause behind each.
pub fn listing_of_pieces(program: &Path, sheet: &[u8], piece: usize, pause: Duration) -> Vec<u8> {
    let mut child = Command::new(program)
        .stdin(Stdio::piped())
        .stdout(Stdio::piped())
        .stderr(Stdio::piped())
        .spawn()
        .unwrap_or_else(|error| panic!("{} does not start: {error}", program.display()));
    let mut input = child.stdin.take().expect("its standard input");
    let sheet = sheet.to_vec();
    // A program may stop reading once a sheet is too long, so that a refused write is no fault.
    let writing = std::thread::spawn(move || {
        for piece in sheet.chunks(piece) {
            if input.write_all(piece).is_err() {
                return;
            }
            std::thread::sleep(pause);
        }
    });
    let output = child.wait_with_output().expect("its output");
    writing.join().expect("the sheet is written");
    assert!(output.status.success(), "{} ended with {}", program.display(), output.status);
    assert!(output.stderr.is_empty(), "{}: {}", program.display(), String::from_utf8_lossy(&output.stderr));
    output.stdout
}
