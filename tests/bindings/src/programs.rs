//! Programs over the library, compiled and run.

use std::io::Read;
use std::path::{Path, PathBuf};
use std::process::{Command, Stdio};

/// The repository.
pub fn root() -> PathBuf {
    Path::new(env!("CARGO_MANIFEST_DIR")).join("../..")
}

/// A compiler and its first arguments.
pub const C: [&str; 2] = ["cc", "-std=c11"];

/// Compiles a source that includes the header, with the library.
pub fn compile(compiler: &[&str], source: &Path, program: &Path) {
    let mut command = Command::new(compiler[0]);
    command.args(&compiler[1..]).args(["-Wall", "-Wextra", "-Werror", "-pedantic", "-I"]);
    command.arg(root().join("bindings/c")).arg(source).arg("-o").arg(program);
    // After `-x c++` the archive would be read as a text.
    command.args(["-x", "none"]).arg(root().join("crates/sections/out/libsections.a"));
    let output = command.output().expect("there is a compiler");
    assert!(output.status.success(), "{}", String::from_utf8_lossy(&output.stderr));
}

/// No program prints as much.
const MOST: u64 = 1 << 26;

/// What a command prints, which must succeed. One that does not come to an end is ended
/// by the pipe that nobody reads any more.
pub fn output_of(command: &mut Command) -> String {
    let child = command.stdout(Stdio::piped()).spawn();
    let mut child = child.unwrap_or_else(|no| panic!("{command:?}: {no}"));
    let mut text = String::new();
    let pipe = child.stdout.take().expect("it is piped");
    pipe.take(MOST).read_to_string(&mut text).expect("it prints text");
    let status = child.wait().expect("it was started");
    assert!(status.success(), "{command:?}: {status}");
    text
}
