//! Programs in C: compiled with the system's compilers, linked with the engine, run.

use std::io::Write;
use std::path::{Path, PathBuf};
use std::process::{Command, Output, Stdio};

/// The project's folder.
pub fn root() -> PathBuf {
    Path::new(env!("CARGO_MANIFEST_DIR")).join("../..")
}

/// A program of the folder check.
pub fn check(name: &str) -> PathBuf {
    Path::new(env!("CARGO_MANIFEST_DIR")).join("check").join(name)
}

/// Flags under which all C and C++ of the project must compile.
const STRICT: [&str; 4] = ["-pedantic", "-Wall", "-Wextra", "-Werror"];

/// Whether a compiler can be run.
pub fn exists(compiler: &str) -> bool {
    Command::new(compiler).arg("--version").output().is_ok_and(|output| output.status.success())
}

/// A compiler with the strict flags, and the folder of the header.
pub fn compiler(name: &str, standard: &str, include: &Path) -> Command {
    let mut command = Command::new(name);
    command.arg(format!("-std={standard}")).args(STRICT).arg("-I").arg(include);
    command
}

/// The sources of the formula screen, but for those with these names.
pub fn screen_without(names: &[&str]) -> Vec<PathBuf> {
    let files = std::fs::read_dir(root().join("shell")).expect("the folder is there");
    files
        .map(|file| file.expect("the folder can be read").path())
        .filter(|path| path.extension().is_some_and(|extension| extension == "c"))
        .filter(|path| !names.iter().any(|name| path.ends_with(name)))
        .collect()
}

/// Compiles C99 sources, links them with the engine and gives the program.
pub fn linked(sources: &[PathBuf], program: &Path) -> PathBuf {
    built(sources, program, &["-O1"])
}

/// The same with sanitizers in the C code. They stop the program at a fault.
pub fn sanitized(sources: &[PathBuf], program: &Path) -> PathBuf {
    let sanitizers = ["-fsanitize=address,undefined", "-fno-sanitize-recover=all"];
    built(sources, program, &[&["-g", "-O1"], &sanitizers[..]].concat())
}

fn built(sources: &[PathBuf], program: &Path, flags: &[&str]) -> PathBuf {
    let mut command = compiler("cc", "c99", &root().join("include"));
    command.args(flags).args(sources).arg(root().join("target/staticlib/libengine.a"));
    let output = command.arg("-o").arg(program).output().expect("cc is needed");
    assert!(output.status.success(), "{}", text(&output.stderr));
    program.to_path_buf()
}

/// Runs a program with an input.
pub fn run(command: &mut Command, input: &[u8]) -> Output {
    command.stdin(Stdio::piped()).stdout(Stdio::piped()).stderr(Stdio::piped());
    let mut child = command.spawn().expect("the program runs");
    let mut stdin = child.stdin.take().expect("the input is piped");
    let input = input.to_vec();
    // The program may end before it has read its input.
    let writer = std::thread::spawn(move || drop(stdin.write_all(&input)));
    let output = child.wait_with_output().expect("the program ends");
    writer.join().expect("the input is written");
    output
}

/// What a program wrote to its output, if it ended well.
pub fn written(output: &Output) -> String {
    assert!(output.status.success(), "{:?}: {}", output.status, text(&output.stderr));
    text(&output.stdout)
}

pub fn text(bytes: &[u8]) -> String {
    String::from_utf8_lossy(bytes).into_owned()
}
