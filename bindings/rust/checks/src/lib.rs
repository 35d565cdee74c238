//! What the tests of this folder share: what the C compiler makes of headers, numbers that look
//! random, recordings, and what ip(8) sends. A probe is a program in C whose words are compared
//! with what is declared in Rust. The compiler is `$CC`, or `cc`.

use std::collections::BTreeMap;
use std::env;
use std::fs;
use std::io::Write;
use std::path::{Path, PathBuf};
use std::process::{Command, Output, Stdio};

fn compiler() -> Command {
    let mut command = Command::new(env::var_os("CC").unwrap_or_else(|| "cc".into()));
    command.arg("-xc");
    if let Some(folder) = include_folder() {
        command.arg("-I").arg(folder);
    }
    command
}

/// Where `rtnlc.h` is, unless the compiler finds it by itself: `$RTNLC_INCLUDE_DIR`, or what
/// `pkg-config` says.
fn include_folder() -> Option<PathBuf> {
    if let Some(folder) = env::var_os("RTNLC_INCLUDE_DIR") {
        return Some(folder.into());
    }
    let asked = ["--variable=includedir", "rtnlc"];
    let said = Command::new("pkg-config").args(asked).output().ok()?;
    let folder = String::from_utf8(said.stdout).ok()?;
    (said.status.success() && !folder.trim().is_empty()).then(|| folder.trim().into())
}

/// Runs a compiler over a text on its standard input.
fn compiled(command: &mut Command, source: &str) -> Output {
    let pipes = command.stdin(Stdio::piped()).stdout(Stdio::piped()).stderr(Stdio::piped());
    let mut child = pipes.spawn().expect("the C compiler starts");
    let mut input = child.stdin.take().expect("it has a pipe");
    input.write_all(source.as_bytes()).expect("the C compiler reads");
    drop(input);
    let output = child.wait_with_output().expect("the C compiler ends");
    let errors = String::from_utf8_lossy(&output.stderr);
    assert!(output.status.success(), "{errors}\nin\n{source}");
    output
}

/// The text behind the preprocessor, with the definitions of macros in it. Panics where the source
/// isn't C.
pub fn preprocessed(source: &str) -> String {
    let output = compiled(compiler().args(["-E", "-dD", "-"]), source);
    String::from_utf8(output.stdout).expect("headers are of UTF-8")
}

/// Compiles a program and runs it: what it prints. Panics where it doesn't compile or fails; the
/// name tells its file apart from those of other tests that run at once.
pub fn printed(name: &str, source: &str) -> String {
    let program = env::temp_dir().join(format!("checks-{}-{name}", std::process::id()));
    let warnings = ["-std=c99", "-Wall", "-Wextra", "-Werror", "-o"];
    compiled(compiler().args(warnings).arg(&program).arg("-"), source);
    let output = Command::new(&program).output().expect("the probe runs");
    fs::remove_file(&program).expect("the probe is removed");
    assert!(output.status.success(), "the probe fails: {}", output.status);
    String::from_utf8(output.stdout).expect("a probe prints UTF-8")
}

/// Whether a text has this word, not as a part of a longer one.
pub fn has_word(text: &str, word: &str) -> bool {
    words(text).any(|it| it == word)
}

/// The words of a text in C: its names and numbers.
pub fn words(text: &str) -> impl Iterator<Item = &str> {
    text.split(|it: char| !it.is_ascii_alphanumeric() && it != '_').filter(|it| !it.is_empty())
}

/// Numbers that look random, and are the same in each run: splitmix64.
pub struct Random(u64);

impl Random {
    /// The row of numbers that begins with this one.
    pub fn new(seed: u64) -> Random {
        Random(seed)
    }

    /// The next number.
    #[allow(clippy::should_implement_trait)] // It never ends.
    pub fn next(&mut self) -> u32 {
        self.0 = self.0.wrapping_add(0x9e37_79b9_7f4a_7c15);
        let mixed = (self.0 ^ self.0 >> 30).wrapping_mul(0xbf58_476d_1ce4_e5b9);
        let mixed = (mixed ^ mixed >> 27).wrapping_mul(0x94d0_49bb_1331_11eb);
        (mixed ^ mixed >> 31) as u32
    }

    /// A number below a count, which isn't 0.
    pub fn below(&mut self, count: usize) -> usize {
        self.next() as usize % count
    }

    /// One of these, of which there is at least one.
    pub fn of<'a, T>(&mut self, all: &'a [T]) -> &'a T {
        &all[self.below(all.len())]
    }
}

/// Bytes in hexadecimal.
pub fn hex(bytes: &[u8]) -> String {
    bytes.iter().map(|it| format!("{it:02x}")).collect()
}

/// The datagrams of a recording: lines of hexadecimal, and comments.
pub fn datagrams(path: &Path) -> Vec<Vec<u8>> {
    let text = fs::read_to_string(path).unwrap_or_else(|error| panic!("{path:?}: {error}"));
    let lines = text.lines().filter(|it| !it.starts_with('#') && !it.is_empty());
    let byte = |digits: &str| u8::from_str_radix(digits, 16).expect("a byte is hexadecimal");
    lines.map(|it| (0..it.len()).step_by(2).map(|at| byte(&it[at..at + 2])).collect()).collect()
}

/// The folder of the repository: that above this one, or `$RTNL_ROOT`.
fn root() -> PathBuf {
    let above = concat!(env!("CARGO_MANIFEST_DIR"), "/../../..");
    env::var_os("RTNL_ROOT").unwrap_or_else(|| above.into()).into()
}

/// What ip(8) sends, in the repository's `tests/building/ip_sends.txt`: by the command, the
/// request in hexadecimal, whose sequence number is 0.
pub fn ip_sends() -> BTreeMap<String, String> {
    let path = root().join("tests/building/ip_sends.txt");
    let text = fs::read_to_string(&path).unwrap_or_else(|error| panic!("{path:?}: {error}"));
    let rows = text.lines().filter_map(|it| it.split_once('\t'));
    rows.map(|(command, request)| (command.into(), request.into())).collect()
}

/// All datagrams of the recordings in `examples/` and `measure/` of the repository.
pub fn recordings() -> Vec<Vec<u8>> {
    let mut paths = Vec::new();
    for folder in ["examples", "measure"] {
        let entries = fs::read_dir(root().join(folder)).expect("the repository has recordings");
        paths.extend(entries.map(|it| it.expect("a file is listed").path()));
    }
    paths.retain(|it| it.extension().map_or(false, |it| it == "hex"));
    paths.sort();
    paths.iter().flat_map(|it| datagrams(it)).collect()
}
