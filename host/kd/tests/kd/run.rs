//! Running kd, on another machine by the emulator.

use std::env;
use std::ffi::OsStr;
use std::io::Write;
use std::path::Path;
use std::process::{Command, Output, Stdio};

/// How a run ended, and what it said.
#[derive(Debug, PartialEq, Eq)]
pub struct Said {
    pub code: i32,
    pub bytes: Vec<u8>,
    pub out: String,
    pub err: String,
}

/// The words by which kd is run here.
pub fn words() -> Vec<String> {
    let by = env::var("KD_RUN").ok().filter(|by| !by.is_empty());
    by.into_iter().chain([env!("CARGO_BIN_EXE_kd").to_string()]).collect()
}

pub fn command<S: AsRef<OsStr>>(arguments: &[S]) -> Command {
    let words = words();
    let mut command = Command::new(&words[0]);
    command.args(&words[1..]).args(arguments).stdin(Stdio::null()).env_remove("NO_COLOR");
    command
}

pub fn kd<S: AsRef<OsStr>>(arguments: &[S]) -> Said {
    said(command(arguments).output().expect("kd runs"))
}

pub fn kd_in<S: AsRef<OsStr>>(folder: &Path, arguments: &[S]) -> Said {
    said(command(arguments).current_dir(folder).output().expect("kd runs"))
}

pub fn kd_given<S: AsRef<OsStr>>(input: &[u8], arguments: &[S]) -> Said {
    let mut child = command(arguments)
        .stdin(Stdio::piped())
        .stdout(Stdio::piped())
        .stderr(Stdio::piped())
        .spawn()
        .expect("kd runs");
    let mut stdin = child.stdin.take().expect("a pipe");
    // The program may end before it has read all.
    let writing = stdin.write_all(input);
    drop((stdin, writing));
    said(child.wait_with_output().expect("kd ends"))
}

/// A shell's line, in which `$KD` is kd.
pub fn shell(folder: &Path, line: &str) -> Said {
    let mut command = Command::new("bash");
    command
        .args(["-c", line])
        .current_dir(folder)
        .env("KD", words().join(" "))
        .env_remove("NO_COLOR")
        .stdin(Stdio::null());
    said(command.output().expect("bash runs"))
}

fn said(output: Output) -> Said {
    let text = |bytes: &[u8]| String::from_utf8_lossy(bytes).into_owned();
    let code = output.status.code().unwrap_or(-1);
    Said { code, out: text(&output.stdout), err: text(&output.stderr), bytes: output.stdout }
}

impl Said {
    /// Each line as an object.
    pub fn objects(&self) -> Vec<serde_json::Value> {
        self.out.lines().map(|line| serde_json::from_str(line).expect("an object a line")).collect()
    }

    pub fn assert(&self, code: i32, out: &str, err: &str) {
        assert_eq!((self.code, &self.out[..], &self.err[..]), (code, out, err));
    }
}
