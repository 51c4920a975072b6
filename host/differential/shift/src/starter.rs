//! How the program is started: by start.sh. That takes about as long as the program does, so it is asked only once what
//! it comes to.

use std::ffi::{OsStr, OsString};
use std::os::unix::ffi::OsStrExt;
use std::path::{Path, PathBuf};
use std::process::{Child, Command, Stdio};
use std::time::Instant;
use std::{env, fs, io, thread};

use crate::program::{LIMIT, PAUSE};

const START: &str = concat!(env!("CARGO_MANIFEST_DIR"), "/../../start.sh");
const USUAL: &str = concat!(env!("CARGO_MANIFEST_DIR"), "/../../../target/bin/shift");

pub struct Starter {
    /// The command, word by word.
    words: Vec<OsString>,
}

impl Starter {
    /// For the program that the variable SHIFT names, or the usual one.
    pub fn new() -> Starter {
        let path = env::var_os("SHIFT").map_or_else(|| PathBuf::from(USUAL), PathBuf::from);
        let program = path.canonicalize();
        let program = program.unwrap_or_else(|fault| panic!("{}: {fault}; `make shift` makes it", path.display()));
        let words = come_to(&program).unwrap_or_else(|fault| panic!("{START} {}: {fault}", program.display()));
        Starter { words }
    }

    /// Starts it in that folder.
    pub fn start(&self, folder: &Path, input: Stdio) -> io::Result<Child> {
        spawn(Command::new(&self.words[0]).args(&self.words[1..]).current_dir(folder), input)
    }
}

impl Default for Starter {
    fn default() -> Starter {
        Starter::new()
    }
}

fn spawn(command: &mut Command, input: Stdio) -> io::Result<Child> {
    command.stdin(input).stdout(Stdio::piped()).stderr(Stdio::null()).spawn()
}

/// The words that start.sh runs the program by: those of its process once it is the program's, which waits for input.
fn come_to(program: &Path) -> io::Result<Vec<OsString>> {
    let mut child = spawn(Command::new(START).arg(program), Stdio::piped())?;
    let is_started =
        |words: &[OsString]| words.last().is_some_and(|last| last == program) && words.iter().all(|word| word != START);
    let began = Instant::now();
    let mut words = Vec::new();
    while !is_started(&words) {
        if child.try_wait()?.is_some() || began.elapsed() > LIMIT {
            return Err(io::Error::other("the program does not start"));
        }
        thread::sleep(PAUSE);
        words = words_of(&child)?;
    }
    child.kill()?;
    child.wait()?;
    Ok(words)
}

/// What a process of ours was called with.
fn words_of(child: &Child) -> io::Result<Vec<OsString>> {
    let line = fs::read(format!("/proc/{}/cmdline", child.id()))?;
    let words = line.strip_suffix(&[0]).unwrap_or_default().split(|&octet| octet == 0);
    Ok(words.map(|word| OsStr::from_bytes(word).to_owned()).collect())
}
