//! The program at the other end of two pipes: a line is handed in, and its answer is read before the next is.

use std::io::{self, BufRead, BufReader, Write};
use std::process::{Child, ChildStdin, Stdio};
use std::sync::mpsc::{self, Receiver};
use std::thread;

use crate::folder::Folder;
use crate::good_plans::BENCH;
use crate::names::USUAL;
use crate::program::LIMIT;
use crate::{Place, Starter};

/// The program is ended with it.
pub struct Session {
    child: Child,
    input: ChildStdin,
    printed: Receiver<String>,
    /// Holds the plan as long as the program runs.
    _place: Place,
}

impl Session {
    /// Starts it where the bench's plan lies under the usual name, and hands nothing in.
    pub fn start(starter: &Starter) -> io::Result<Session> {
        let place = Place::new();
        Folder::with(USUAL, BENCH.into()).write_to(&place.folder())?;
        let mut child = starter.start(&place.folder(), Stdio::piped())?;
        let input = child.stdin.take().expect("its input is a pipe");
        let printed = lines(&mut child);
        Ok(Session { child, input, printed, _place: place })
    }

    /// Hands in the first line.
    pub fn name_plan(&mut self) -> io::Result<()> {
        self.hand_in(&[USUAL, b"\n"].concat())
    }

    pub fn hand_in(&mut self, octets: &[u8]) -> io::Result<()> {
        self.input.write_all(octets)
    }

    /// The next line that it prints; none if it takes too long.
    pub fn answer(&self) -> Option<String> {
        self.printed.recv_timeout(LIMIT).ok()
    }
}

impl Drop for Session {
    fn drop(&mut self) {
        let _ = self.child.kill();
        let _ = self.child.wait();
    }
}

/// The lines as they are printed.
fn lines(child: &mut Child) -> Receiver<String> {
    let (sender, receiver) = mpsc::channel();
    let mut pipe = BufReader::new(child.stdout.take().expect("its output is a pipe"));
    thread::spawn(move || loop {
        let mut line = String::new();
        match pipe.read_line(&mut line) {
            Ok(count) if count > 0 && sender.send(line).is_ok() => {}
            _ => return,
        }
    });
    receiver
}
