//! The program: started once a log, handed its input, and ended.

use std::fs::{self, File};
use std::io::{self, Read, Write};
use std::os::unix::process::ExitStatusExt;
use std::process::{Child, ChildStdin, ExitStatus, Stdio};
use std::sync::mpsc::{self, Receiver};
use std::thread;
use std::time::{Duration, Instant};

use crate::handing::Handing;
use crate::pipe::waiting;
use crate::{Log, Place, Starter};

/// No run takes as long as this.
pub(crate) const LIMIT: Duration = Duration::from_secs(30);
/// Between two looks at a pipe.
pub(crate) const PAUSE: Duration = Duration::from_micros(40);
/// With this a program ends that panics.
const PANICKED: i32 = 101;

/// What a run printed, or how it failed.
pub(crate) type Printed = Result<Vec<u8>, String>;

pub(crate) fn print(log: &Log, place: &Place, starter: &Starter) -> Printed {
    log.folder
        .write_to(&place.folder())
        .and_then(|()| run(log, place, starter))
        .unwrap_or_else(|fault| Err(fault.to_string()))
}

fn run(log: &Log, place: &Place, starter: &Starter) -> io::Result<Printed> {
    let input = match &log.handing {
        Handing::File => {
            fs::write(place.input(), &log.input)?;
            Stdio::from(File::open(place.input())?)
        }
        Handing::Pieces(_) => Stdio::piped(),
    };
    let mut child = starter.start(&place.folder(), input)?;
    let printed = printed(&mut child);
    if let (Handing::Pieces(lengths), Some(pipe)) = (&log.handing, child.stdin.take()) {
        hand_over(&mut child, pipe, &log.input, lengths)?;
    }
    let all = printed.recv_timeout(LIMIT);
    if all.is_err() {
        child.kill()?;
    }
    let status = child.wait()?;
    Ok(match all {
        Ok(all) => ended_well(status).and(Ok(all)),
        Err(_) => Err("it does not end".to_string()),
    })
}

/// All that it prints, once it has ended.
fn printed(child: &mut Child) -> Receiver<Vec<u8>> {
    let (sender, receiver) = mpsc::channel();
    let mut pipe = child.stdout.take().expect("its output is a pipe");
    thread::spawn(move || {
        let mut all = Vec::new();
        if pipe.read_to_end(&mut all).is_ok() {
            let _ = sender.send(all);
        }
    });
    receiver
}

/// Each piece is written when the one before was read, so that no read goes beyond a piece. A program that ends before
/// its input does is handed no more.
fn hand_over(child: &mut Child, mut pipe: ChildStdin, input: &[u8], lengths: &[usize]) -> io::Result<()> {
    let mut rest = input;
    for &length in lengths {
        let (piece, behind) = rest.split_at(length);
        if pipe.write_all(piece).is_err() || !is_read(child, &pipe)? {
            return Ok(());
        }
        rest = behind;
    }
    Ok(())
}

/// Waits until the pipe is empty; whether it is, before the program ends or takes too long.
fn is_read(child: &mut Child, pipe: &ChildStdin) -> io::Result<bool> {
    let began = Instant::now();
    while waiting(pipe)? > 0 {
        if child.try_wait()?.is_some() || began.elapsed() > LIMIT {
            return Ok(false);
        }
        thread::sleep(PAUSE);
    }
    Ok(true)
}

/// SHIFT-25: no run ends in a panic, or by a signal of its own doing.
fn ended_well(status: ExitStatus) -> Result<(), String> {
    match (status.signal(), status.code()) {
        (None, Some(PANICKED)) => Err("it ended by a panic".to_string()),
        (None, _) => Ok(()),
        (Some(signal), _) => Err(format!("it ended by signal {signal}")),
    }
}
