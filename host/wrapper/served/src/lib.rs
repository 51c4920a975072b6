//! The calls of the library for x86-64 on a machine that can't link it: a program for x86-64, which runs on an emulator,
//! makes each. The octets go there and come back; served.c begins with how.

use std::cell::RefCell;
use std::io::{self, Read, Write};
use std::process::{Child, Command, Stdio};

const START: &str = concat!(env!("CARGO_MANIFEST_DIR"), "/../../start.sh");
const PROGRAM: &str = concat!(env!("CARGO_MANIFEST_DIR"), "/../../../target/host/served");

/// Each call by its number.
#[derive(Clone, Copy)]
pub enum Call {
    Make,
    Frame,
    Tick,
    Allow,
    Prohibit,
    Notice,
    Restart,
    Look,
}

/// The octets that a call is lent; what it doesn't take is empty.
#[derive(Default)]
pub struct Lent<'a> {
    pub image: &'a mut [u8],
    pub input: &'a [u8],
    pub out: &'a mut [u8],
}

thread_local! {
    static SERVER: RefCell<Server> = RefCell::new(Server::start().unwrap_or_else(|fault| panic!("{START}: {fault}")));
}

/// Makes a call, with its numbers in their order.
pub fn call(call: Call, numbers: &[u64], lent: Lent) -> u64 {
    SERVER.with_borrow_mut(|server| {
        server.call(call, numbers, lent).unwrap_or_else(|fault| panic!("{PROGRAM} gave no answer: {fault}"))
    })
}

/// The program, running for one thread.
struct Server {
    child: Child,
    message: Vec<u8>,
}

impl Server {
    fn start() -> io::Result<Server> {
        let child = Command::new(START).arg(PROGRAM).stdin(Stdio::piped()).stdout(Stdio::piped()).spawn()?;
        Ok(Server { child, message: Vec::new() })
    }

    fn call(&mut self, call: Call, numbers: &[u64], lent: Lent) -> io::Result<u64> {
        self.ask(call, numbers, &lent)?;
        self.message.resize(8 + lent.image.len() + lent.out.len(), 0);
        self.child.stdout.as_mut().expect("its output is a pipe").read_exact(&mut self.message)?;
        let (number, octets) = self.message.split_first_chunk().expect("an answer has a number");
        let (image, out) = octets.split_at(lent.image.len());
        lent.image.copy_from_slice(image);
        lent.out.copy_from_slice(out);
        Ok(u64::from_le_bytes(*number))
    }

    fn ask(&mut self, call: Call, numbers: &[u64], lent: &Lent) -> io::Result<()> {
        let mut head = [0; 9];
        head[0] = call as u64;
        head[1..1 + numbers.len()].copy_from_slice(numbers);
        head[6..].copy_from_slice(&[lent.image, lent.input, lent.out].map(|octets| octets.len() as u64));
        self.message.clear();
        self.message.extend(head.iter().flat_map(|number| number.to_le_bytes()));
        for octets in [&*lent.image, lent.input, &*lent.out] {
            self.message.extend_from_slice(octets);
        }
        self.child.stdin.as_mut().expect("its input is a pipe").write_all(&self.message)
    }
}

impl Drop for Server {
    /// To wait for it closes its input, which ends it.
    fn drop(&mut self) {
        let _ = self.child.wait();
    }
}
