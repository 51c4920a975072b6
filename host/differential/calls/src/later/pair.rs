//! A call of the run as it is made up, and the same call of the run with rewritten requests.

use std::fmt;

use unit::{Answer, Outcome};

use crate::call::{hex, Call, Shown};
use crate::later::rewrite::Rewriting;

/// The flag that reports a copy.
const COPIED: u8 = 4;

pub(crate) struct Pair<'a> {
    pub(crate) call: &'a Call,
    pub(crate) rewriting: Option<Rewriting>,
    /// What stood in the output before the call.
    pub(crate) lent: &'a [u8],
    pub(crate) old: Shown,
    pub(crate) new: Shown,
}

impl Pair<'_> {
    /// Err where something changed that should not, or did not that should.
    pub(crate) fn check(&self) -> Result<(), &'static str> {
        let (answer, out) = match &self.rewriting {
            Some(rewriting) => self.expected(rewriting)?,
            None => (self.old.answer, self.old.out.clone()),
        };
        match self.old.breach.or(self.new.breach) {
            Some(breach) => Err(breach),
            None if self.new.answer != answer => Err("another answer"),
            None if self.new.out != out => Err("other octets in the output"),
            None if self.new.image != self.old.image => Err("other octets in the image"),
            None => Ok(()),
        }
    }

    /// The answer to the rewritten request, and the whole output after it.
    fn expected(&self, rewriting: &Rewriting) -> Result<(Answer, Vec<u8>), &'static str> {
        match self.old.answer.outcome() {
            Some(Outcome::Reply | Outcome::ReplyAndForward) => self.reply(rewriting),
            Some(Outcome::Refused | Outcome::Forward | Outcome::Drop) if self.old.out == self.lent => {
                Ok((self.old.answer, self.lent.to_vec()))
            }
            Some(Outcome::Refused | Outcome::Forward | Outcome::Drop) => Err("something was written without a reply"),
            _ => Err("no answer to a request"),
        }
    }

    /// The reply with other copies.
    fn reply(&self, rewriting: &Rewriting) -> Result<(Answer, Vec<u8>), &'static str> {
        let (old_copies, copies) = (rewriting.old.unknown().concat(), rewriting.new.unknown().concat());
        let (written, beyond) =
            self.old.out.split_at_checked(self.old.answer.length()).ok_or("more than the output")?;
        if !self.lent.ends_with(beyond) {
            return Err("the output beyond the reply changed");
        }
        let start = written.strip_suffix(&[0]).and_then(|ahead| ahead.strip_suffix(&old_copies[..]));
        let mut reply = start.ok_or("copies and End are not the end of a reply")?.to_vec();
        let flags = reply.get_mut(rewriting.head.len() + 2).ok_or("a reply without flags")?;
        if *flags & !3 != copied(&old_copies) {
            return Err("flag bit 3 is wrong, or one that is always 0");
        }
        *flags = *flags & 3 | copied(&copies);
        reply.extend(copies);
        reply.push(0);
        let number = self.old.answer.0 & 0xFFFF_FFFF | (reply.len() as u64) << 32;
        let beyond = self.lent.get(reply.len()..).ok_or("no room for the copies")?;
        Ok((Answer(number), [&reply, beyond].concat()))
    }
}

fn copied(copies: &[u8]) -> u8 {
    match copies.is_empty() {
        true => 0,
        false => COPIED,
    }
}

impl fmt::Display for Pair<'_> {
    fn fmt(&self, f: &mut fmt::Formatter) -> fmt::Result {
        for (run, shown) in [("first", &self.old), ("second", &self.new)] {
            let written = shown.answer.length().min(shown.out.len());
            writeln!(f, "{run} run: {}\n{}", shown.answer, hex(&shown.out[..written]))?;
        }
        write!(f, "{}", self.call)
    }
}
