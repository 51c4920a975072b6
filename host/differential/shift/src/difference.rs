//! Where program and model differ.

use std::fmt;

use crate::program::Printed;
use crate::Log;

/// So much is shown of a line.
const SHOWN: usize = 300;

pub struct Difference {
    pub seed: u64,
    report: String,
}

impl Difference {
    /// None where the program printed what the model says, octet by octet.
    pub(crate) fn between(log: &Log, printed: &Printed, told: &[u8]) -> Option<Difference> {
        let report = match printed {
            Ok(printed) if printed == told => return None,
            Ok(printed) => first_line(log, printed, told),
            Err(fault) => fault.clone(),
        };
        Some(Difference { seed: log.seed, report })
    }
}

impl fmt::Display for Difference {
    fn fmt(&self, f: &mut fmt::Formatter) -> fmt::Result {
        write!(f, "the log of seed {}: {}", self.seed, self.report)
    }
}

impl fmt::Debug for Difference {
    fn fmt(&self, f: &mut fmt::Formatter) -> fmt::Result {
        fmt::Display::fmt(self, f)
    }
}

/// The first line that differs. Printed lines and the input's have the same places, as the plan's name has none.
fn first_line(log: &Log, printed: &[u8], told: &[u8]) -> String {
    let (printed, told) = (lines(printed), lines(told));
    let same = printed.iter().zip(&told).take_while(|(printed, told)| printed == told).count();
    format!(
        "line {} differs\n  read:    {}\n  printed: {}\n  model:   {}",
        same + 1,
        shown(lines(&log.input).get(same + 1)),
        shown(printed.get(same)),
        shown(told.get(same))
    )
}

fn lines(octets: &[u8]) -> Vec<&[u8]> {
    octets.split_inclusive(|&octet| octet == b'\n').collect()
}

fn shown(line: Option<&&[u8]>) -> String {
    match line {
        Some(line) if line.len() > SHOWN => format!("{}.. ({} octets)", line[..SHOWN].escape_ascii(), line.len()),
        Some(line) => line.escape_ascii().to_string(),
        None => "none".to_string(),
    }
}
