//! The plan file: its name, its text, and what is printed where it is faulty.

use model::PlanFault;

use crate::lines::Numbered;

/// Gives a file's octets by its name; none where it can't be opened.
pub type Open<'a> = &'a dyn Fn(&[u8]) -> Option<Vec<u8>>;

#[derive(Clone, Debug)]
pub(crate) struct PlanRules {
    /// What of the first line is the name: all of it.
    pub(crate) name: fn(&[u8]) -> &[u8],
    /// What counts as the text of a file that can't be opened; with none, nothing is printed.
    pub(crate) unopened: Option<&'static [u8]>,
    /// What of a file's octets is the plan's text: all of them.
    pub(crate) text: fn(Vec<u8>) -> Vec<u8>,
    /// What a faulty plan prints; the lines that follow it are not looked at.
    pub(crate) fault: fn(&PlanFault, &[Numbered]) -> Vec<Vec<u8>>,
}

impl Default for PlanRules {
    fn default() -> PlanRules {
        PlanRules { name: |line| line, unopened: Some(b""), text: |octets| octets, fault: |fault, _| vec![said(fault)] }
    }
}

impl PlanRules {
    /// SHIFT-4: what counts as an empty plan: no file, no name, or one that has a NUL or is too long.
    pub(crate) fn text_of(&self, first_line: &[u8], most_octets: usize, open: Open) -> Option<Vec<u8>> {
        let name = (self.name)(first_line);
        let is_name = !name.is_empty() && name.len() <= most_octets && !name.contains(&0);
        match is_name.then(|| open(name)).flatten() {
            Some(octets) => Some((self.text)(octets)),
            None => self.unopened.map(<[u8]>::to_vec),
        }
    }
}

/// SHIFT-5: the line that a plan fault prints.
pub(crate) fn said(fault: &PlanFault) -> Vec<u8> {
    format!("plan\t{}\t{}\n", fault.line, fault.reason).into_bytes()
}
