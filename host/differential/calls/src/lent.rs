//! Octets lent to the unit, with others around them that it must not touch.

const MARGIN: usize = 64;
const AROUND: u8 = 0xC3;

pub(crate) struct Lent {
    memory: Vec<u8>,
    start: usize,
}

impl Lent {
    /// They begin that far behind a place where others would.
    pub(crate) fn of(octets: &[u8], shift: usize) -> Lent {
        let start = MARGIN + shift;
        let mut memory = vec![AROUND; start + octets.len() + MARGIN];
        memory[start..start + octets.len()].copy_from_slice(octets);
        Lent { memory, start }
    }

    pub(crate) fn octets(&self) -> &[u8] {
        &self.memory[self.start..self.memory.len() - MARGIN]
    }

    pub(crate) fn octets_mut(&mut self) -> &mut [u8] {
        let end = self.memory.len() - MARGIN;
        &mut self.memory[self.start..end]
    }

    pub(crate) fn is_untouched_around(&self) -> bool {
        let behind = &self.memory[self.memory.len() - MARGIN..];
        self.memory[..self.start].iter().chain(behind).all(|&octet| octet == AROUND)
    }
}
