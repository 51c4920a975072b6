//! The files of the folder that a log is run in.

use std::collections::BTreeMap;
use std::ffi::OsStr;
use std::os::unix::ffi::OsStrExt;
use std::path::Path;
use std::{fs, io, str};

/// A folder that is always there, in the one of the run.
pub(crate) const BELOW: &str = "below";
/// The longest name that Linux opens a file by.
pub(crate) const MOST_NAME: usize = 4_095;

/// Files by their names.
#[derive(Clone, Default)]
pub(crate) struct Folder {
    files: BTreeMap<Vec<u8>, Vec<u8>>,
}

impl Folder {
    pub(crate) fn with(name: &[u8], octets: Vec<u8>) -> Folder {
        Folder { files: BTreeMap::from([(name.to_vec(), octets)]) }
    }

    /// What the program gets for that name: `./` in front of it changes nothing. By one that is not UTF-8 it opens no file, as Linux would.
    pub(crate) fn open(&self, name: &[u8]) -> Option<Vec<u8>> {
        let mut plain = name;
        while let Some(rest) = plain.strip_prefix(b"./") {
            plain = rest;
        }
        self.files.get(plain).filter(|_| name.len() <= MOST_NAME && str::from_utf8(name).is_ok()).cloned()
    }

    /// Makes the folder at that path hold these files and no others.
    pub(crate) fn write_to(&self, path: &Path) -> io::Result<()> {
        if path.exists() {
            fs::remove_dir_all(path)?;
        }
        fs::create_dir_all(path.join(BELOW))?;
        self.files.iter().try_for_each(|(name, octets)| fs::write(path.join(OsStr::from_bytes(name)), octets))
    }
}
