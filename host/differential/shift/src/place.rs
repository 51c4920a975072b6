//! A folder of this machine, in which one run is made after the other.

use std::path::PathBuf;
use std::sync::atomic::{AtomicUsize, Ordering};
use std::{env, fs, process};

/// Removed when it is dropped.
pub struct Place {
    path: PathBuf,
}

static PLACES: AtomicUsize = AtomicUsize::new(0);

impl Place {
    /// One that no other run uses.
    pub fn new() -> Place {
        let own = PLACES.fetch_add(1, Ordering::Relaxed);
        Place { path: env::temp_dir().join(format!("shift_runs.{}.{own}", process::id())) }
    }

    /// Where runs are made.
    pub(crate) fn folder(&self) -> PathBuf {
        self.path.join("run")
    }

    /// A file that lies outside.
    pub(crate) fn input(&self) -> PathBuf {
        self.path.join("input")
    }
}

impl Default for Place {
    fn default() -> Place {
        Place::new()
    }
}

impl Drop for Place {
    fn drop(&mut self) {
        let _ = fs::remove_dir_all(&self.path);
    }
}
