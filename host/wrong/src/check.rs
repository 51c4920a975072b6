//! One check of a crate, as the kit's own command makes it, over the modules that the crate's last proof left.

use std::env;
use std::ffi::OsString;
use std::fs::{self, File};
use std::io::{self, Write};
use std::path::{Path, PathBuf};
use std::process::{Command, Stdio};
use std::thread;
use std::time::{Duration, Instant};

use crate::edit::Files;
use crate::listed::Listed;
use crate::names::Names;

/// A check that takes longer is stopped, and gives no verdict.
const LONGEST: Duration = Duration::from_secs(900);
const LOOK_AGAIN: Duration = Duration::from_millis(20);

/// What a check of this kind takes from the crate's last proof.
const KEPT: &str = "out/incremental";

pub struct Checker {
    /// The kit: the folder above that of `rt`.
    kit: PathBuf,
    root: PathBuf,
    /// Where copies are made and what each check said is kept.
    work: PathBuf,
}

pub struct Checked {
    pub text: String,
    pub seconds: u64,
}

impl Checker {
    pub fn new(root: &Path) -> Result<Checker, String> {
        let kit = kit().ok_or("there is no rt on the path")?;
        if !kit.join("bin/rattle").is_file() {
            return Err(format!("{} is no kit: it has no bin/rattle", kit.display()));
        }
        Ok(Checker { kit, root: root.to_path_buf(), work: root.join("target/wrong") })
    }

    /// Proves the crate in its own folder, as `rt check` does, so that what it keeps there and the libraries below fit its files.
    pub fn prove(&self, krate: &Listed) -> Result<(), String> {
        let folder = self.root.join("crates").join(&krate.name);
        let ran = Command::new(self.kit.join("bin/rt")).arg("check").current_dir(&folder).stdin(Stdio::null()).output();
        let ran = ran.map_err(|fault| format!("rt check of {}: {fault}", krate.name))?;
        let said = [ran.stdout, ran.stderr].map(|octets| String::from_utf8_lossy(&octets).into_owned()).concat();
        match ran.status.success() && said.lines().any(|line| line.starts_with("logic=proved")) {
            true => Ok(()),
            false => Err(format!("{} is not proved as it stands:\n{said}", krate.name)),
        }
    }

    /// Checks these files as the crate.
    pub fn check(&self, krate: &Listed, files: &Files, label: &str) -> io::Result<Checked> {
        let began = Instant::now();
        let folder = self.laid(krate, files, label)?;
        let log = folder.with_extension("log");
        self.run(self.command(krate, &folder), &log)?;
        fs::remove_dir_all(&folder)?;
        Ok(Checked { text: fs::read_to_string(&log)?, seconds: began.elapsed().as_secs() })
    }

    /// The names that the kit has for the goals and steps of a function, when these are the crate's files. No proof is checked.
    pub fn names(&self, krate: &Listed, files: &Files, function: &str, label: &str) -> io::Result<Names> {
        let folder = self.laid(krate, files, label)?;
        // The kit makes not each folder that it writes to.
        let path = function.replace("::", "/");
        for library in ["specs/contracts", "specs/declared", "proofs"] {
            fs::create_dir_all(folder.join(format!("made/Rattle-{}-{library}/{path}", krate.name)))?;
        }
        let mut command = self.command(krate, &folder);
        command.args(["--generated", "made", "--start", function]);
        self.run(command, &folder.with_extension("log"))?;
        let names = Names::read(&folder.join("made"), &krate.name, function);
        fs::remove_dir_all(&folder)?;
        names
    }

    /// A folder of its own with these files, and with what the crate's last proof left.
    fn laid(&self, krate: &Listed, files: &Files, label: &str) -> io::Result<PathBuf> {
        let folder = self.work.join(&krate.name).join(label);
        if folder.exists() {
            fs::remove_dir_all(&folder)?;
        }
        fs::create_dir_all(&folder)?;
        for (name, text) in files {
            let path = folder.join(name);
            fs::create_dir_all(path.parent().unwrap_or(&folder))?;
            fs::write(path, text)?;
        }
        let kept = self.root.join("crates").join(&krate.name).join(KEPT);
        if kept.is_dir() {
            lay(&kept, &folder.join("modules"))?;
        }
        Ok(folder)
    }

    /// What the command says goes to the log.
    fn run(&self, mut command: Command, log: &Path) -> io::Result<()> {
        let mut said = File::create(log)?;
        let mut child = command.stdin(Stdio::null()).stdout(said.try_clone()?).stderr(said.try_clone()?).spawn()?;
        let began = Instant::now();
        while child.try_wait()?.is_none() {
            if began.elapsed() > LONGEST {
                child.kill()?;
                child.wait()?;
                writeln!(said, "error: stopped after {} s", LONGEST.as_secs())?;
                break;
            }
            thread::sleep(LOOK_AGAIN);
        }
        Ok(())
    }

    /// The words that rt gives to the kit's checker, in the order in which it gives them.
    fn command(&self, krate: &Listed, folder: &Path) -> Command {
        let mut command = Command::new(self.kit.join("bin/rattle"));
        let root_file = if folder.join("src/main.rt").is_file() { "src/main.rt" } else { "src/lib.rt" };
        command.current_dir(folder).args(["check", "--crate-name", &krate.name, root_file]);
        let libraries = self.kit.join("rlibs");
        for name in &krate.of_kit {
            command.arg("--extern").arg(named(name, &libraries.join(format!("{name}.rlib"))));
        }
        command.arg("-L").arg(named("dependency", &libraries));
        for name in &krate.uses {
            command.arg("--extern").arg(named(name, &self.library(name).join(format!("{name}.rlib"))));
        }
        for name in &krate.below {
            command.arg("-L").arg(named("dependency", &self.library(name)));
        }
        command.arg("--antt-project").arg(self.kit.join("rattle/logic/antt-project.json"));
        command.arg("--logic-built").arg(self.kit.join("logic_built"));
        command.args(["--jobs", "1", "--links", &format!("{}=", krate.name)]);
        if krate.is_static {
            command.args(["--crate-type", "staticlib"]);
        }
        command.args(["--incremental", "modules"]);
        command
    }

    /// Where `rt check` keeps the library of a crate of the repository.
    fn library(&self, name: &str) -> PathBuf {
        self.root.join("crates").join(name).join("out/rlib")
    }
}

/// The kit of the `rt` that is on the path.
fn kit() -> Option<PathBuf> {
    let path: OsString = env::var_os("PATH")?;
    let rt = env::split_paths(&path).map(|folder| folder.join("rt")).find(|file| file.is_file())?;
    Some(fs::canonicalize(rt).ok()?.parent()?.parent()?.to_path_buf())
}

/// Copies a folder of checked modules. A check writes a module anew and never into a file that is there, so that a second name of the file
/// does where it can be given; other files are copied.
fn lay(from: &Path, to: &Path) -> io::Result<()> {
    fs::create_dir_all(to)?;
    for entry in fs::read_dir(from)? {
        let entry = entry?;
        let (path, into) = (entry.path(), to.join(entry.file_name()));
        if path.is_dir() {
            lay(&path, &into)?;
        } else if path.extension().is_none_or(|ending| ending != "oantt") || fs::hard_link(&path, &into).is_err() {
            fs::copy(&path, &into)?;
        }
    }
    Ok(())
}

fn named(name: &str, path: &Path) -> String {
    format!("{name}={}", path.display())
}
