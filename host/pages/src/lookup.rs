//! Is a name where a page says that it is?

use crate::tree::Tree;

/// Words before the name in a definition.
const OF_SPECS: [&str; 5] = ["unfoldable", "pub", "abbrev", "data", "record"];
const OF_CODE: [&str; 4] = ["fn", "const", "struct", "enum"];

pub struct Place<'a> {
    pub krate: &'a str,
    /// Any file of the crate, if none is named.
    pub file: Option<&'a str>,
}

/// What is wrong with a name at its place, if anything is.
pub fn fault(tree: &Tree, place: &Place, name: &str) -> Option<String> {
    let told = match place.file {
        Some(file) => format!("crate {}, {file}", place.krate),
        None => format!("crate {}", place.krate),
    };
    // without a file, a name may also be that of a file, or the crate's own
    let is_called =
        |path: &str| place.file.is_none() && (name == place.krate || path.rsplit(['/', '.']).nth(1) == Some(name));
    let files = files(tree, place);
    if files.is_empty() {
        Some(format!("no such file: {told}"))
    } else if !files.iter().any(|(path, text)| is_called(path) || defines(path, text, name)) {
        Some(format!("`{name}` is not defined in {told}"))
    } else if place.file.is_some() && files.iter().any(|(_, text)| is_without_promise(text, name)) {
        Some(format!("`{name}` has no promise in {told}"))
    } else {
        None
    }
}

/// The files that a page can mean, with their texts.
fn files<'a>(tree: &'a Tree, place: &Place) -> Vec<(&'a str, &'a str)> {
    let front = format!("crates/{}/", place.krate);
    let is_meant = |path: &str| match place.file {
        Some(file) if file.ends_with(".rt") => path == file,
        Some(file) => ["", "specs/", "proofs/"].iter().any(|part| path == format!("{part}{file}.antt")),
        None => path.ends_with(".rt") || path.ends_with(".antt"),
    };
    tree.below(&front).into_iter().filter(|(path, _)| is_meant(&path[front.len()..])).collect()
}

fn defines(path: &str, text: &str, name: &str) -> bool {
    if path.ends_with(".rt") {
        text.lines().filter_map(item).any(|(_, item)| item == name)
    } else {
        text.lines().any(|line| declares(line, name))
    }
}

/// `name : type`, `pub data name (x : A) : type where`, or `pub name` with the type below it.
fn declares(line: &str, name: &str) -> bool {
    let mut words = line.split_whitespace().skip_while(|word| OF_SPECS.contains(word));
    let is_first = words.next() == Some(name);
    let next = words.next().unwrap_or("");
    is_first
        && match next.chars().next() {
            None => line.trim() != name,
            Some('(' | '{') => words.any(|word| word == ":"),
            Some(_) => next == ":",
        }
}

/// The last two words before what follows a name, as in `pub extern "C" fn name(`.
fn item(line: &str) -> Option<(&str, &str)> {
    let mut words = line.split(['(', '<', ':', '{']).next()?.split_whitespace().rev();
    let (name, word) = (words.next()?, words.next()?);
    OF_CODE.contains(&word).then_some((word, name))
}

/// Has the code a function of this name with no `ensures` before its body?
fn is_without_promise(text: &str, name: &str) -> bool {
    let mut lines = text.lines();
    while lines.any(|line| item(line) == Some(("fn", name))) {
        let mut contract = lines.by_ref().map(str::trim).take_while(|line| !["", "{", "}"].contains(line));
        if !contract.any(|line| line.starts_with("ensures")) {
            return true;
        }
    }
    false
}
