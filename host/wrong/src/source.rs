//! The functions and constants of a source file, by the layout that `rt fmt` gives it: an item ends where its closing
//! brace or its semicolon ends a line with the indent of its first.

use std::ops::Range;

pub struct Function {
    /// As the check names it: crate, modules, type, function.
    pub name: String,
    pub file: String,
    pub whole: Range<usize>,
    /// Where the line is on which the body opens.
    pub body: usize,
    /// The lines that it has, counted from 1.
    pub lines: Range<usize>,
}

impl Function {
    /// The function's path below the crate.
    pub fn path(&self) -> &str {
        self.name.split_once("::").map_or("", |(_, path)| path)
    }

    /// Its folder of proofs/.
    pub fn proofs(&self) -> String {
        format!("proofs/{}/", self.path().replace("::", "/"))
    }
}

pub struct Constant {
    pub name: String,
    pub whole: Range<usize>,
}

struct Line<'a> {
    at: usize,
    number: usize,
    text: &'a str,
}

fn lines(text: &str) -> Vec<Line<'_>> {
    let mut at = 0;
    let mut lines = Vec::new();
    for (index, text) in text.split('\n').enumerate() {
        lines.push(Line { at, number: index + 1, text });
        at += text.len() + 1;
    }
    lines
}

impl Line<'_> {
    fn indent(&self) -> usize {
        self.text.len() - self.text.trim_start().len()
    }

    /// The line's words without what says who may use the item and how it is called.
    fn item(&self) -> &str {
        let text = self.text.trim_start();
        let text = text.strip_prefix("pub(crate) ").or_else(|| text.strip_prefix("pub ")).unwrap_or(text);
        text.strip_prefix("extern \"C\" ").unwrap_or(text)
    }

    fn end(&self) -> usize {
        self.at + self.text.len()
    }
}

fn word(text: &str) -> String {
    text.chars().take_while(|c| c.is_alphanumeric() || *c == '_').collect()
}

/// The modules that a file of src/ is, from the crate's root.
fn modules(file: &str) -> Vec<String> {
    let path = file.trim_start_matches("src/").trim_end_matches(".rt");
    let parts: Vec<&str> = path.split('/').collect();
    let parts = match parts.as_slice() {
        ["lib" | "main"] => &[],
        [before @ .., "mod"] => before,
        all => all,
    };
    parts.iter().map(|part| part.to_string()).collect()
}

pub fn functions(krate: &str, file: &str, text: &str) -> Vec<Function> {
    let lines = lines(text);
    let mut functions = Vec::new();
    let mut owner = None;
    for (index, line) in lines.iter().enumerate() {
        if let Some(rest) = line.item().strip_prefix("impl") {
            owner = Some(implemented(rest));
        }
        if line.text == "}" {
            owner = None;
        }
        if let Some(rest) = line.item().strip_prefix("fn ") {
            let mut path = vec![krate.to_string()];
            path.extend(modules(file));
            path.extend(owner.clone());
            path.push(word(rest));
            functions.push(function(path.join("::"), file, &lines[index..]));
        }
    }
    functions
}

/// The type of `impl<'a> Reader<'a> {`.
fn implemented(rest: &str) -> String {
    let rest = match rest.strip_prefix('<') {
        Some(parameters) => parameters.split_once('>').map_or("", |(_, rest)| rest),
        None => rest,
    };
    word(rest.trim_start())
}

/// The function whose first line is the first of these.
fn function(name: String, file: &str, lines: &[Line]) -> Function {
    let first = &lines[0];
    let own = || lines.iter().filter(|line| line.indent() == first.indent());
    let body = own().find(|line| line.text.contains('{')).unwrap_or(first);
    let last = own().find(|line| line.text.ends_with('}')).unwrap_or(first);
    Function {
        name,
        file: file.to_string(),
        whole: first.at..last.end(),
        body: body.at,
        lines: first.number..last.number + 1,
    }
}

pub fn constants(text: &str) -> Vec<Constant> {
    let lines = lines(text);
    let starts = lines.iter().enumerate().filter(|(_, line)| line.item().starts_with("const "));
    starts
        .map(|(index, line)| {
            let rest = &lines[index..];
            let last = rest.iter().find(|l| l.indent() == line.indent() && l.text.ends_with(';')).unwrap_or(line);
            Constant { name: word(&line.item()["const ".len()..]), whole: line.at..last.end() }
        })
        .collect()
}

/// Whether the text has this name as a word.
pub fn mentions(text: &str, name: &str) -> bool {
    let part_of_word = |c: char| c.is_alphanumeric() || c == '_';
    text.match_indices(name)
        .any(|(at, _)| !text[..at].ends_with(part_of_word) && !text[at + name.len()..].starts_with(part_of_word))
}
