//! A page of Markdown, cut into blocks: a heading, a row of a table, an item of a list, a paragraph, a definition of a
//! link, or code. A paragraph and an item have all their lines, so that what is broken over two lines is found.

#[derive(Clone, Copy, Debug, PartialEq, Eq)]
pub enum Kind {
    Heading,
    Row,
    Item,
    Paragraph,
    /// `[label]: target`.
    Definition,
    /// Between fences, or an indented line.
    Code,
}

pub struct Block {
    pub kind: Kind,
    /// The number of its first line.
    pub line: usize,
    pub text: String,
}

pub struct Page {
    pub file: String,
    pub text: String,
    pub blocks: Vec<Block>,
}

impl Block {
    /// The line of the page that has this octet of the block.
    pub fn line_at(&self, at: usize) -> usize {
        self.line + self.text[..at].matches('\n').count()
    }

    /// The text of a heading, without the marks in front.
    pub fn title(&self) -> &str {
        self.text.trim_start_matches('#').trim()
    }
}

impl Page {
    pub fn read(file: &str, text: &str) -> Page {
        let mut blocks: Vec<Block> = Vec::new();
        let (mut fenced, mut open) = (false, false);
        for (at, line) in text.lines().enumerate() {
            if line.trim_start().starts_with("```") {
                fenced = !fenced;
                open = fenced;
                if fenced {
                    blocks.push(Block { kind: Kind::Code, line: at + 1, text: String::new() });
                }
                continue;
            }
            match blocks.last_mut() {
                Some(block) if open && (fenced || continues(line)) => {
                    block.text.push('\n');
                    block.text.push_str(line);
                }
                _ if line.trim().is_empty() => open = false,
                _ => {
                    let kind = kind_of(line);
                    open = matches!(kind, Kind::Item | Kind::Paragraph);
                    blocks.push(Block { kind, line: at + 1, text: line.to_string() });
                }
            }
        }
        Page { file: file.to_string(), text: text.to_string(), blocks }
    }

    pub fn of_kind(&self, kind: Kind) -> impl Iterator<Item = &Block> {
        self.blocks.iter().filter(move |block| block.kind == kind)
    }
}

/// Does the line belong to the paragraph or item above it?
fn continues(line: &str) -> bool {
    !line.trim().is_empty() && matches!(kind_of(line), Kind::Paragraph | Kind::Code)
}

fn kind_of(line: &str) -> Kind {
    let rest = line.trim_start();
    if rest.starts_with('|') {
        Kind::Row
    } else if is_item(rest) {
        Kind::Item
    } else if line.starts_with("    ") {
        Kind::Code
    } else if rest.starts_with('#') && rest.trim_start_matches('#').starts_with(' ') {
        Kind::Heading
    } else if rest.starts_with('[') && rest.contains("]: ") && !rest.contains("](") {
        Kind::Definition
    } else {
        Kind::Paragraph
    }
}

fn is_item(rest: &str) -> bool {
    let behind_digits = rest.trim_start_matches(|c: char| c.is_ascii_digit());
    let numbered = behind_digits.len() < rest.len() && behind_digits.starts_with(". ");
    numbered || rest.starts_with("- ") || rest.starts_with("* ")
}
