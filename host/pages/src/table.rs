//! The tables of a page.

use crate::code;
use crate::page::{Kind, Page};

pub struct Table {
    /// The heading above it.
    pub heading: String,
    pub header: Row,
    pub rows: Vec<Row>,
}

pub struct Row {
    pub line: usize,
    pub cells: Vec<String>,
}

impl Row {
    /// The cell, or nothing where the row has fewer.
    pub fn cell(&self, at: usize) -> &str {
        self.cells.get(at).map_or("", String::as_str)
    }
}

/// The tables in their order. Their second row, of dashes, is left out.
pub fn tables(page: &Page) -> Vec<Table> {
    let mut tables: Vec<Table> = Vec::new();
    let mut heading = "";
    let mut next = 0;
    for block in &page.blocks {
        if block.kind == Kind::Heading {
            heading = block.title();
        }
        if block.kind != Kind::Row {
            continue;
        }
        let row = Row { line: block.line, cells: cells(&block.text) };
        match tables.last_mut() {
            Some(_) if row.line == next && block.text.chars().all(|c| "|-".contains(c)) => {}
            Some(table) if row.line == next => table.rows.push(row),
            _ => tables.push(Table { heading: heading.to_string(), header: row, rows: Vec::new() }),
        }
        next = block.line + 1;
    }
    tables
}

/// What stands between the bars; a bar in a code span parts nothing.
pub fn cells(line: &str) -> Vec<String> {
    let bars: Vec<usize> = code::without(line).match_indices('|').map(|(at, _)| at).collect();
    bars.windows(2).map(|pair| line[pair[0] + 1..pair[1]].trim().to_string()).collect()
}
