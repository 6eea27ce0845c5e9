//! Rows set in columns.

/// Cells that stand below those of other rows, and what follows them.
pub struct Row {
    pub cells: Vec<String>,
    pub tail: String,
}

/// The rows as lines. A column that is empty in every row takes no room.
pub fn table(rows: &[Row]) -> String {
    let columns = rows.iter().map(|row| row.cells.len()).max().unwrap_or(0);
    let width = |column: usize| rows.iter().filter_map(|row| row.cells.get(column)).map(String::len).max().unwrap_or(0);
    let widths: Vec<usize> = (0..columns).map(width).collect();
    let mut out = String::new();
    for row in rows {
        let mut line = String::new();
        for (cell, &width) in row.cells.iter().zip(&widths).filter(|(_, &width)| width > 0) {
            line += &format!("{cell:width$} ");
        }
        line += " ";
        line += &row.tail;
        out += line.trim_end();
        out += "\n";
    }
    out
}
