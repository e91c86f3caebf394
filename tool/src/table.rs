//! Columns.

/// The cells of rows, each as wide as its column, but for the last of a row. A column without text
/// is left out.
pub fn aligned(rows: &[Vec<String>]) -> Vec<Vec<String>> {
    let columns = rows.iter().map(Vec::len).max().unwrap_or(0);
    let width = |column: usize| {
        rows.iter().filter_map(|row| row.get(column)).map(|cell| cell.chars().count()).max()
    };
    let widths: Vec<usize> = (0..columns).map(|column| width(column).unwrap_or(0)).collect();
    rows.iter().map(|row| aligned_row(row, &widths)).collect()
}

fn aligned_row(row: &[String], widths: &[usize]) -> Vec<String> {
    let last = row.iter().rposition(|cell| !cell.is_empty()).map_or(0, |last| last + 1);
    let cells = row[..last].iter().zip(widths).filter(|(_, width)| **width > 0);
    let mut padded: Vec<String> =
        cells.map(|(cell, width)| format!("{cell}{}", blanks(cell, *width))).collect();
    if let Some(cell) = padded.last_mut() {
        cell.truncate(cell.trim_end().len());
    }
    padded
}

fn blanks(cell: &str, width: usize) -> String {
    " ".repeat(width.saturating_sub(cell.chars().count()))
}

/// Aligned rows, two blanks between columns, each row behind a margin.
pub fn printed(margin: &str, rows: &[Vec<String>]) -> String {
    let lines = aligned(rows).into_iter().map(|row| format!("{margin}{}\n", row.join("  ")));
    lines.collect()
}

#[cfg(test)]
mod tests {
    use super::printed;

    fn rows(cells: &[&[&str]]) -> Vec<Vec<String>> {
        cells.iter().map(|row| row.iter().map(|cell| cell.to_string()).collect()).collect()
    }

    #[test]
    fn columns_stand_below_each_other() {
        let table =
            rows(&[&["0", "", "Güte", "5"], &["10", "", "x", "left 7"], &["11", "", "", ""]]);
        assert_eq!(printed(" ", &table), " 0   Güte  5\n 10  x     left 7\n 11\n");
    }

    #[test]
    fn no_rows_are_no_lines() {
        assert_eq!(printed("", &[]), "");
    }
}
