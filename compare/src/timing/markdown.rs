//! Tables in Markdown.

/// A table whose columns are padded, so that it can be read in a terminal too: the first column to
/// the left, the figures of the others to the right.
pub fn table(head: &[&str], rows: &[Vec<String>]) -> String {
    let head: Vec<String> = head.iter().map(|cell| cell.to_string()).collect();
    let width = |column: usize| {
        let cells = rows.iter().chain([&head]).map(|row| &row[column]);
        cells.map(|cell| cell.chars().count()).max().unwrap_or(0)
    };
    let widths: Vec<usize> = (0..head.len()).map(width).collect();
    let line = |row: &Vec<String>| {
        let cells = row.iter().zip(&widths).enumerate();
        let cells = cells.map(|(column, (cell, &width))| match column {
            0 => format!(" {cell:<width$} |"),
            _ => format!(" {cell:>width$} |"),
        });
        format!("|{}\n", cells.collect::<String>())
    };
    let rule = widths.iter().enumerate().map(|(column, &width)| {
        let end = if column == 0 { '-' } else { ':' };
        format!("{}{end}|", "-".repeat(width + 1))
    });
    let rule = format!("|{}\n", rule.collect::<String>());
    let body: String = rows.iter().map(line).collect();
    line(&head) + &rule + &body
}

/// A time in microseconds.
pub fn time(microseconds: f64) -> String {
    format!("{microseconds:.3}")
}

/// A ratio of two times.
pub fn ratio(ratio: f64) -> String {
    format!("{ratio:.3}")
}

/// How many fit into a second.
pub fn a_second(microseconds: f64) -> String {
    count((1e6 / microseconds).round() as u64)
}

/// A whole number, with commas between thousands.
pub fn count(number: u64) -> String {
    let digits = number.to_string();
    let mut grouped = String::new();
    for (place, digit) in digits.chars().enumerate() {
        if place > 0 && (digits.len() - place).is_multiple_of(3) {
            grouped.push(',');
        }
        grouped.push(digit);
    }
    grouped
}

#[cfg(test)]
mod tests {
    use super::{a_second, table};

    #[test]
    fn columns_are_padded() {
        let rows = [
            vec!["one".to_string(), "0.5".to_string()],
            vec!["forty-two".to_string(), "10.25".to_string()],
        ];
        let expected = "\
            | size      |  time |\n\
            |-----------|------:|\n\
            | one       |   0.5 |\n\
            | forty-two | 10.25 |\n";
        assert_eq!(table(&["size", "time"], &rows), expected);
    }

    #[test]
    fn thousands_have_commas() {
        assert_eq!(a_second(0.5), "2,000,000");
        assert_eq!(a_second(1_000.0), "1,000");
        assert_eq!(a_second(1_250.0), "800");
    }
}
