//! What is printed: tables that stand in a Markdown page as they are, and numbers.

use super::time::Taken;

/// A table: a line of titles, then rows of as many fields. The first column is flush left, the
/// others flush right.
pub fn table(titles: &[&str], rows: &[Vec<String>]) -> String {
    let titles: Vec<String> = titles.iter().map(|title| title.to_string()).collect();
    let lines: Vec<&Vec<String>> = std::iter::once(&titles).chain(rows).collect();
    let widths: Vec<usize> = (0..titles.len())
        .map(|column| widest(&lines, column))
        .collect();
    let mut text = line(&titles, &widths) + &rule(&widths);
    for row in rows {
        text += &line(row, &widths);
    }
    text + "\n"
}

fn widest(lines: &[&Vec<String>], column: usize) -> usize {
    let lengths = lines.iter().map(|fields| fields[column].chars().count());
    lengths.max().unwrap_or(0)
}

fn line(fields: &[String], widths: &[usize]) -> String {
    let each = fields.iter().zip(widths).enumerate();
    let padded = each.map(|(column, (field, width))| match column {
        0 => format!(" {field:<width$} |"),
        _ => format!(" {field:>width$} |"),
    });
    format!("|{}\n", padded.collect::<String>())
}

fn rule(widths: &[usize]) -> String {
    let each = widths.iter().enumerate().map(|(column, width)| {
        let end = if column == 0 { "-" } else { ":" };
        format!("-{}{end}|", "-".repeat(*width))
    });
    format!("|{}\n", each.collect::<String>())
}

/// Nanoseconds as microseconds, with three or four digits or more.
pub fn microseconds(nanoseconds: f64) -> String {
    let microseconds = nanoseconds / 1_000.0;
    if microseconds < 100.0 {
        format!("{microseconds:.2}")
    } else if microseconds < 1_000.0 {
        format!("{microseconds:.1}")
    } else {
        grouped(microseconds.round() as usize)
    }
}

/// Median, 99th and worst of one side in microseconds.
pub fn spread(side: &Taken) -> [String; 3] {
    [side.median, side.ninety_ninth, side.worst].map(microseconds)
}

/// The spreads of both sides, and the ratio of the first to the second.
pub fn beside(taken: &[Taken]) -> Vec<String> {
    let mut fields = [spread(&taken[0]), spread(&taken[1])].concat();
    fields.push(ratio(&taken[0], &taken[1]));
    fields
}

/// The ratio of the medians of two sides.
pub fn ratio(of: &Taken, to: &Taken) -> String {
    format!("{:.2}", of.median / to.median)
}

/// A whole number in groups of three digits.
pub fn grouped(number: usize) -> String {
    match number {
        0..=999 => number.to_string(),
        _ => format!("{},{:03}", grouped(number / 1_000), number % 1_000),
    }
}
