//! Aligned lines of plain text.

/// Microseconds with two or more digits.
pub fn micros(time: f64) -> String {
    if time < 10.0 {
        format!("{time:.2}")
    } else if time < 100.0 {
        format!("{time:.1}")
    } else {
        format!("{time:.0}")
    }
}

pub fn ratio(value: f64) -> String {
    format!("{value:.2}")
}

/// A line of a first column, aligned left, and others, aligned right.
pub fn line(first: &str, others: &[String]) {
    let mut text = format!("{first:<12}");
    for other in others {
        text += &format!(" {other:>8}");
    }
    println!("{}", text.trim_end());
}

/// A section's title and the headings of its columns.
pub fn title(title: &str, first: &str, others: &[&str]) {
    println!("\n{title}");
    let others: Vec<String> = others.iter().map(|heading| heading.to_string()).collect();
    line(first, &others);
}
