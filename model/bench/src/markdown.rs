//! Tables as docs/BENCHMARK.md has them.

/// Prints a line of text, such as a heading, and an empty line after it.
pub fn line(text: &str) {
    println!("{text}\n");
}

/// Prints a table and an empty line after it.
pub fn table(head: &[&str], rows: &[Vec<String>]) {
    println!("| {} |", head.join(" | "));
    println!("|{}", "---|".repeat(head.len()));
    for row in rows {
        println!("| {} |", row.join(" | "));
    }
    println!();
}

/// A number with commas between its groups of three digits.
pub fn grouped(number: u64) -> String {
    let digits = number.to_string();
    let mut text = String::new();
    for (index, digit) in digits.chars().enumerate() {
        if index > 0 && (digits.len() - index).is_multiple_of(3) {
            text.push(',');
        }
        text.push(digit);
    }
    text
}

/// A number with one decimal below 100, and without decimals from there on.
pub fn short(number: f64) -> String {
    if number < 100.0 {
        format!("{number:.1}")
    } else {
        grouped(number.round() as u64)
    }
}

/// How many times the second number the first is.
pub fn ratio(first: f64, second: f64) -> String {
    format!("{:.2}", first / second)
}
