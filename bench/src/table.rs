//! Tables in the form of Markdown.

/// Prints a title, the heads and the rows.
pub fn print(title: &str, heads: &[&str], rows: &[Vec<String>]) {
    println!("### {title}\n");
    println!("| {} |", heads.join(" | "));
    println!("|{}", "---|".repeat(heads.len()));
    for row in rows {
        println!("| {} |", row.join(" | "));
    }
    println!();
}

/// Nanoseconds, with a digit behind the point where they are few.
pub fn time(nanoseconds: f64) -> String {
    if nanoseconds < 100.0 {
        format!("{nanoseconds:.1}")
    } else {
        thousands(nanoseconds)
    }
}

/// A number with commas.
pub fn thousands(number: f64) -> String {
    let digits = format!("{number:.0}");
    let mut text = String::new();
    for (place, digit) in digits.chars().enumerate() {
        if place > 0 && (digits.len() - place) % 3 == 0 {
            text.push(',');
        }
        text.push(digit);
    }
    text
}

/// One figure beside another; bold where it is above the goal. A time that the clock does not tell from nothing has none beside it.
pub fn ratio(proved: f64, other: f64, goal: f64) -> String {
    let ratio = proved / other;
    if !ratio.is_finite() {
        String::new()
    } else if ratio > goal {
        format!("**{ratio:.2}**")
    } else {
        format!("{ratio:.2}")
    }
}
