//! Numbers and texts in SVG.
use std::fmt;

/// A coordinate, to a tenth.
pub struct N(pub f64);

impl fmt::Display for N {
    fn fmt(&self, f: &mut fmt::Formatter<'_>) -> fmt::Result {
        // adding zero makes a zero of -0
        write!(f, "{}", (self.0 * 10.0).round() / 10.0 + 0.0)
    }
}

/// A text between tags: no sign of XML, and no control character.
pub fn escape(text: &str) -> String {
    let mut escaped = String::with_capacity(text.len());
    for c in text.chars() {
        match c {
            '&' => escaped.push_str("&amp;"),
            '<' => escaped.push_str("&lt;"),
            '>' => escaped.push_str("&gt;"),
            c if c.is_control() => escaped.push(' '),
            c => escaped.push(c),
        }
    }
    escaped
}

/// How wide a text is at most, by and large, in Helvetica or Arial of this size.
pub fn wide(text: &str, size: f64) -> f64 {
    let widths = text.chars().map(|c| match c {
        'f' | 'i' | 'j' | 'l' | 't' | ' ' | '.' | ',' | ':' | ';' | '\'' | '|' => 0.3,
        'r' | '(' | ')' | '-' | '−' => 0.4,
        'm' | 'w' | 'M' | 'W' => 0.84,
        c if c > '\u{2fff}' => 1.0,
        _ => 0.57,
    });
    1.08 * size * widths.sum::<f64>()
}

/// A text in lines that are no wider than this.
pub fn wrap(text: &str, size: f64, width: f64) -> Vec<String> {
    let mut lines: Vec<String> = Vec::new();
    for word in text.split(' ') {
        match lines.last_mut() {
            Some(line) if wide(line, size) + wide(word, size) + wide(" ", size) <= width => {
                line.push(' ');
                line.push_str(word);
            }
            _ => lines.push(word.into()),
        }
    }
    lines
}

/// "leaf" or "leaves", with their number.
pub fn leaves(count: usize) -> String {
    format!("{count} {}", if count == 1 { "leaf" } else { "leaves" })
}
