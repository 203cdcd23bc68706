//! Text for pages and pictures, and templates.

/// Text that is nothing but text in HTML and in SVG, between tags and inside of quoted values. Signs that no SVG may hold become U+FFFD.
pub fn escaped(text: &str) -> String {
    let mut out = String::with_capacity(text.len());
    for sign in text.chars() {
        match sign {
            '&' => out += "&amp;",
            '<' => out += "&lt;",
            '>' => out += "&gt;",
            '"' => out += "&quot;",
            '\'' => out += "&#39;",
            '\n' | '\t' => out.push(sign),
            sign if sign.is_control() || "\u{fffe}\u{ffff}".contains(sign) => out.push('\u{fffd}'),
            sign => out.push(sign),
        }
    }
    out
}

/// The template with a value for each {{NAME}}. Values are put in as they are and not looked through again.
pub fn filled(template: &str, values: &[(&str, &str)]) -> String {
    let mut parts = template.split("{{");
    let mut out = parts.next().unwrap_or_default().to_string();
    for part in parts {
        let (name, rest) = part.split_once("}}").unwrap_or((part, ""));
        out += values.iter().find(|(known, _)| *known == name).map_or("", |&(_, value)| value);
        out += rest;
    }
    out
}

/// A number with its noun.
pub fn counted(number: usize, one: &str, many: &str) -> String {
    format!("{} {}", number, if number == 1 { one } else { many })
}
