//! Text for HTML, for JSON inside of it, and templates.

/// Text as HTML shows it.
pub fn html(text: &str) -> String {
    let mut shown = String::new();
    for character in text.chars() {
        match character {
            '&' => shown.push_str("&amp;"),
            '<' => shown.push_str("&lt;"),
            '>' => shown.push_str("&gt;"),
            '"' => shown.push_str("&quot;"),
            _ => shown.push(character),
        }
    }
    shown
}

/// Text as a string of JSON; a '<' is written by its number, so that no tag stands in a script.
pub fn json(text: &str) -> String {
    let mut quoted = String::from("\"");
    for character in text.chars() {
        match character {
            '"' | '\\' => quoted.extend(['\\', character]),
            '<' | '\0'..='\u{1f}' => quoted.push_str(&format!("\\u{:04x}", character as u32)),
            _ => quoted.push(character),
        }
    }
    quoted.push('"');
    quoted
}

/// A template with the value of each "{{key}}" in its place. Values are not looked at again.
pub fn fill(template: &str, values: &[(&str, &str)]) -> String {
    let mut parts = template.split("{{");
    let mut filled = parts.next().unwrap_or_default().to_string();
    for part in parts {
        let (key, rest) = part.split_once("}}").expect("a key ends with braces");
        let value = values.iter().find(|(name, _)| *name == key);
        let (_, value) = value.unwrap_or_else(|| panic!("no value for {key}"));
        filled.push_str(value);
        filled.push_str(rest);
    }
    filled
}

#[cfg(test)]
mod tests {
    use super::*;

    #[test]
    fn names_cannot_end_a_script_or_begin_a_tag() {
        assert_eq!(html("a<b>&\"c\""), "a&lt;b&gt;&amp;&quot;c&quot;");
        assert_eq!(
            json("</script>\"\\\t"),
            "\"\\u003c/script>\\\"\\\\\\u0009\""
        );
    }

    #[test]
    fn values_are_not_filled_again() {
        let filled = fill("a {{x}} {{y}}{{x}}!", &[("x", "{{y}}"), ("y", "2")]);
        assert_eq!(filled, "a {{y}} 2{{y}}!");
    }
}
