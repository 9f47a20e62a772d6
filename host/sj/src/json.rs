//! JSON: strings and objects, a line each.

use std::fmt::Display;

/// A string in quotes.
pub fn quoted(text: &str) -> String {
    let mut out = String::from('"');
    for character in text.chars() {
        match character {
            '"' | '\\' => out.extend(['\\', character]),
            control if control < ' ' => out.push_str(&format!("\\u{:04x}", u32::from(control))),
            other => out.push(other),
        }
    }
    out.push('"');
    out
}

/// An object, field by field.
#[derive(Default)]
pub struct Object {
    fields: Vec<String>,
}

impl Object {
    /// An object without fields.
    pub fn new() -> Object {
        Object::default()
    }

    /// A field whose value is JSON already.
    pub fn raw(mut self, name: &str, value: impl Display) -> Object {
        self.fields.push(format!("{}:{value}", quoted(name)));
        self
    }

    /// A field whose value is JSON already, unless that is empty.
    pub fn raw_if(self, name: &str, value: &str) -> Object {
        if value.is_empty() { self } else { self.raw(name, value) }
    }

    /// A field with a text.
    pub fn text(self, name: &str, value: &str) -> Object {
        self.raw(name, quoted(value))
    }

    /// A field with a text, unless that is empty.
    pub fn text_if(self, name: &str, value: &str) -> Object {
        if value.is_empty() { self } else { self.text(name, value) }
    }

    /// A field with a number.
    pub fn number(self, name: &str, value: usize) -> Object {
        self.raw(name, value)
    }

    /// The object's text.
    pub fn inline(self) -> String {
        format!("{{{}}}", self.fields.join(","))
    }

    /// The object as a line.
    pub fn line(self) -> String {
        self.inline() + "\n"
    }
}

#[cfg(test)]
mod tests {
    use super::*;

    #[test]
    fn quotes_and_controls_are_escaped() {
        assert_eq!(quoted("a\"b\\c\n~"), "\"a\\\"b\\\\c\\u000a~\"");
    }

    #[test]
    fn fields_stand_in_order() {
        let object =
            Object::new().text("a", "b").text_if("c", "").number("d", 1).raw_if("e", "").raw("f", "[]");
        assert_eq!(object.line(), "{\"a\":\"b\",\"d\":1,\"f\":[]}\n");
    }
}
