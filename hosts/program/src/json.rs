//! JSON, as much of it as is printed here.

use std::fmt::Write;

/// An object whose names are given in the order in which they stand.
pub struct Object(String);

impl Object {
    pub fn new() -> Self {
        Object("{".into())
    }

    fn name(&mut self, name: &str) {
        if self.0.len() > 1 {
            self.0.push(',');
        }
        let _ = write!(self.0, "\"{name}\":");
    }

    pub fn number(&mut self, name: &str, value: impl Into<u64>) {
        self.name(name);
        let _ = write!(self.0, "{}", value.into());
    }

    /// Seconds, to the millionth.
    pub fn seconds(&mut self, name: &str, value: f64) {
        self.name(name);
        let _ = write!(self.0, "{value:.6}");
    }

    pub fn truth(&mut self, name: &str, value: bool) {
        self.name(name);
        let _ = write!(self.0, "{value}");
    }

    pub fn text(&mut self, name: &str, value: &str) {
        self.name(name);
        self.0.push('"');
        for character in value.chars() {
            match character {
                '"' | '\\' => self.0.extend(['\\', character]),
                ' '.. => self.0.push(character),
                _ => {
                    let _ = write!(self.0, "\\u{:04x}", u32::from(character));
                }
            }
        }
        self.0.push('"');
    }

    /// Another object, or null.
    pub fn object(&mut self, name: &str, value: Option<Object>) {
        self.name(name);
        match value {
            Some(object) => self.0.push_str(&object.whole()),
            None => self.0.push_str("null"),
        }
    }

    pub fn list(&mut self, name: &str, values: impl Iterator<Item = Object>) {
        self.name(name);
        let values: Vec<String> = values.map(Object::whole).collect();
        let _ = write!(self.0, "[{}]", values.join(","));
    }

    fn whole(mut self) -> String {
        self.0.push('}');
        self.0
    }

    /// The object as a line of its own.
    pub fn line(self) -> String {
        self.whole() + "\n"
    }
}
