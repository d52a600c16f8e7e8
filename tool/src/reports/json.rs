//! Values for machine use, printed as JSON on one line.

use std::io::{self, Write};

use serde::Serialize;
use serde_json::ser::{Formatter, Serializer};

use crate::files::hidden;

/// A value with a space after each colon and comma, on one line.
pub fn json(value: &impl Serialize) -> String {
    let mut bytes = Vec::new();
    let mut serializer = Serializer::with_formatter(&mut bytes, Spaced);
    value.serialize(&mut serializer).expect("the tool's own values");
    String::from_utf8(bytes).expect("JSON is UTF-8")
}

/// Values by name, in this order.
pub struct Named<V>(pub Vec<(String, V)>);

impl<V: Serialize> Serialize for Named<V> {
    fn serialize<S: serde::Serializer>(&self, serializer: S) -> Result<S::Ok, S::Error> {
        serializer.collect_map(self.0.iter().map(|(name, value)| (name, value)))
    }
}

struct Spaced;

fn comma<W: ?Sized + Write>(writer: &mut W, first: bool) -> io::Result<()> {
    writer.write_all(if first { b"" } else { b", " })
}

impl Formatter for Spaced {
    fn begin_array_value<W: ?Sized + Write>(&mut self, w: &mut W, first: bool) -> io::Result<()> {
        comma(w, first)
    }

    fn begin_object_key<W: ?Sized + Write>(&mut self, w: &mut W, first: bool) -> io::Result<()> {
        comma(w, first)
    }

    /// What would drive a terminal and JSON lets stand is escaped too.
    fn write_string_fragment<W: ?Sized + Write>(
        &mut self,
        w: &mut W,
        part: &str,
    ) -> io::Result<()> {
        if !part.chars().any(hidden) {
            return w.write_all(part.as_bytes());
        }
        for c in part.chars() {
            match hidden(c) {
                true => write!(w, "\\u{:04x}", u32::from(c))?,
                false => write!(w, "{c}")?,
            }
        }
        Ok(())
    }

    fn begin_object_value<W: ?Sized + Write>(&mut self, w: &mut W) -> io::Result<()> {
        w.write_all(b": ")
    }
}

#[cfg(test)]
mod tests {
    use super::*;

    #[derive(Serialize)]
    struct Value {
        a: i32,
        b: (bool, &'static str),
        c: Option<u8>,
    }

    #[test]
    fn values_print_as_json() {
        let value = Value { a: -1, b: (true, "say \"x\\y\"\n"), c: None };
        assert_eq!(json(&value), r#"{"a": -1, "b": [true, "say \"x\\y\"\n"], "c": null}"#);
        assert_eq!(json(&"\x1b\x7f\u{9b}\u{202e}é"), r#""\u001b\u007f\u009b\u202eé""#);
    }
}
