//! Objects of JSON, each on one line.
use std::borrow::Cow;

/// A value of a field.
pub enum Value {
    Text(String),
    Number(i64),
    Truth(bool),
    List(Vec<Value>),
    Object(Object),
    Nothing,
}

/// Fields in the order in which they were added.
#[derive(Default)]
pub struct Object(Vec<(Cow<'static, str>, Value)>);

impl Object {
    pub fn new() -> Object {
        Object::default()
    }

    /// The object with one more field.
    pub fn with(mut self, name: impl Into<Cow<'static, str>>, value: impl Into<Value>) -> Object {
        self.0.push((name.into(), value.into()));
        self
    }

    /// The object with the fields of another after its own.
    pub fn and(mut self, other: Object) -> Object {
        self.0.extend(other.0);
        self
    }

    /// The object as a line, with its line feed.
    pub fn line(self) -> String {
        Value::Object(self).text() + "\n"
    }
}

impl Value {
    /// The value as JSON, without a line feed.
    pub fn text(&self) -> String {
        let mut text = String::new();
        self.write(&mut text);
        text
    }
}

impl Value {
    fn write(&self, out: &mut String) {
        match self {
            Value::Text(text) => write_text(text, out),
            Value::Number(number) => *out += &number.to_string(),
            Value::Truth(truth) => *out += if *truth { "true" } else { "false" },
            Value::Nothing => *out += "null",
            Value::List(values) => {
                out.push('[');
                for (k, value) in values.iter().enumerate() {
                    *out += if k > 0 { "," } else { "" };
                    value.write(out);
                }
                out.push(']');
            }
            Value::Object(Object(fields)) => {
                out.push('{');
                for (k, (name, value)) in fields.iter().enumerate() {
                    *out += if k > 0 { "," } else { "" };
                    write_text(name, out);
                    out.push(':');
                    value.write(out);
                }
                out.push('}');
            }
        }
    }
}

fn write_text(text: &str, out: &mut String) {
    out.push('"');
    for c in text.chars() {
        match c {
            '"' | '\\' => out.extend(['\\', c]),
            '\n' => *out += "\\n",
            '\r' => *out += "\\r",
            '\t' => *out += "\\t",
            c if c < ' ' || c == '\x7f' => *out += &format!("\\u{:04x}", u32::from(c)),
            c => out.push(c),
        }
    }
    out.push('"');
}

impl From<String> for Value {
    fn from(text: String) -> Value {
        Value::Text(text)
    }
}

impl From<&str> for Value {
    fn from(text: &str) -> Value {
        Value::Text(text.into())
    }
}

/// A name of a file; what is no Unicode in it becomes U+FFFD.
impl From<&std::ffi::OsStr> for Value {
    fn from(name: &std::ffi::OsStr) -> Value {
        Value::Text(name.to_string_lossy().into_owned())
    }
}

impl From<i32> for Value {
    fn from(number: i32) -> Value {
        Value::Number(number.into())
    }
}

impl From<i16> for Value {
    fn from(number: i16) -> Value {
        Value::Number(number.into())
    }
}

/// A count, a place or a node: what a call gives is far below the end of the range.
impl From<usize> for Value {
    fn from(number: usize) -> Value {
        Value::Number(i64::try_from(number).unwrap_or(i64::MAX))
    }
}

impl From<bool> for Value {
    fn from(truth: bool) -> Value {
        Value::Truth(truth)
    }
}

impl From<Object> for Value {
    fn from(object: Object) -> Value {
        Value::Object(object)
    }
}

impl<T: Into<Value>> From<Vec<T>> for Value {
    fn from(values: Vec<T>) -> Value {
        Value::List(values.into_iter().map(Into::into).collect())
    }
}

impl<T: Into<Value>> From<Option<T>> for Value {
    fn from(value: Option<T>) -> Value {
        value.map_or(Value::Nothing, Into::into)
    }
}
