//! Scenarios that are changed in place: JSON that the library has taken, with plain values as their text.
use std::fmt;

#[derive(Clone, Debug, PartialEq)]
pub(crate) enum Value {
    /// A number, a text with its quotes, `true`, `false` or `null`.
    Plain(String),
    List(Vec<Value>),
    Object(Vec<(String, Value)>),
}

impl Value {
    /// What a text begins with, which goes on after it.
    pub(crate) fn read(text: &mut &str) -> Option<Value> {
        *text = text.trim_start();
        match text.chars().next()? {
            '[' => Value::items(text, ']', Value::read).map(Value::List),
            '{' => {
                let member = |text: &mut &str| {
                    let Value::Plain(name) = Value::read(text)? else { return None };
                    *text = text.trim_start().strip_prefix(':')?;
                    Some((name.strip_prefix('"')?.strip_suffix('"')?.to_string(), Value::read(text)?))
                };
                Value::items(text, '}', member).map(Value::Object)
            }
            first => {
                let mut is_escaped = false;
                let is_end = |(_, each): &(usize, char)| match first {
                    '"' => {
                        let ends = *each == '"' && !is_escaped;
                        is_escaped = *each == '\\' && !is_escaped;
                        ends
                    }
                    _ => !each.is_ascii_alphanumeric() && !"+-.".contains(*each),
                };
                let end = text.char_indices().skip(1).find(is_end).map_or(text.len(), |(place, _)| place + usize::from(first == '"'));
                let (plain, rest) = text.split_at(end);
                *text = rest;
                Some(Value::Plain(plain.to_string()))
            }
        }
    }

    /// What a list or an object has, up to its end.
    fn items<T>(text: &mut &str, end: char, item: impl Fn(&mut &str) -> Option<T>) -> Option<Vec<T>> {
        let mut found = Vec::new();
        *text = text[1..].trim_start();
        while !text.starts_with(end) {
            found.push(item(text)?);
            *text = text.trim_start();
            *text = text.strip_prefix(',').unwrap_or(text).trim_start();
        }
        *text = &text[1..];
        Some(found)
    }

    pub(crate) fn list(&mut self) -> Option<&mut Vec<Value>> {
        match self {
            Value::List(items) => Some(items),
            _ => None,
        }
    }

    /// What stands at a path of names and of numbers in lists.
    pub(crate) fn at(&mut self, path: &[&str]) -> Option<&mut Value> {
        let Some((first, rest)) = path.split_first() else { return Some(self) };
        match self {
            Value::Plain(_) => None,
            Value::List(items) => items.get_mut(first.parse::<usize>().ok()?)?.at(rest),
            Value::Object(members) => members.iter_mut().find(|(name, _)| name == first)?.1.at(rest),
        }
    }
}

impl fmt::Display for Value {
    fn fmt(&self, to: &mut fmt::Formatter) -> fmt::Result {
        match self {
            Value::Plain(text) => to.write_str(text),
            Value::List(items) => write!(to, "[{}]", items.iter().map(Value::to_string).collect::<Vec<_>>().join(", ")),
            Value::Object(members) => {
                let member = |(name, value): &(String, Value)| format!("\"{name}\": {value}");
                write!(to, "{{{}}}", members.iter().map(member).collect::<Vec<_>>().join(", "))
            }
        }
    }
}
