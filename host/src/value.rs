//! A value, and the words of a fix that the library reads.

use std::collections::BTreeMap;
use std::path::PathBuf;

use crate::ffi;
use crate::layout::*;
use crate::words::Known;
use crate::Names;

/// A value as Nix has it, which [`crate::TypeArena::fits`] holds against a type. Of all but lists and sets the kind alone counts
/// there.
#[derive(Debug, Clone, PartialEq)]
pub enum Value {
    Null,
    Bool(bool),
    Int(i64),
    Float(f64),
    String(String),
    Path(PathBuf),
    List(Vec<Value>),
    Set(BTreeMap<String, Value>),
}

impl Value {
    fn kind(&self) -> u32 {
        match self {
            Value::Null => VALUE_NULL,
            Value::Bool(_) => VALUE_BOOL,
            Value::Int(_) => VALUE_INT,
            Value::Float(_) => VALUE_FLOAT,
            Value::String(_) => VALUE_STRING,
            Value::Path(_) => VALUE_PATH,
            Value::List(_) => VALUE_LIST,
            Value::Set(_) => VALUE_SET,
        }
    }

    /// How many values it has within, those in them left aside.
    fn count(&self) -> usize {
        match self {
            Value::List(items) => items.len(),
            Value::Set(fields) => fields.len(),
            _ => 0,
        }
    }
}

/// All values of a fix, each with the place of the first one within it: the fix itself, then what is within each in turn. None if
/// there are over 1,024. A fix may be deeper than the stack allows, so nothing here calls itself.
fn met(fix: &Value) -> Option<Vec<(&Value, usize)>> {
    let mut met = vec![(fix, 0)];
    let mut at = 0;
    while at < met.len() {
        let (value, first) = (met[at].0, met.len());
        if first + value.count() > ffi::VALUES {
            return None;
        }
        met[at].1 = first;
        match value {
            Value::List(items) => met.extend(items.iter().map(|item| (item, 0))),
            Value::Set(fields) => met.extend(fields.values().map(|item| (item, 0))),
            _ => (),
        }
        at += 1;
    }
    Some(met)
}

/// The words of a fix; none if it has over 1,024 values, or a name that isn't among these. What is known is of the same names.
pub(crate) fn encode(names: &Names, known: &Known, fix: &Value) -> Option<Vec<u32>> {
    let met = met(fix)?;
    let (mut sought, mut words) = (Known::default(), Vec::new());
    // In reverse, so that each stands after what is within it, and the fix last.
    for &(value, first) in met.iter().rev() {
        let children = (0..met.len() - first).rev().map(|number| number as u32);
        words.push(head(value.kind(), value.count()));
        match value {
            Value::List(items) => words.extend(children.take(items.len())),
            Value::Set(fields) => {
                for (name, child) in fields.keys().zip(children) {
                    let found = known.get(name);
                    let number = found.or_else(|| sought.number(names, name).ok())?;
                    words.push(field(number, child));
                }
            }
            _ => (),
        }
    }
    Some(words)
}
