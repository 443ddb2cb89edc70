//! The names of a script.
use histar::{Category, Object};

/// What a name stands for.
#[derive(Clone, Copy, PartialEq)]
pub enum Value {
    Object(Object),
    Category(Category),
}

/// A name, with the worker that bound it and the first phase in which all know it.
struct Name<'a> {
    name: &'a str,
    value: Value,
    worker: &'a str,
    phase: usize,
}

/// The names that are bound.
#[derive(Default)]
pub struct Names<'a>(Vec<Name<'a>>);

/// A name that is not known, or known as the other kind.
pub struct Unbound<'a>(pub &'a str);

impl<'a> Names<'a> {
    pub fn bind(&mut self, name: &'a str, value: Value, worker: &'a str, phase: usize) {
        self.0.push(Name { name, value, worker, phase });
    }

    /// What a name stands for, as a worker knows it in a phase.
    pub fn value(&self, name: &str, worker: &str, phase: usize) -> Option<Value> {
        let knows = |it: &&Name| it.name == name && (it.worker == worker || it.phase <= phase);
        self.0.iter().find(knows).map(|it| it.value)
    }

    /// The first name that is bound to a value, or its number.
    pub fn said(&self, value: Value) -> String {
        let number = match value {
            Value::Object(id) => id.0,
            Value::Category(category) => category.0,
        };
        self.0.iter().find(|it| it.value == value).map_or(format!("#{number}"), |it| it.name.to_string())
    }
}
