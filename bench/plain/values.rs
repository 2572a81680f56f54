//! Values, faults, and how they are written.

use std::fmt::Write;
use std::rc::Rc;

/// A row of a list: its key, and a value for each field.
#[derive(Clone, PartialEq, Eq)]
pub struct Row {
    pub key: Rc<str>,
    pub values: Vec<Value>,
}

/// The rows of a list, or those that a formula keeps of it.
#[derive(Clone, PartialEq, Eq)]
pub struct Rows {
    pub fields: Rc<[String]>,
    pub rows: Vec<Rc<Row>>,
}

/// What a cell holds and a formula comes to.
#[derive(Clone, PartialEq, Eq)]
pub enum Value {
    Truth(bool),
    Number(i64),
    Text(Rc<str>),
    Rows(Rc<Rows>),
}

/// Why a formula can't be evaluated.
#[derive(Clone, Copy, PartialEq, Eq, Debug)]
pub enum Fault {
    Overflow,
    Zero,
    Kind,
    Long,
    Absent,
}

/// What a formula comes to: a value or a fault.
pub type Outcome = Result<Value, Fault>;

impl Fault {
    /// The word by which it is told.
    pub fn name(self) -> &'static str {
        match self {
            Fault::Overflow => "overflow",
            Fault::Zero => "zero",
            Fault::Kind => "kind",
            Fault::Long => "long",
            Fault::Absent => "absent",
        }
    }
}

impl Value {
    /// The truth that it is, or the fault `kind`.
    pub fn truth(self) -> Result<bool, Fault> {
        match self {
            Value::Truth(truth) => Ok(truth),
            _ => Err(Fault::Kind),
        }
    }

    /// The number that it is, or the fault `kind`.
    pub fn number(self) -> Result<i64, Fault> {
        match self {
            Value::Number(number) => Ok(number),
            _ => Err(Fault::Kind),
        }
    }

    /// The rows that it is, or the fault `kind`.
    pub fn rows(self) -> Result<Rc<Rows>, Fault> {
        match self {
            Value::Rows(rows) => Ok(rows),
            _ => Err(Fault::Kind),
        }
    }

    /// Appends the value as a page shows it. Rows are shown by no text.
    pub fn show(&self, out: &mut String) -> Result<(), Fault> {
        match self {
            Value::Truth(truth) => out.push_str(if *truth { "true" } else { "false" }),
            Value::Number(number) => write!(out, "{number}").expect("a string takes what is written"),
            Value::Text(text) => out.push_str(text),
            Value::Rows(_) => return Err(Fault::Kind),
        }
        Ok(())
    }

    /// Appends the value as a script writes it.
    pub fn print(&self, out: &mut String) {
        match self {
            Value::Truth(_) | Value::Number(_) => self.show(out).expect("it is no rows"),
            Value::Text(text) => quote(text, out),
            Value::Rows(rows) => print_rows(rows, out),
        }
    }
}

fn print_rows(rows: &Rows, out: &mut String) {
    out.push('[');
    for (place, row) in rows.rows.iter().enumerate() {
        out.push_str(if place == 0 { "" } else { ", " });
        quote(&row.key, out);
        out.push_str(" (");
        for (field, value) in row.values.iter().enumerate() {
            out.push_str(if field == 0 { "" } else { ", " });
            value.print(out);
        }
        out.push(')');
    }
    out.push(']');
}

/// Appends a text in quotes.
pub fn quote(text: &str, out: &mut String) {
    out.push('"');
    for character in text.chars() {
        match character {
            '\\' => out.push_str("\\\\"),
            '"' => out.push_str("\\\""),
            '\n' => out.push_str("\\n"),
            '\r' => out.push_str("\\r"),
            '\t' => out.push_str("\\t"),
            other => out.push(other),
        }
    }
    out.push('"');
}
