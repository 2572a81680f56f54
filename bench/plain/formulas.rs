//! Formulas and their evaluation.

use crate::graph::Graph;
use crate::values::{Fault, Outcome, Row, Rows, Value};
use std::cmp::Ordering;
use std::rc::Rc;

/// The greatest length of a text that a formula makes.
const LONGEST_TEXT: usize = 1024;

/// What is done with two numbers.
#[derive(Clone, Copy)]
pub enum Operator {
    Add,
    Subtract,
    Multiply,
    Divide,
    Remainder,
}

/// How two values are compared.
#[derive(Clone, Copy)]
pub enum Comparison {
    Same,
    Other,
    AtMost,
    AtLeast,
    Below,
    Above,
}

/// A formula. Each distinct name has a slot.
pub enum Formula {
    Constant(Value),
    Name { slot: usize, signal: usize },
    Key,
    Field(String),
    If(Box<[Formula; 3]>),
    Or(Box<[Formula; 2]>),
    And(Box<[Formula; 2]>),
    Not(Box<Formula>),
    Compare(Comparison, Box<[Formula; 2]>),
    Join(Box<[Formula; 2]>),
    Calculate(Operator, Box<[Formula; 2]>),
    Count(Box<Formula>),
    Sum(Box<[Formula; 2]>),
    Keep(Box<[Formula; 2]>),
}

/// The row at hand.
#[derive(Clone, Copy)]
pub struct AtHand<'a> {
    pub fields: &'a [String],
    pub row: &'a Row,
}

/// What an evaluation has read: the signals in the order of first reading, and a bit for the slot of each.
#[derive(Default)]
pub struct Trail {
    pub signals: Vec<usize>,
    slots: u64,
}

impl Trail {
    fn note(&mut self, slot: usize, signal: usize) {
        if self.slots >> slot & 1 == 0 {
            self.slots |= 1 << slot;
            self.signals.push(signal);
        }
    }

    /// Nothing was read.
    pub fn clear(&mut self) {
        self.signals.clear();
        self.slots = 0;
    }
}

impl Formula {
    /// Whether it speaks of the row at hand.
    pub fn speaks_of_row(&self) -> bool {
        match self {
            Formula::Key | Formula::Field(_) => true,
            Formula::Constant(_) | Formula::Name { .. } => false,
            Formula::Not(part) | Formula::Count(part) => part.speaks_of_row(),
            Formula::If(parts) => parts.iter().any(Formula::speaks_of_row),
            Formula::Sum(parts) | Formula::Keep(parts) => parts[0].speaks_of_row(),
            Formula::Or(parts)
            | Formula::And(parts)
            | Formula::Compare(_, parts)
            | Formula::Join(parts)
            | Formula::Calculate(_, parts) => parts.iter().any(Formula::speaks_of_row),
        }
    }
}

/// Evaluates a formula. What it names is brought up to date first, as it is reached.
pub fn evaluate(formula: &Formula, graph: &mut Graph, row: Option<AtHand>, trail: &mut Trail) -> Outcome {
    match formula {
        Formula::Constant(value) => Ok(value.clone()),
        Formula::Name { slot, signal } => {
            let outcome = graph.outcome(*signal).clone();
            trail.note(*slot, *signal);
            outcome
        }
        Formula::Key => Ok(Value::Text(row.expect("a row is at hand").row.key.clone())),
        Formula::Field(field) => field_of(field, row.expect("a row is at hand")),
        Formula::If(parts) => {
            let first = evaluate(&parts[0], graph, row, trail)?.truth()?;
            evaluate(&parts[if first { 1 } else { 2 }], graph, row, trail)
        }
        Formula::Or(parts) => decide(parts, true, graph, row, trail),
        Formula::And(parts) => decide(parts, false, graph, row, trail),
        Formula::Not(part) => Ok(Value::Truth(!evaluate(part, graph, row, trail)?.truth()?)),
        Formula::Compare(comparison, parts) => {
            let (first, second) = operands(parts, graph, row, trail)?;
            compare(*comparison, &first, &second).map(Value::Truth)
        }
        Formula::Join(parts) => {
            let (first, second) = operands(parts, graph, row, trail)?;
            join(&first, &second)
        }
        Formula::Calculate(operator, parts) => {
            let (first, second) = operands(parts, graph, row, trail)?;
            calculate(*operator, first.number()?, second.number()?).map(Value::Number)
        }
        Formula::Count(rows) => {
            evaluate(rows, graph, row, trail)?.rows().map(|rows| Value::Number(rows.rows.len() as i64))
        }
        Formula::Sum(parts) => sum(parts, graph, row, trail),
        Formula::Keep(parts) => keep(parts, graph, row, trail),
    }
}

fn operands(
    parts: &[Formula; 2],
    graph: &mut Graph,
    row: Option<AtHand>,
    trail: &mut Trail,
) -> Result<(Value, Value), Fault> {
    let first = evaluate(&parts[0], graph, row, trail)?;
    let second = evaluate(&parts[1], graph, row, trail)?;
    Ok((first, second))
}

/// `or` and `and`: the second part is looked at where the first one isn't the truth that decides.
fn decide(parts: &[Formula; 2], decides: bool, graph: &mut Graph, row: Option<AtHand>, trail: &mut Trail) -> Outcome {
    if evaluate(&parts[0], graph, row, trail)?.truth()? == decides {
        return Ok(Value::Truth(decides));
    }
    evaluate(&parts[1], graph, row, trail)?.truth().map(Value::Truth)
}

fn field_of(field: &str, at_hand: AtHand) -> Outcome {
    let place = at_hand.fields.iter().position(|known| known == field).ok_or(Fault::Absent)?;
    Ok(at_hand.row.values[place].clone())
}

fn ordered(first: &Value, second: &Value) -> Result<Ordering, Fault> {
    match (first, second) {
        (Value::Number(first), Value::Number(second)) => Ok(first.cmp(second)),
        (Value::Text(first), Value::Text(second)) => Ok(first.as_bytes().cmp(second.as_bytes())),
        _ => Err(Fault::Kind),
    }
}

fn compare(comparison: Comparison, first: &Value, second: &Value) -> Result<bool, Fault> {
    if let (Value::Truth(first), Value::Truth(second)) = (first, second) {
        return match comparison {
            Comparison::Same => Ok(first == second),
            Comparison::Other => Ok(first != second),
            _ => Err(Fault::Kind),
        };
    }
    let order = ordered(first, second)?;
    Ok(match comparison {
        Comparison::Same => order.is_eq(),
        Comparison::Other => order.is_ne(),
        Comparison::AtMost => order.is_le(),
        Comparison::AtLeast => order.is_ge(),
        Comparison::Below => order.is_lt(),
        Comparison::Above => order.is_gt(),
    })
}

fn join(first: &Value, second: &Value) -> Outcome {
    let mut text = String::new();
    first.show(&mut text)?;
    second.show(&mut text)?;
    if text.len() > LONGEST_TEXT {
        return Err(Fault::Long);
    }
    Ok(Value::Text(text.into()))
}

fn calculate(operator: Operator, first: i64, second: i64) -> Result<i64, Fault> {
    let result = match operator {
        Operator::Add => first.checked_add(second),
        Operator::Subtract => first.checked_sub(second),
        Operator::Multiply => first.checked_mul(second),
        Operator::Divide | Operator::Remainder if second == 0 => return Err(Fault::Zero),
        Operator::Divide => first.checked_div(second),
        Operator::Remainder => Some(first.wrapping_rem(second)),
    };
    result.ok_or(Fault::Overflow)
}

fn sum(parts: &[Formula; 2], graph: &mut Graph, row: Option<AtHand>, trail: &mut Trail) -> Outcome {
    let rows = evaluate(&parts[0], graph, row, trail)?.rows()?;
    let mut total = 0;
    for row in &rows.rows {
        let at_hand = AtHand { fields: &rows.fields, row };
        let number = evaluate(&parts[1], graph, Some(at_hand), trail)?.number()?;
        total = calculate(Operator::Add, total, number)?;
    }
    Ok(Value::Number(total))
}

fn keep(parts: &[Formula; 2], graph: &mut Graph, row: Option<AtHand>, trail: &mut Trail) -> Outcome {
    let rows = evaluate(&parts[0], graph, row, trail)?.rows()?;
    let mut kept = Vec::new();
    for row in &rows.rows {
        let at_hand = AtHand { fields: &rows.fields, row };
        if evaluate(&parts[1], graph, Some(at_hand), trail)?.truth()? {
            kept.push(Rc::clone(row));
        }
    }
    Ok(Value::Rows(Rc::new(Rows { fields: Rc::clone(&rows.fields), rows: kept })))
}
