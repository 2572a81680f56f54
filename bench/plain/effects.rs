//! Effects: what they do, and what they have read.

use crate::formulas::{evaluate, Formula, Trail};
use crate::graph::{Dependant, Graph};
use crate::script::Script;
use crate::values::{Fault, Outcome, Value};
use crate::words::{self, Read, Words};
use std::collections::HashMap;
use std::fmt::Write;
use std::rc::Rc;

/// A line of an effect's body.
pub enum Act {
    Log(Formula),
    Set(usize, Formula),
    When(Formula, Vec<Act>),
}

/// An effect.
pub struct Effect {
    name: String,
    body: Rc<[Act]>,
    has_run: bool,
    /// What the last run has read, with what it came to.
    reads: Vec<(usize, Outcome)>,
}

enum Done {
    Log(Value),
    Set(usize, Value),
}

/// Reads the body of an effect up to its end.
pub fn body(script: &mut Script, signals: &HashMap<String, usize>) -> Read<Vec<Act>> {
    let mut acts = Vec::new();
    loop {
        let mut words = Words::new(script.next_line()?);
        acts.push(match words.name()? {
            "log" => Act::Log(words::formula(&mut words, signals)?.0),
            "set" => {
                let name = words.name()?;
                let cell = *signals.get(name).ok_or_else(|| format!("there is no `{name}`"))?;
                Act::Set(cell, words::formula(&mut words, signals)?.0)
            }
            "when" => Act::When(words::formula(&mut words, signals)?.0, body(script, signals)?),
            "end" => return Ok(acts),
            other => return Err(format!("an effect's line `{other}` isn't among those that are done here")),
        });
        words.end()?;
    }
}

impl Effect {
    /// An effect of this body, which has never run.
    pub fn new(name: String, body: Vec<Act>) -> Effect {
        Effect { name, body: body.into(), has_run: false, reads: Vec::new() }
    }

    /// Whether it has never run, or something that it read comes to something else now.
    pub fn is_due(&self, graph: &mut Graph) -> bool {
        !self.has_run || self.reads.iter().any(|(signal, outcome)| graph.outcome(*signal) != outcome)
    }

    /// Evaluates the body, and then does its acts.
    pub fn run(&mut self, place: usize, graph: &mut Graph, out: &mut String) {
        let body = Rc::clone(&self.body);
        let (mut reads, mut done) = (Vec::new(), Vec::new());
        let result = evaluated(&body, graph, &mut reads, &mut done);
        self.keep_reads(place, reads, graph);
        match result {
            Err(fault) => writeln!(out, "fail {} {}", self.name, fault.name()).expect("a string takes what is written"),
            Ok(()) => done.into_iter().for_each(|act| perform(act, graph, out)),
        }
    }

    fn keep_reads(&mut self, place: usize, reads: Vec<usize>, graph: &mut Graph) {
        let told = Dependant::Effect(place);
        if !self.reads.iter().map(|(signal, _)| signal).eq(&reads) {
            self.reads.iter().for_each(|(signal, _)| graph.tell_no_more(*signal, told));
            reads.iter().for_each(|signal| graph.tell(*signal, told));
        }
        self.reads = reads.into_iter().map(|signal| (signal, graph.outcome(signal).clone())).collect();
        self.has_run = true;
    }
}

fn evaluated(acts: &[Act], graph: &mut Graph, reads: &mut Vec<usize>, done: &mut Vec<Done>) -> Result<(), Fault> {
    for act in acts {
        match act {
            Act::Log(formula) => done.push(Done::Log(read(formula, graph, reads)?)),
            Act::Set(cell, formula) => match read(formula, graph, reads)? {
                Value::Rows(_) => return Err(Fault::Kind),
                value => done.push(Done::Set(*cell, value)),
            },
            Act::When(condition, acts) => {
                if read(condition, graph, reads)?.truth()? {
                    evaluated(acts, graph, reads, done)?;
                }
            }
        }
    }
    Ok(())
}

fn read(formula: &Formula, graph: &mut Graph, reads: &mut Vec<usize>) -> Outcome {
    let mut trail = Trail::default();
    let outcome = evaluate(formula, graph, None, &mut trail);
    for signal in trail.signals {
        if !reads.contains(&signal) {
            reads.push(signal);
        }
    }
    outcome
}

fn perform(act: Done, graph: &mut Graph, out: &mut String) {
    match act {
        Done::Log(value) => {
            out.push_str("log ");
            value.print(out);
            out.push('\n');
        }
        Done::Set(cell, value) => graph.set(cell, value),
    }
}
