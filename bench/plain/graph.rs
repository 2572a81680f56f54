//! Cells, lists and computeds. A change pushes marks to whatever may be out of date by it, and only what is marked is looked at again.

use crate::formulas::{evaluate, Formula, Trail};
use crate::values::{Outcome, Rows, Value};
use std::collections::BTreeSet;
use std::rc::Rc;

/// How a signal stands.
#[derive(Clone, Copy, PartialEq, Eq, PartialOrd, Ord)]
enum Mark {
    /// What it holds is what it would come to.
    Clean,
    /// Something that it rests on, but nothing that it read itself, has changed so far.
    Unsure,
    /// It has to run.
    Stale,
}

/// Who is told of a change.
#[derive(Clone, Copy, PartialEq, Eq)]
pub enum Dependant {
    Computed(usize),
    Effect(usize),
    Line { page: usize, line: u32 },
}

struct Signal {
    outcome: Outcome,
    /// A computed's formula; none of a cell or a list.
    formula: Option<Rc<Formula>>,
    mark: Mark,
    has_run: bool,
    sources: Vec<usize>,
    dependants: Vec<Dependant>,
}

/// All signals, and what their changes have marked beside them.
#[derive(Default)]
pub struct Graph {
    signals: Vec<Signal>,
    /// The effects that have to be looked at, in the order of making.
    pub marked_effects: BTreeSet<usize>,
    /// A bit for each line of each page that has to be gone over.
    pub marked_lines: Vec<u128>,
    /// How many computeds have run.
    pub runs: u64,
    stack: Vec<usize>,
    trails: Vec<Trail>,
}

impl Graph {
    fn added(&mut self, outcome: Outcome, formula: Option<Formula>, mark: Mark) -> usize {
        let formula = formula.map(Rc::new);
        let (sources, dependants) = (Vec::new(), Vec::new());
        self.signals.push(Signal { outcome, formula, mark, has_run: false, sources, dependants });
        self.signals.len() - 1
    }

    /// Makes a cell or a list, and gives its place.
    pub fn add_cell(&mut self, value: Value) -> usize {
        self.added(Ok(value), None, Mark::Clean)
    }

    /// Makes a computed, which has never run, and gives its place.
    pub fn add_computed(&mut self, formula: Formula) -> usize {
        self.added(Ok(Value::Truth(false)), Some(formula), Mark::Stale)
    }

    /// Has someone told of the changes of a signal. It is enough to be listed once.
    pub fn tell(&mut self, signal: usize, dependant: Dependant) {
        self.signals[signal].dependants.push(dependant);
    }

    /// Has someone told no more.
    pub fn tell_no_more(&mut self, signal: usize, dependant: Dependant) {
        let dependants = &mut self.signals[signal].dependants;
        if let Some(place) = dependants.iter().position(|known| *known == dependant) {
            dependants.swap_remove(place);
        }
    }

    /// What the signal comes to now.
    pub fn outcome(&mut self, signal: usize) -> &Outcome {
        if self.signals[signal].mark != Mark::Clean {
            self.settle(signal);
        }
        &self.signals[signal].outcome
    }

    /// Gives a cell another value.
    pub fn set(&mut self, cell: usize, value: Value) {
        if self.signals[cell].outcome.as_ref().ok() != Some(&value) {
            self.signals[cell].outcome = Ok(value);
            self.spread(cell);
        }
    }

    /// Edits the rows of a list, and tells of it where the edit says that it was a change.
    pub fn edit<E>(&mut self, list: usize, edit: impl FnOnce(&mut Rows) -> Result<bool, E>) -> Result<(), Option<E>> {
        let Ok(Value::Rows(rows)) = &mut self.signals[list].outcome else { return Err(None) };
        if edit(Rc::make_mut(rows)).map_err(Some)? {
            self.spread(list);
        }
        Ok(())
    }

    fn spread(&mut self, cell: usize) {
        self.mark_dependants(cell, Mark::Stale);
        while let Some(signal) = self.stack.pop() {
            self.mark_dependants(signal, Mark::Unsure);
        }
    }

    fn mark_dependants(&mut self, signal: usize, mark: Mark) {
        for place in 0..self.signals[signal].dependants.len() {
            match self.signals[signal].dependants[place] {
                Dependant::Computed(computed) => {
                    let known = &mut self.signals[computed].mark;
                    if *known == Mark::Clean {
                        self.stack.push(computed);
                    }
                    *known = mark.max(*known);
                }
                Dependant::Effect(effect) => {
                    self.marked_effects.insert(effect);
                }
                Dependant::Line { page, line } => self.marked_lines[page] |= 1 << line,
            }
        }
    }

    fn settle(&mut self, computed: usize) {
        let mut place = 0;
        while self.signals[computed].mark == Mark::Unsure && place < self.signals[computed].sources.len() {
            let source = self.signals[computed].sources[place];
            if self.signals[source].mark != Mark::Clean {
                self.settle(source);
            }
            place += 1;
        }
        if self.signals[computed].mark == Mark::Stale {
            self.run(computed);
        }
        self.signals[computed].mark = Mark::Clean;
    }

    fn run(&mut self, computed: usize) {
        let formula = Rc::clone(self.signals[computed].formula.as_ref().expect("a cell is never stale"));
        let mut trail = self.trails.pop().unwrap_or_default();
        let outcome = evaluate(&formula, self, None, &mut trail);
        self.runs += 1;
        self.keep_sources(computed, &mut trail.signals);
        trail.clear();
        self.trails.push(trail);
        let signal = &mut self.signals[computed];
        if signal.has_run && signal.outcome == outcome {
            return;
        }
        signal.has_run = true;
        signal.outcome = outcome;
        for place in 0..self.signals[computed].dependants.len() {
            if let Dependant::Computed(above) = self.signals[computed].dependants[place] {
                self.signals[above].mark = Mark::Stale;
            }
        }
    }

    /// Keeps what was read as the sources, and leaves the sources before in its place.
    fn keep_sources(&mut self, computed: usize, read: &mut Vec<usize>) {
        if self.signals[computed].sources == *read {
            return;
        }
        std::mem::swap(&mut self.signals[computed].sources, read);
        for source in read.iter() {
            self.tell_no_more(*source, Dependant::Computed(computed));
        }
        for place in 0..self.signals[computed].sources.len() {
            let source = self.signals[computed].sources[place];
            self.tell(source, Dependant::Computed(computed));
        }
    }
}
