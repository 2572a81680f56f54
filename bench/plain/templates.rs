//! Templates: which lines they have, and what each of them reads.

use crate::formulas::Formula;
use crate::script::Script;
use crate::words::{self, Read, Words};
use std::collections::HashMap;
use std::rc::Rc;

/// A formula of a line, with the line's bit.
pub struct Watched {
    pub formula: Formula,
    pub bit: u128,
    pub of_row: bool,
}

/// An attribute of an element.
pub struct Attribute {
    pub name: Rc<str>,
    pub value: Watched,
}

/// What a line shows.
pub enum Kind {
    Text(Watched),
    Tag { name: Rc<str>, attributes: Vec<Attribute>, lines: Vec<Line> },
    If { condition: Watched, branches: [Vec<Line>; 2] },
    Each { rows: Watched, lines: Vec<Line> },
}

/// A line, with the bits of all that stand in it, and whether one of them speaks of the row around it.
pub struct Line {
    pub kind: Kind,
    pub bits: u128,
    pub of_row: bool,
}

/// The lines of a template.
#[derive(Default)]
pub struct Template {
    pub lines: Vec<Line>,
    /// For each formula, by the place of its bit, the signals that it names.
    pub names: Vec<Vec<usize>>,
}

impl Line {
    fn new(kind: Kind) -> Line {
        let (mut bits, mut of_row) = (0, false);
        let mut join = |more: u128, more_of_row: bool| {
            bits |= more;
            of_row |= more_of_row;
        };
        match &kind {
            Kind::Text(text) => join(text.bit, text.of_row),
            Kind::Tag { attributes, lines, .. } => {
                attributes.iter().for_each(|attribute| join(attribute.value.bit, attribute.value.of_row));
                lines.iter().for_each(|line| join(line.bits, line.of_row));
            }
            Kind::If { condition, branches } => {
                join(condition.bit, condition.of_row);
                branches.iter().flatten().for_each(|line| join(line.bits, line.of_row));
            }
            Kind::Each { rows, lines } => {
                join(rows.bit, rows.of_row);
                lines.iter().for_each(|line| join(line.bits, false));
            }
        }
        Line { kind, bits, of_row }
    }
}

/// Reads the lines of a template up to its end.
pub fn template(script: &mut Script, signals: &HashMap<String, usize>) -> Read<Template> {
    let mut reader = Reader { script, signals, names: Vec::new() };
    let (lines, closed) = reader.lines()?;
    let names = reader.names;
    if closed == Closed::End {
        Ok(Template { lines, names })
    } else {
        Err("an `else` without `if`".to_string())
    }
}

#[derive(PartialEq)]
enum Closed {
    End,
    Else,
}

struct Reader<'a, 's> {
    script: &'a mut Script<'s>,
    signals: &'a HashMap<String, usize>,
    names: Vec<Vec<usize>>,
}

impl Reader<'_, '_> {
    fn watched(&mut self, words: &mut Words) -> Read<Watched> {
        let (formula, names) = words::formula(words, self.signals)?;
        words.end()?;
        if self.names.len() == 128 {
            return Err("a template has more than 128 lines".to_string());
        }
        let bit = 1 << self.names.len();
        self.names.push(names);
        Ok(Watched { bit, of_row: formula.speaks_of_row(), formula })
    }

    fn lines(&mut self) -> Read<(Vec<Line>, Closed)> {
        let mut lines = Vec::new();
        loop {
            let mut words = Words::new(self.script.next_line()?);
            let kind = match words.name()? {
                "text" => Kind::Text(self.watched(&mut words)?),
                "tag" => self.tag(&mut words)?,
                "if" => self.choice(&mut words)?,
                "each" => Kind::Each { rows: self.watched(&mut words)?, lines: self.closed_lines()? },
                "end" => return Ok((lines, Closed::End)),
                "else" => return Ok((lines, Closed::Else)),
                other => return Err(format!("a template's line `{other}` isn't among those that are done here")),
            };
            lines.push(Line::new(kind));
        }
    }

    fn closed_lines(&mut self) -> Read<Vec<Line>> {
        match self.lines()? {
            (lines, Closed::End) => Ok(lines),
            (_, Closed::Else) => Err("an `else` without `if`".to_string()),
        }
    }

    fn tag(&mut self, words: &mut Words) -> Read<Kind> {
        let name = words.html_name()?.into();
        let mut attributes = Vec::new();
        while let Some(line) = self.script.next_line_of("attr") {
            let mut words = Words::new(line);
            words.name()?;
            let name = words.html_name()?.into();
            attributes.push(Attribute { name, value: self.watched(&mut words)? });
        }
        Ok(Kind::Tag { name, attributes, lines: self.closed_lines()? })
    }

    fn choice(&mut self, words: &mut Words) -> Read<Kind> {
        let condition = self.watched(words)?;
        let (first, closed) = self.lines()?;
        let second = if closed == Closed::Else { self.closed_lines()? } else { Vec::new() };
        Ok(Kind::If { condition, branches: [first, second] })
    }
}
