//! The words of a line, and the formulas that they spell.

use crate::formulas::{Comparison, Formula, Operator};
use crate::values::Value;
use std::collections::HashMap;
use std::rc::Rc;

/// What can't be read, for whoever wrote the script.
pub type Read<T> = Result<T, String>;

/// A word of a line.
#[derive(Clone, PartialEq)]
enum Word<'a> {
    Name(&'a str),
    Number(i64),
    Text(Rc<str>),
    Sign(&'static str),
    End,
}

const SIGNS: [&str; 17] = ["++", "==", "!=", "<=", ">=", "<", ">", "=", "+", "-", "*", "/", "%", "(", ")", ",", "."];

/// A line that is read from its front.
pub struct Words<'a> {
    line: &'a str,
    at: usize,
}

impl<'a> Words<'a> {
    /// The words of a line, from its front on.
    pub fn new(line: &'a str) -> Words<'a> {
        Words { line, at: 0 }
    }

    fn fault<T>(&self, wanted: &str) -> Read<T> {
        Err(format!("{wanted} is wanted at byte {} of `{}`", self.at, self.line))
    }

    fn rest(&self) -> &'a str {
        &self.line[self.at..]
    }

    fn skip_blanks(&mut self) {
        let rest = self.rest();
        self.at += rest.len() - rest.trim_start_matches([' ', '\t']).len();
    }

    /// A `-` is a sign of a number where a digit follows at once and no word ends before it.
    fn begins_number(&self) -> bool {
        let bytes = self.line.as_bytes();
        let behind = bytes.get(self.at + 1).is_some_and(u8::is_ascii_digit);
        let before = self.at == 0 || b" \t(,".contains(&bytes[self.at - 1]);
        bytes[self.at].is_ascii_digit() || (bytes[self.at] == b'-' && behind && before)
    }

    fn taken(&mut self, length: usize) -> &'a str {
        let word = &self.rest()[..length];
        self.at += length;
        word
    }

    fn next(&mut self) -> Read<Word<'a>> {
        self.skip_blanks();
        let rest = self.rest();
        let Some(first) = rest.bytes().next() else { return Ok(Word::End) };
        if first.is_ascii_alphabetic() || first == b'_' {
            let length = rest.bytes().take_while(|byte| byte.is_ascii_alphanumeric() || *byte == b'_').count();
            return Ok(Word::Name(self.taken(length)));
        }
        if self.begins_number() {
            let length = 1 + rest[1..].bytes().take_while(u8::is_ascii_digit).count();
            return self.taken(length).parse().map(Word::Number).or_else(|_| self.fault("a number"));
        }
        if first == b'"' {
            return self.text().map(Word::Text);
        }
        match SIGNS.iter().find(|sign| rest.starts_with(**sign)) {
            Some(sign) => {
                self.at += sign.len();
                Ok(Word::Sign(sign))
            }
            None => self.fault("a word"),
        }
    }

    fn text(&mut self) -> Read<Rc<str>> {
        let mut text = String::new();
        let mut characters = self.rest().char_indices().skip(1);
        while let Some((place, character)) = characters.next() {
            match character {
                '"' => {
                    self.at += place + 1;
                    return Ok(text.into());
                }
                '\\' => match characters.next() {
                    Some((_, 'n')) => text.push('\n'),
                    Some((_, 'r')) => text.push('\r'),
                    Some((_, 't')) => text.push('\t'),
                    Some((_, other)) => text.push(other),
                    None => break,
                },
                other => text.push(other),
            }
        }
        self.fault("the end of a text")
    }

    /// Takes the next word where it is this one.
    fn takes(&mut self, wanted: &Word) -> Read<bool> {
        let at = self.at;
        if self.next()? == *wanted {
            return Ok(true);
        }
        self.at = at;
        Ok(false)
    }

    /// Takes the next word where it is this sign.
    pub fn takes_sign(&mut self, sign: &'static str) -> Read<bool> {
        self.takes(&Word::Sign(sign))
    }

    fn takes_name(&mut self, name: &str) -> Read<bool> {
        self.takes(&Word::Name(name))
    }

    /// The next word has to be this sign.
    pub fn sign(&mut self, sign: &'static str) -> Read<()> {
        if self.takes_sign(sign)? {
            Ok(())
        } else {
            self.fault(sign)
        }
    }

    fn keyword(&mut self, name: &str) -> Read<()> {
        if self.takes_name(name)? {
            Ok(())
        } else {
            self.fault(name)
        }
    }

    /// The next word has to be a name.
    pub fn name(&mut self) -> Read<&'a str> {
        match self.next()? {
            Word::Name(name) => Ok(name),
            _ => self.fault("a name"),
        }
    }

    /// The next word has to be the name of an element or of an attribute.
    pub fn html_name(&mut self) -> Read<&'a str> {
        self.skip_blanks();
        let Some(name) = self.rest().strip_prefix('@') else { return self.fault("@") };
        let length =
            name.bytes().take_while(|byte| byte.is_ascii_lowercase() || byte.is_ascii_digit() || *byte == b'-').count();
        self.at += 1;
        Ok(self.taken(length))
    }

    /// The next word has to be a text.
    pub fn key(&mut self) -> Read<Rc<str>> {
        match self.next()? {
            Word::Text(text) => Ok(text),
            _ => self.fault("a text"),
        }
    }

    /// The next word has to be a place, counted from 0.
    pub fn place(&mut self) -> Read<usize> {
        match self.next()? {
            Word::Number(number) => usize::try_from(number).or_else(|_| self.fault("a place")),
            _ => self.fault("a place"),
        }
    }

    /// The next word has to be a value.
    pub fn value(&mut self) -> Read<Value> {
        match self.next()? {
            Word::Name("true") => Ok(Value::Truth(true)),
            Word::Name("false") => Ok(Value::Truth(false)),
            Word::Number(number) => Ok(Value::Number(number)),
            Word::Text(text) => Ok(Value::Text(text)),
            _ => self.fault("a value"),
        }
    }

    /// Nothing may be left.
    pub fn end(&mut self) -> Read<()> {
        match self.next()? {
            Word::End => Ok(()),
            _ => self.fault("the end of the line"),
        }
    }
}

/// Reads one formula, the slots of whose names are counted from 0.
struct FormulaReader<'a, 'b> {
    words: &'b mut Words<'a>,
    signals: &'b HashMap<String, usize>,
    slots: Vec<usize>,
}

/// Reads the formula at the front of the words, and gives the signals that it names, each once.
pub fn formula(words: &mut Words, signals: &HashMap<String, usize>) -> Read<(Formula, Vec<usize>)> {
    let mut reader = FormulaReader { words, signals, slots: Vec::new() };
    let formula = reader.whole()?;
    if reader.slots.len() > 64 {
        return Err("a formula has more than 64 names".to_string());
    }
    Ok((formula, reader.slots))
}

const COMPARISONS: [(&str, Comparison); 6] = [
    ("==", Comparison::Same),
    ("!=", Comparison::Other),
    ("<=", Comparison::AtMost),
    (">=", Comparison::AtLeast),
    ("<", Comparison::Below),
    (">", Comparison::Above),
];
const SUMS: [(&str, Operator); 2] = [("+", Operator::Add), ("-", Operator::Subtract)];
const PRODUCTS: [(&str, Operator); 3] =
    [("*", Operator::Multiply), ("/", Operator::Divide), ("%", Operator::Remainder)];

impl FormulaReader<'_, '_> {
    fn whole(&mut self) -> Read<Formula> {
        if !self.words.takes_name("if")? {
            return self.either();
        }
        let condition = self.whole()?;
        self.words.keyword("then")?;
        let first = self.whole()?;
        self.words.keyword("else")?;
        let second = self.whole()?;
        Ok(Formula::If(Box::new([condition, first, second])))
    }

    fn either(&mut self) -> Read<Formula> {
        let mut formula = self.both()?;
        while self.words.takes_name("or")? {
            formula = Formula::Or(Box::new([formula, self.both()?]));
        }
        Ok(formula)
    }

    fn both(&mut self) -> Read<Formula> {
        let mut formula = self.negated()?;
        while self.words.takes_name("and")? {
            formula = Formula::And(Box::new([formula, self.negated()?]));
        }
        Ok(formula)
    }

    fn negated(&mut self) -> Read<Formula> {
        if self.words.takes_name("not")? {
            return Ok(Formula::Not(Box::new(self.negated()?)));
        }
        let formula = self.joined()?;
        for (sign, comparison) in COMPARISONS {
            if self.words.takes_sign(sign)? {
                return Ok(Formula::Compare(comparison, Box::new([formula, self.joined()?])));
            }
        }
        Ok(formula)
    }

    fn joined(&mut self) -> Read<Formula> {
        let mut formula = self.summed()?;
        while self.words.takes_sign("++")? {
            formula = Formula::Join(Box::new([formula, self.summed()?]));
        }
        Ok(formula)
    }

    fn operator(&mut self, operators: &[(&'static str, Operator)]) -> Read<Option<Operator>> {
        for (sign, operator) in operators {
            if self.words.takes_sign(sign)? {
                return Ok(Some(*operator));
            }
        }
        Ok(None)
    }

    fn summed(&mut self) -> Read<Formula> {
        let mut formula = self.multiplied()?;
        while let Some(operator) = self.operator(&SUMS)? {
            formula = Formula::Calculate(operator, Box::new([formula, self.multiplied()?]));
        }
        Ok(formula)
    }

    fn multiplied(&mut self) -> Read<Formula> {
        let mut formula = self.single()?;
        while let Some(operator) = self.operator(&PRODUCTS)? {
            formula = Formula::Calculate(operator, Box::new([formula, self.single()?]));
        }
        Ok(formula)
    }

    fn single(&mut self) -> Read<Formula> {
        match self.words.next()? {
            Word::Number(number) => Ok(Formula::Constant(Value::Number(number))),
            Word::Text(text) => Ok(Formula::Constant(Value::Text(text))),
            Word::Sign("(") => {
                let formula = self.whole()?;
                self.words.sign(")")?;
                Ok(formula)
            }
            Word::Name("true") => Ok(Formula::Constant(Value::Truth(true))),
            Word::Name("false") => Ok(Formula::Constant(Value::Truth(false))),
            Word::Name("it") => self.of_row(),
            Word::Name(word @ ("count" | "sum" | "keep")) => self.over_rows(word),
            Word::Name(name) => self.named(name),
            _ => self.words.fault("a formula"),
        }
    }

    fn of_row(&mut self) -> Read<Formula> {
        self.words.sign(".")?;
        Ok(match self.words.name()? {
            "key" => Formula::Key,
            field => Formula::Field(field.to_string()),
        })
    }

    fn over_rows(&mut self, word: &str) -> Read<Formula> {
        self.words.sign("(")?;
        let rows = self.whole()?;
        let formula = if word == "count" {
            Formula::Count(Box::new(rows))
        } else {
            self.words.sign(",")?;
            let each = self.whole()?;
            if word == "sum" {
                Formula::Sum(Box::new([rows, each]))
            } else {
                Formula::Keep(Box::new([rows, each]))
            }
        };
        self.words.sign(")")?;
        Ok(formula)
    }

    fn named(&mut self, name: &str) -> Read<Formula> {
        let Some(signal) = self.signals.get(name).copied() else { return self.words.fault("the name of a signal") };
        let slot = self.slots.iter().position(|known| *known == signal).unwrap_or_else(|| {
            self.slots.push(signal);
            self.slots.len() - 1
        });
        Ok(Formula::Name { slot, signal })
    }
}
