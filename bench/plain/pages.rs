//! Pages: the nodes that a template's lines show, and the operations that lead from one state of a page to the next.

use crate::formulas::{evaluate, AtHand, Trail};
use crate::graph::Graph;
use crate::html;
use crate::templates::{Attribute, Kind, Line, Template, Watched};
use crate::values::{quote, Outcome, Row, Rows, Value};
use std::collections::HashMap;
use std::fmt::Write;
use std::rc::Rc;

/// What a line shows. Nodes are known by their places among the page's.
pub enum Part {
    Node(usize),
    Branch { shown: Option<bool>, parts: Vec<Part> },
    Rows(Vec<ShownRow>),
}

/// What a row shows, and the row as it was shown.
pub struct ShownRow {
    row: Rc<Row>,
    pub parts: Vec<Part>,
}

/// An element.
pub struct Element {
    pub name: Rc<str>,
    pub attributes: Vec<(Rc<str>, Option<String>)>,
    pub parts: Vec<Part>,
    /// The children as they were last told.
    told: Vec<usize>,
}

/// What a node is. A node that was taken out is gone until its place is used again.
pub enum Content {
    Text(String),
    Element(Element),
    Gone,
}

/// A node, whose number is 0 until it is told. So is the root's.
pub struct Node {
    number: u64,
    pub content: Content,
}

/// A page.
pub struct Page {
    pub name: String,
    template: Rc<Template>,
    pub nodes: Vec<Node>,
    free: Vec<usize>,
    next_number: u64,
}

/// The places of the nodes that the parts show.
fn shown_nodes(parts: &[Part], nodes: &mut Vec<usize>) {
    for part in parts {
        match part {
            Part::Node(node) => nodes.push(*node),
            Part::Branch { parts, .. } => shown_nodes(parts, nodes),
            Part::Rows(rows) => rows.iter().for_each(|row| shown_nodes(&row.parts, nodes)),
        }
    }
}

fn text_of(outcome: Outcome) -> String {
    let mut text = String::new();
    if let Err(fault) = outcome.and_then(|value| value.show(&mut text)) {
        text = format!("#ERR {}", fault.name());
    }
    text
}

fn attribute_of(outcome: Outcome) -> Option<String> {
    match outcome.ok()? {
        Value::Truth(true) => Some(String::new()),
        Value::Truth(false) | Value::Rows(_) => None,
        value => Some(text_of(Ok(value))),
    }
}

impl Page {
    /// A page, and the operations that make it.
    pub fn mounted(name: String, template: Rc<Template>, graph: &mut Graph) -> (Page, Vec<String>) {
        let root = Element { name: "".into(), attributes: Vec::new(), parts: Vec::new(), told: Vec::new() };
        let nodes = vec![Node { number: 0, content: Content::Element(root) }];
        let mut page = Page { name, template: Rc::clone(&template), nodes, free: Vec::new(), next_number: 1 };
        let mut update = Update::of(&mut page, graph, 0);
        let parts = update.made(&template.lines, None);
        update.page.element(0).parts = parts;
        update.parents.push(0);
        let operations = update.operations();
        (page, operations)
    }

    /// Brings the page up to date where one of the marked lines stands, and gives the operations for it.
    pub fn updated(&mut self, graph: &mut Graph, marks: u128) -> Vec<String> {
        let template = Rc::clone(&self.template);
        let mut update = Update::of(self, graph, marks);
        update.children(0, &template.lines, None);
        update.operations()
    }

    /// Appends the page as HTML.
    pub fn append_html(&self, out: &mut String) {
        if let Content::Element(root) = &self.nodes[0].content {
            html::append_parts(self, &root.parts, false, out);
        }
    }

    fn element(&mut self, node: usize) -> &mut Element {
        match &mut self.nodes[node].content {
            Content::Element(element) => element,
            _ => unreachable!("it is an element"),
        }
    }

    fn add(&mut self, content: Content) -> usize {
        let node = Node { number: 0, content };
        match self.free.pop() {
            Some(place) => {
                self.nodes[place] = node;
                place
            }
            None => {
                self.nodes.push(node);
                self.nodes.len() - 1
            }
        }
    }

    /// Appends a new node as an operation spells it, and numbers it.
    fn tell_new(&mut self, node: usize, out: &mut String) {
        self.nodes[node].number = self.next_number;
        self.next_number += 1;
        write!(out, "({} ", self.nodes[node].number).expect("a string takes what is written");
        let mut children = Vec::new();
        match &self.nodes[node].content {
            Content::Text(text) => quote(text, out),
            Content::Element(element) => {
                out.push_str(&element.name);
                for (name, value) in &element.attributes {
                    if let Some(value) = value {
                        write!(out, " {name}=").expect("a string takes what is written");
                        quote(value, out);
                    }
                }
                shown_nodes(&element.parts, &mut children);
            }
            Content::Gone => unreachable!("it is new"),
        }
        for child in &children {
            out.push(' ');
            self.tell_new(*child, out);
        }
        if !children.is_empty() {
            self.element(node).told = children;
        }
        out.push(')');
    }
}

/// The row around a line, and whether it is another than before.
type Around<'a> = Option<(AtHand<'a>, bool)>;

/// One update of a page.
struct Update<'a> {
    page: &'a mut Page,
    graph: &'a mut Graph,
    marks: u128,
    trail: Trail,
    removed: Vec<u64>,
    emptied: Vec<usize>,
    parents: Vec<usize>,
    looks: Vec<(u64, String)>,
}

impl<'a> Update<'a> {
    fn of(page: &'a mut Page, graph: &'a mut Graph, marks: u128) -> Update<'a> {
        let (removed, emptied, parents, looks) = (Vec::new(), Vec::new(), Vec::new(), Vec::new());
        Update { page, graph, marks, trail: Trail::default(), removed, emptied, parents, looks }
    }

    fn outcome(&mut self, watched: &Watched, row: Option<AtHand>) -> Outcome {
        self.trail.clear();
        evaluate(&watched.formula, self.graph, row, &mut self.trail)
    }

    fn truth(&mut self, condition: &Watched, row: Option<AtHand>) -> Option<bool> {
        self.outcome(condition, row).and_then(Value::truth).ok()
    }

    fn rows(&mut self, rows: &Watched, row: Option<AtHand>) -> Option<Rc<Rows>> {
        self.outcome(rows, row).and_then(Value::rows).ok()
    }

    fn is_asked(&self, watched: &Watched, around: Around) -> bool {
        self.marks & watched.bit != 0 || (watched.of_row && around.is_some_and(|(_, changed)| changed))
    }

    // ---- what comes

    fn made(&mut self, lines: &[Line], row: Option<AtHand>) -> Vec<Part> {
        lines.iter().map(|line| self.made_part(line, row)).collect()
    }

    fn made_part(&mut self, line: &Line, row: Option<AtHand>) -> Part {
        match &line.kind {
            Kind::Text(text) => {
                let text = text_of(self.outcome(text, row));
                Part::Node(self.page.add(Content::Text(text)))
            }
            Kind::Tag { name, attributes, lines } => {
                let attributes = attributes.iter().map(|attribute| self.made_attribute(attribute, row)).collect();
                let parts = self.made(lines, row);
                let element = Element { name: Rc::clone(name), attributes, parts, told: Vec::new() };
                Part::Node(self.page.add(Content::Element(element)))
            }
            Kind::If { condition, branches } => {
                let shown = self.truth(condition, row);
                Part::Branch { shown, parts: self.made_branch(branches, shown, row) }
            }
            Kind::Each { rows, lines } => match self.rows(rows, row) {
                Some(rows) => Part::Rows(rows.rows.iter().map(|row| self.made_row(lines, &rows, row)).collect()),
                None => Part::Rows(Vec::new()),
            },
        }
    }

    fn made_attribute(&mut self, attribute: &Attribute, row: Option<AtHand>) -> (Rc<str>, Option<String>) {
        (Rc::clone(&attribute.name), attribute_of(self.outcome(&attribute.value, row)))
    }

    fn made_branch(&mut self, branches: &[Vec<Line>; 2], shown: Option<bool>, row: Option<AtHand>) -> Vec<Part> {
        match shown {
            Some(first) => self.made(&branches[usize::from(!first)], row),
            None => Vec::new(),
        }
    }

    fn made_row(&mut self, lines: &[Line], rows: &Rows, row: &Rc<Row>) -> ShownRow {
        let parts = self.made(lines, Some(AtHand { fields: &rows.fields, row }));
        ShownRow { row: Rc::clone(row), parts }
    }

    // ---- what goes

    fn remove(&mut self, parts: &[Part], is_top: bool) {
        let mut nodes = Vec::new();
        shown_nodes(parts, &mut nodes);
        for node in nodes {
            if is_top {
                self.removed.push(self.page.nodes[node].number);
            }
            self.emptied.push(node);
            let content = std::mem::replace(&mut self.page.nodes[node].content, Content::Gone);
            if let Content::Element(element) = content {
                self.remove(&element.parts, false);
            }
        }
    }

    // ---- what stays

    fn children(&mut self, node: usize, lines: &[Line], around: Around) {
        let mut parts = std::mem::take(&mut self.page.element(node).parts);
        if self.parts(lines, &mut parts, around) {
            self.parents.push(node);
        }
        self.page.element(node).parts = parts;
    }

    /// Brings parts up to date, and says whether they may show other nodes.
    fn parts(&mut self, lines: &[Line], parts: &mut [Part], around: Around) -> bool {
        let mut changed = false;
        for (line, part) in lines.iter().zip(parts) {
            if line.bits & self.marks != 0 || (line.of_row && around.is_some_and(|(_, changed)| changed)) {
                changed |= self.part(line, part, around);
            }
        }
        changed
    }

    fn part(&mut self, line: &Line, part: &mut Part, around: Around) -> bool {
        let row = around.map(|(row, _)| row);
        match (&line.kind, part) {
            (Kind::Text(text), Part::Node(node)) => {
                let text = text_of(self.outcome(text, row));
                self.say(*node, text);
                false
            }
            (Kind::Tag { attributes, lines, .. }, Part::Node(node)) => {
                self.attributes(*node, attributes, around);
                self.children(*node, lines, around);
                false
            }
            (Kind::If { condition, branches }, Part::Branch { shown, parts }) => {
                let now = if self.is_asked(condition, around) { self.truth(condition, row) } else { *shown };
                if now == *shown {
                    return now.is_some_and(|first| self.parts(&branches[usize::from(!first)], parts, around));
                }
                self.remove(parts, true);
                *parts = self.made_branch(branches, now, row);
                *shown = now;
                true
            }
            (Kind::Each { rows, lines }, Part::Rows(shown)) => match self.rows(rows, row) {
                Some(rows) => self.each(lines, shown, &rows),
                None => {
                    let gone = std::mem::take(shown);
                    gone.iter().for_each(|row| self.remove(&row.parts, true));
                    !gone.is_empty()
                }
            },
            _ => unreachable!("a part is of its line's kind"),
        }
    }

    fn say(&mut self, node: usize, text: String) {
        let Node { number, content: Content::Text(known) } = &mut self.page.nodes[node] else {
            unreachable!("it is a text");
        };
        if *known != text {
            let mut operation = format!("text {number} ");
            quote(&text, &mut operation);
            self.looks.push((*number, operation));
            *known = text;
        }
    }

    fn attributes(&mut self, node: usize, attributes: &[Attribute], around: Around) {
        let number = self.page.nodes[node].number;
        let mut place = 0;
        for (at, attribute) in attributes.iter().enumerate() {
            if self.is_asked(&attribute.value, around) {
                let value = attribute_of(self.outcome(&attribute.value, around.map(|(row, _)| row)));
                let known = &mut self.page.element(node).attributes[at].1;
                if *known != value {
                    self.looks.push((number, attribute_operation(number, place, &attribute.name, value.as_deref())));
                    *known = value;
                }
            }
            place += usize::from(self.page.element(node).attributes[at].1.is_some());
        }
    }

    /// Brings the parts of rows up to date. Rows are known by their keys; most stand where they stood.
    fn each(&mut self, lines: &[Line], shown: &mut Vec<ShownRow>, rows: &Rows) -> bool {
        let is_same = |pair: &(&ShownRow, &Rc<Row>)| Rc::ptr_eq(&pair.0.row, pair.1) || pair.0.row.key == pair.1.key;
        let front = shown.iter().zip(&rows.rows).take_while(is_same).count();
        let room = shown.len().min(rows.rows.len()) - front;
        let back = shown.iter().rev().zip(rows.rows.iter().rev()).take(room).take_while(is_same).count();
        let (end, new_end) = (shown.len() - back, rows.rows.len() - back);
        let mut changed = front < end || front < new_end;
        if changed {
            let mut gone: HashMap<Rc<str>, ShownRow> =
                shown.drain(front..end).map(|row| (Rc::clone(&row.row.key), row)).collect();
            let now: Vec<ShownRow> = rows.rows[front..new_end]
                .iter()
                .map(|row| gone.remove(&row.key).unwrap_or_else(|| self.made_row(lines, rows, row)))
                .collect();
            shown.splice(front..front, now);
            gone.values().for_each(|row| self.remove(&row.parts, true));
        }
        for (shown, row) in shown.iter_mut().zip(&rows.rows) {
            let is_other = !Rc::ptr_eq(&shown.row, row);
            let at_hand = AtHand { fields: &rows.fields, row };
            changed |= self.parts(lines, &mut shown.parts, Some((at_hand, is_other)));
            if is_other {
                shown.row = Rc::clone(row);
            }
        }
        changed
    }

    // ---- the operations

    fn operations(mut self) -> Vec<String> {
        self.removed.sort_unstable();
        let mut operations: Vec<String> = self.removed.iter().map(|number| format!("remove {number}")).collect();
        let mut parents = std::mem::take(&mut self.parents);
        parents.sort_unstable_by_key(|parent| self.page.nodes[*parent].number);
        for parent in parents {
            self.tell_children(parent, &mut operations);
        }
        self.looks.sort_by_key(|(number, _)| *number);
        operations.extend(self.looks.drain(..).map(|(_, operation)| operation));
        self.page.free.append(&mut self.emptied);
        operations
    }

    /// Tells from left to right what comes and what moves below a node.
    fn tell_children(&mut self, parent: usize, operations: &mut Vec<String>) {
        let number = self.page.nodes[parent].number;
        let mut wanted = Vec::new();
        shown_nodes(&self.page.element(parent).parts, &mut wanted);
        let mut now = std::mem::take(&mut self.page.element(parent).told);
        now.retain(|node| !matches!(self.page.nodes[*node].content, Content::Gone));
        for (place, node) in wanted.iter().enumerate() {
            if now.get(place) == Some(node) {
                continue;
            }
            if self.page.nodes[*node].number == 0 {
                let mut operation = format!("insert {number} {place} ");
                self.page.tell_new(*node, &mut operation);
                operations.push(operation);
            } else {
                operations.push(format!("move {} {place}", self.page.nodes[*node].number));
                now.retain(|other| other != node);
            }
            now.insert(place, *node);
        }
        self.page.element(parent).told = wanted;
    }
}

fn attribute_operation(number: u64, place: usize, name: &str, value: Option<&str>) -> String {
    let Some(value) = value else { return format!("unattr {number} {name}") };
    let mut operation = format!("attr {number} {place} {name} ");
    quote(value, &mut operation);
    operation
}
