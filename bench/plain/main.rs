//! A plain program for the commands of `live` that the rows of `scripts.sh` use: what a reader may compare `live` with.
//!
//!     rustc -O -o plain bench/plain/main.rs
//!     ./plain run < SCRIPT
//!     ./plain bench ROUNDS
//!
//! It prints the same bytes: what `get` and effects tell, the operations of pages, and their HTML. It does what a careful program does to be
//! quick: a change pushes marks to what rests on it, only marked computeds are looked at, a page is gone over where a marked line stands, and
//! rows are known by their keys.
//!
//! It does `cell`, `list`, `computed`, `set`, `insert`, `remove`, `move`, `put`, `effect` (of `log`, `set` and `when`), `template` (of `text`,
//! `tag`, `attr`, `if` and `each`), `mount`, `get`, `show` and `flush`. It leaves out owners, `dispose`, `rewire` and so cycles, host formulas,
//! equality rules, batches, watchers, events, the journal, traces, frames, `untrack`, `try`, children and cleanups of effects, and all
//! refusals: a script that has one of these ends it with a message and status 1. Nothing is proved of it, memory that runs out ends it, and
//! no limit but those of its tables is kept.

mod effects;
mod formulas;
mod graph;
mod html;
mod pages;
mod script;
mod templates;
mod values;
mod words;

use effects::Effect;
use graph::{Dependant, Graph};
use pages::Page;
use script::Script;
use std::collections::HashMap;
use std::fmt::Write as _;
use std::io::{Read as _, Write as _};
use std::rc::Rc;
use templates::Template;
use values::{Row, Rows, Value};
use words::{Read, Words};

/// A chain of computeds is gone down by calls that stand in one another.
const STACK: usize = 1 << 30;
/// So much output is collected before it is handed on.
const HANDED_ON: usize = 1 << 16;
const MOST_TURNS: usize = 100;

#[derive(Default)]
struct World {
    graph: Graph,
    signals: HashMap<String, usize>,
    effects: Vec<Effect>,
    templates: HashMap<String, Rc<Template>>,
    pages: Vec<Page>,
    out: String,
    html: String,
    operations: u64,
    /// Whether the output is only counted.
    is_quiet: bool,
}

impl World {
    fn signal(&self, name: &str) -> Read<usize> {
        self.signals.get(name).copied().ok_or_else(|| format!("there is no signal `{name}`"))
    }

    /// Does all commands, and gives their number.
    fn perform_all(&mut self, text: &str) -> Read<u64> {
        let mut script = Script::new(text);
        let mut commands = 0;
        while let Some(line) = script.command() {
            let words = Words::new(line);
            self.perform(words, &mut script).map_err(|fault| format!("line {}: {fault}", script.line))?;
            commands += 1;
            if self.out.len() >= HANDED_ON {
                self.hand_on()?;
            }
        }
        self.hand_on()?;
        Ok(commands)
    }

    fn hand_on(&mut self) -> Read<()> {
        if !self.is_quiet {
            std::io::stdout().write_all(self.out.as_bytes()).map_err(|error| error.to_string())?;
        }
        self.out.clear();
        Ok(())
    }

    fn perform(&mut self, mut words: Words, script: &mut Script) -> Read<()> {
        match words.name()? {
            "cell" => self.cell(&mut words)?,
            "list" => self.list(&mut words)?,
            "computed" => self.computed(&mut words)?,
            "set" => {
                let cell = self.signal(words.name()?)?;
                self.graph.set(cell, words.value()?);
            }
            "insert" => self.insert(&mut words)?,
            "remove" => self.remove(&mut words)?,
            "move" => self.move_row(&mut words)?,
            "put" => self.put(&mut words)?,
            "effect" => self.effect(&mut words, script)?,
            "template" => {
                let template = templates::template(script, &self.signals)?;
                self.templates.insert(words.name()?.to_string(), Rc::new(template));
            }
            "mount" => self.mount(&mut words)?,
            "get" => self.get(words.name()?)?,
            "show" => self.show(words.name()?)?,
            "flush" => self.flush()?,
            other => return Err(format!("command `{other}` isn't among those that are done here")),
        }
        words.end()
    }

    fn cell(&mut self, words: &mut Words) -> Read<()> {
        let name = words.name()?.to_string();
        words.sign("=")?;
        let cell = self.graph.add_cell(words.value()?);
        self.signals.insert(name, cell);
        Ok(())
    }

    fn computed(&mut self, words: &mut Words) -> Read<()> {
        let name = words.name()?.to_string();
        words.sign("=")?;
        let (formula, _) = words::formula(words, &self.signals)?;
        let computed = self.graph.add_computed(formula);
        self.signals.insert(name, computed);
        Ok(())
    }

    fn list(&mut self, words: &mut Words) -> Read<()> {
        let name = words.name()?.to_string();
        let fields = parenthesized(words, |words| words.name().map(str::to_string))?;
        let rows = Rows { fields: fields.into(), rows: Vec::new() };
        let list = self.graph.add_cell(Value::Rows(Rc::new(rows)));
        self.signals.insert(name, list);
        Ok(())
    }

    fn edit(&mut self, list: &str, edit: impl FnOnce(&mut Rows) -> Option<bool>) -> Read<()> {
        let signal = self.signal(list)?;
        let edited = self.graph.edit(signal, |rows| edit(rows).ok_or(()));
        edited.map_err(|_| format!("`{list}` doesn't allow this"))
    }

    fn insert(&mut self, words: &mut Words) -> Read<()> {
        let (list, place, key) = (words.name()?, words.place()?, words.key()?);
        let values = parenthesized(words, Words::value)?;
        self.edit(list, |rows| {
            let fits = place <= rows.rows.len() && values.len() == rows.fields.len() && place_of(rows, &key).is_none();
            fits.then(|| rows.rows.insert(place, Rc::new(Row { key, values })))?;
            Some(true)
        })
    }

    fn remove(&mut self, words: &mut Words) -> Read<()> {
        let (list, key) = (words.name()?, words.key()?);
        self.edit(list, |rows| {
            let place = place_of(rows, &key)?;
            rows.rows.remove(place);
            Some(true)
        })
    }

    fn move_row(&mut self, words: &mut Words) -> Read<()> {
        let (list, key, to) = (words.name()?, words.key()?, words.place()?);
        self.edit(list, |rows| {
            let from = place_of(rows, &key)?;
            (to < rows.rows.len()).then_some(())?;
            let row = rows.rows.remove(from);
            rows.rows.insert(to, row);
            Some(from != to)
        })
    }

    fn put(&mut self, words: &mut Words) -> Read<()> {
        let (list, key, field, value) = (words.name()?, words.key()?, words.name()?, words.value()?);
        self.edit(list, |rows| {
            let at = rows.fields.iter().position(|known| known == field)?;
            let place = place_of(rows, &key)?;
            if rows.rows[place].values[at] == value {
                return Some(false);
            }
            Rc::make_mut(&mut rows.rows[place]).values[at] = value;
            Some(true)
        })
    }

    fn effect(&mut self, words: &mut Words, script: &mut Script) -> Read<()> {
        let name = words.name()?.to_string();
        let body = effects::body(script, &self.signals)?;
        self.graph.marked_effects.insert(self.effects.len());
        self.effects.push(Effect::new(name, body));
        Ok(())
    }

    fn get(&mut self, name: &str) -> Read<()> {
        let signal = self.signal(name)?;
        self.out.push_str(name);
        match self.graph.outcome(signal) {
            Ok(value) => {
                self.out.push_str(" = ");
                value.print(&mut self.out);
            }
            Err(fault) => {
                self.out.push_str(" ! ");
                self.out.push_str(fault.name());
            }
        }
        self.out.push('\n');
        Ok(())
    }

    fn mount(&mut self, words: &mut Words) -> Read<()> {
        let (name, template) = (words.name()?, words.name()?);
        let template = self.templates.get(template).ok_or_else(|| format!("there is no template `{template}`"))?;
        let page = self.pages.len();
        for (names, line) in template.names.iter().zip(0..) {
            names.iter().for_each(|signal| self.graph.tell(*signal, Dependant::Line { page, line }));
        }
        self.graph.marked_lines.push(0);
        let (page, operations) = Page::mounted(name.to_string(), Rc::clone(template), &mut self.graph);
        self.pages.push(page);
        self.tell(self.pages.len() - 1, &operations);
        Ok(())
    }

    fn show(&mut self, name: &str) -> Read<()> {
        let page = self.pages.iter().position(|page| page.name == name);
        self.tell(page.ok_or_else(|| format!("there is no page `{name}`"))?, &[]);
        Ok(())
    }

    /// Tells operations on a page, and the page.
    fn tell(&mut self, page: usize, operations: &[String]) {
        let page = &self.pages[page];
        self.operations += operations.len() as u64;
        for operation in operations {
            writeln!(self.out, "op {} {operation}", page.name).expect("a string takes what is written");
        }
        self.html.clear();
        page.append_html(&mut self.html);
        writeln!(self.out, "page {} {}\n{}", page.name, self.html.len(), self.html)
            .expect("a string takes what is written");
    }

    fn flush(&mut self) -> Read<()> {
        let mut turns = 0;
        while self.turn() {
            turns += 1;
            if turns > MOST_TURNS {
                return Err("an effect is due after the last turn".to_string());
            }
        }
        for page in 0..self.pages.len() {
            let marks = std::mem::take(&mut self.graph.marked_lines[page]);
            if marks == 0 {
                continue;
            }
            let operations = self.pages[page].updated(&mut self.graph, marks);
            if !operations.is_empty() {
                self.tell(page, &operations);
            }
        }
        Ok(())
    }

    /// Runs the effects that are due, each once, in the order of making, and says whether there was one.
    fn turn(&mut self) -> bool {
        let (mut from, mut has_run) = (0, false);
        while let Some(place) = self.graph.marked_effects.range(from..).next().copied() {
            self.graph.marked_effects.remove(&place);
            let effect = &mut self.effects[place];
            if effect.is_due(&mut self.graph) {
                effect.run(place, &mut self.graph, &mut self.out);
                has_run = true;
            }
            from = place + 1;
        }
        has_run
    }
}

fn place_of(rows: &Rows, key: &str) -> Option<usize> {
    rows.rows.iter().position(|row| *row.key == *key)
}

fn parenthesized<'a, T>(words: &mut Words<'a>, mut item: impl FnMut(&mut Words<'a>) -> Read<T>) -> Read<Vec<T>> {
    let mut items = Vec::new();
    words.sign("(")?;
    while !words.takes_sign(")")? {
        if !items.is_empty() {
            words.sign(",")?;
        }
        items.push(item(words)?);
    }
    Ok(items)
}

/// The script of the workload: a cell is set in each round, a switch is turned in every third, and every fourth is flushed.
fn workload(rounds: u64) -> String {
    let mut script =
        "cell a = 0\ncell s = true\ncomputed b = a + 1\ncomputed c = a * 2\ncomputed d = if s then b + c else b\n\
                      template t\ntag @p\ntext d\nend\nend\nmount p t\n"
            .to_string();
    for round in 1..=rounds {
        writeln!(script, "set a {}", 37 * round % 100).expect("a string takes what is written");
        if round % 3 == 0 {
            writeln!(script, "set s {}", round % 6 == 0).expect("a string takes what is written");
        }
        script.push_str(if round % 4 == 0 { "flush\n" } else { "" });
    }
    script.push_str("flush\n");
    script
}

fn bench(rounds: u64) -> Read<()> {
    let mut world = World { is_quiet: true, ..World::default() };
    let commands = world.perform_all(&workload(rounds))?;
    let (runs, operations) = (world.graph.runs, world.operations);
    world.html.clear();
    world.pages[0].append_html(&mut world.html);
    println!("bench {rounds}\ncommands {commands}\nruns {runs}\nops {operations}\npage {}", world.html);
    Ok(())
}

fn run() -> Read<()> {
    let mut text = String::new();
    std::io::stdin().read_to_string(&mut text).map_err(|error| error.to_string())?;
    World::default().perform_all(&text).map(|_| ())
}

fn called() -> Read<()> {
    let words: Vec<String> = std::env::args().skip(1).collect();
    match words.iter().map(String::as_str).collect::<Vec<_>>()[..] {
        ["run"] => run(),
        ["bench", rounds] => bench(rounds.parse().map_err(|_| "a number of rounds is wanted".to_string())?),
        _ => Err("usage: plain run < SCRIPT, or plain bench ROUNDS".to_string()),
    }
}

fn main() {
    let thread = std::thread::Builder::new().stack_size(STACK).spawn(called);
    let ended = thread.expect("a thread can be made").join().expect("it ends");
    if let Err(fault) = ended {
        eprintln!("{fault}");
        std::process::exit(1);
    }
}
