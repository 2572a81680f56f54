//! The lines of a script.

use crate::words::Read;

/// The lines that are still to be read, without those that are passed over.
pub struct Script<'a> {
    rest: &'a str,
    /// How many lines were read.
    pub line: usize,
}

fn is_passed_over(line: &str) -> bool {
    let line = line.trim_start_matches([' ', '\t']);
    line.is_empty() || line.starts_with('#')
}

impl<'a> Script<'a> {
    /// The lines of a script, from its front on.
    pub fn new(text: &'a str) -> Script<'a> {
        Script { rest: text, line: 0 }
    }

    /// The next line, which isn't passed over, and what stands behind it.
    fn parted(&self) -> Option<(&'a str, &'a str, usize)> {
        let (mut rest, mut count) = (self.rest, 0);
        while !rest.is_empty() {
            let (line, behind) = rest.split_once('\n').unwrap_or((rest, ""));
            let line = line.strip_suffix('\r').unwrap_or(line);
            count += 1;
            if !is_passed_over(line) {
                return Some((line, behind, count));
            }
            rest = behind;
        }
        None
    }

    fn take(&mut self, (line, behind, count): (&'a str, &'a str, usize)) -> &'a str {
        self.rest = behind;
        self.line += count;
        line
    }

    /// The next command's line.
    pub fn command(&mut self) -> Option<&'a str> {
        self.parted().map(|parts| self.take(parts))
    }

    /// The next line of a block.
    pub fn next_line(&mut self) -> Read<&'a str> {
        self.command().ok_or_else(|| "a block without end".to_string())
    }

    /// The next line, where this is its first word.
    pub fn next_line_of(&mut self, word: &str) -> Option<&'a str> {
        let parts = self.parted()?;
        let behind = parts.0.trim_start_matches([' ', '\t']).strip_prefix(word)?;
        if behind.starts_with([' ', '\t']) {
            Some(self.take(parts))
        } else {
            None
        }
    }
}
