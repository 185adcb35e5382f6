//! The lines of a file that say something, one after the other.

use super::Malformed;

pub struct Lines<'a> {
    /// Those that are left, with their numbers, the next one last.
    rest: Vec<(usize, &'a str)>,
    /// The line that was read last.
    line: usize,
    /// The line behind the last.
    end: usize,
}

impl<'a> Lines<'a> {
    pub fn new(file: &'a str) -> Lines<'a> {
        let numbered = file.lines().enumerate();
        let numbered = numbered.map(|(index, line)| (index + 1, line.trim_end()));
        let mut rest: Vec<_> = numbered
            .filter(|(_, line)| !line.is_empty() && !line.starts_with('#'))
            .collect();
        rest.reverse();
        Lines {
            rest,
            line: 0,
            end: file.lines().count() + 1,
        }
    }

    /// The number of the line that was read last.
    pub fn line(&self) -> usize {
        self.line
    }

    pub fn at_end(&self) -> bool {
        self.rest.is_empty()
    }

    /// Whether the next line begins with this key.
    pub fn next_is(&self, key: &str) -> bool {
        self.rest
            .last()
            .is_some_and(|(_, text)| text.starts_with(key))
    }

    /// That the next line is not what it has to be.
    pub fn malformed(&self, expected: String) -> Malformed {
        let line = self.rest.last().map_or(self.end, |(line, _)| *line);
        Malformed { line, expected }
    }

    /// What stands behind the key on the next line, read by `read`.
    pub fn value<T>(
        &mut self,
        key: &str,
        form: &str,
        read: impl Fn(&str) -> Option<T>,
    ) -> Result<T, Malformed> {
        let malformed = self.malformed(format!("'{key}' and {form}"));
        let (line, text) = self.rest.pop().unwrap_or((self.end, ""));
        self.line = line;
        text.strip_prefix(key).and_then(read).ok_or(malformed)
    }
}
