//! The line of a place, as a diagnostic shows it.

use crate::{room, Fault};
use std::fmt::{self, Write};
use std::ops::Range;

/// At most this many bytes of a line are shown, those around the place.
const MOST: usize = 120;

/// What is shown for a part of a line that is left out.
const CUT: &str = "...";

/// Whether a character changes the order in which a line is displayed (Unicode, bidirectional
/// algorithm), so that a text can look other than it is read.
fn is_bidirectional_control(character: char) -> bool {
    matches!(
        character,
        '\u{61c}'
            | '\u{200e}'
            | '\u{200f}'
            | '\u{202a}'..='\u{202e}'
            | '\u{2066}'..='\u{2069}'
    )
}

/// Whether a character could send a command to a terminal, begin a line of a log, or change the order
/// of a line. It is printed as an escape, as the command `wat` does.
fn is_escaped(character: char) -> bool {
    character.is_control()
        || is_bidirectional_control(character)
        || matches!(character, '\u{2028}' | '\u{2029}')
}

/// Prints what is written to it with escapes: a line feed as `\n`, and an escape character as
/// `\u{1b}`.
struct Escaping<'a, 'f>(&'a mut fmt::Formatter<'f>);

impl Write for Escaping<'_, '_> {
    fn write_char(&mut self, character: char) -> fmt::Result {
        if is_escaped(character) {
            return write!(self.0, "{}", character.escape_default());
        }
        self.0.write_char(character)
    }

    fn write_str(&mut self, text: &str) -> fmt::Result {
        text.chars().try_for_each(|character| self.write_char(character))
    }
}

/// Prints something in one line, with escapes.
pub(crate) struct Escaped<T>(pub(crate) T);

impl<T: fmt::Display> fmt::Display for Escaped<T> {
    fn fmt(&self, f: &mut fmt::Formatter<'_>) -> fmt::Result {
        write!(Escaping(f), "{}", self.0)
    }
}

/// Prints a part of a line as `Escaped` does, but a tab as it is.
pub(crate) struct Shown<'a>(&'a str);

impl fmt::Display for Shown<'_> {
    fn fmt(&self, f: &mut fmt::Formatter<'_>) -> fmt::Result {
        for (index, part) in self.0.split('\t').enumerate() {
            f.write_str(if index > 0 { "\t" } else { "" })?;
            write!(f, "{}", Escaped(part))?;
        }
        Ok(())
    }
}

/// Prints a blank for each character that is written to it, and a tab for a tab.
struct Blanking<'a, 'f>(&'a mut fmt::Formatter<'f>);

impl Write for Blanking<'_, '_> {
    fn write_str(&mut self, text: &str) -> fmt::Result {
        text.chars().try_for_each(|it| self.0.write_char(if it == '\t' { it } else { ' ' }))
    }
}

/// Prints blanks as long as what `Shown` prints of a text.
pub(crate) struct Blanks<'a>(&'a str);

impl fmt::Display for Blanks<'_> {
    fn fmt(&self, f: &mut fmt::Formatter<'_>) -> fmt::Result {
        write!(Blanking(f), "{}", Shown(self.0))
    }
}

/// Prints a tilde for each character that is written to it.
struct Tildes<'a, 'f>(&'a mut fmt::Formatter<'f>);

impl Write for Tildes<'_, '_> {
    fn write_str(&mut self, text: &str) -> fmt::Result {
        text.chars().try_for_each(|_| self.0.write_char('~'))
    }
}

/// Prints a caret, and tildes below the rest of what `Shown` prints of a text.
pub(crate) struct Marks<'a>(&'a str);

impl fmt::Display for Marks<'_> {
    fn fmt(&self, f: &mut fmt::Formatter<'_>) -> fmt::Result {
        let mut characters = self.0.chars();
        f.write_char('^')?;
        if let Some(first) = characters.next().filter(|first| is_escaped(*first)) {
            first.escape_default().skip(1).try_for_each(|_| f.write_char('~'))?;
        }
        write!(Tildes(f), "{}", Shown(characters.as_str()))
    }
}

/// The line of a place, or the part of it around the place.
#[derive(Clone, Debug, PartialEq, Eq)]
pub(crate) struct Snippet {
    line: String,
    /// How many bytes of it are before the place.
    before: usize,
    /// How many bytes of it are in the token at the place.
    marked: usize,
}

impl Snippet {
    /// The line of the start of a range of a text. E12 if allocation fails.
    pub(crate) fn new(text: &str, range: Range<usize>) -> Result<Snippet, Fault> {
        let (before, after) = line_at(text, range.start);
        let half = MOST / 2;
        let first = cut_before(before, half.max(MOST.saturating_sub(after.len())));
        let last = cut_after(after, half.max(MOST.saturating_sub(before.len())));
        let head = if first.len() < before.len() { CUT } else { "" };
        let tail = if last.len() < after.len() { CUT } else { "" };
        let line = room::joined(&[head, first, last, tail])?;
        let marked = cut_after(last, range.end.saturating_sub(range.start)).len();
        Ok(Snippet { line, before: head.len() + first.len(), marked })
    }

    /// What is shown of the line.
    pub(crate) fn line(&self) -> Shown<'_> {
        Shown(&self.line)
    }

    /// Blanks below what is shown before the place.
    pub(crate) fn blanks(&self) -> Blanks<'_> {
        Blanks(&self.line[..self.before])
    }

    /// A caret and tildes below the token.
    pub(crate) fn marks(&self) -> Marks<'_> {
        Marks(&self.line[self.before..self.before + self.marked])
    }
}

/// Returns the last offset of a character that is not after this one.
fn floor(text: &str, offset: usize) -> usize {
    (0..=offset.min(text.len())).rev().find(|it| text.is_char_boundary(*it)).unwrap_or(0)
}

/// Returns the line of a text that has this offset: the part before the offset, and that from it on.
fn line_at(text: &str, offset: usize) -> (&str, &str) {
    let (before, after) = text.split_at(floor(text, offset));
    let before = before.rsplit('\n').next().unwrap_or(before);
    let after = after.split('\n').next().unwrap_or(after);
    (before, after.strip_suffix('\r').unwrap_or(after))
}

/// Returns at most this many of the last bytes of a text.
fn cut_before(text: &str, most: usize) -> &str {
    let mut start = text.len().saturating_sub(most);
    while !text.is_char_boundary(start) {
        start += 1;
    }
    &text[start..]
}

/// Returns at most this many of the first bytes of a text.
fn cut_after(text: &str, most: usize) -> &str {
    &text[..floor(text, most)]
}

#[cfg(test)]
mod tests {
    use super::Snippet;

    /// What is shown of the line of an offset, and the blanks below it.
    fn lines(text: &str, offset: usize) -> [String; 2] {
        let snippet = Snippet::new(text, offset..offset).unwrap();
        [snippet.line().to_string(), snippet.blanks().to_string()]
    }

    #[test]
    fn line_of_the_offset_is_shown() {
        assert_eq!(lines("a\nbc\nd", 3), ["bc", " "]);
        assert_eq!(lines("a\r\nb", 0), ["a", ""]);
        assert_eq!(lines("a\n", 2), ["", ""]);
        assert_eq!(lines("", 9), ["", ""]);
    }

    #[test]
    fn blanks_keep_tabs_and_count_characters() {
        assert_eq!(lines("\té\u{1b}x", 4), ["\té\\u{1b}x", "\t       "]);
        assert_eq!(lines("é", 1), ["é", ""]);
        assert_eq!(lines("\u{202e}\u{2028}", 3), ["\\u{202e}\\u{2028}", "        "]);
    }

    #[test]
    fn marks_are_below_the_token() {
        let marks = |text, range| Snippet::new(text, range).unwrap().marks().to_string();
        assert_eq!(marks("(i32.ad)", 1..7), "^~~~~~");
        assert_eq!(marks("(é)", 1..3), "^");
        assert_eq!(marks("ab\ncd", 1..4), "^");
        assert_eq!(marks("ab", 2..2), "^");
        assert_eq!(marks("\u{1b}x", 0..2), "^~~~~~~");
    }

    #[test]
    fn long_line_is_cut_around_the_offset() {
        let line = "0123456789".repeat(100);
        let [shown, blanks] = lines(&line, 500);
        assert_eq!(shown, format!("...{}...", &line[440..560]));
        assert_eq!(blanks.len(), 63);
        assert_eq!(lines(&line, 0), [format!("{}...", &line[..120]), String::new()]);
        assert_eq!(lines(&line, 1000)[0], format!("...{}", &line[880..]));
        assert_eq!(lines(&line[..120], 7), [&line[..120], "       "]);
        let wide = "é".repeat(100);
        assert_eq!(lines(&wide, 101)[0], format!("...{}...", "é".repeat(60)));
    }
}
