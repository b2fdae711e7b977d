//! A document cut into headings, list items and paragraphs, without its examples, and the code in them.

/// What a block is.
#[derive(Debug, Clone, Copy, PartialEq, Eq)]
pub enum Form {
    /// With its level: the number of signs before it.
    Heading(usize),
    Item,
    Paragraph,
}

/// Code between two backticks; a line break in it is a space.
#[derive(Debug, Clone, PartialEq)]
pub struct Code {
    /// The line on which it begins.
    pub line: usize,
    pub text: String,
    /// What stands between the code before it, or the block's beginning, and it.
    pub before: String,
    /// What stands behind it, up to the next code or the block's end.
    pub behind: String,
    /// Whether no other code stands before it.
    pub is_first: bool,
}

impl Code {
    /// Whether the block begins with it.
    pub fn begins(&self) -> bool {
        self.is_first && self.before.is_empty()
    }
}

#[derive(Debug, Clone, PartialEq)]
pub struct Block {
    pub form: Form,
    pub line: usize,
    pub codes: Vec<Code>,
}

/// A block under construction: its form, its first line, its text without what marks the form.
type Open = (Form, usize, String);

/// Where the reading is: in the lines before the text, in an example between fences, in the text.
#[derive(Clone, Copy, PartialEq)]
enum State {
    Before,
    Fenced,
    Text,
}

/// All blocks in order. Left out are the lines between two `---` at the beginning, examples between fences, and those
/// that are indented by four spaces or a tab behind an empty line.
pub fn of(text: &str) -> Result<Vec<Block>, String> {
    let mut opened: Vec<Open> = Vec::new();
    let mut state = State::Text;
    let mut is_open = false;
    for (index, line) in text.lines().enumerate() {
        let (is_bar, is_fence) = (line == "---", line.trim_start().starts_with("```"));
        match state {
            State::Text if index == 0 && is_bar => state = State::Before,
            State::Before if is_bar => state = State::Text,
            State::Text if is_fence => (state, is_open) = (State::Fenced, false),
            State::Fenced if is_fence => state = State::Text,
            State::Text => is_open = take(&mut opened, is_open, index + 1, line),
            _ => {}
        }
    }
    match state {
        State::Text => opened.into_iter().map(block).collect(),
        _ => Err("the document ends within an example".into()),
    }
}

/// Takes a line of the text into the block that is open, or into one of its own; whether a block is open behind it.
fn take(opened: &mut Vec<Open>, is_open: bool, line: usize, text: &str) -> bool {
    if text.trim().is_empty() {
        return false;
    }
    let is_indented = text.starts_with("    ") || text.starts_with('\t');
    let words = text.trim();
    let marked = ["* ", "- "]
        .iter()
        .find_map(|mark| words.strip_prefix(mark));
    let signs = words.len() - words.trim_start_matches('#').len();
    match (opened.last_mut(), marked) {
        _ if is_indented && !is_open => return false,
        (_, Some(item)) => opened.push((Form::Item, line, item.into())),
        _ if signs > 0 => {
            let title = words[signs..].trim_start();
            opened.push((Form::Heading(signs), line, title.into()));
            return false;
        }
        (Some((_, _, block)), None) if is_open => {
            *block += "\n";
            *block += words;
        }
        _ => opened.push((Form::Paragraph, line, words.into())),
    }
    true
}

/// The code of a block; a backtick that is not closed, or code of nothing, is a fault.
fn block((form, line, text): Open) -> Result<Block, String> {
    let pieces: Vec<&str> = text.split('`').collect();
    let mut codes = Vec::new();
    let mut at = line;
    for (place, piece) in pieces.iter().enumerate() {
        if place % 2 == 1 {
            if piece.is_empty() || place + 1 == pieces.len() {
                return Err(format!("line {at}: code that is not closed or empty"));
            }
            codes.push(Code {
                line: at,
                text: piece.replace('\n', " "),
                before: pieces[place - 1].trim().into(),
                behind: pieces[place + 1].trim().into(),
                is_first: place == 1,
            });
        }
        at += piece.matches('\n').count();
    }
    Ok(Block { form, line, codes })
}
