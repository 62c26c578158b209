//! The XML that OpenPnP writes: elements, attributes, text, the five named entities, numbered characters and comments.

use crate::import::fault;
use crate::limits::{MOST_COLUMNS, MOST_ELEMENTS};
use crate::list::Fault;

/// The most letters of a text that are told with a mistake.
const MOST_WORDS: usize = 40;
/// The most elements inside one another.
const MOST_DEPTH: usize = 64;

/// An element with everything in it.
#[derive(Clone, PartialEq, Eq, Debug)]
pub struct Element {
    pub name: String,
    attributes: Vec<(String, String)>,
    pub children: Vec<Element>,
    /// Its text, without that of its children.
    pub text: String,
    /// The line that it begins on, counted from 1.
    pub line: usize,
}

impl Element {
    /// Reads a file with one element that has everything in it, or gives the first thing that is wrong.
    pub fn read(bytes: &[u8]) -> Result<Element, Fault<String>> {
        let text = std::str::from_utf8(bytes).map_err(|error| {
            let line = 1 + bytes[..error.valid_up_to()].iter().filter(|&&byte| byte == b'\n').count();
            fault(line, "not UTF-8 text; save the file as OpenPnP writes it")
        })?;
        let mut reader = Reader { rest: text.strip_prefix('\u{FEFF}').unwrap_or(text), line: 1 };
        reader.read().map_err(|what| fault(reader.line, what))
    }

    pub fn attribute(&self, name: &str) -> Option<&str> {
        self.attributes.iter().find(|(other, _)| other == name).map(|(_, value)| value.as_str())
    }

    /// The attribute that must be there.
    pub fn needed(&self, name: &str) -> Result<&str, Fault<String>> {
        let what = || fault(self.line, format!("a {} without {name}; save the file as OpenPnP writes it", self.name));
        self.attribute(name).ok_or_else(what)
    }

    /// The children of this name.
    pub fn named<'a>(&'a self, name: &'a str) -> impl Iterator<Item = &'a Element> {
        self.children.iter().filter(move |child| child.name == name)
    }
}

/// What is not read yet, and the line that it begins on.
struct Reader<'a> {
    rest: &'a str,
    line: usize,
}

impl<'a> Reader<'a> {
    fn read(&mut self) -> Result<Element, String> {
        if self.rest.starts_with("<?xml") {
            self.pass_behind("?>")?;
        }
        let mut open: Vec<Element> = Vec::new();
        let mut count = 0;
        loop {
            let text = self.pass(self.rest.find('<').unwrap_or(self.rest.len()));
            match open.last_mut() {
                Some(element) => element.text += &unescaped(text)?,
                None if text.trim().is_empty() => {}
                None => {
                    let words: String = text.trim().chars().take(MOST_WORDS).collect();
                    return Err(format!("`{words}` is in no element; save the file as XML"));
                }
            }
            if self.rest.starts_with("<!--") {
                self.pass_behind("-->")?;
                continue;
            }
            if self.rest.starts_with("<!") || self.rest.starts_with("<?") {
                return Err("a declaration, which OpenPnP does not write; take it out".into());
            }
            let closed = if self.rest.starts_with("</") {
                Some(self.end_of(open.pop())?)
            } else if self.rest.is_empty() {
                let name = open.pop().map_or("element".into(), |element| format!("`</{}>`", element.name));
                return Err(format!("no {name} up to the end; the file is cut, copy it again"));
            } else {
                count += 1;
                if count > MOST_ELEMENTS {
                    return Err(format!("more than {MOST_ELEMENTS} elements; OpenPnP writes fewer"));
                }
                let (element, is_whole) = self.element()?;
                if is_whole {
                    Some(element)
                } else {
                    open.push(element);
                    None
                }
            };
            if open.len() > MOST_DEPTH {
                return Err(format!("more than {MOST_DEPTH} elements inside one another; OpenPnP writes fewer"));
            }
            match (closed, open.last_mut()) {
                (Some(element), Some(outer)) => outer.children.push(element),
                (Some(element), None) => return self.ended().map(|()| element),
                (None, _) => {}
            }
        }
    }

    /// Goes on by so many bytes, and gives them.
    fn pass(&mut self, bytes: usize) -> &'a str {
        let (passed, rest) = self.rest.split_at(bytes);
        self.line += passed.matches('\n').count();
        self.rest = rest;
        passed
    }

    /// Goes on to behind these words, and gives what stands before them.
    fn pass_behind(&mut self, words: &str) -> Result<&'a str, String> {
        let place = self
            .rest
            .find(words)
            .ok_or_else(|| format!("no `{words}` up to the end; the file is cut, copy it again"))?;
        let passed = self.pass(place);
        self.pass(words.len());
        Ok(passed)
    }

    fn pass_space(&mut self) {
        self.pass(self.rest.len() - self.rest.trim_start().len());
    }

    /// A name, which has at least one letter.
    fn name(&mut self) -> Result<&'a str, String> {
        let is_in_name = |c: char| c.is_alphanumeric() || "-_.:".contains(c);
        let length = self.rest.find(|c| !is_in_name(c)).unwrap_or(self.rest.len());
        if length == 0 {
            let found: String = self.rest.chars().take(1).collect();
            return Err(format!("`{found}` where a name must stand; save the file as OpenPnP writes it"));
        }
        Ok(self.pass(length))
    }

    /// The beginning of an element with its attributes, and whether it ends there.
    fn element(&mut self) -> Result<(Element, bool), String> {
        let line = self.line;
        self.pass(1);
        let name = self.name()?.to_string();
        let mut attributes: Vec<(String, String)> = Vec::new();
        loop {
            self.pass_space();
            let is_whole = self.rest.starts_with("/>");
            if is_whole || self.rest.starts_with('>') {
                self.pass(if is_whole { 2 } else { 1 });
                let element = Element { name, attributes, children: Vec::new(), text: String::new(), line };
                return Ok((element, is_whole));
            }
            let (attribute, value) = self.attribute()?;
            if attributes.iter().any(|(other, _)| *other == attribute) {
                return Err(format!("a second {attribute} in {name}; take one out"));
            }
            if attributes.len() == MOST_COLUMNS {
                return Err(format!("more than {MOST_COLUMNS} attributes in {name}; OpenPnP writes fewer"));
            }
            attributes.push((attribute, value));
        }
    }

    fn attribute(&mut self) -> Result<(String, String), String> {
        let name = self.name()?.to_string();
        self.pass_space();
        if !self.rest.starts_with('=') {
            return Err(format!("no `=` behind {name}; write {name}=\"..\""));
        }
        self.pass(1);
        self.pass_space();
        let mark = if self.rest.starts_with('\'') { "'" } else { "\"" };
        if !self.rest.starts_with(mark) {
            return Err(format!("no quotation mark behind {name}=; write {name}=\"..\""));
        }
        self.pass(1);
        let value = self.pass_behind(mark)?;
        if value.contains('<') {
            return Err(format!("`<` in {name}; close its quotation mark, or write &lt;"));
        }
        // A line that ends inside of a value is a space, as XML has it.
        Ok((name, unescaped(&value.replace(['\n', '\r', '\t'], " "))?))
    }

    /// Closes this element by what stands next.
    fn end_of(&mut self, element: Option<Element>) -> Result<Element, String> {
        self.pass(2);
        let name = self.name()?;
        let element = element.ok_or_else(|| format!("`</{name}>` closes nothing; take it out"))?;
        if element.name != name {
            return Err(format!("`</{name}>` where `</{}>` must stand, for line {}", element.name, element.line));
        }
        self.pass_space();
        if !self.rest.starts_with('>') {
            return Err(format!("no `>` behind `</{name}`; write it"));
        }
        self.pass(1);
        Ok(element)
    }

    /// That only space and comments follow.
    fn ended(&mut self) -> Result<(), String> {
        loop {
            self.pass_space();
            if self.rest.is_empty() {
                return Ok(());
            }
            if !self.rest.starts_with("<!--") {
                return Err("something follows the last element; take it out".into());
            }
            self.pass_behind("-->")?;
        }
    }
}

/// The text with the characters that its entities stand for.
fn unescaped(text: &str) -> Result<String, String> {
    let mut parts = text.split('&');
    let mut plain = parts.next().unwrap_or_default().to_string();
    for part in parts {
        let (name, behind) = part.split_once(';').ok_or("`&` without `;`; write &amp; for the sign itself")?;
        plain.push(
            character_of(name).ok_or_else(|| format!("unknown entity `&{name};`; write &amp; for the sign itself"))?,
        );
        plain += behind;
    }
    match plain.chars().find(|&c| c.is_control() && !c.is_whitespace()) {
        Some(_) => Err("a control character; save the file as OpenPnP writes it".into()),
        None => Ok(plain),
    }
}

fn character_of(name: &str) -> Option<char> {
    match name {
        "amp" => Some('&'),
        "lt" => Some('<'),
        "gt" => Some('>'),
        "quot" => Some('"'),
        "apos" => Some('\''),
        _ => {
            let digits = name.strip_prefix('#')?;
            let (digits, base) = digits.strip_prefix('x').map_or((digits, 10), |digits| (digits, 16));
            let is_digits = digits.chars().all(|c| c.is_digit(base));
            u32::from_str_radix(digits, base).ok().filter(|_| is_digits).and_then(char::from_u32)
        }
    }
}
