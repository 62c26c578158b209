//! JSON, as far as plans need it: objects, lists, texts, whole numbers, true, false and null.

use std::fmt;

/// The most values inside one another.
const MOST_DEPTH: usize = 64;

#[derive(Clone, PartialEq, Eq, Debug)]
pub enum Json {
    Object(Vec<(String, Json)>),
    List(Vec<Json>),
    Text(String),
    /// Its digits.
    Number(String),
    Word(bool),
    Null,
}

impl Json {
    /// Reads a text with one value, or says what is wrong and on which line.
    pub fn read(text: &str) -> Result<Json, (usize, String)> {
        let mut reader = Reader { text, rest: text, depth: 0 };
        let value = reader.value().and_then(|value| match reader.peek() {
            None => Ok(value),
            Some(_) => Err("something follows the last bracket; take it out".into()),
        });
        let passed = text.len() - reader.rest.len();
        value.map_err(|what| (1 + text[..passed].matches('\n').count(), what))
    }

    /// What an object has under this name.
    pub fn get(&self, name: &str) -> Option<&Json> {
        match self {
            Json::Object(members) => members.iter().find(|(other, _)| other == name).map(|(_, value)| value),
            _ => None,
        }
    }

    pub fn text(&self) -> Option<&str> {
        match self {
            Json::Text(text) => Some(text),
            _ => None,
        }
    }

    pub fn digits(&self) -> Option<&str> {
        match self {
            Json::Number(digits) => Some(digits),
            _ => None,
        }
    }

    pub fn list(&self) -> &[Json] {
        match self {
            Json::List(values) => values,
            _ => &[],
        }
    }
}

/// A text in quotation marks.
pub struct Quoted<'a>(pub &'a str);

impl fmt::Display for Quoted<'_> {
    fn fmt(&self, to: &mut fmt::Formatter) -> fmt::Result {
        write!(to, "\"")?;
        for c in self.0.chars() {
            match c {
                '"' | '\\' => write!(to, "\\{c}")?,
                c if c.is_control() => write!(to, "\\u{:04x}", u32::from(c))?,
                c => write!(to, "{c}")?,
            }
        }
        write!(to, "\"")
    }
}

struct Reader<'a> {
    text: &'a str,
    rest: &'a str,
    depth: usize,
}

impl<'a> Reader<'a> {
    /// The next character that is no space.
    fn peek(&mut self) -> Option<char> {
        self.rest = self.rest.trim_start();
        self.rest.chars().next()
    }

    /// Goes on behind this character, where it is the next one.
    fn has(&mut self, c: char) -> bool {
        let is_next = self.peek() == Some(c);
        if is_next {
            self.rest = &self.rest[c.len_utf8()..];
        }
        is_next
    }

    fn needs(&mut self, c: char) -> Result<(), String> {
        match self.has(c) {
            true => Ok(()),
            false if self.rest.is_empty() => Err("the file is cut; copy it again".into()),
            false => Err(format!("no `{c}` here; save the plan as JSON")),
        }
    }

    fn value(&mut self) -> Result<Json, String> {
        self.depth += 1;
        if self.depth > MOST_DEPTH {
            return Err(format!("more than {MOST_DEPTH} values inside one another; a plan has fewer"));
        }
        let value = match self.peek() {
            Some('{') => self.object(),
            Some('[') => self.list(),
            Some('"') => self.quoted().map(Json::Text),
            _ => self.word(),
        };
        self.depth -= 1;
        value
    }

    fn object(&mut self) -> Result<Json, String> {
        self.needs('{')?;
        let mut members = Vec::new();
        if self.has('}') {
            return Ok(Json::Object(members));
        }
        loop {
            let name = self.quoted()?;
            self.needs(':')?;
            members.push((name, self.value()?));
            if !self.has(',') {
                break;
            }
        }
        self.needs('}').map(|()| Json::Object(members))
    }

    fn list(&mut self) -> Result<Json, String> {
        self.needs('[')?;
        let mut values = Vec::new();
        if self.has(']') {
            return Ok(Json::List(values));
        }
        loop {
            values.push(self.value()?);
            if !self.has(',') {
                break;
            }
        }
        self.needs(']').map(|()| Json::List(values))
    }

    fn quoted(&mut self) -> Result<String, String> {
        self.needs('"')?;
        let mut text = String::new();
        let mut characters = self.rest.char_indices();
        while let Some((place, c)) = characters.next() {
            match c {
                '"' => {
                    self.rest = &self.rest[place + 1..];
                    return Ok(text);
                }
                '\\' => match characters.next() {
                    Some((_, 'u')) => {
                        let digits: String = characters.by_ref().take(4).map(|(_, c)| c).collect();
                        let code = u32::from_str_radix(&digits, 16).ok().and_then(char::from_u32);
                        text.push(code.ok_or_else(|| format!("unknown character `\\u{digits}`; write it as it is"))?);
                    }
                    Some((_, escaped)) => text.push(match escaped {
                        'n' => '\n',
                        't' => '\t',
                        'r' => '\r',
                        'b' => '\u{8}',
                        'f' => '\u{c}',
                        other => other,
                    }),
                    None => break,
                },
                c => text.push(c),
            }
        }
        self.rest = &self.text[self.text.len()..];
        Err("a quotation mark is not closed; copy the file again".into())
    }

    fn word(&mut self) -> Result<Json, String> {
        let is_in_word = |c: char| c.is_alphanumeric() || "+-.".contains(c);
        let length = self.rest.find(|c| !is_in_word(c)).unwrap_or(self.rest.len());
        let (word, rest) = self.rest.split_at(length);
        let value = match word {
            "true" => Json::Word(true),
            "false" => Json::Word(false),
            "null" => Json::Null,
            "" if self.rest.is_empty() => return Err("the file is cut; copy it again".into()),
            "" => return Err("no value here; save the plan as JSON".into()),
            _ if word.starts_with(|c: char| c.is_ascii_digit() || c == '-') => Json::Number(word.into()),
            _ => return Err(format!("unknown word `{}`; save the plan as JSON", &word[..word.len().min(40)])),
        };
        self.rest = rest;
        Ok(value)
    }
}

#[cfg(test)]
mod tests {
    use super::*;

    #[test]
    fn values_are_read() {
        let read = |text: &str| Json::read(text).unwrap();
        let value = read(" {\"a\": [1, -2.5e3, \"x\\\"\\\\\\n\\u00e9\", true, false, null], \"b\": {}, \"c\": []}\n");
        let text = Json::Text("x\"\\\né".into());
        let number = |digits: &str| Json::Number(digits.into());
        let list = [number("1"), number("-2.5e3"), text, Json::Word(true), Json::Word(false), Json::Null];
        assert_eq!(value.get("a").map(Json::list), Some(&list[..]));
        assert_eq!((value.get("b"), value.get("d")), (Some(&Json::Object(Vec::new())), None));
        assert_eq!(read(&Quoted("a\"b\\\n\u{1b}é").to_string()), Json::Text("a\"b\\\n\u{1b}é".into()));
    }

    #[test]
    fn mistakes_have_their_lines() {
        let wrong = |text: &str| Json::read(text).unwrap_err();
        assert_eq!(wrong(""), (1, "the file is cut; copy it again".into()));
        assert_eq!(wrong("{\"a\": [1,\n2\n"), (3, "the file is cut; copy it again".into()));
        assert_eq!(wrong("{\"a\" 1}"), (1, "no `:` here; save the plan as JSON".into()));
        assert_eq!(wrong("[\n\"a"), (2, "a quotation mark is not closed; copy the file again".into()));
        assert_eq!(wrong("[\nx]"), (2, "unknown word `x`; save the plan as JSON".into()));
        assert_eq!(wrong("[,]"), (1, "no value here; save the plan as JSON".into()));
        assert_eq!(wrong("{} {}"), (1, "something follows the last bracket; take it out".into()));
        assert_eq!(wrong("\"\\ud800\""), (1, "unknown character `\\ud800`; write it as it is".into()));
        let deep = "[".repeat(1000);
        assert_eq!(wrong(&deep), (1, "more than 64 values inside one another; a plan has fewer".into()));
    }
}
