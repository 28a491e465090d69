//! The words of the lists (oracle/README.md): numbers, names, bytes.

pub type Fault = String;

/// A line's words after the keyword, taken one by one.
pub(crate) struct Words<'a> {
    words: std::str::Split<'a, char>,
}

impl<'a> Words<'a> {
    pub(crate) fn of(line: &'a str) -> Self {
        Words { words: line.split(' ') }
    }

    pub(crate) fn word(&mut self) -> Result<&'a str, Fault> {
        match self.words.next() {
            Some("") => Err("more than one space, or one at the end".into()),
            Some(word) => Ok(word),
            None => Err("a word is missing".into()),
        }
    }

    pub(crate) fn number(&mut self) -> Result<u64, Fault> {
        let word = self.word()?;
        match word.parse::<u64>() {
            Ok(number) if number.to_string() == word => Ok(number),
            _ => Err(format!("{word:?} is no number")),
        }
    }

    /// A number that a line may lack: 0 then.
    pub(crate) fn optional_number(&mut self) -> Result<u64, Fault> {
        if self.words.clone().next().is_none() { Ok(0) } else { self.number() }
    }

    pub(crate) fn below(&mut self, limit: u64) -> Result<u64, Fault> {
        let number = self.number()?;
        if number < limit { Ok(number) } else { Err(format!("{number} is not below {limit}")) }
    }

    pub(crate) fn flag(&mut self) -> Result<bool, Fault> {
        Ok(self.below(2)? == 1)
    }

    pub(crate) fn name(&mut self) -> Result<String, Fault> {
        let word = self.word()?;
        if !word.bytes().all(|byte| byte.is_ascii_graphic()) {
            return Err(format!("{word:?} is no name of printable characters"));
        }
        Ok(if word == "-" { String::new() } else { word.into() })
    }

    pub(crate) fn optional_name(&mut self) -> Result<Option<String>, Fault> {
        let there = self.flag()?;
        let name = self.name()?;
        Ok(there.then_some(name))
    }

    pub(crate) fn names(&mut self) -> Result<Vec<String>, Fault> {
        let count = self.number()?;
        (0..count).map(|_| self.name()).collect()
    }

    pub(crate) fn numbers(&mut self) -> Result<Vec<u64>, Fault> {
        let count = self.number()?;
        (0..count).map(|_| self.number()).collect()
    }

    pub(crate) fn bytes(&mut self) -> Result<Vec<u8>, Fault> {
        let word = self.word()?;
        if word == "-" {
            return Ok(Vec::new());
        }
        let digits = |at| word.get(at..at + 2).and_then(|two| u8::from_str_radix(two, 16).ok());
        let bytes: Option<Vec<u8>> = (0..word.len()).step_by(2).map(digits).collect();
        match bytes {
            Some(bytes) if hex(&bytes) == word => Ok(bytes),
            _ => Err(format!("{word:?} is no string of bytes")),
        }
    }

    pub(crate) fn rest(&mut self) -> Vec<&'a str> {
        self.words.by_ref().collect()
    }

    pub(crate) fn end(mut self) -> Result<(), Fault> {
        match self.words.next() {
            None => Ok(()),
            Some(word) => Err(format!("{word:?} is too much")),
        }
    }
}

pub(crate) fn name(name: &str) -> String {
    if name.is_empty() { "-".into() } else { name.into() }
}

/// A flag and a name.
pub(crate) fn optional_name(there: Option<&str>) -> String {
    match there {
        Some(text) => format!("1 {}", name(text)),
        None => "0 -".into(),
    }
}

/// A size behind a row's fields; one of 0 isn't told.
pub(crate) fn size(size: u64) -> String {
    if size == 0 { String::new() } else { format!(" {size}") }
}

/// A count and that many words.
pub(crate) fn counted<T: ToString>(items: impl IntoIterator<Item = T>) -> String {
    let words: Vec<_> = items.into_iter().map(|item| item.to_string()).collect();
    let mut out = words.len().to_string();
    for word in words {
        out.push(' ');
        out.push_str(&word);
    }
    out
}

pub(crate) fn hex(bytes: &[u8]) -> String {
    if bytes.is_empty() {
        return "-".into();
    }
    bytes.iter().map(|byte| format!("{byte:02x}")).collect()
}
