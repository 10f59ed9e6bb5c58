//! The words of a command line, one at a time.

/// The names of a command's options.
pub struct Names {
    /// Options that take no value.
    pub flags: &'static [&'static str],
    /// Options that take one.
    pub valued: &'static [&'static str],
}

/// What a word says, together with the word after it where that is its value.
pub enum Word {
    /// No option: an event.
    Plain(String),
    /// `--help`
    Help,
    /// `--version`
    Version,
    /// An option without a value.
    Flag(String),
    /// An option with its value.
    Valued(String, String),
}

/// Goes through the words.
pub struct Words<I> {
    rest: I,
    names: Names,
    only_plain: bool,
}

impl<I: Iterator<Item = String>> Words<I> {
    /// The words of a command whose options have these names.
    pub fn new(rest: I, names: Names) -> Words<I> {
        Words { rest, names, only_plain: false }
    }

    /// The option of this name, with what stands after `=`. Otherwise its value is the next word.
    fn option(&mut self, name: String, value: Option<String>) -> Result<Word, String> {
        match name.as_str() {
            "--help" | "-h" => Ok(Word::Help),
            "--version" | "-V" => Ok(Word::Version),
            flag if self.names.flags.contains(&flag) => match value {
                Some(_) => Err(format!("{name} takes no value")),
                None => Ok(Word::Flag(name)),
            },
            valued if self.names.valued.contains(&valued) => match value.or_else(|| self.rest.next()) {
                Some(value) => Ok(Word::Valued(name, value)),
                None => Err(format!("{name} needs a value")),
            },
            _ => Err(format!("there is no option {name}")),
        }
    }
}

impl<I: Iterator<Item = String>> Iterator for Words<I> {
    type Item = Result<Word, String>;

    fn next(&mut self) -> Option<Result<Word, String>> {
        let word = self.rest.next()?;
        if self.only_plain || word == "-" || !word.starts_with('-') {
            return Some(Ok(Word::Plain(word)));
        }
        let (name, value) = match word.split_once('=') {
            Some((name, value)) => (name.to_string(), Some(value.to_string())),
            None => (word, None),
        };
        if name == "--" {
            self.only_plain = true;
            return self.next();
        }
        Some(self.option(name, value))
    }
}
