//! The words that a command is given.

#![forbid(unsafe_code)]

/// What a command was given.
#[derive(Default)]
pub struct Arguments {
    positional: Vec<String>,
    /// Option and its value; a switch has an empty one.
    options: Vec<(String, String)>,
}

impl Arguments {
    /// Options with a value end in `=` in `known`, switches do not.
    pub fn parse(words: &[String], known: &[&str]) -> Result<Arguments, String> {
        let mut arguments = Arguments::default();
        let mut words = words.iter();
        while let Some(word) = words.next() {
            if !word.starts_with("--") {
                arguments.positional.push(word.clone());
            } else if known.contains(&word.as_str()) {
                arguments.options.push((word.clone(), String::new()));
            } else if known.contains(&format!("{word}=").as_str()) {
                let value = words.next().ok_or(format!("{word} wants a value"))?;
                arguments.options.push((word.clone(), value.clone()));
            } else {
                return Err(format!("no such option: {word}"));
            }
        }
        Ok(arguments)
    }

    pub fn option(&self, name: &str) -> Option<&str> {
        let found = self.options.iter().find(|(option, _)| option == name);
        found.map(|(_, value)| value.as_str())
    }

    pub fn has(&self, name: &str) -> bool {
        self.option(name).is_some()
    }

    pub fn seed(&self) -> Result<u64, String> {
        self.number("--seed", 1)
    }

    /// An option's number, or this one without the option.
    pub fn number(&self, name: &str, without: u64) -> Result<u64, String> {
        let Some(text) = self.option(name) else { return Ok(without) };
        text.parse().map_err(|_| format!("{name} wants a number, not {text}"))
    }

    /// An option's address, in one to four hexadecimal digits; none without the option.
    pub fn address(&self, name: &str) -> Result<Option<u16>, String> {
        let Some(text) = self.option(name) else { return Ok(None) };
        let is_short = text.len() <= 4 && text.bytes().all(|byte| byte.is_ascii_hexdigit());
        let address = u16::from_str_radix(text, 16).ok().filter(|_| is_short);
        let wrong =
            format!("{name} wants an address of one to four hexadecimal digits, not {text}");
        address.map(Some).ok_or(wrong)
    }

    /// An option's number, which may not be 0.
    pub fn positive(&self, name: &str, without: u64) -> Result<u64, String> {
        match self.number(name, without)? {
            0 => Err(format!("{name} wants a number above 0")),
            number => Ok(number),
        }
    }

    /// Exactly so many words.
    pub fn exactly<const N: usize>(&self, what: &str) -> Result<[&str; N], String> {
        let words: Vec<&str> = self.positional.iter().map(String::as_str).collect();
        words.try_into().map_err(|_| format!("wanted: {what}"))
    }

    pub fn positional(&self, most: usize) -> Result<Option<&str>, String> {
        match self.positional.get(most) {
            Some(word) => Err(format!("a word too many: {word}")),
            None => Ok(self.positional.first().map(String::as_str)),
        }
    }

    /// The one word, a number that may not be 0, or this one without the word.
    pub fn positive_word(&self, what: &str, without: u64) -> Result<u64, String> {
        let Some(text) = self.positional(1)? else { return Ok(without) };
        let number = text.parse().ok().filter(|number| *number > 0);
        number.ok_or_else(|| format!("not {what} above 0: {text}"))
    }

    pub fn count(&self) -> Result<u64, String> {
        let text = self.positional(1)?.ok_or("a number of calls is missing")?;
        text.parse().map_err(|_| format!("not a number of calls: {text}"))
    }
}

#[cfg(test)]
mod tests {
    use super::Arguments;

    /// What `--stop` with this text gives.
    fn address(text: &str) -> Result<Option<u16>, String> {
        let words = ["--stop", text].map(String::from);
        Arguments::parse(&words, &["--stop="])?.address("--stop")
    }

    #[test]
    fn addresses_have_one_to_four_digits() {
        let texts = ["0", "0000", "3", "00aB", "FFFF", "ffff"];
        let wanted = [0x0000, 0x0000, 0x0003, 0x00AB, 0xFFFF, 0xFFFF];
        assert_eq!(texts.map(address), wanted.map(|address| Ok(Some(address))));
        let others = ["", "00001", "10000", "+1", "-1", "+FFF", "0x1", "G", "1 ", " 1", "\u{661}"];
        assert!(others.into_iter().all(|text| address(text).is_err()));
    }

    #[test]
    fn without_the_option_there_is_no_address() {
        assert_eq!(Arguments::default().address("--stop"), Ok(None));
    }
}
