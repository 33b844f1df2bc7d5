//! `--name number` after the words of a command.

pub struct Arguments {
    words: Vec<String>,
    options: Vec<(String, u64)>,
}

impl Arguments {
    pub fn read(mut given: impl Iterator<Item = String>) -> Result<Self, String> {
        let (mut words, mut options) = (Vec::new(), Vec::new());
        while let Some(word) = given.next() {
            let Some(name) = word.strip_prefix("--") else {
                words.push(word);
                continue;
            };
            let number = given.next().and_then(|number| number.parse().ok());
            options.push((name.to_string(), number.ok_or(format!("{word} takes a number"))?));
        }
        Ok(Self { words, options })
    }

    pub fn words(&self) -> Vec<&str> {
        self.words.iter().map(String::as_str).collect()
    }

    pub fn number(&self, name: &str) -> Option<u64> {
        let named = self.options.iter().rfind(|(given, _)| given == name);
        named.map(|(_, number)| *number)
    }
}
