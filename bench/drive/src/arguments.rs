//! The arguments of the commands.

use std::env;
use std::process;

/// Arguments as they were given, taken out one by one.
pub struct Arguments {
    left: Vec<String>,
}

impl Arguments {
    pub fn of_the_command() -> Arguments {
        Arguments { left: env::args().skip(1).collect() }
    }

    pub fn flag(&mut self, name: &str) -> bool {
        let place = self.left.iter().position(|argument| argument == name);
        place.map(|place| self.left.remove(place)).is_some()
    }

    pub fn text(&mut self, name: &str) -> Option<String> {
        let place = self.left.iter().position(|argument| argument == name)?;
        if place + 1 == self.left.len() {
            wrong(&format!("{name} needs a value"));
        }
        self.left.remove(place);
        Some(self.left.remove(place))
    }

    pub fn number(&mut self, name: &str) -> Option<u64> {
        self.text(name).map(|text| parsed(&text))
    }

    /// The first argument that no name took.
    pub fn first(&mut self) -> Option<u64> {
        if self.left.is_empty() { None } else { Some(parsed(&self.left.remove(0))) }
    }

    pub fn end(self) {
        if let Some(argument) = self.left.first() {
            wrong(&format!("{argument} is not understood"));
        }
    }
}

fn parsed(text: &str) -> u64 {
    text.replace('_', "").parse().unwrap_or_else(|_| wrong(&format!("{text} is no number")))
}

fn wrong(message: &str) -> ! {
    eprintln!("{message}");
    process::exit(2)
}
