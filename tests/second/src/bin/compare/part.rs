//! A part of the comparison: how many inputs it had, which numbers were given, and the first difference.
use second::requests::{next, seeded};
use std::collections::BTreeSet;

pub struct Part {
    state: u64,
    inputs: u64,
    given: BTreeSet<u8>,
    differing: u64,
    first: String,
}

impl Part {
    /// The words are others than the numbers that are drawn from the same seed.
    pub fn new(seed: u64) -> Part {
        Part {
            state: seeded(!seed),
            inputs: 0,
            given: BTreeSet::new(),
            differing: 0,
            first: String::new(),
        }
    }

    /// Any word, for memory that is lent and for what lies about it.
    pub fn word(&mut self) -> u64 {
        next(&mut self.state)
    }

    /// Takes in a call by the number that it gave, and by what differs, if anything does.
    pub fn count(&mut self, given: u8, difference: Option<String>) {
        self.inputs += 1;
        self.given.insert(given);
        self.hold(difference);
    }

    /// Takes in numbers that an input brought about beside the one that was given.
    pub fn see(&mut self, numbers: &[u8]) {
        self.given.extend(numbers);
    }

    /// Takes in what else differs after calls, if anything does.
    pub fn hold(&mut self, difference: Option<String>) {
        if let Some(difference) = difference {
            self.differing += 1;
            if self.differing == 1 {
                self.first = difference;
            }
        }
    }

    /// How many inputs were alike, or what speaks against the part. Each of these numbers is to be given by some call.
    pub fn verdict(&self, numbers: &[u8]) -> Result<String, String> {
        let (inputs, differing, first) = (self.inputs, self.differing, &self.first);
        let given: Vec<u8> = self.given.iter().copied().collect();
        if differing > 0 {
            Err(format!(
                "{differing} differences in {inputs} inputs, first {first}"
            ))
        } else if given != numbers {
            Err(format!(
                "{inputs} inputs gave {given:?}, should give {numbers:?}"
            ))
        } else {
            Ok(format!("{inputs} inputs"))
        }
    }
}
