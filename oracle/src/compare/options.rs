//! The words that a comparison is told (docs/TRACE.md, 'Sequences').

use crate::sequence::{Groups, Plan};
use crate::trace::one;

pub struct Options {
    pub plan: Plan,
    /// Sequences.
    pub count: u64,
    /// Calls after which no further sequence begins; 0 for none.
    pub total: u64,
    pub save: String,
    /// The first difference ends the run, and is not shrunk.
    pub first: bool,
    /// Too few sequences to reach every cell: an empty one is no failure.
    pub few: bool,
}

fn groups(value: &str) -> Result<Groups, String> {
    let has = |g: &str| value.split(',').any(|x| x == g);
    match value.split(',').find(|g| !matches!(*g, "script" | "radio" | "link")) {
        Some(other) => Err(format!("there is no group {other}")),
        None => Ok(Groups { radio: has("radio"), link: has("link") }),
    }
}

impl Options {
    pub fn read(mut words: impl Iterator<Item = String>) -> Result<Options, String> {
        let mut o = Options {
            plan: Plan {
                seed: 1,
                groups: Groups { radio: true, link: true },
                refusals: false,
                aged: false,
                strict: false,
                calls: 200,
                dumps: 9,
            },
            count: 2_000,
            total: 0,
            save: "target/oracle".into(),
            first: false,
            few: false,
        };
        while let Some(word) = words.next() {
            match word.as_str() {
                "first" => o.first = true,
                "few" => o.few = true,
                "refusals" => o.plan.refusals = true,
                "aged" if one::IS_THERE => o.plan.aged = true,
                "strict" if one::IS_THERE => o.plan.strict = true,
                "aged" | "strict" => return Err(format!("{word} asks for the extended Rust")),
                _ => o.set(&word, words.next().ok_or(format!("{word} needs a value"))?)?,
            }
        }
        Ok(o)
    }

    fn set(&mut self, word: &str, value: String) -> Result<(), String> {
        let number = || value.parse::<u64>().map_err(|_| format!("{word} {value} is no number"));
        match word {
            "seed" => self.plan.seed = number()?,
            "count" => self.count = number()?,
            "total" => (self.count, self.total) = (u64::MAX, number()?),
            "calls" => self.plan.calls = number()? as usize,
            "dumps" => self.plan.dumps = number()?,
            "groups" => self.plan.groups = groups(&value)?,
            "save" => self.save = value,
            _ => return Err(format!("unknown word {word}")),
        }
        Ok(())
    }
}
