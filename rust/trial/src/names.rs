//! Names of relations, as the server gave them.

use std::collections::HashMap;
use std::fs;
use std::path::Path;

use crate::problem::{At, Outcome, Problem};

#[derive(Clone, Debug)]
pub struct Name {
    pub name: String,
    /// One of PostgreSQL's own catalogs.
    pub system: bool,
}

/// By the path of the relation's first file.
#[derive(Default)]
pub struct Names {
    by_path: HashMap<String, Name>,
}

impl Names {
    pub fn from_file(path: &Path) -> Outcome<Names> {
        let text = fs::read_to_string(path).at(path)?;
        let mut by_path = HashMap::new();
        for (number, line) in (1..).zip(text.lines()) {
            let fields: Vec<&str> = line.split('\t').collect();
            match fields[..] {
                [first, name, kind] => {
                    let name = Name { name: name.to_string(), system: kind == "system" };
                    by_path.insert(first.to_string(), name);
                }
                _ => {
                    let problem = format!("line {number} has not three fields, by tabs: mend it");
                    return Err(Problem::not_done(problem).of(path));
                }
            }
        }
        Ok(Names { by_path })
    }

    /// Relations without a name belong to a database nobody asked about; they go by their path.
    pub fn of(&self, first: &str) -> Name {
        let nameless = || Name { name: first.to_string(), system: false };
        self.by_path.get(first).cloned().unwrap_or_else(nameless)
    }
}
