//! The words of a command line. They are bytes: a name need be no text.

use std::ffi::{OsStr, OsString};
use std::path::{Path, PathBuf};

use thonxiliko::Stores;

use crate::names::Names;
use crate::problem::{Outcome, Problem};
use crate::spelled::spelled;
use crate::verbs::{self, Verb};

/// What a verb was given.
pub struct Words {
    pub plain: Vec<PathBuf>,
    pub names: Option<PathBuf>,
    pub noon: Option<PathBuf>,
    pub stores: Stores,
    pub stopped: Option<u64>,
}

/// What a command line asks for.
pub enum Asked {
    Help(String),
    Run(&'static Verb, Words),
}

/// A command line that is not understood.
fn misused(problem: String) -> Problem {
    Problem::not_done(format!("{problem}: see `trial --help`"))
}

fn shown(word: &OsStr) -> String {
    spelled(Path::new(word))
}

impl Words {
    /// One of the plain words, of which there are as many as the verb takes.
    pub fn path(&self, at: usize) -> &Path {
        &self.plain[at]
    }

    pub fn names(&self) -> Outcome<Names> {
        self.names.as_deref().map_or(Ok(Names::default()), Names::from_file)
    }

    /// Takes one option in, with the word behind it.
    fn option(&mut self, name: &str, value: OsString) -> Outcome<()> {
        match name {
            "--names" => self.names = Some(value.into()),
            "--noon" => self.noon = Some(value.into()),
            "--stopped" => self.stopped = Some(number(Path::new(&value), name)?),
            _ => {
                self.stores = match value.to_str() {
                    Some("0") => Stores::None,
                    Some("1") => Stores::One,
                    _ => return Err(misused(format!("{name} wants 0 or 1"))),
                }
            }
        }
        Ok(())
    }
}

/// A word that must be a number.
pub fn number(word: &Path, what: &str) -> Outcome<u64> {
    let parsed = word.to_str().and_then(|text| text.parse().ok());
    parsed.ok_or_else(|| misused(format!("{what} wants a number and got {}", spelled(word))))
}

pub fn asked(given: impl IntoIterator<Item = OsString>) -> Outcome<Asked> {
    let mut given = given.into_iter();
    let first = given.next().ok_or_else(|| misused("no verb is given".to_string()))?;
    match first.to_str() {
        Some("help" | "--help" | "-h") => return Ok(Asked::Help(verbs::overview())),
        Some("--version") => {
            return Ok(Asked::Help(format!("trial {}\n", env!("CARGO_PKG_VERSION"))))
        }
        _ => {}
    }
    let verb = verbs::VERBS
        .iter()
        .find(|verb| first == *verb.name)
        .ok_or_else(|| misused(format!("{} is no verb", shown(&first))))?;
    asked_of(verb, given)
}

/// The words behind a verb: those after `--` are plain, whatever they look like.
fn asked_of(verb: &'static Verb, given: impl Iterator<Item = OsString>) -> Outcome<Asked> {
    let plain = Vec::new();
    let mut words = Words { plain, names: None, noon: None, stores: Stores::All, stopped: None };
    let (mut given, mut options) = (given, true);
    while let Some(word) = given.next() {
        let name = word.to_str().unwrap_or("").to_string();
        match name.as_str() {
            "--" if options => options = false,
            "--help" | "-h" if options => return Ok(Asked::Help(verb.help())),
            _ if options && verb.options.contains(&name.as_str()) => {
                let value = given.next();
                let value =
                    value.ok_or_else(|| misused(format!("{name} wants a word behind it")))?;
                words.option(&name, value)?;
            }
            _ if options && shown(&word).starts_with('-') => {
                return Err(misused(format!(
                    "`trial {}` has no option {}",
                    verb.name,
                    shown(&word)
                )));
            }
            // A path has one spelling: without a slash at its end, for instance.
            _ => words.plain.push(Path::new(&word).components().collect()),
        }
    }
    if !verb.takes(words.plain.len()) {
        return Err(Problem::not_done(format!("usage: {}", verb.usage())));
    }
    Ok(Asked::Run(verb, words))
}

#[cfg(test)]
mod tests {
    use super::*;
    use std::os::unix::ffi::OsStringExt;

    fn words(line: &str) -> Outcome<Asked> {
        asked(line.split(' ').map(OsString::from))
    }

    fn refused(line: &str) -> String {
        words(line).err().expect("refused").to_string()
    }

    #[test]
    fn options_belong_to_their_verbs() {
        for (line, wanted) in [
            ("check base kept --live", "`trial check` has no option --live: see `trial --help`"),
            ("rebuild a b c -x", "`trial rebuild` has no option -x: see `trial --help`"),
            (
                "read a b c 1 to --stores 1",
                "`trial read` has no option --stores: see `trial --help`",
            ),
            ("write a b c 1 d 2 --stores 2", "--stores wants 0 or 1: see `trial --help`"),
            ("sweep kept file --stopped", "--stopped wants a word behind it: see `trial --help`"),
            ("sweep k f --stopped x", "--stopped wants a number and got x: see `trial --help`"),
            ("mend kept", "mend is no verb: see `trial --help`"),
            ("check base", "usage: trial check BASE KEPT"),
            ("info", "usage: trial info KEPT [FILE]"),
        ] {
            assert_eq!(refused(line), wanted);
        }
        assert!(matches!(words("sweep kept file --stopped 2"), Ok(Asked::Run(_, words))
            if words.stopped == Some(2) && words.plain.len() == 2));
        assert!(matches!(words("compare -- --odd -names"), Ok(Asked::Run(_, words))
            if words.plain == [Path::new("--odd"), Path::new("-names")]));
        assert!(matches!(words("info kept"), Ok(Asked::Run(..))));
        assert!(matches!(words("info kept file"), Ok(Asked::Run(..))));
    }

    #[test]
    fn every_verb_has_its_help() {
        for verb in verbs::VERBS {
            let line = format!("{} --help", verb.name);
            assert!(matches!(words(&line), Ok(Asked::Help(text)) if text.contains(verb.name)));
            assert!(verbs::overview().contains(verb.line) && !verb.text.is_empty());
        }
        assert!(asked([]).is_err());
    }

    #[test]
    fn words_need_be_no_text() {
        let odd = OsString::from_vec(b"a\xFF b".to_vec());
        let given = vec!["compare".into(), odd.clone(), odd.clone()];
        assert!(matches!(asked(given), Ok(Asked::Run(_, words)) if words.plain[0] == odd));
        let problem = asked(vec![odd]).err().expect("no verb").to_string();
        assert!(problem.starts_with("a%FF%20b is no verb"), "{problem}");
    }
}
