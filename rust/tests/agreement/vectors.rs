//! The reference's vectors: a file of cases and one of what each must give, read line by line.

use crate::{header, note};
use std::collections::{BTreeMap, BTreeSet};
use std::fmt::Debug;
use std::path::PathBuf;
use std::str::FromStr;
use std::{env, fs};
use zahupnik::Refusal;

/// What a case says if it does not agree, or a file that is not of the form.
pub type Checked<T> = Result<T, String>;

/// The rest of a line.
pub struct Line<'a> {
    rest: &'a str,
}

impl Line<'_> {
    /// The next word.
    pub fn word(&mut self) -> Checked<String> {
        let (word, rest) = self.rest.split_once(' ').unwrap_or((self.rest, ""));
        self.rest = rest;
        if word.is_empty() {
            return Err("the line ends too soon".into());
        }
        Ok(word.to_string())
    }

    pub fn number<T: FromStr>(&mut self) -> Checked<T> {
        let word = self.word()?;
        word.parse().map_err(|_| format!("'{word}' is not a number that fits"))
    }

    /// A list, preceded by its length.
    pub fn list<T: FromStr>(&mut self) -> Checked<Vec<T>> {
        (0..self.number()?).map(|_: usize| self.number()).collect()
    }

    /// The quoted text that ends the line: byte 10 is \n, others that cannot be shown are \x and two hexadecimal digits.
    pub fn text(&mut self) -> Checked<Vec<u8>> {
        let quoted = self.rest.strip_prefix('"').and_then(|rest| rest.strip_suffix('"')).ok_or("no quoted text")?;
        self.rest = "";
        let mut pieces = quoted.split('\\');
        let mut bytes = pieces.next().unwrap_or_default().as_bytes().to_vec();
        for piece in pieces {
            let (byte, rest) = match piece.strip_prefix('x') {
                Some(digits) => (digits.get(..2).and_then(|digits| u8::from_str_radix(digits, 16).ok()), digits.get(2..)),
                None => (piece.strip_prefix('n').map(|_| b'\n'), piece.get(1..)),
            };
            bytes.push(byte.ok_or("a backslash before something else")?);
            bytes.extend_from_slice(rest.unwrap_or_default().as_bytes());
        }
        Ok(bytes)
    }

    pub fn end(&self) -> Checked<()> {
        expect("what is left of the line", self.rest, "")
    }
}

/// What was given is what was wanted.
pub fn expect<G: PartialEq<W> + Debug, W: Debug>(what: &str, given: G, wanted: W) -> Checked<()> {
    if given == wanted {
        return Ok(());
    }
    Err(format!("{what} is {given:?} and not {wanted:?}"))
}

/// The number of an answer: 0 if the call finished.
pub fn number<T>(answer: &Result<T, Refusal>) -> u32 {
    answer.as_ref().err().map_or(0, |refusal| refusal.number())
}

/// What the call with lists of its own gave is what the call that was lent them left; where these were too short for it, nothing is said.
pub fn expect_same<T: PartialEq + Debug>(made: &Result<Vec<T>, Refusal>, answer: Result<&[T], Refusal>) -> Checked<()> {
    match answer {
        Err(Refusal::OutputLength | Refusal::WorkTooShort) => Ok(()),
        _ => expect("what the call gives that is lent no output", made.as_deref().map_err(|&refusal| refusal), answer),
    }
}

/// The folder of the vectors; none if it is not there and nobody named it.
fn folder() -> Option<PathBuf> {
    if let Some(named) = env::var_os("ZAHUPNIK_VECTORS") {
        return Some(named.into());
    }
    Some(PathBuf::from(concat!(env!("CARGO_MANIFEST_DIR"), "/../tests/vectors"))).filter(|folder| folder.is_dir())
}

fn shortened(line: &str) -> String {
    line.chars().take(400).collect()
}

/// Runs a case for each line of NAME.in and NAME.out, which says the function and the number that it answered with. Every answer that the
/// header lists for these functions has to be met, and no other.
pub fn run(name: &str, functions: &[&str], mut case: impl FnMut(&mut Line, &mut Line) -> Checked<Option<(String, u32)>>) {
    let folder = match folder() {
        Some(folder) => folder,
        None => {
            return note(&format!("{name}: note: no ../tests/vectors here and ZAHUPNIK_VECTORS is not set, so these vectors were left out"))
        }
    };
    let read = |ending: &str| {
        let path = folder.join(format!("{name}.{ending}"));
        fs::read_to_string(&path).unwrap_or_else(|error| panic!("{}: {error}", path.display()))
    };
    let (cases, answers) = (read("in"), read("out"));
    assert!(!cases.is_empty(), "{name}.in holds no case");
    assert_eq!(cases.lines().count(), answers.lines().count(), "the lines of {name}.in and of {name}.out");
    let mut met: BTreeMap<String, BTreeSet<u32>> = BTreeMap::new();
    for (index, (given, wanted)) in cases.lines().zip(answers.lines()).enumerate() {
        let (mut input, mut output) = (Line { rest: given }, Line { rest: wanted });
        let ran = case(&mut input, &mut output).and_then(|ran| input.end().and(output.end()).map(|()| ran));
        match ran {
            Ok(Some((function, answer))) => drop(met.entry(function).or_default().insert(answer)),
            Ok(None) => {}
            Err(why) => {
                panic!("{name}, case {}: {}\n case {}\n wanted {}", index + 1, shortened(&why), shortened(given), shortened(wanted))
            }
        }
    }
    if let Some(mut listed) = header::answers() {
        listed.retain(|function, _| functions.contains(&function.as_str()));
        assert_eq!(met, listed, "{name}: the answers that were met, and those that the header lists");
    }
    let pairs: usize = met.values().map(BTreeSet::len).sum();
    note(&format!("{name}: {} cases agree, and met {pairs} pairs of a function and an answer", cases.lines().count()));
}
