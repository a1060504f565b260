//! tests/vectors/prepared: steps with a prepared family, each lent the record that the one before left.

use crate::lists::{output, tally, work};
use crate::vectors::{expect, expect_same, number, run, Checked, Line};
use zahupnik::{lent, Prepared, Refusal, MOST_ENTRIES, MOST_ROWS};

const CHANGES: [&str; 4] = ["empty", "append", "drop_last", "replace"];
const OPERATIONS: [&str; 8] =
    ["plain_expand", "plain_adjoint", "plain_decompose", "norms", "tree_expand", "tree_adjoint", "tree_decompose", "moments"];

/// The record of 765 numbers.
fn record_of(numbers: &[u32]) -> Checked<Prepared> {
    let bytes: Vec<u8> = numbers.iter().flat_map(|number| number.to_ne_bytes()).collect();
    let bytes = bytes.as_slice().try_into().map_err(|_| "not as many numbers as a record has")?;
    Ok(Prepared::from_bytes(bytes))
}

/// A record as it stands on a line: m, r, and its lists, each up to its last number that is not zero.
fn next_record(line: &mut Line) -> Checked<Prepared> {
    let mut numbers: Vec<u32> = vec![line.number()?, line.number()?];
    for length in [MOST_ROWS, MOST_ROWS, MOST_ROWS, MOST_ROWS, MOST_ROWS, MOST_ENTRIES] {
        let mut list: Vec<u32> = line.list()?;
        expect("a list of a record that is too long", list.len() > length, false)?;
        list.resize(length, 0);
        numbers.append(&mut list);
    }
    record_of(&numbers)
}

fn set(record: &Prepared, place: usize, number: u32) -> Checked<Prepared> {
    let mut bytes = record.to_bytes();
    bytes.chunks_exact_mut(4).nth(place).ok_or("a place that a record does not have")?.copy_from_slice(&number.to_ne_bytes());
    Ok(Prepared::from_bytes(&bytes))
}

/// A step that is no call: what norms answers, lent no output.
fn made(record: &Prepared, wanted: &mut Line) -> Checked<()> {
    let answer = lent::prepared_norms(record, &mut []);
    expect("whether the record is right", record.is_right(), answer == Err(Refusal::OutputLength))?;
    expect("the answer of norms without an output", number(&answer), wanted.number::<u32>()?)
}

fn change(name: &str, record: &Prepared, given: &mut Line) -> Checked<Result<Prepared, Refusal>> {
    Ok(match name {
        "empty" => Prepared::empty(given.number()?),
        "append" => record.append(given.number()?, given.number()?, given.number()?),
        "drop_last" => record.drop_last(),
        _ => record.replace(given.number()?, given.number()?, given.number()?, given.number()?),
    })
}

fn operation(name: &str, record: &Prepared, given: &mut Line, wanted: &mut Line) -> Checked<u32> {
    let v: Vec<u32> = if matches!(name, "norms" | "moments") { vec![] } else { given.list()? };
    let with_work = name.starts_with("tree") || name == "moments";
    let (mut o, mut w) = (output(given.number()?), work(if with_work { given.number()? } else { 0 }));
    let (answer, made) = match name {
        "plain_expand" => (lent::prepared_plain_expand(record, &v, o.lend()), record.plain_expand(&v)),
        "plain_adjoint" => (lent::prepared_plain_adjoint(record, &v, o.lend()), record.plain_adjoint(&v)),
        "plain_decompose" => (lent::prepared_plain_decompose(record, &v, o.lend()), record.plain_decompose(&v)),
        "norms" => (lent::prepared_norms(record, o.lend()), record.norms()),
        "tree_expand" => (lent::prepared_tree_expand(record, &v, o.lend(), w.lend()), record.tree_expand(&v)),
        "tree_adjoint" => (lent::prepared_tree_adjoint(record, &v, o.lend(), w.lend()), record.tree_adjoint(&v)),
        "tree_decompose" => (lent::prepared_tree_decompose(record, &v, o.lend(), w.lend()), record.tree_decompose(&v)),
        _ => (lent::prepared_moments(record, o.lend(), w.lend()), record.moments()),
    };
    expect("the number", number(&answer), wanted.number::<u32>()?)?;
    expect("the output", o.list(), wanted.list::<u32>()?)?;
    if with_work {
        expect("zeros and sum of the working list", tally(w.list()), [wanted.number()?, wanted.number()?])?;
    }
    expect("that nothing else was written", o.untouched_from(o.list().len()) && w.untouched_from(w.list().len()), true)?;
    expect_same(&made, answer.map(|()| o.list()))?;
    Ok(number(&answer))
}

fn step(record: &mut Prepared, given: &mut Line, wanted: &mut Line) -> Checked<Option<(String, u32)>> {
    let name = given.word()?;
    let answer = match name.as_str() {
        "record" => {
            *record = next_record(given)?;
            return made(record, wanted).map(|()| None);
        }
        "set" => {
            *record = set(record, given.number()?, given.number()?)?;
            return made(record, wanted).map(|()| None);
        }
        change_name if CHANGES.contains(&change_name) => {
            let changed = change(change_name, record, given)?;
            expect("the number", number(&changed), wanted.number::<u32>()?)?;
            let left = next_record(wanted)?;
            match &changed {
                Ok(family) => expect("the record", family.to_bytes(), left.to_bytes())?,
                Err(_) if change_name == "empty" => {}
                Err(_) => expect("the record that was kept", record.to_bytes(), left.to_bytes())?,
            }
            *record = left;
            number(&changed)
        }
        operation_name if OPERATIONS.contains(&operation_name) => operation(operation_name, record, given, wanted)?,
        _ => return Err("a step that the crate does not know".into()),
    };
    Ok(Some((format!("prepared_{name}"), answer)))
}

#[test]
fn prepared_families_agree() {
    let functions: Vec<String> = CHANGES.iter().chain(&OPERATIONS).map(|name| format!("prepared_{name}")).collect();
    let functions: Vec<&str> = functions.iter().map(String::as_str).collect();
    let mut record = record_of(&[0; Prepared::BYTES / 4]).expect("a record of zeros");
    run("prepared", &functions, |given, wanted| step(&mut record, given, wanted));
}

#[test]
fn a_record_shows_little_and_has_its_size() {
    let family = Prepared::from_rows(7, &[1, 2], &[0, 3], &[1, 5]).expect("P1's family");
    assert_eq!(format!("{family:?}"), "Prepared { modulus: 7, rows: 2, .. }");
    assert_eq!(std::mem::size_of::<Prepared>(), 3060);
    assert_eq!(Prepared::BYTES, 3060);
    assert_eq!(family.to_bytes()[..12], [7, 0, 0, 0, 2, 0, 0, 0, 1, 0, 0, 0]);
    let wild = set(&family, 1, u32::MAX).expect("a place");
    assert!(family.is_right() && !wild.is_right());
    assert_eq!((wild.rows(), wild.a().len(), wild.norms()), (u32::MAX, MOST_ROWS, Err(Refusal::Record)));
}
