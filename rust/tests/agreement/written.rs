//! tests/vectors/written: the call that writes a job, and that what it wrote is carried out.

use crate::lists::bytes;
use crate::vectors::{expect, expect_same, number, run, Checked, Line};
use zahupnik::{lent, Operation};

/// The answer text of an operation's result.
fn answer_text(operation: Operation, result: &[u32]) -> String {
    let numbers: Vec<String> = result.iter().map(u32::to_string).collect();
    format!("op={operation}\nout={}\n", numbers.join(" "))
}

fn case(given: &mut Line, wanted: &mut Line) -> Checked<Option<(String, u32)>> {
    let operation = Operation::try_from(given.number::<u32>()?);
    let m = given.number()?;
    let (a, b, c, v): (Vec<u32>, Vec<u32>, Vec<u32>, Vec<u32>) = (given.list()?, given.list()?, given.list()?, given.list()?);
    let mut o = bytes(given.number()?);
    let answer = operation.and_then(|operation| lent::write_job(m, &a, &b, &c, operation, &v, o.lend()));
    let length = answer.unwrap_or(0);
    expect("the number", number(&answer), wanted.number::<u32>()?)?;
    expect("the job text", &o.list()[..length], wanted.text()?)?;
    expect("that nothing else was written", o.untouched_from(length), true)?;
    let made = operation.and_then(|operation| zahupnik::write_job(m, &a, &b, &c, operation, &v));
    expect_same(&made, answer.map(|length| &o.list()[..length]))?;
    if let (Ok(operation), Ok(text)) = (operation, made) {
        let result = match operation {
            Operation::Expand => zahupnik::plain_expand(m, &a, &b, &c, &v),
            Operation::Adjoint => zahupnik::plain_adjoint(m, &a, &b, &c, &v),
            Operation::Decompose => zahupnik::plain_decompose(m, &a, &b, &c, &v),
            Operation::Moments => zahupnik::moments(m, &a, &b, &c),
            Operation::Norms => zahupnik::norms(m, &a, &b, &c),
        };
        let carried_out = zahupnik::convert_text(&text).map(|answer| String::from_utf8_lossy(&answer).into_owned());
        expect("what the text call answers", carried_out, result.map(|result| answer_text(operation, &result)))?;
    }
    Ok(Some(("write_job".into(), number(&answer))))
}

#[test]
fn written_jobs_agree() {
    run("written", &["write_job"], case);
}
