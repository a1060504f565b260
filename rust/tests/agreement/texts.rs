//! tests/vectors/texts: the text call.

use crate::lists::{bytes, work};
use crate::vectors::{expect, expect_same, number, run, Checked, Line};
use zahupnik::{lent, LEAST_WORK};

fn case(given: &mut Line, wanted: &mut Line) -> Checked<Option<(String, u32)>> {
    let (mut o, mut w) = (bytes(given.number()?), work(given.number()?));
    let text = given.text()?;
    let answer = lent::convert_text(&text, o.lend(), w.lend());
    let length = answer.unwrap_or(0);
    expect("the number", number(&answer), wanted.number::<u32>()?)?;
    expect("the answer text", &o.list()[..length], wanted.text()?)?;
    let cleared = if answer.is_ok() { LEAST_WORK } else { 0 };
    expect("that the working list begins with zeros", w.list()[..cleared].iter().all(|&number| number == 0), true)?;
    expect("that nothing else was written", o.untouched_from(length) && w.untouched_from(cleared), true)?;
    expect_same(&zahupnik::convert_text(&text), answer.map(|length| &o.list()[..length]))?;
    Ok(Some(("convert_text".into(), number(&answer))))
}

#[test]
fn texts_agree() {
    run("texts", &["convert_text"], case);
}
