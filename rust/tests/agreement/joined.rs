//! tests/vectors/joined: the calls on two channels.

use crate::lists::wide_output;
use crate::vectors::{expect, expect_same, number, run, Checked, Line};
use zahupnik::lent;

fn case(given: &mut Line, wanted: &mut Line) -> Checked<Option<(String, u32)>> {
    let (call, m1, m2): (u32, u32, u32) = (given.number()?, given.number()?, given.number()?);
    let (name, answer, made, o) = match call {
        1 => {
            let (first, second): (Vec<u32>, Vec<u32>) = (given.list()?, given.list()?);
            let mut o = wide_output(given.number()?);
            ("join", lent::join(m1, m2, &first, &second, o.lend()), zahupnik::join(m1, m2, &first, &second), o)
        }
        2 => {
            let (a, b, c, v): (Vec<i32>, Vec<i32>, Vec<i32>, Vec<i32>) = (given.list()?, given.list()?, given.list()?, given.list()?);
            let mut o = wide_output(given.number()?);
            let answer = lent::expand_join(m1, m2, &a, &b, &c, &v, o.lend());
            ("expand_join", answer, zahupnik::expand_join(m1, m2, &a, &b, &c, &v), o)
        }
        _ => return Err("a call that the crate does not know".into()),
    };
    expect("the number", number(&answer), wanted.number::<u32>()?)?;
    expect("the output", o.list(), wanted.list::<i64>()?)?;
    expect("that nothing else was written", o.untouched_from(o.list().len()), true)?;
    expect_same(&made, answer.map(|()| o.list()))?;
    Ok(Some((name.into(), number(&answer))))
}

#[test]
fn joined_channels_agree() {
    run("joined", &["join", "expand_join"], case);
}
