//! tests/vectors/ordered: the calls that put even powers first, and back.

use crate::lists::output;
use crate::vectors::{expect, expect_same, number, run, Checked, Line};
use zahupnik::lent;

fn case(given: &mut Line, wanted: &mut Line) -> Checked<Option<(String, u32)>> {
    let (call, list): (u32, Vec<u32>) = (given.number()?, given.list()?);
    let mut o = output(given.number()?);
    let (name, answer, made) = match call {
        1 => ("even_first", lent::even_first(&list, o.lend()), zahupnik::even_first(&list)),
        2 => ("even_back", lent::even_back(&list, o.lend()), zahupnik::even_back(&list)),
        _ => return Err("a call that the crate does not know".into()),
    };
    expect("the number", number(&answer), wanted.number::<u32>()?)?;
    expect("the output", o.list(), wanted.list::<u32>()?)?;
    expect("that nothing else was written", o.untouched_from(o.list().len()), true)?;
    expect_same(&made, answer.map(|()| o.list()))?;
    Ok(Some((name.into(), number(&answer))))
}

#[test]
fn ordered_lists_agree() {
    run("ordered", &["even_first", "even_back"], case);
}
