//! tests/vectors/calls: the calls on lists, lent their lists and with lists of the crate's own.

use crate::lists::{output, tally, work};
use crate::vectors::{expect, expect_same, number, run, Checked, Line};
use zahupnik::{lent, Prepared, Refusal};

/// The functions by their numbers in the vectors, from 1.
const FUNCTIONS: [&str; 9] =
    ["plain_expand", "plain_adjoint", "plain_decompose", "norms", "invert", "tree_expand", "tree_adjoint", "tree_decompose", "moments"];

fn invert(m: u32, x: u32, wanted: &mut Line) -> Checked<u32> {
    let answer = zahupnik::invert(m, x);
    let (inverse, factor) = match answer {
        Ok(inverse) => (vec![inverse], vec![1]),
        Err(Refusal::NoInverse { factor }) => (vec![], vec![factor]),
        Err(_) => (vec![], vec![]),
    };
    expect("the number", number(&answer), wanted.number::<u32>()?)?;
    expect("the inverse", inverse, wanted.list::<u32>()?)?;
    expect("the factor", factor, wanted.list::<u32>()?)?;
    Ok(number(&answer))
}

/// A family is prepared exactly where its norms are to be had, and has them.
fn prepare(m: u32, a: &[u32], b: &[u32], c: &[u32]) -> Checked<()> {
    let norms = zahupnik::norms(m, a, b, c);
    let family = Prepared::from_rows(m, a, b, c);
    expect("the norms of the prepared family", family.as_ref().map_or_else(|refusal| Err(*refusal), Prepared::norms), norms)?;
    family.map_or(Ok(()), |family| {
        expect("the rows of the prepared family", (family.modulus(), family.a(), family.b(), family.c()), (m, a, b, c))
    })
}

fn case(given: &mut Line, wanted: &mut Line) -> Checked<Option<(String, u32)>> {
    let (call, m): (usize, u32) = (given.number()?, given.number()?);
    let (a, b, c, v): (Vec<u32>, Vec<u32>, Vec<u32>, Vec<u32>) = (given.list()?, given.list()?, given.list()?, given.list()?);
    let (mut o, mut w) = (output(given.number()?), work(given.number()?));
    let name = FUNCTIONS.get(call.wrapping_sub(1)).ok_or("a call that the crate does not know")?.to_string();
    let (answer, made) = match call {
        1 => (lent::plain_expand(m, &a, &b, &c, &v, o.lend()), zahupnik::plain_expand(m, &a, &b, &c, &v)),
        2 => (lent::plain_adjoint(m, &a, &b, &c, &v, o.lend()), zahupnik::plain_adjoint(m, &a, &b, &c, &v)),
        3 => (lent::plain_decompose(m, &a, &b, &c, &v, o.lend()), zahupnik::plain_decompose(m, &a, &b, &c, &v)),
        4 => (lent::norms(m, &a, &b, &c, o.lend()), zahupnik::norms(m, &a, &b, &c)),
        5 => return Ok(Some((name, invert(m, v[0], wanted)?))),
        6 => (lent::tree_expand(m, &a, &b, &c, &v, o.lend(), w.lend()), zahupnik::tree_expand(m, &a, &b, &c, &v)),
        7 => (lent::tree_adjoint(m, &a, &b, &c, &v, o.lend(), w.lend()), zahupnik::tree_adjoint(m, &a, &b, &c, &v)),
        8 => (lent::tree_decompose(m, &a, &b, &c, &v, o.lend(), w.lend()), zahupnik::tree_decompose(m, &a, &b, &c, &v)),
        _ => (lent::moments(m, &a, &b, &c, o.lend(), w.lend()), zahupnik::moments(m, &a, &b, &c)),
    };
    expect("the number", number(&answer), wanted.number::<u32>()?)?;
    expect("the output", o.list(), wanted.list::<u32>()?)?;
    if call > 5 {
        expect("zeros and sum of the working list", tally(w.list()), [wanted.number()?, wanted.number()?])?;
    }
    expect("that nothing else was written", o.untouched_from(o.list().len()) && w.untouched_from(w.list().len()), true)?;
    expect_same(&made, answer.map(|()| o.list()))?;
    if call == 4 {
        prepare(m, &a, &b, &c)?;
    }
    Ok(Some((name, number(&answer))))
}

#[test]
fn calls_agree() {
    run("calls", &FUNCTIONS, case);
}
