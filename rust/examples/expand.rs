//! P1 of the scope paper: Expand modulo 7 of the curve 3 0 1, on the family of the rows 1 0 1 and 2 3 5. Prints 1 3 2.

fn main() -> Result<(), zahupnik::Refusal> {
    let powers = zahupnik::plain_expand(7, &[1, 2], &[0, 3], &[1, 5], &[3, 0, 1])?;
    println!("{} {} {}", powers[0], powers[1], powers[2]);
    Ok(())
}
