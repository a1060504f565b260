//! The crate agrees with the C headers and with the reference's vectors.
//!
//! The headers are looked for in ../include and in ../../../include, as the crate stands in the repository and in an archive; the vectors in
//! ZAHUPNIK_VECTORS, if it is set, and otherwise in ../tests/vectors. What is not there is left out, and standard error says so; a folder
//! that ZAHUPNIK_VECTORS names has to be there.

mod calls;
mod header;
mod joined;
mod lists;
mod ordered;
mod prepared;
mod texts;
mod vectors;
mod written;

/// A line for whoever runs the tests, which the test harness would keep to itself if it were printed.
fn note(line: &str) {
    use std::io::Write;
    let _ = writeln!(std::io::stderr(), "{line}");
}
