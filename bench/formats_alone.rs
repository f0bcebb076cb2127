//! Times the rows of formats alone.
mod format_rows;
mod formats;
#[allow(dead_code, unused_imports)] // compare.rs uses the rest
mod inputs;
#[allow(dead_code)] // the same
mod report;

fn main() {
    let mut bench = report::Bench::default();
    format_rows::add(&mut bench);
    bench.measure(3);
    bench.tell();
}
