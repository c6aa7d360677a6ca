//! Times the Rust, this library and plain C, and writes docs/BENCHMARKS.md on standard output.

mod calls;
#[cfg(feature = "lists")]
mod lists;
mod page;
mod plain;
mod timing;

use oracle::vectors::Random;

fn main() {
    let load = page::load();
    let random = &mut Random::new(8);
    #[allow(unused_mut)]
    let mut figures = calls::all(random);
    let shares = calls::questions(&mut Random::new(3));
    #[cfg(feature = "lists")]
    figures.extend(lists::all(
        random,
        std::env::args().any(|word| word == "whole"),
    ));
    print!("{}", page::page(&figures, &shares, &load));
}
