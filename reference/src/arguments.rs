//! The arguments of the programs.

/// The program's arguments, in order, and the default where there is none.
pub fn numbers<const N: usize>(defaults: [u64; N]) -> [u64; N] {
    let mut arguments = std::env::args().skip(1);
    defaults.map(|default| match arguments.next() {
        Some(text) => text.parse().expect("a number"),
        None => default,
    })
}
