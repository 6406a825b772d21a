//! The fast planner, for the benchmarks, in Rust's own way: the session is changed in place, and a request is passed over
//! without a search where nothing is left for it. On the fastest road a turn searches once, for what it takes; on the proved
//! planner's own it looks for a plan with each request that passes.

mod left;
pub mod lent;
mod precise;
pub mod road;
mod rules;
pub mod search;
pub mod session;
mod writes;

/// The counters of a set, rising.
fn counters(set: u64) -> impl Iterator<Item = u8> {
    let mut rest = set;
    std::iter::from_fn(move || {
        let counter = rest.trailing_zeros() as u8;
        (rest != 0).then(|| {
            rest &= rest - 1;
            counter
        })
    })
}
