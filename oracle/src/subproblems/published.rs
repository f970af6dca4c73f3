//! reduced_solutionset with the published sorts, made stable and with a place for NaN: what the
//! sorts by passes are held against, and what the benchmark times.

use crate::{
    solutionset::SolutionSet4,
    subproblems::candidates::{compare_ordered, compare_triples, Triple},
};

/// Given n >= 4 solutions, return the top 4 most unique
pub fn reduced_solutionset(mut solutions: Vec<Triple>) -> SolutionSet4<Triple> {
    if solutions.len() <= 4 {
        return SolutionSet4::from_vec(&solutions);
    }

    // Stable, where the published sort is not: equals keep their order.
    solutions.sort_by(compare_triples);

    let mut solutions_with_ordering = Vec::with_capacity(solutions.len());
    let mut last = f64::INFINITY;

    for solution in solutions {
        let delta = solution.0 - last;
        let ordering = 1.0 / (delta * delta);

        solutions_with_ordering.push((ordering, solution));
        last = solution.0;
    }

    solutions_with_ordering.sort_by(compare_ordered);

    SolutionSet4::Four(
        solutions_with_ordering[0].1,
        solutions_with_ordering[1].1,
        solutions_with_ordering[2].1,
        solutions_with_ordering[3].1,
    )
}
