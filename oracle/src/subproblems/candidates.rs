//! The choice among subproblem 5's candidates, and its sort: document 02's request 5.

use {crate::solutionset::SolutionSet4, std::cmp::Ordering};

/// Three angles, compared by their first unequal number.
pub type Triple = (f64, f64, f64);

/// A NaN counts as above every number and as equal to a NaN; the two zeros are equal.
pub fn compare_numbers(a: f64, b: f64) -> Ordering {
    match (a.is_nan(), b.is_nan()) {
        (true, true) => Ordering::Equal,
        (true, false) => Ordering::Greater,
        (false, true) => Ordering::Less,
        (false, false) => a.partial_cmp(&b).unwrap(),
    }
}

pub fn compare_triples(a: &Triple, b: &Triple) -> Ordering {
    compare_numbers(a.0, b.0)
        .then_with(|| compare_numbers(a.1, b.1))
        .then_with(|| compare_numbers(a.2, b.2))
}

/// The ordering value first, then the triple.
pub fn compare_ordered(a: &(f64, Triple), b: &(f64, Triple)) -> Ordering {
    compare_numbers(a.0, b.0).then_with(|| compare_triples(&a.1, &b.1))
}

/// "A pass goes from the first slot to the last over neighbours and exchanges two exactly if the
/// earlier compares above the later." Says whether it exchanged any.
fn pass<T>(list: &mut [T], compare: impl Fn(&T, &T) -> Ordering) -> bool {
    let mut exchanged = false;
    for later in 1..list.len() {
        if compare(&list[later - 1], &list[later]) == Ordering::Greater {
            list.swap(later - 1, later);
            exchanged = true;
        }
    }
    exchanged
}

/// Sorts "by passes, at most one fewer than there are candidates", ended "after the first that
/// exchanges none". Gives "the number of passes made, up to and with the first that exchanges none,
/// or all if each exchanges".
pub fn sort<T>(list: &mut [T], compare: impl Fn(&T, &T) -> Ordering) -> usize {
    let most = list.len().saturating_sub(1);
    for made in 1..=most {
        if !pass(list, &compare) {
            return made;
        }
    }
    most
}

/// What is kept of a list of candidates, and the passes of the two sorts.
#[derive(Debug, PartialEq)]
pub struct Reduced {
    pub kept: SolutionSet4<Triple>,
    pub first_sort: usize,
    pub second_sort: usize,
}

/// Given n >= 4 solutions, return the top 4 most unique
pub fn reduced_with_passes(mut solutions: Vec<Triple>) -> Reduced {
    if solutions.len() <= 4 {
        return Reduced {
            kept: SolutionSet4::from_vec(&solutions),
            first_sort: 0,
            second_sort: 0,
        };
    }

    let first_sort = sort(&mut solutions, compare_triples);

    let mut solutions_with_ordering = Vec::with_capacity(solutions.len());
    let mut last = f64::INFINITY;

    for solution in solutions {
        let delta = solution.0 - last;
        let ordering = 1.0 / (delta * delta);

        solutions_with_ordering.push((ordering, solution));
        last = solution.0;
    }

    let second_sort = sort(&mut solutions_with_ordering, compare_ordered);

    Reduced {
        kept: SolutionSet4::Four(
            solutions_with_ordering[0].1,
            solutions_with_ordering[1].1,
            solutions_with_ordering[2].1,
            solutions_with_ordering[3].1,
        ),
        first_sort,
        second_sort,
    }
}

pub fn reduced_solutionset(solutions: Vec<Triple>) -> SolutionSet4<Triple> {
    reduced_with_passes(solutions).kept
}

#[cfg(test)]
mod tests {
    use super::*;
    use crate::{inputs::candidates, rng::Rng, subproblems::published};
    use std::collections::BTreeSet;

    fn bits(triples: &[Triple]) -> Vec<[u64; 3]> {
        triples
            .iter()
            .map(|t| [t.0.to_bits(), t.1.to_bits(), t.2.to_bits()])
            .collect()
    }

    /// The same bits, so that equals and NaNs are seen to keep their order.
    #[test]
    fn passes_sort_as_the_published_sort_does() {
        for place in 0..200_000 {
            let list = candidates(&mut Rng::of(&[5, place]));
            let (mut by_passes, mut by_library) = (list.clone(), list.clone());
            sort(&mut by_passes, compare_triples);
            by_library.sort_by(compare_triples);
            assert_eq!(bits(&by_passes), bits(&by_library), "of {list:?}");
            let kept = reduced_solutionset(list.clone()).get_all();
            let as_published = published::reduced_solutionset(list.clone()).get_all();
            assert_eq!(bits(&kept), bits(&as_published), "of {list:?}");
        }
    }

    /// The number, counted the other way about: a triple that stands d places behind its own needs
    /// d passes, and then one is made that exchanges none, if there is one left.
    #[test]
    fn the_number_of_passes_is_the_longest_way_forward_and_one() {
        let mut seen = BTreeSet::new();
        for place in 0..50_000 {
            let list = candidates(&mut Rng::of(&[6, place]));
            let mut order: Vec<usize> = (0..list.len()).collect();
            order.sort_by(|&a, &b| compare_triples(&list[a], &list[b]));
            let way = order.iter().enumerate();
            let longest = way.map(|(to, from)| from.saturating_sub(to)).max();
            let most = list.len().saturating_sub(1);
            let passes = sort(&mut list.clone(), compare_triples);
            assert_eq!(passes, most.min(longest.unwrap_or(0) + 1), "of {list:?}");
            seen.insert((list.len(), passes));
        }
        // Every number of passes for every length: none for no candidate and for one.
        let wanted = (0..=16_usize).flat_map(|m| {
            let least = usize::from(m >= 2);
            (least..=m.saturating_sub(1)).map(move |passes| (m, passes))
        });
        assert!(seen.into_iter().eq(wanted));
    }

    fn passes(numbers: &[f64]) -> usize {
        let mut list: Vec<Triple> = numbers.iter().map(|&x| (x, 0.0, 0.0)).collect();
        sort(&mut list, compare_triples)
    }

    #[test]
    fn passes_of_short_lists() {
        assert_eq!(passes(&[]), 0);
        assert_eq!(passes(&[1.0]), 0);
        assert_eq!(passes(&[1.0, 2.0]), 1);
        assert_eq!(passes(&[2.0, 1.0]), 1);
        assert_eq!(passes(&[1.0, 2.0, 3.0]), 1);
        assert_eq!(passes(&[2.0, 1.0, 3.0]), 2);
        assert_eq!(passes(&[3.0, 1.0, 2.0]), 2);
        // Each pass exchanges: all are made, and none that exchanges none.
        assert_eq!(passes(&[2.0, 3.0, 1.0]), 2);
        assert_eq!(passes(&[4.0, 3.0, 2.0, 1.0]), 3);
        assert_eq!(passes(&[1.0, 2.0, 4.0, 3.0]), 2);
        // Equals are not exchanged.
        assert_eq!(passes(&[1.0, 1.0, 1.0, 1.0]), 1);
        assert_eq!(passes(&[0.0, -0.0, 0.0]), 1);
        assert_eq!(passes(&[f64::NAN, -f64::NAN, f64::NAN]), 1);
        assert_eq!(passes(&[f64::NAN, f64::INFINITY, f64::NAN, 1.0]), 3);
    }

    #[test]
    fn up_to_four_are_not_sorted() {
        let t = |x: f64| (x, 0.0, 0.0);
        let reduced = reduced_with_passes(vec![t(4.0), t(3.0), t(2.0), t(1.0)]);
        assert_eq!((reduced.first_sort, reduced.second_sort), (0, 0));
        let reduced = reduced_with_passes(vec![t(3.0), t(1.0), t(1.5), t(1.25), t(8.0)]);
        // 1 1.25 1.5 3 8 after two passes; then 0, 16, 16, 0.44.., 0.04 are ordered.
        assert_eq!((reduced.first_sort, reduced.second_sort), (3, 4));
    }
}
