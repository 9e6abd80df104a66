//! The smallest objects of each sort that a run meets.
use std::collections::BTreeMap;

use crate::{
    both::{self, Both},
    domain::CAUSES,
    generate,
    rng::Rng,
    shrink,
    tables::{Case, Steps},
};

/// Of each sort that `sort` names, the `most` objects with the fewest bytes, and with `steady` only those of `is_steady`.
pub fn smallest_of(
    objects: u64,
    seed: u64,
    most: usize,
    steady: bool,
    sort: impl Fn(&Case, &Both) -> Option<String>,
) -> Vec<(String, Case)> {
    let mut rng = Rng::new(seed);
    let mut sorts: BTreeMap<String, Vec<(usize, Case)>> = BTreeMap::new();
    for _ in 0..objects {
        let case = generate::case(&mut rng);
        let both = both::run(&case, None);
        let Some(name) = sort(&case, &both) else { continue };
        let size = case.bytes.iter().map(Vec::len).sum();
        let kept = sorts.entry(name).or_default();
        let smaller = kept.len() < most || kept.last().is_some_and(|(s, _)| size < *s);
        if smaller && (!steady || is_steady(&case, &both)) {
            let at = kept.partition_point(|(s, _)| *s <= size);
            kept.insert(at, (size, case));
            kept.truncate(most);
        }
    }
    sorts.into_iter().flat_map(|(name, kept)| kept.into_iter().map(move |(_, case)| (name.clone(), case))).collect()
}

/// The answer does not hang on the order of the crate's hash maps: it is the same each time.
pub fn is_steady(case: &Case, both: &Both) -> bool {
    (0..40).all(|_| both::run(case, None).ran == both.ran)
}

pub fn causes(both: &Both) -> String {
    both.said.outside.iter().map(|&c| CAUSES[c]).collect::<Vec<_>>().join("; ")
}

/// For each cause that alone leads outside, and each difference it makes, the smallest object found.
pub fn print_smallest(objects: u64, seed: u64) {
    let sort = |case: &Case, both: &Both| {
        let difference = both.difference().filter(|_| both.said.outside.len() == 1)?;
        (case.bytes[2].len() < 600 && case.bytes[3].len() < 600).then(|| format!("{}: {difference}", causes(both)))
    };
    for (name, case) in smallest_of(objects, seed, 1, false, sort) {
        let small = shrink::smallest(&case, |c| {
            let both = both::run(c, None);
            sort(c, &both).as_ref() == Some(&name)
                && (case.steps != Steps::MapsThenCalls || is_steady(c, &both) || !is_steady(&case, &both::run(&case, None)))
        });
        println!("{name}\n{}", shrink::words(&small));
    }
}
