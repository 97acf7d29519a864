//! The grants of a node and class as one row.

use super::limit::{Grant, Limit};
use lembuya::Class;
use std::cmp::Reverse;
use std::collections::BTreeMap;

/// What a row tells of the waits of a node in a class.
#[derive(Clone, Copy, Debug, PartialEq, Eq)]
pub struct Row {
    pub node: u64,
    pub class: Class,
    pub grants: u64,
    /// The mean of the waits in tenths, a half rounded up.
    pub mean_tenths: u64,
    /// The greatest wait, and its limit or why it has none.
    pub greatest: u64,
    pub limit: Limit,
    /// Those that have a limit, if there are any.
    pub limited: Option<Limited>,
}

/// Of the waits of a row those that have a limit: how many, and the greatest with its limit.
#[derive(Clone, Copy, Debug, PartialEq, Eq)]
pub struct Limited {
    pub grants: u64,
    pub greatest: u64,
    pub limit: u64,
}

/// The rows of a log's grants: by node, and of a node high before normal.
pub fn rows(grants: &[Grant]) -> Vec<Row> {
    let mut by_row = BTreeMap::<_, Vec<Grant>>::new();
    for grant in grants {
        by_row.entry((grant.node, Reverse(grant.class.number()))).or_default().push(*grant);
    }
    by_row.values().map(|grants| row(grants)).collect()
}

/// The row of at least one grant, all of one node and class.
fn row(grants: &[Grant]) -> Row {
    let greatest = grants.iter().max_by_key(|grant| rank(grant)).expect("a row has a grant");
    let Grant { node, class, wait, limit } = *greatest;
    let count = grants.len() as u64;
    let mean_tenths = mean_tenths(grants.iter().map(|grant| grant.wait).sum(), count);
    Row { node, class, grants: count, mean_tenths, greatest: wait, limit, limited: limited(grants) }
}

/// The greatest wait comes last; of equal ones that with the least limit, and those without one before.
fn rank(grant: &Grant) -> (u64, Option<Reverse<u64>>) {
    let limit = match grant.limit {
        Limit::Within(limit) => Some(Reverse(limit)),
        Limit::Normal | Limit::Spent | Limit::Changed => None,
    };
    (grant.wait, limit)
}

fn limited(grants: &[Grant]) -> Option<Limited> {
    let limited = || grants.iter().filter(|grant| matches!(grant.limit, Limit::Within(_)));
    let greatest = limited().max_by_key(|grant| rank(grant))?;
    match greatest.limit {
        Limit::Within(limit) => {
            Some(Limited { grants: limited().count() as u64, greatest: greatest.wait, limit })
        }
        _ => None,
    }
}

/// A sum's mean in tenths, a half rounded up. A text has too few events for a sum above 64 bits, but ten times one may be.
fn mean_tenths(sum: u64, count: u64) -> u64 {
    let (sum, count) = (u128::from(sum), u128::from(count));
    ((20 * sum + count) / (2 * count)) as u64
}

#[cfg(test)]
mod tests {
    use super::*;

    fn grant(node: u64, class: Class, wait: u64, limit: Limit) -> Grant {
        Grant { node, class, wait, limit }
    }

    #[test]
    fn rows_are_by_node_and_class_with_high_first() {
        let (normal, high) = (Class::Normal, Class::High);
        let found = rows(&[
            grant(2, normal, 5, Limit::Normal),
            grant(2, high, 7, Limit::Within(9)),
            grant(1, normal, 3, Limit::Normal),
            grant(2, normal, 6, Limit::Normal),
        ]);
        let shown: Vec<_> = found.iter().map(|row| (row.node, row.class, row.grants, row.greatest)).collect();
        assert_eq!(shown, [(1, normal, 1, 3), (2, high, 1, 7), (2, normal, 2, 6)]);
        let means: Vec<_> = found.iter().map(|row| row.mean_tenths).collect();
        assert_eq!(means, [30, 70, 55]);
        assert_eq!(rows(&[]), []);
    }

    /// The greatest has no limit, and so it is said; of the others the greatest with its own limit is told too.
    #[test]
    fn a_limit_is_that_of_the_greatest_wait_itself() {
        let of = |limits: &[(u64, Limit)]| {
            let grants: Vec<_> =
                limits.iter().map(|&(wait, limit)| grant(1, Class::High, wait, limit)).collect();
            let row = rows(&grants)[0];
            (row.greatest, row.limit, row.limited)
        };
        let two = [(30, Limit::Spent), (10, Limit::Within(20)), (12, Limit::Within(15))];
        let limited = Some(Limited { grants: 2, greatest: 12, limit: 15 });
        assert_eq!(of(&two), (30, Limit::Spent, limited));
        assert_eq!(of(&two[1..]), (12, Limit::Within(15), limited));
        assert_eq!(of(&[(30, Limit::Changed)]), (30, Limit::Changed, None));
        // Of equal waits the one with the least limit counts, wherever it stands.
        let equal = [(9, Limit::Within(20)), (9, Limit::Spent), (9, Limit::Within(11)), (9, Limit::Changed)];
        assert_eq!(of(&equal).1, Limit::Within(11));
    }

    #[test]
    fn a_mean_has_its_half_rounded_up() {
        assert_eq!(mean_tenths(0, 3), 0);
        assert_eq!(mean_tenths(1, 3), 3);
        assert_eq!(mean_tenths(2, 3), 7);
        // 0.25, 0.75 and 0.05: each half of a tenth goes up.
        assert_eq!([mean_tenths(1, 4), mean_tenths(3, 4), mean_tenths(1, 20)], [3, 8, 1]);
        assert_eq!(mean_tenths(1, 21), 0);
        assert_eq!(mean_tenths(u64::MAX - 5, 100), 1_844_674_407_370_955_161);
    }
}
