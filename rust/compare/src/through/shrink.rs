//! Makes a mismatching case smaller for as long as it still mismatches.

use super::case::{check, Case};
use crate::shrink::{simpler_vertices, smaller};
use crate::subject::Subject;

/// The smallest mismatching case found from this one.
pub fn shrink(subject: Subject, case: &Case) -> Case {
    let mut best = *case;
    while let Some(next) = candidates(&best)
        .into_iter()
        .find(|candidate| cost(candidate) < cost(&best) && check(subject, candidate).1.is_some())
    {
        best = next;
    }
    best
}

/// What is made smaller: the nine numbers, together.
fn cost(case: &Case) -> u64 {
    case.vertices.iter().chain(&case.values).map(|number| u64::from(number.unsigned_abs())).sum()
}

fn candidates(case: &Case) -> Vec<Case> {
    let values = case.values;
    let mut found = vec![Case { values: [values[0]; 3], ..*case }, Case { values: values.map(|r| r / 2), ..*case }];
    for k in 0..3 {
        for r in smaller(i64::from(values[k])) {
            let mut values = values;
            values[k] = r as i32;
            found.push(Case { values, ..*case });
        }
    }
    found.extend(simpler_vertices(case.vertices).into_iter().map(|vertices| Case { vertices, ..*case }));
    found
}
