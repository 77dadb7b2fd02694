//! The specification's parent lists to step from (§10): the reference gives the
//! lists and refusals that are named here, and the archive the same.

use crate::compare_step;
use crate::reference::{refuse, Answer, ARCS};
use crate::step;
use crate::table::named;
use crate::tally::Tally;

/// The next list; none at the end.
fn steps(tally: &mut Tally, list: &[u16], expected: Answer<Option<&[u16]>>) {
    let expected = expected.map(|next| next.map(<[u16]>::to_vec));
    named(tally, step::next_parents(list), expected);
    compare_step::next_parents(tally, list);
}

pub fn compare(tally: &mut Tally) {
    let zeros = &[0; 65_536 + 3];
    let three: [&[u16]; 6] = [
        &[0, 0, 0],
        &[0, 0, 1],
        &[0, 0, 2],
        &[0, 1, 0],
        &[0, 1, 1],
        &[0, 1, 2],
    ];
    for pair in three.windows(2) {
        steps(tally, pair[0], Ok(Some(pair[1])));
    }
    for last in [&[0][..], three[5], &[0, 1, 2, 3, 4, 5]] {
        steps(tally, last, Ok(None));
    }
    steps(tally, &[0, 0, 2, 3], Ok(Some(&[0, 1, 0, 0])));
    for length in [0, 7, 256 + 3, ARCS, zeros.len()] {
        steps(tally, &zeros[..length], refuse(31, 0));
    }
    steps(tally, &[1, 2, 3, 4, 5, 6, 7], refuse(31, 0));
    for (list, arc) in [
        (&[1][..], 1),
        (&[0, 65_535], 2),
        (&[0, 2, 3], 2),
        (&[0, 0, 3, 0, 0], 3),
        (&[0, 1, 2, 3, 4, 6], 6),
    ] {
        steps(tally, list, refuse(3, arc));
    }
}
