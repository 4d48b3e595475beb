//! SHOW in its two calls: the answer, and the place and length of the stretch.

use crate::tally::{told, wanted, Tally};
use compare::proved;
use second::lent;

/// What SHOW can answer, and what else is to be seen of it.
pub fn answers() -> Vec<String> {
    wanted(&["VALUE", "NONE", STAGED], [1, 3, 5])
}

/// A value that stands in a row.
const STAGED: &str = "a staged value";

pub fn compare(tally: &mut Tally, state: &[u8], session: u64, key: u64) {
    let answer = told(lent::show(state, session, key));
    let stretch = lent::stretch(state, session, key);
    let at = stretch.as_ptr() as usize - state.as_ptr() as usize;
    let proved = (proved::show(state, session, key), proved::stretch(state, session, key));
    tally.look(("SHOW", session, key), proved, (answer, (at as u64, stretch.len() as u64)), true);
    tally.answered(answer);
    if at >= lent::layout::ROWS_AT {
        tally.saw(STAGED);
    }
}
