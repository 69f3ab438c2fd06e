//! The reals in a column of a table, summed up.

use crate::{raw, Database, Kind, Refusal, Rule};

/// The reals in one column of a table.
#[derive(Clone, Copy, Debug, PartialEq)]
pub struct Summary {
    /// How many there are.
    pub count: u64,
    /// The least; of equals the first. 0 where there is none.
    pub least: f64,
    /// The greatest, likewise.
    pub greatest: f64,
    /// The sum from 0 in the order of the rows, rounded at each addition; none where it turned to NaN.
    pub sum: Option<f64>,
}

impl Summary {
    /// The sum divided by the count; none where there is no sum, or no real.
    pub fn mean(&self) -> Option<f64> {
        self.sum.filter(|_| self.count > 0).map(|sum| sum / self.count as f64)
    }
}

/// In an image that was not judged this may take time exponential in the levels, where pages are named many times.
fn report(image: &[u8], root: u32, column: u64, room: &mut [u8]) -> Result<Summary, Refusal> {
    // SAFETY: pointers and lengths are those of slices, and the borrow checker keeps the lent one apart.
    let answer = unsafe { raw::urk_report(image.as_ptr(), image.len(), root, column, room.as_mut_ptr(), room.len()) };
    Refusal::test(answer.refusal, answer.page)?;
    Ok(Summary { count: answer.count, least: answer.least, greatest: answer.greatest, sum: (answer.sum_is_nan == 0).then_some(answer.sum) })
}

impl Database<'_> {
    /// Sums up the reals in a column, counted from 1, of the rows of the table at page `root`, as a cursor shows them. What is no real is passed over: integers, nulls and so NaNs. `room`
    /// is lent for the payloads, each laid over the last at its start; [`crate::MAX_PAYLOAD`] bytes are always enough. A root that is no tree page of the database is refused, as it is by [`Database::rows`].
    ///
    /// ```
    /// # let image = include_bytes!("../../../examples/counter.db");
    /// let mut room = vec![0; urkibasko::MAX_PAYLOAD];
    /// let summary = urkibasko::Database::new(image)?.report(7, 2, &mut room)?;
    /// assert_eq!((summary.least, summary.greatest), (0.125, 7.5));
    /// # Ok::<(), urkibasko::Refusal>(())
    /// ```
    pub fn report(&self, root: u32, column: u64, room: &mut [u8]) -> Result<Summary, Refusal> {
        match self.ledger().kind(root) {
            None | Some(Kind::Root | Kind::Tree) => report(self.image(), root, column, room),
            Some(_) => Err(Refusal { rule: Rule::PageType, page: Some(root) }),
        }
    }
}
