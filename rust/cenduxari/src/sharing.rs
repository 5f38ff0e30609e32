//! Sharing an amount: paper 01, "Sharing an amount"; paper 02, job 14.

use crate::refusal::{outcome, Refusal};
use crate::sys;

/// Shares `amount` over the remaining `amounts`, into the first `parts`.
///
/// With R the total of the amounts, each part is `amount` times its remaining amount over R, rounded down; the kWh left
/// over go one each to the largest fractions, equal fractions by lowest place. The parts sum to `amount`, none exceeds its
/// remaining amount, and each lies within 1 kWh of the exact share. Parts past the number of amounts keep their contents.
///
/// # Errors
///
/// Refused, with `parts` as they were:
/// - [`Refusal::RowsShort`] if there are fewer parts than amounts;
/// - [`Refusal::Energy`] if `amount` is 0 or over the total, or the total is over 4,000,000,000.
///
/// # Examples
///
/// ```
/// use cenduxari::{share, Refusal};
///
/// let mut parts = [0; 3];
/// share(4, &[3, 3, 3], &mut parts)?;
/// assert_eq!(parts, [2, 1, 1]);
///
/// assert_eq!(share(10, &[3, 3, 3], &mut parts), Err(Refusal::Energy));
/// assert_eq!(parts, [2, 1, 1]);
/// # Ok::<(), Refusal>(())
/// ```
#[inline]
pub fn share(amount: u64, amounts: &[u64], parts: &mut [u64]) -> Result<(), Refusal> {
    // SAFETY: both are slices that Rust lends, so each pointer is aligned and not null, of an empty slice too, and
    // `parts` overlaps nothing. The function has no `requires`, reads `amounts` alone and writes `parts` alone.
    outcome(unsafe {
        sys::cenduxari_share(
            amount,
            amounts.as_ptr(),
            amounts.len(),
            parts.as_mut_ptr(),
            parts.len(),
        )
    })
}
