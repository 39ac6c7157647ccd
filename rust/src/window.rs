//! Water in the last runs, against a pump permit.

use crate::records;
use crate::refusal::Refusal;

/// The first position, from 0, at which the minutes of the last `w` runs exceed `limit`; `None` where they never do.
///
/// The position is that of the last of these runs. At the start, where there are fewer than `w`, those that there are count. A sum that is
/// just the limit does not exceed it.
///
/// A permit of 90 minutes over any three runs in a row:
///
/// ```
/// let runs = [40, 20, 30, 45, 30, 0, 50];
/// assert_eq!(liuwdom::window(&runs, 3, 90), Ok(Some(3))); // 20 + 30 + 45 minutes
/// assert_eq!(liuwdom::window(&runs[..3], 3, 90), Ok(None)); // 40 + 20 + 30 are allowed
/// ```
///
/// # Errors
///
/// [`Refusal::WindowOutOfRange`] (39) where `w` is 0 or above 1,440, or there are more than 4,096 runs.
pub fn window(minutes: &[u32], w: u64, limit: u64) -> Result<Option<usize>, Refusal> {
    records::window_minutes(minutes, w, limit).map_err(|refused| Refusal::of(refused, b"", b""))
}
