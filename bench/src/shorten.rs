//! Makes what shows a difference short enough to be looked at.

use std::time::{Duration, Instant};

/// How long is tried; what is long and needs its length is never made short.
const TIME: Duration = Duration::from_secs(10);

/// Leaves out items, many at once and then fewer, as long as what is left still
/// shows the difference.
pub fn shortened<T: Clone>(items: &[T], shows: impl Fn(&[T]) -> bool) -> Vec<T> {
    let end = Instant::now() + TIME;
    let shows = |items: &[T]| Instant::now() < end && shows(items);
    let mut kept = items.to_vec();
    let mut width = kept.len();
    while width > 0 {
        let before = kept.len();
        leave_out(&mut kept, width, &shows);
        // At the least width, one item may be left out because another was.
        if width > 1 || kept.len() == before {
            width /= 2;
        }
    }
    kept
}

/// Tries to leave out each stretch of so many items, from the last to the first.
fn leave_out<T: Clone>(kept: &mut Vec<T>, width: usize, shows: &impl Fn(&[T]) -> bool) {
    let mut end = kept.len();
    while end > 0 {
        let start = end.saturating_sub(width);
        let mut fewer = kept[..start].to_vec();
        fewer.extend_from_slice(&kept[end..]);
        if shows(&fewer) {
            *kept = fewer;
        }
        end = start;
    }
}
