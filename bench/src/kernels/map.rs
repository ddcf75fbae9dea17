//! Calls that change the values of runs and keep their ends.
use crate::data::{Flat, Runs};
use crate::kernels::join::{blanked, join};

/// Returns each value as the same number of another type, or `None` where one does not fit.
#[inline(never)]
pub fn cast<T: Copy, U: Copy + PartialEq + Default>(
    runs: &Runs<T>,
    fits: impl Fn(T) -> bool,
    to: impl Fn(T) -> U,
) -> Option<Runs<U>> {
    let items = &runs.values.items;
    if !items.iter().fold(true, |all, item| all & fits(*item)) {
        let valid = |at: usize| runs.values.flags.as_ref().is_none_or(|flags| flags.get(at));
        if (0..items.len()).any(|at| valid(at) && !fits(items[at])) {
            return None;
        }
    }
    let items = items.iter().map(|item| to(*item)).collect();
    let values = blanked(Flat {
        items,
        flags: runs.values.flags.clone(),
    });
    Some(join(runs.ends.clone(), values))
}

/// Puts the value in place of each null.
#[inline(never)]
pub fn fill<T: Copy + PartialEq>(runs: &Runs<T>, value: T) -> Runs<T> {
    let mut items = runs.values.items.clone();
    if let Some(flags) = &runs.values.flags {
        flags.for_each_zero(|at| items[at] = value);
    }
    join(runs.ends.clone(), Flat { items, flags: None })
}
