//! Makes the calls of the library and returns their answers. `book/library` calls it.

use super::{status, Answer};
use crate::book::memory;

/// Makes a call that answers. Test builds check each answer `NO_MEMORY`: no contract can state that a block was really
/// refused during the call.
pub(super) fn asked(call: impl FnOnce(&mut Answer)) -> Answer {
    let before = memory::refusals();
    let mut answer = Answer::default();
    call(&mut answer);
    debug_assert!(
        answer.status != status::NO_MEMORY || memory::refusals() > before,
        "the library says that there is no memory, and was refused none"
    );
    answer
}

/// Makes a call that may use up the memory reserve.
pub(super) fn forwarded(call: impl FnOnce(&mut Answer)) -> Answer {
    memory::with_reserve(|| asked(call))
}

/// Makes a call that writes to a slice, and repeats it with the length it asks for if the slice is too short. `out`
/// then has what was written.
pub(super) fn written<T: Clone + Default>(
    out: &mut Vec<T>,
    mut call: impl FnMut(&mut [T], &mut Answer),
) -> Answer {
    let mut answer = asked(|answer| call(out, answer));
    if answer.status == status::TOO_SHORT {
        out.resize(usize::try_from(answer.number).unwrap_or(0), T::default());
        answer = asked(|answer| call(out, answer));
    }
    out.truncate(usize::try_from(answer.number).unwrap_or(0));
    answer
}
