//! Comparisons that say what differs and where.

use crate::lent::{Guard, Lent};
use std::fmt::Debug;

/// What a case ends with: nothing, or the first difference in words.
pub type Outcome = Result<(), String>;

/// Two values, the archive's and the model's.
pub fn same<T: PartialEq + Debug>(what: &str, archive: T, model: T) -> Outcome {
    if archive == model {
        return Ok(());
    }
    Err(format!("{what}: archive {archive:?}, model {model:?}"))
}

/// Two slices; says the first place that differs.
pub fn same_slice<T: PartialEq + Debug>(what: &str, archive: &[T], model: &[T]) -> Outcome {
    if archive == model {
        return Ok(());
    }
    if archive.len() != model.len() {
        return Err(format!("{what}: {} against {} long", archive.len(), model.len()));
    }
    let at = archive.iter().zip(model).position(|(a, m)| a != m).unwrap_or(0);
    let (a, m) = (&archive[at], &model[at]);
    Err(format!("{what}[{at}] of {}: archive {a:#x?}, model {m:#x?}", archive.len()))
}

/// A lent slice afterwards, and the guards around it.
pub fn same_lent<T: Guard + Debug>(what: &str, archive: &Lent<T>, model: &[T]) -> Outcome {
    if !archive.intact() {
        return Err(format!("{what}: written outside the lent slice"));
    }
    same_slice(what, archive.get(), model)
}
