//! Sheets that a held reply names.

use crate::occasions::listed::Listed;
use crate::occasions::named::Named;
use crate::operation::Origin;
use crate::reply::Refusal;

pub const NAMED: [Named<Held>; 6] = [
    ("held by sheet 0", |held| held.holder.sheet == 0),
    ("held by sheet 65535", |held| held.holder.sheet == 65_535),
    ("held by a sheet with two bytes", |held| {
        held.holder
            .sheet
            .to_be_bytes()
            .iter()
            .all(|byte| *byte != 0)
    }),
    ("held by the sheet of the call", |held| {
        held.holder.sheet == held.origin.sheet
    }),
    ("held by another sheet", |held| {
        held.holder.sheet != held.origin.sheet
    }),
    ("held by one of a job's sheets", |held| held.has_others),
];

/// A call that is held.
pub struct Held {
    origin: Origin,
    holder: Origin,
    /// Whether the holder's job has unfinished operations of other sheets.
    has_others: bool,
}

pub fn known(listed: &Listed) -> Option<Held> {
    let (state, origin) = (&listed.state, listed.origin);
    let holder = match state.examine(origin, listed.procedure, &listed.tiles) {
        Err(Refusal::Held(holder)) => holder,
        Ok(_) | Err(_) => return None,
    };
    let mut origins = state.admitted.iter().map(|entry| entry.origin);
    let other = |origin: Origin| origin.job == holder.job && origin.sheet != holder.sheet;
    Some(Held {
        origin,
        holder,
        has_others: origins.any(other),
    })
}
