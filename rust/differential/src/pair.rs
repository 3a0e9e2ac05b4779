//! A page written by the pair of calls: what Compare decides, to be carried out. Both on all sides.

use crate::call::{Call, Input, Outcome, PAGE, PAYLOAD};
use crate::generate::Decision;
use crate::harness::{Harness, Mismatch};

/// What Compare decides of a page over its base; none where it is refused. Its buffer held other bytes,
/// of which none may get into the decision.
pub fn decide(
    harness: &mut Harness,
    base: &[u8],
    page: &[u8],
) -> Result<Option<Decision>, Mismatch> {
    let lent = vec![base.to_vec(), page.to_vec(), vec![0x5B; PAYLOAD]];
    let Outcome { answer, mut buffers } = harness.check(&Input::new(Call::Compare, lent))?;
    let [number, kind, length, ..] = answer.0;
    if number != 0 {
        return Ok(None);
    }
    let mut payload = buffers.swap_remove(2);
    payload.truncate(if kind == 1 { length as usize } else { 0 });
    Ok(Some(Decision { kind: kind as u32, payload, page: page.to_vec() }))
}

/// The page that a payload makes of a base; none where it is refused.
pub fn applied(
    harness: &mut Harness,
    base: &[u8],
    payload: &[u8],
) -> Result<Option<Vec<u8>>, Mismatch> {
    let lent = vec![base.to_vec(), payload.to_vec(), vec![0x5C; PAGE]];
    let Outcome { answer, mut buffers } = harness.check(&Input::new(Call::Apply, lent))?;
    Ok((answer.number() == 0).then(|| buffers.swap_remove(2)))
}
