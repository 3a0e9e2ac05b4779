//! The three sides that are compared: the C interface, the safe wrapper, and the independent
//! implementation. Each makes the same call and gives its answer as plain numbers.

use crate::call::{Answer, Call, Numbers, Told, BEGINNING, PAYLOAD};
use thonxiliko::{BuildRefusal, Decision, Ending, Kind, PayloadRefusal, Refusal, Stores, Written};
use thonxiliko_sys as sys;

/// A buffer as C lends it.
#[derive(Clone, Copy, Debug)]
pub struct Lent {
    pub start: *mut u8,
    pub length: usize,
}

impl Lent {
    pub fn of(bytes: &mut [u8]) -> Lent {
        Lent { start: bytes.as_mut_ptr(), length: bytes.len() }
    }
}

/// A side that takes slices: call, buffers in the order of the C interface, numbers. It gives no answer
/// where it has no such call.
pub type SafeSide = fn(Call, &mut [&mut [u8]], &Numbers) -> Option<Answer>;

/// The named members of an answer, in the order of the C interface.
macro_rules! members {
    ($answer:expr, $($member:ident),+) => {{
        let answer = $answer;
        Answer::of(&[$(answer.$member.into()),+])
    }};
}

/// A call over the C interface: buffers, then numbers, then buffers, and for decisions a number again.
/// Each buffer goes as its address and its length.
macro_rules! c {
    ($call:ident: $($first:ident)*; $($number:ident)*; $($then:ident)*) => {
        c!($call: $($first)*; $($number)*; $($then)*;)
    };
    ($call:ident: $($first:ident)*; $($number:ident)*; $($then:ident)*; $($last:ident)*) => {
        sys::$call(
            $($first.start, $first.length,)* $($number,)* $($then.start, $then.length,)* $($last),*
        )
    };
}

/// Makes the call over the C interface.
///
/// # Safety
/// Each buffer of at least one byte is readable and writable, and no two overlap.
pub unsafe fn library(call: Call, lent: &[Lent], told: &Numbers) -> Answer {
    let Numbers { n, block, kind, stores, at, position } = *told;
    match (call, lent) {
        (Call::Format, &[patch, full]) => members!(c!(thx_format: patch full;;), number),
        (Call::Compare, &[base, page, payload]) => {
            let a = c!(thx_compare: base page payload;;);
            members!(a, number, kind, length, entries, last)
        }
        (Call::Apply, &[base, payload, page]) => {
            members!(c!(thx_apply: base payload page;;), number, entries, last, offset)
        }
        (Call::Judge, &[slot]) => members!(c!(thx_judge: slot;;), number, kind, length),
        (Call::Show, &[patch]) => members!(c!(thx_show: patch; block;), at, len),
        (Call::Read, &[patch, full, base, page]) => {
            members!(c!(thx_read: patch full; block; base page), number, kind, offset)
        }
        (Call::CarryOut, &[patch, full, payload, page]) => {
            let a = c!(thx_carry_out: patch full; block kind; payload page; stores);
            members!(a, number, kind, length)
        }
        (Call::Build, &[patch, full, map]) => {
            members!(c!(thx_build: patch full map;;), number, block, offset)
        }
        (Call::LookUp, &[map]) => members!(c!(thx_look_up: map; n block;), number, pair),
        (Call::Tally, &[map]) => members!(c!(thx_tally: map; n;), number, patch, full),
        (Call::Next, &[payload]) => {
            members!(c!(thx_next: payload; at position;), number, found, at, position, value)
        }
        (Call::CarryOutMapped, &[patch, full, map, payload, page]) => {
            let a = c!(thx_carry_out_mapped: patch full map; block kind; payload page; stores);
            members!(a, number, kind, length)
        }
        (Call::ReadMapped, &[patch, full, map, base, page]) => {
            let a = c!(thx_read_mapped: patch full map; block; base page);
            members!(a, number, kind, offset)
        }
        (Call::Cut, &[patch, full]) => members!(c!(thx_cut: patch full; block;), number),
        (Call::CutMapped, &[patch, full, map]) => {
            members!(c!(thx_cut_mapped: patch full map; block;), number)
        }
        (Call::Highest, &[patch]) => members!(c!(thx_highest: patch;;), number, blocks),
        (Call::Sweep, &[patch, full]) => members!(c!(thx_sweep: patch full;;), number),
        _ => unreachable!("buffers of {}", call.name()),
    }
}

/// Makes the call on the independent implementation.
pub fn independent(call: Call, buffers: &mut [&mut [u8]], told: &Numbers) -> Option<Answer> {
    let Numbers { n, block, kind, stores, at, position } = *told;
    Some(match (call, buffers) {
        (Call::Format, [patch, full]) => members!(independent::format(patch, full), number),
        (Call::Compare, [base, page, payload]) => {
            let a = independent::compare(base, page, payload);
            members!(a, number, kind, length, entries, last)
        }
        (Call::Apply, [base, payload, page]) => {
            members!(independent::apply(base, payload, page), number, entries, last, offset)
        }
        (Call::Judge, [slot]) => members!(independent::judge(slot), number, kind, length),
        (Call::Show, [patch]) => members!(independent::show(patch, block), at, len),
        (Call::Read, [patch, full, base, page]) => {
            members!(independent::read(patch, full, block, base, page), number, kind, offset)
        }
        (Call::CarryOut, [patch, full, payload, page]) => {
            let a = independent::carry_out(patch, full, block, kind, payload, page, stores);
            members!(a, number, kind, length)
        }
        (Call::Build, [patch, full, map]) => {
            members!(independent::build(patch, full, map), number, block, offset)
        }
        (Call::LookUp, [map]) => members!(independent::look_up(map, n, block), number, pair),
        (Call::Tally, [map]) => members!(independent::tally(map, n), number, patch, full),
        (Call::Next, [payload]) => {
            let a = independent::next(payload, at, position);
            members!(a, number, found, at, position, value)
        }
        (Call::CarryOutMapped, [patch, full, map, payload, page]) => {
            members!(
                independent::carry_out_mapped(patch, full, map, block, kind, payload, page, stores),
                number,
                kind,
                length
            )
        }
        (Call::ReadMapped, [patch, full, map, base, page]) => {
            let a = independent::read_mapped(patch, full, map, block, base, page);
            members!(a, number, kind, offset)
        }
        (Call::Cut, [patch, full]) => members!(independent::cut(patch, full, block), number),
        (Call::CutMapped, [patch, full, map]) => {
            members!(independent::cut_mapped(patch, full, map, block), number)
        }
        (Call::Highest, [patch]) => members!(independent::highest(patch), number, blocks),
        (Call::Sweep, [patch, full]) => members!(independent::sweep(patch, full), number),
        _ => unreachable!("buffers of {}", call.name()),
    })
}

fn answer<const N: usize>(members: [i128; N]) -> Answer {
    Answer::of(&members)
}

fn refused(refusal: Refusal) -> Answer {
    answer([refusal.number().into()])
}

/// The wrapper says "no offset" by `None`, C says it by 0. An offset that must not be there, or a missing
/// one, is none that C gives.
fn offset(refusal: Refusal, offset: Option<usize>) -> i128 {
    match (refusal, offset) {
        (Refusal::Payload, Some(offset)) => offset as i128,
        (Refusal::Payload, None) | (_, Some(_)) => -1,
        (_, None) => 0,
    }
}

/// What the wrapper's reads say of a block.
fn reading(read: Result<Kind, PayloadRefusal>) -> Answer {
    match read {
        Ok(kind) => answer([0, kind.number().into()]),
        Err(PayloadRefusal { refusal, offset: at, .. }) => {
            answer([refusal.number().into(), 0, offset(refusal, at)])
        }
    }
}

/// What the wrapper's Compare says of a page. Its decision must hold the page, and a payload where C's
/// caller would lend one and of that length; one that holds anything else has a kind that C does not give.
fn compared(decision: &Decision, page: &[u8]) -> Answer {
    let a = decision.compared();
    let kind = a.difference.number();
    let length = if kind == 1 { a.length } else { 0 };
    let holds = decision.kind().number() == kind && decision.payload().len() == length;
    let kind = if holds && decision.page() == page { kind.into() } else { -1 };
    answer([0, kind, a.length as i128, a.entries as i128, signed(a.last)])
}

/// What stands in a payload buffer where Compare puts nothing.
const UNUSED: u8 = 0xEE;

/// A base over which Compare decides just this of the page, if there is one: the wrapper has no other way
/// to a decision. The page's own bytes for EMPTY, other bytes where there are entries for PATCH, and
/// everywhere for FULL_REF.
fn base_deciding(kind: u32, payload: &[u8], page: &[u8]) -> Option<Vec<u8>> {
    let mut base = page.to_vec();
    match kind {
        1 => {
            let mut step = independent::next(payload, 0, -1);
            while step.found == 1 {
                let byte = base.get_mut(step.position as usize)?;
                *byte = !*byte;
                step = independent::next(payload, step.at, step.position);
            }
        }
        2 => base.iter_mut().for_each(|byte| *byte = !*byte),
        _ => {}
    }
    let mut own = [UNUSED; PAYLOAD];
    let compared = independent::compare(&base, page, &mut own);
    let decides = (compared.number, compared.kind) == (0, kind);
    let decides = decides && (kind != 1 || own[..compared.length as usize] == *payload);
    decides.then_some(base)
}

/// The wrapper has three numbers of stores, and none of those that C takes for all of them but one.
fn stores(told: &Numbers) -> Stores {
    match Told::of(told.stores) {
        Told::None => Stores::None,
        Told::One => Stores::One,
        Told::All => Stores::All,
    }
}

/// What the wrapper says of a decision that it carried out.
fn written(a: Written) -> Answer {
    answer([0, a.kind.number().into(), a.length as i128])
}

/// The wrapper says "no last position" by `None`, C says it by -1.
fn signed(last: Option<usize>) -> i128 {
    last.map_or(-1, |last| last as i128)
}

/// One step of the wrapper's reader from this place and position, if it comes to them: it always begins
/// at the payload's beginning.
fn step(payload: &[u8], stands: (u64, i32)) -> Option<Answer> {
    let mut entries = thonxiliko::entries(payload);
    let (mut at, mut position) = BEGINNING;
    while (at, position) != stands {
        let entry = entries.next()?;
        (at, position) = (entries.offset() as u64, entry.position as i32);
    }
    let entry = entries.next();
    let at = entries.offset() as i128;
    Some(match (entry, entries.ending()) {
        (Some(entry), None) => answer([0, 1, at, entry.position as i128, entry.value.into()]),
        (None, Some(Ending::End)) => answer([0, 0, at, position.into(), 0]),
        (None, Some(Ending::Stopped { offset })) => {
            answer([7, 0, offset as i128, position.into(), 0])
        }
        (entry, ending) => panic!("a reader gives {entry:?} and says {ending:?}"),
    })
}

/// Makes the call through the safe wrapper.
pub fn wrapper(call: Call, buffers: &mut [&mut [u8]], told: &Numbers) -> Option<Answer> {
    let Numbers { n, block, kind, at, position, .. } = *told;
    let result = match (call, buffers) {
        (Call::Format, [patch, full]) => thonxiliko::format(patch, full).map(|()| answer([0])),
        (Call::Compare, [base, page, payload]) => {
            thonxiliko::compare(base, page, payload).map(|decision| compared(&decision, page))
        }
        (Call::Apply, [base, payload, page]) => Ok(match thonxiliko::apply(base, payload, page) {
            Ok(a) => answer([0, a.entries as i128, a.last as i128]),
            Err(PayloadRefusal { refusal, offset: at, .. }) => {
                answer([refusal.number().into(), 0, 0, offset(refusal, at)])
            }
        }),
        (Call::Judge, [slot]) => {
            thonxiliko::judge(slot).map(|a| answer([0, a.kind.number().into(), a.length as i128]))
        }
        (Call::Show, [patch]) => Ok(match thonxiliko::show(patch, block) {
            Some(part) => {
                let at = part.as_ptr() as usize - patch.as_ptr() as usize;
                answer([at as i128, part.len() as i128])
            }
            None => answer([0, 0]),
        }),
        (Call::Read, [patch, full, base, page]) => {
            Ok(reading(thonxiliko::read(patch, full, block, base, page)))
        }
        (Call::CarryOut, [patch, full, payload, page]) => {
            let base = base_deciding(kind, payload, page)?;
            let mut buffer = [UNUSED; PAYLOAD];
            thonxiliko::compare(&base, page, &mut buffer)
                .and_then(|made| thonxiliko::carry_out(patch, full, block, &made, stores(told)))
                .map(written)
        }
        (Call::Build, [patch, full, map]) => Ok(match thonxiliko::build(patch, full, map) {
            Ok(()) => answer([0]),
            Err(BuildRefusal { refusal, block, offset: at, .. }) => {
                let block = block.unwrap_or(0).into();
                answer([refusal.number().into(), block, offset(refusal, at)])
            }
        }),
        (Call::LookUp, [map]) => {
            thonxiliko::look_up(map, n, block).map(|pair| answer([0, pair.number().into()]))
        }
        (Call::Tally, [map]) => {
            thonxiliko::tally(map, n).map(|a| answer([0, a.patch.into(), a.full.into()]))
        }
        (Call::Next, [payload]) => return step(payload, (at, position)),
        (Call::CarryOutMapped, [patch, full, map, payload, page]) => {
            let base = base_deciding(kind, payload, page)?;
            let mut buffer = [UNUSED; PAYLOAD];
            thonxiliko::compare(&base, page, &mut buffer)
                .and_then(|made| {
                    thonxiliko::carry_out_mapped(patch, full, map, block, &made, stores(told))
                })
                .map(written)
        }
        (Call::ReadMapped, [patch, full, map, base, page]) => {
            Ok(reading(thonxiliko::read_mapped(patch, full, map, block, base, page)))
        }
        (Call::Cut, [patch, full]) => thonxiliko::cut(patch, full, block).map(|()| answer([0])),
        (Call::CutMapped, [patch, full, map]) => {
            thonxiliko::cut_mapped(patch, full, map, block).map(|()| answer([0]))
        }
        (Call::Highest, [patch]) => {
            thonxiliko::highest(patch).map(|blocks| answer([0, blocks.into()]))
        }
        (Call::Sweep, [patch, full]) => thonxiliko::sweep(patch, full).map(|()| answer([0])),
        _ => unreachable!("buffers of {}", call.name()),
    };
    Some(result.unwrap_or_else(refused))
}
