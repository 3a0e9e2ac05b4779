//! Gives one input to all sides and compares what comes back.

use std::fmt;

use crate::arena::{Flush, Room};
use crate::call::{Answer, Call, Input, Numbers, Outcome, Told};
use crate::sides::{self, Lent, SafeSide};

/// More than any buffer of a generated input.
const ROOM_SIZE: usize = 1 << 20;
const MOST_BUFFERS: usize = 5;

/// One side as a function from inputs to outcomes.
pub type Side = fn(&Input) -> Outcome;

/// Two sides disagree about an input.
#[derive(Debug)]
pub struct Mismatch {
    pub side: &'static str,
    pub input: String,
    pub found: String,
}

impl fmt::Display for Mismatch {
    fn fmt(&self, f: &mut fmt::Formatter<'_>) -> fmt::Result {
        write!(f, "{}: {}\n  input: {}", self.side, self.found, self.input)
    }
}

/// How often a call gave each number, by what it was told of its stores.
type ByNumber = [[u64; 12]; Told::EVERY.len()];

/// How often each call was compared, and with which number.
#[derive(Clone, Debug, Default)]
pub struct Counts {
    /// For Show, 0 counts the parts handed out and 1 the empty ones; for Next, 0 counts the entries, 1
    /// the ends and 7 the stops.
    by_number: [ByNumber; Call::ALL.len()],
    /// The same of the wrapper, for calls that it does not make for every input.
    by_wrapper: [ByNumber; Call::ALL.len()],
}

/// A number that a call never gave, told so many stores.
pub type Unseen = (Call, Told, usize);

/// What is counted for a call; all of it must be met.
fn counted(call: Call) -> &'static [usize] {
    match call {
        Call::Show => &[0, 1],
        Call::Next => &[0, 1, 7],
        _ => call.numbers(),
    }
}

/// What is told of stores: a decision must meet each of its numbers with each of these.
fn told(call: Call) -> &'static [Told] {
    if call.carries_out() {
        &Told::EVERY
    } else {
        &[Told::All]
    }
}

/// What of these numbers was never given.
fn unseen(counts: &[ByNumber], numbers: fn(Call) -> &'static [usize]) -> Vec<Unseen> {
    let mut unseen = Vec::new();
    for call in Call::ALL {
        for told in told(call) {
            for number in numbers(call) {
                if counts[call as usize][*told as usize][*number] == 0 {
                    unseen.push((call, *told, *number));
                }
            }
        }
    }
    unseen
}

/// The sum of what was told none, one and all.
fn sum(counts: &ByNumber) -> [u64; 12] {
    let mut sum = [0; 12];
    for row in counts {
        sum.iter_mut().zip(row).for_each(|(sum, count)| *sum += count);
    }
    sum
}

impl Counts {
    pub fn add(&mut self, call: Call, numbers: &Numbers, answer: &Answer) {
        let number = match call {
            Call::Show => i128::from(answer.0[1] == 0),
            Call::Next if answer.number() == 0 => i128::from(answer.0[1] == 0),
            _ => answer.number(),
        };
        // A number that is not in the table has been reported as a mismatch before.
        let told = Told::of(numbers.stores) as usize;
        if let Some(count) = self.by_number[call as usize][told].get_mut(number as usize) {
            *count += 1;
        }
    }

    /// The wrapper made the call too.
    pub fn add_by_wrapper(&mut self, call: Call, numbers: &Numbers, answer: &Answer) {
        let told = Told::of(numbers.stores) as usize;
        let row = &mut self.by_wrapper[call as usize][told];
        if let Some(count) = row.get_mut(answer.number() as usize) {
            *count += 1;
        }
    }

    pub fn add_all(&mut self, other: &Counts) {
        let counts = self.by_number.iter_mut().chain(&mut self.by_wrapper).flatten().flatten();
        let others = other.by_number.iter().chain(&other.by_wrapper).flatten().flatten();
        counts.zip(others).for_each(|(count, more)| *count += more);
    }

    pub fn total(&self) -> u64 {
        self.by_number.iter().flatten().flatten().sum()
    }

    /// Calls with a number that they can give but that was never seen.
    pub fn unseen(&self) -> Vec<Unseen> {
        unseen(&self.by_number, counted)
    }

    /// The same for the wrapper, of calls that it does not make for every input.
    pub fn unseen_by_wrapper(&self) -> Vec<Unseen> {
        unseen(&self.by_wrapper, Call::numbers_of_wrapper)
    }

    /// One line of the table.
    fn fmt_row(
        f: &mut fmt::Formatter<'_>,
        name: &str,
        row: &[u64; 12],
        numbers: &[usize],
    ) -> fmt::Result {
        write!(f, "{name:<16} {:>9} |", row.iter().sum::<u64>())?;
        for (number, count) in row.iter().enumerate() {
            if numbers.contains(&number) {
                write!(f, " {count:>7}")?;
            } else {
                write!(f, " {:>7}", ".")?;
            }
        }
        writeln!(f)
    }

    /// Of decisions also the stops, and what the wrapper carried out.
    fn fmt_decisions(
        f: &mut fmt::Formatter<'_>,
        call: Call,
        counts: &ByNumber,
        by_wrapper: &ByNumber,
    ) -> fmt::Result {
        let rows = [("  told 0", Told::None), ("  told 1", Told::One)];
        for (name, told) in rows {
            Counts::fmt_row(f, name, &counts[told as usize], call.numbers())?;
        }
        Counts::fmt_row(f, "  by the wrapper", &sum(by_wrapper), call.numbers_of_wrapper())?;
        let wrapper_rows = [("    told 0", Told::None), ("    told 1", Told::One)];
        for (name, told) in wrapper_rows {
            Counts::fmt_row(f, name, &by_wrapper[told as usize], call.numbers_of_wrapper())?;
        }
        Ok(())
    }
}

impl fmt::Display for Counts {
    fn fmt(&self, f: &mut fmt::Formatter<'_>) -> fmt::Result {
        write!(f, "{:<16} {:>9} |", "call", "compared")?;
        for number in 0..12 {
            write!(f, " {number:>7}")?;
        }
        writeln!(f, "   (times each number was given; . = the call has no such number)")?;
        for call in Call::ALL {
            let counts = &self.by_number[call as usize];
            let row = sum(counts);
            let (name, sum) = (call.name(), row.iter().sum::<u64>());
            match call {
                Call::Show => writeln!(
                    f,
                    "{name:<16} {sum:>9} | {} parts handed out, {} empty",
                    row[0], row[1]
                )?,
                Call::Next => writeln!(
                    f,
                    "{name:<16} {sum:>9} | {} entries, {} ends, {} stops (7)",
                    row[0], row[1], row[7]
                )?,
                _ => Counts::fmt_row(f, name, &row, call.numbers())?,
            }
            if call.carries_out() {
                Counts::fmt_decisions(f, call, counts, &self.by_wrapper[call as usize])?;
            }
        }
        Ok(())
    }
}

/// The independent implementation on copies of the input's buffers.
pub fn independent_outcome(input: &Input) -> Outcome {
    outcome_on_copies(input, sides::independent).expect("it has every call")
}

/// The safe wrapper on copies of the input's buffers; none where it has no such call.
pub fn wrapper_outcome(input: &Input) -> Option<Outcome> {
    outcome_on_copies(input, sides::wrapper)
}

fn outcome_on_copies(input: &Input, side: SafeSide) -> Option<Outcome> {
    let mut buffers = input.buffers.clone();
    let mut slices: Vec<&mut [u8]> = buffers.iter_mut().map(Vec::as_mut_slice).collect();
    let answer = side(input.call, &mut slices, &input.numbers)?;
    Some(Outcome { answer, buffers })
}

/// How a turn lends its buffers: at which end they touch forbidden memory, and what stands for the
/// address of a buffer without bytes.
#[derive(Clone, Copy, Debug)]
struct Manner {
    flush: Flush,
    null: bool,
}

/// After so many turns the manners come again.
const MANNERS: u64 = 4;

impl Manner {
    fn of_turn(turn: u64) -> Manner {
        Manner {
            flush: if turn % 2 == 0 { Flush::Back } else { Flush::Front },
            null: turn % MANNERS / 2 == 0,
        }
    }
}

pub struct Harness {
    rooms: Vec<Room>,
    turn: u64,
    /// What every outcome is held to; the independent implementation, except in tests of the
    /// harness itself.
    pub expected: Side,
    /// A program in the place of the library and its wrapper, in tests of the harness itself.
    pub in_place_of_library: Option<Side>,
    /// Print each input before it is given to the library, to see the last one before a crash.
    pub trace: bool,
    pub counts: Counts,
}

impl Default for Harness {
    fn default() -> Harness {
        Harness::new()
    }
}

impl Harness {
    pub fn new() -> Harness {
        Harness {
            rooms: (0..MOST_BUFFERS).map(|_| Room::new(ROOM_SIZE)).collect(),
            turn: 0,
            expected: independent_outcome,
            in_place_of_library: None,
            trace: false,
            counts: Counts::default(),
        }
    }

    /// How buffers are lent depends on the turn; a replayed case starts from the same one.
    pub fn start_case(&mut self, case: u64) {
        self.turn = case % MANNERS;
    }

    /// Gives the input to all sides. Their common outcome, or the first disagreement.
    pub fn check(&mut self, input: &Input) -> Result<Outcome, Mismatch> {
        if self.trace {
            println!("{input} {:?}", Manner::of_turn(self.turn));
        }
        let expected = (self.expected)(input);
        if let Some(program) = self.in_place_of_library {
            hold(input, "program in its place", Ok(program(input)), &expected)?;
        } else {
            hold(input, "C interface", self.library_outcome(input), &expected)?;
            if let Some(outcome) = wrapper_outcome(input) {
                let answer = outcome.answer;
                hold(input, "Rust wrapper", Ok(outcome), &expected)?;
                self.counts.add_by_wrapper(input.call, &input.numbers, &answer);
            }
        }
        if let Some(found) = forbidden(input, &expected) {
            return Err(Mismatch { side: "rule of answers", input: input.to_string(), found });
        }
        self.count(input.call, &input.numbers, &expected.answer);
        Ok(expected)
    }

    /// All sides agreed about this call; the next one lends its buffers in another manner.
    pub fn count(&mut self, call: Call, numbers: &Numbers, answer: &Answer) {
        self.counts.add(call, numbers, answer);
        self.turn += 1;
    }

    /// The library over the C interface, on guarded copies of the input's buffers.
    pub fn library_outcome(&mut self, input: &Input) -> Result<Outcome, String> {
        let lent = self.lend(&input.buffers);
        // SAFETY: every buffer has a room of its own.
        let answer = unsafe { sides::library(input.call, &lent, &input.numbers) };
        let buffers = self.take_back(&lent).map_err(|index| {
            let name = input.call.buffers()[index];
            format!("bytes beside buffer {name} were changed")
        })?;
        Ok(Outcome { answer, buffers })
    }

    /// Puts copies of the buffers into rooms of their own, to be lent in this turn's manner.
    pub fn lend(&mut self, buffers: &[Vec<u8>]) -> Vec<Lent> {
        assert!(buffers.len() <= self.rooms.len());
        let manner = Manner::of_turn(self.turn);
        let lend = |(room, bytes): (&mut Room, &Vec<u8>)| {
            let place = room.put(bytes, manner.flush);
            let absent = bytes.is_empty() && manner.null;
            let start = if absent { std::ptr::null_mut() } else { place };
            Lent { start, length: bytes.len() }
        };
        self.rooms.iter_mut().zip(buffers).map(lend).collect()
    }

    /// The lent buffers after the call, or the index of one with harm beside it.
    pub fn take_back(&mut self, lent: &[Lent]) -> Result<Vec<Vec<u8>>, usize> {
        let manner = Manner::of_turn(self.turn);
        let mut buffers = Vec::new();
        for (index, (room, lent)) in self.rooms.iter_mut().zip(lent).enumerate() {
            let (after, unharmed) = room.take(lent.length, manner.flush);
            if !unharmed {
                return Err(index);
            }
            buffers.push(after);
        }
        Ok(buffers)
    }
}

/// What breaks a rule that holds for all answers, whatever the sides agree about.
fn forbidden(input: &Input, outcome: &Outcome) -> Option<String> {
    match input.call {
        Call::Show => None,
        Call::Next => forbidden_step(input, outcome),
        _ if outcome.answer.number() == 0 => forbidden_offset(input.call, &outcome.answer)
            .or_else(|| forbidden_by_told(input, outcome)),
        _ => forbidden_by_refusal(input, outcome),
    }
}

/// A decision that is told to store nothing changes no byte, and one that is not told all leaves the map.
fn forbidden_by_told(input: &Input, outcome: &Outcome) -> Option<String> {
    let left = match (input.call, Told::of(input.numbers.stores)) {
        (_, Told::All) => return None,
        (call, Told::None) if call.carries_out() => 0..input.buffers.len(),
        (Call::CarryOutMapped, Told::One) => 2..3,
        _ => return None,
    };
    let changed = left.clone().find(|index| outcome.buffers[*index] != input.buffers[*index])?;
    let name = input.call.buffers()[changed];
    Some(format!("{name} was changed by a decision told {}", input.numbers.stores))
}

/// A call that is done gives no offset.
fn forbidden_offset(call: Call, answer: &Answer) -> Option<String> {
    let offset = answer.0[call.offset_member()?];
    (offset != 0).then(|| format!("offset {offset} of a call that is done"))
}

/// A refusal changes no byte, and the other members are 0 but for Build's block with 6, 7, 8 and 10,
/// and the offset with 7.
fn forbidden_by_refusal(input: &Input, outcome: &Outcome) -> Option<String> {
    let number = outcome.answer.number();
    if outcome.buffers != input.buffers {
        return Some(format!("bytes were changed although {number} was given"));
    }
    let mut members = outcome.answer.0;
    members[0] = 0;
    if input.call == Call::Build && [6, 7, 8, 10].contains(&number) {
        members[1] = 0;
    }
    if let (7, Some(offset)) = (number, input.call.offset_member()) {
        members[offset] = 0;
    }
    (members != [0; 5]).then(|| format!("answer {:?} of a refusal", outcome.answer.0))
}

/// A reader changes no byte, and without an entry it stands where it stood.
fn forbidden_step(input: &Input, outcome: &Outcome) -> Option<String> {
    if outcome.buffers != input.buffers {
        return Some("a reader changed bytes".to_string());
    }
    let Numbers { at, position, .. } = input.numbers;
    let given = outcome.answer.0;
    let stands = [given[0], 0, at.into(), position.into(), 0];
    let may_be = if given[1] == 0 { given == stands } else { given[..2] == [0, 1] };
    (!may_be).then(|| format!("answer {given:?} of a reader at {at} and {position}"))
}

/// An outcome, or the harm that was found outside the buffers, against the expected outcome.
fn hold(
    input: &Input,
    side: &'static str,
    outcome: Result<Outcome, String>,
    expected: &Outcome,
) -> Result<(), Mismatch> {
    let found = match outcome {
        Ok(outcome) => outcome.difference(expected, input.call),
        Err(harm) => Some(harm),
    };
    match found {
        None => Ok(()),
        Some(found) => Err(Mismatch { side, input: input.to_string(), found }),
    }
}
