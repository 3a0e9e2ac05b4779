//! A call with its inputs, and what comes of it.

use std::fmt;

pub const PAGE: usize = 8192;
pub const SLOT: usize = 512;
pub const PAYLOAD: usize = 504;
pub const PATCH_HEADER: usize = 512;
pub const FULL_HEADER: usize = 4096;
pub const MAX_BLOCKS: usize = 131_072;

#[derive(Clone, Copy, Debug, PartialEq, Eq)]
pub enum Call {
    Format,
    Compare,
    Apply,
    Judge,
    Show,
    Read,
    /// A decision carried out: kind, payload and page.
    CarryOut,
    Build,
    LookUp,
    Tally,
    /// One step of the entry reader.
    Next,
    /// The same, keeping a lent map.
    CarryOutMapped,
    /// A read that goes by a map.
    ReadMapped,
    Cut,
    /// A cut that keeps a lent map.
    CutMapped,
    Highest,
    /// Places that no slot refers to are cleared.
    Sweep,
}

impl Call {
    pub const ALL: [Call; 17] = [
        Call::Format,
        Call::Compare,
        Call::Apply,
        Call::Judge,
        Call::Show,
        Call::Read,
        Call::CarryOut,
        Call::Build,
        Call::LookUp,
        Call::Tally,
        Call::Next,
        Call::CarryOutMapped,
        Call::ReadMapped,
        Call::Cut,
        Call::CutMapped,
        Call::Highest,
        Call::Sweep,
    ];

    pub fn name(self) -> &'static str {
        match self {
            Call::Format => "format",
            Call::Compare => "compare",
            Call::Apply => "apply",
            Call::Judge => "judge",
            Call::Show => "show",
            Call::Read => "read",
            Call::CarryOut => "carry_out",
            Call::Build => "build",
            Call::LookUp => "look_up",
            Call::Tally => "tally",
            Call::Next => "next",
            Call::CarryOutMapped => "carry_out_mapped",
            Call::ReadMapped => "read_mapped",
            Call::Cut => "cut",
            Call::CutMapped => "cut_mapped",
            Call::Highest => "highest",
            Call::Sweep => "sweep",
        }
    }

    /// The call's buffers in the order of the C interface.
    pub fn buffers(self) -> &'static [&'static str] {
        match self {
            Call::Format => &["patch", "full"],
            Call::Compare => &["base", "page", "payload"],
            Call::Apply => &["base", "payload", "page"],
            Call::Judge => &["slot"],
            Call::Show => &["patch"],
            Call::Read => &["patch", "full", "base", "page"],
            Call::CarryOut => &["patch", "full", "payload", "page"],
            Call::Build => &["patch", "full", "map"],
            Call::LookUp => &["map"],
            Call::Tally => &["map"],
            Call::Next => &["payload"],
            Call::CarryOutMapped => &["patch", "full", "map", "payload", "page"],
            Call::ReadMapped => &["patch", "full", "map", "base", "page"],
            Call::Cut => &["patch", "full"],
            Call::CutMapped => &["patch", "full", "map"],
            Call::Highest => &["patch"],
            Call::Sweep => &["patch", "full"],
        }
    }

    /// The numbers that the call can give, 0 included. Show gives none.
    pub fn numbers(self) -> &'static [usize] {
        match self {
            Call::Format => &[0, 2],
            Call::Compare => &[0, 1, 9],
            Call::Apply => &[0, 1, 7],
            Call::Judge => &[0, 2, 6],
            Call::Show => &[],
            Call::Read => &[0, 1, 2, 3, 4, 5, 6, 7, 8],
            Call::CarryOut => &[0, 1, 2, 3, 4, 5, 6, 7, 8],
            Call::Build => &[0, 2, 3, 4, 6, 7, 8, 9, 10],
            Call::LookUp => &[0, 2, 5, 9, 11],
            Call::Tally => &[0, 2, 9, 11],
            Call::Next => &[0, 7],
            Call::CarryOutMapped => &[0, 1, 2, 3, 4, 5, 6, 7, 8, 9],
            Call::ReadMapped => &[0, 1, 2, 3, 4, 5, 6, 7, 8, 9, 11],
            Call::Cut => &[0, 2, 3, 4, 5],
            Call::CutMapped => &[0, 2, 3, 4, 5, 9],
            Call::Highest => &[0, 2, 3, 4, 6],
            Call::Sweep => &[0, 2, 3, 4, 6, 8],
        }
    }

    /// The numbers that the wrapper can give, 0 included, for the two calls that it makes for less than
    /// all inputs: it carries out what a Compare decided that answered 0.
    pub fn numbers_of_wrapper(self) -> &'static [usize] {
        match self {
            Call::CarryOut => &[0, 2, 3, 4, 5, 8],
            Call::CarryOutMapped => &[0, 2, 3, 4, 5, 8, 9],
            _ => &[],
        }
    }

    /// Whether it carries out a decision, and so is told a number of stores.
    pub fn carries_out(self) -> bool {
        matches!(self, Call::CarryOut | Call::CarryOutMapped)
    }

    /// Where the payload offset stands among the members of the answer, for calls that give it.
    pub fn offset_member(self) -> Option<usize> {
        match self {
            Call::Apply => Some(3),
            Call::Read | Call::ReadMapped | Call::Build => Some(2),
            _ => None,
        }
    }
}

/// The members of an answer in the order of the C interface, 0 for members that the call's answer
/// does not have. Wide enough for every member, signed or not.
#[derive(Clone, Copy, Debug, PartialEq, Eq)]
pub struct Answer(pub [i128; 5]);

impl Answer {
    pub fn of(members: &[i128]) -> Answer {
        let mut answer = [0; 5];
        answer[..members.len()].copy_from_slice(members);
        Answer(answer)
    }

    /// The refusal or 0; not for Show, whose answer has no number.
    pub fn number(&self) -> i128 {
        self.0[0]
    }
}

/// How many of its stores a decision makes, as a number says it.
#[derive(Clone, Copy, Debug, PartialEq, Eq)]
pub enum Told {
    None,
    One,
    /// Any number but 0 and 1; also for calls that have no such number.
    All,
}

impl Told {
    pub const EVERY: [Told; 3] = [Told::None, Told::One, Told::All];

    pub fn of(stores: u64) -> Told {
        match stores {
            0 => Told::None,
            1 => Told::One,
            _ => Told::All,
        }
    }
}

/// The numbers that a call is told. Those that it does not have are unused.
#[derive(Clone, Copy, Debug)]
pub struct Numbers {
    pub n: u64,
    /// For a cut its K, the lowest block that it drops.
    pub block: u64,
    /// The kind of a decision, and how many stores it is told to make.
    pub kind: u32,
    pub stores: u64,
    /// Place and position of a reader.
    pub at: u64,
    pub position: i32,
}

/// All stores of a decision, where nothing else is told.
pub const ALL: u64 = independent::ALL;

/// A reader that begins.
pub const BEGINNING: (u64, i32) = (0, -1);

impl Default for Numbers {
    fn default() -> Numbers {
        let (at, position) = BEGINNING;
        Numbers { n: 0, block: 0, kind: 0, stores: ALL, at, position }
    }
}

/// One call with everything it is lent and told.
#[derive(Clone, Debug)]
pub struct Input {
    pub call: Call,
    pub buffers: Vec<Vec<u8>>,
    pub numbers: Numbers,
}

impl Input {
    pub fn new(call: Call, buffers: Vec<Vec<u8>>) -> Input {
        assert_eq!(buffers.len(), call.buffers().len(), "buffers of {}", call.name());
        Input { call, buffers, numbers: Numbers::default() }
    }

    /// One step of a reader that stands at a place and a position.
    pub fn step(payload: &[u8], (at, position): (u64, i32)) -> Input {
        let mut input = Input::new(Call::Next, vec![payload.to_vec()]);
        (input.numbers.at, input.numbers.position) = (at, position);
        input
    }

    pub fn at_block(mut self, block: u64) -> Input {
        self.numbers.block = block;
        self
    }

    pub fn of_kind(mut self, kind: u32) -> Input {
        self.numbers.kind = kind;
        self
    }

    /// A decision that is told to make so many of its stores.
    pub fn storing(mut self, stores: u64) -> Input {
        self.numbers.stores = stores;
        self
    }

    pub fn told(mut self, n: u64) -> Input {
        self.numbers.n = n;
        self
    }
}

impl fmt::Display for Input {
    fn fmt(&self, f: &mut fmt::Formatter<'_>) -> fmt::Result {
        write!(f, "{}(", self.call.name())?;
        for (name, bytes) in self.call.buffers().iter().zip(&self.buffers) {
            write!(f, "{name}: {} bytes #{:016x}, ", bytes.len(), fingerprint(bytes))?;
        }
        let Numbers { n, block, kind, stores, at, position } = self.numbers;
        write!(f, "n: {n}, block: {block}, kind: {kind}, stores: {stores}, ")?;
        write!(f, "at: {at}, position: {position})")
    }
}

/// Tells buffers apart in messages (FNV-1a).
fn fingerprint(bytes: &[u8]) -> u64 {
    bytes.iter().fold(0xCBF2_9CE4_8422_2325, |hash, byte| {
        (hash ^ u64::from(*byte)).wrapping_mul(0x0000_0100_0000_01B3)
    })
}

/// The answer of a call and every lent buffer after it.
#[derive(Clone, Debug, PartialEq, Eq)]
pub struct Outcome {
    pub answer: Answer,
    pub buffers: Vec<Vec<u8>>,
}

impl Outcome {
    /// What differs from the outcome that was expected, if anything does.
    pub fn difference(&self, expected: &Outcome, call: Call) -> Option<String> {
        if self.answer != expected.answer {
            return Some(format!("answer {:?}, expected {:?}", self.answer.0, expected.answer.0));
        }
        for (index, name) in call.buffers().iter().enumerate() {
            let (got, want) = (&self.buffers[index], &expected.buffers[index]);
            if let Some(found) = first_difference(got, want) {
                return Some(format!("buffer {name}: {found}"));
            }
        }
        None
    }
}

pub fn first_difference(got: &[u8], want: &[u8]) -> Option<String> {
    if got == want {
        return None;
    }
    if got.len() != want.len() {
        return Some(format!("{} bytes, expected {}", got.len(), want.len()));
    }
    let at = got.iter().zip(want).position(|(a, b)| a != b)?;
    Some(format!("byte {at} is {:02X}, expected {:02X}", got[at], want[at]))
}
