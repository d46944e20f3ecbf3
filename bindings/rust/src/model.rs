use crate::calls;
use crate::refusal::Refusal;

/// Records one after the other in words, each led by its length.
#[derive(Clone, Debug, PartialEq, Eq)]
pub struct List {
    pub(crate) words: Vec<u32>,
    pub(crate) count: usize,
}

impl List {
    #[must_use]
    pub fn words(&self) -> &[u32] {
        &self.words
    }

    /// How many records there are.
    #[must_use]
    pub fn count(&self) -> usize {
        self.count
    }

    /// The records without their lengths, as far as the words split into such.
    pub fn records(&self) -> impl Iterator<Item = &[u32]> {
        let mut left = self.words.as_slice();
        std::iter::from_fn(move || {
            let length = *left.first()? as usize;
            let (record, behind) = left.split_at_checked(length)?;
            left = behind;
            record.get(1..)
        })
    }

    /// The sum of all widths: of signals and of expressions it is the second field.
    pub(crate) fn bits(&self) -> usize {
        self.records().map(width).sum()
    }
}

/// Any words; a run refuses those that are no list of a model.
impl From<Vec<u32>> for List {
    fn from(words: Vec<u32>) -> Self {
        let mut list = Self { words, count: 0 };
        list.count = list.records().count();
        list
    }
}

/// No width of a model is larger.
const WIDEST: u32 = 4_096;

const OUTPUT: u32 = 1;

fn width(record: &[u32]) -> usize {
    record.get(1).map_or(0, |&width| width.min(WIDEST) as usize)
}

/// What a netlist is lowered to. The records' fields are those of the paper.
#[derive(Clone, Debug, PartialEq, Eq)]
pub struct Model {
    pub signals: List,
    pub exprs: List,
    pub stmts: List,
}

/// What rises or falls in a tick.
#[derive(Clone, Copy, Debug, Default, PartialEq, Eq)]
pub enum Fired {
    #[default]
    Nothing,
    /// A signal's number, and 0 for a rising edge, 1 for a falling one.
    Edge(u32, u32),
}

impl Fired {
    #[must_use]
    pub fn rising(signal: u32) -> Self {
        Self::Edge(signal, 0)
    }

    #[must_use]
    pub fn falling(signal: u32) -> Self {
        Self::Edge(signal, 1)
    }

    /// As the library takes it: what fires, and of which signal.
    #[must_use]
    pub fn words(self) -> (u32, u32) {
        match self {
            Self::Nothing => (0, 0),
            // Edges above 1 are refused alike.
            Self::Edge(signal, edge) => (edge.saturating_add(1), signal),
        }
    }
}

/// The signals of a model between two ticks, and room to work in.
#[derive(Clone, Debug)]
pub struct State {
    /// For each bit of each signal a byte, 0 or 1: signals in order, lowest bit first.
    pub bytes: Vec<u8>,
    works: [Vec<u8>; 3],
}

impl Model {
    /// All signals at 0.
    #[must_use]
    pub fn start(&self) -> State {
        State {
            bytes: vec![0; self.signals.bits()],
            works: [self.exprs.bits(), self.exprs.count, self.signals.count].map(|n| vec![0; n]),
        }
    }

    /// One tick: the bits of all input and inout ports, lowest first, and what
    /// fires. A refused tick changes nothing. The model is checked and prepared
    /// anew each time; [`simulate`](crate::simulate) does so once for many ticks.
    /// Takes 1.3 MB of stack.
    pub fn run(&self, state: &mut State, bits: &[u8], fired: Fired) -> Result<(), Refusal> {
        let lists = [&self.signals, &self.exprs, &self.stmts].map(List::words);
        let works = state.works.each_mut().map(Vec::as_mut_slice);
        let mut answer = [0; calls::ANSWER];
        calls::run(lists, &mut state.bytes, bits, fired.words(), works, &mut answer);
        Refusal::check(&answer)
    }

    /// The output ports' bits, in port order, lowest first.
    ///
    /// # Panics
    ///
    /// If the state is that of a model with fewer signal bits.
    #[must_use]
    pub fn outputs(&self, state: &State) -> Vec<u8> {
        let mut left = state.bytes.as_slice();
        let mut outputs = Vec::new();
        for record in self.signals.records() {
            let (bytes, behind) = left.split_at(width(record));
            left = behind;
            if record.first() == Some(&OUTPUT) {
                outputs.extend(bytes);
            }
        }
        outputs
    }

    /// How many bits the output ports have.
    #[must_use]
    pub fn output_bits(&self) -> usize {
        self.signals.records().filter(|record| record.first() == Some(&OUTPUT)).map(width).sum()
    }
}
