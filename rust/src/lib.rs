//! Deck books for Rust: safe calls over the proved library (include/deck.h).

use std::fmt;

/// A book has at most so many bytes.
pub const BOOK: usize = 16384;
/// Kinds are below this.
pub const KINDS: usize = 16;
/// A touch at this position, which homes, has the same position as any other.
pub const HOME: u16 = 65535;
/// The most runs.
pub const RUNS: usize = 16;
/// The most steps in a run, a transfer being one.
pub const RUN_STEPS: usize = 32;
/// The most steps in all.
pub const STEPS: usize = 128;

#[repr(C)]
struct RawJudgement {
    number: u64,
    place: u64,
    verdict: u64,
    count: u64,
}

#[repr(C)]
struct RawAnswer {
    number: u64,
    place: u64,
    value: u64,
}

#[repr(C)]
struct RawIslands {
    number: u64,
    place: u64,
    runs: u64,
    count: u64,
    smallest: [u8; RUNS],
    list: [u8; RUNS],
}

#[repr(C)]
struct RawIslandSteps {
    number: u64,
    place: u64,
    count: u64,
    history: [u8; STEPS],
}

/// A gate's record, as `include/deck.h` lays it out.
#[repr(C)]
#[derive(Clone)]
struct RawGate {
    pairs: [u8; KINDS * KINDS],
    cuts: [u8; RUNS * RUN_STEPS * RUNS],
    steps: [u64; STEPS],
    lengths: [u8; RUNS],
    counts: [u8; RUNS],
    kept: [u8; STEPS],
    declared: u64,
    total: u64,
    kept_count: u64,
    withdrawn: [u8; RUNS],
    taken_back: [u8; RUNS],
}

#[repr(C)]
struct RawOpened {
    number: u64,
    place: u64,
    gate: RawGate,
}

// As `include/deck.h` asserts.
const _: () = assert!(std::mem::size_of::<RawGate>() == 9688 && std::mem::size_of::<RawOpened>() == 9704);
const _: () = assert!(std::mem::size_of::<RawIslands>() == 64 && std::mem::size_of::<RawIslandSteps>() == 152);

// Of `enum deck_verdict`.
const PASSED: u64 = 1;
const TANGLED: u64 = 2;

// Of `enum deck_arcs`.
const ARC_I: u64 = 1;
const ARC_D: u64 = 2;
const ARC_F: u64 = 4;
const ARC_B: u64 = 8;

extern "C" {
    fn deck_read(book: *const u8, len: usize) -> RawAnswer;
    fn deck_judge(book: *const u8, len: usize, order: *mut u8, order_len: usize, cycle: *mut u8, cycle_len: usize) -> RawJudgement;
    fn deck_serial(book: *const u8, len: usize) -> RawAnswer;
    fn deck_atomic(book: *const u8, len: usize) -> RawAnswer;
    fn deck_relserial(book: *const u8, len: usize) -> RawAnswer;
    fn deck_conflict(book: *const u8, len: usize) -> RawAnswer;
    fn deck_check_order(book: *const u8, len: usize, list: *const u8, list_len: usize) -> RawAnswer;
    fn deck_check_cycle(book: *const u8, len: usize, list: *const u8, list_len: usize) -> RawAnswer;
    fn deck_arc(book: *const u8, len: usize, from: usize, to: usize) -> RawAnswer;
    fn deck_islands(book: *const u8, len: usize) -> RawIslands;
    fn deck_island_history(book: *const u8, len: usize, run: u8) -> RawIslandSteps;
    fn deck_judge_island(book: *const u8, len: usize, run: u8, order: *mut u8, order_len: usize, cycle: *mut u8, cycle_len: usize) -> RawJudgement;
    fn deck_write(book: *const u8, len: usize, out: *mut u8, out_len: usize) -> RawAnswer;
    fn deck_open(book: *const u8, len: usize) -> RawOpened;
    fn deck_step(gate: *mut RawGate, run: u8) -> RawAnswer;
    fn deck_withdraw(gate: *mut RawGate, run: u8) -> RawAnswer;
    fn deck_take_back(gate: *mut RawGate, run: u8) -> RawAnswer;
    fn deck_replay(book: *const u8, len: usize, calls: *const u8, calls_len: usize, answers: *mut u8, answers_len: usize) -> RawAnswer;
}

macro_rules! causes {
    ($($cause:ident = $number:literal, $text:literal;)*) => {
        /// Why something was turned away. `cause as u8` is its number, as in `enum deck_number` of `include/deck.h`.
        #[derive(Clone, Copy, Debug, PartialEq, Eq)]
        #[non_exhaustive]
        pub enum Cause {
            $(#[doc = $text] $cause = $number,)*
        }

        #[cfg(test)]
        const CAUSES: &[Cause] = &[$(Cause::$cause),*];

        fn cause_of(number: u64) -> Cause {
            match number {
                $($number => Cause::$cause,)*
                _ => unreachable!("no refusal has the number {}", number),
            }
        }

        impl fmt::Display for Cause {
            fn fmt(&self, f: &mut fmt::Formatter) -> fmt::Result {
                f.write_str(match self {
                    $(Cause::$cause => $text,)*
                })
            }
        }
    };
}

causes! {
    BookTooLong = 1, "book over 16,384 bytes";
    NoCommand = 2, "byte that is no command";
    EndsEarly = 3, "book ends before 45 or inside operands";
    OutOfOrder = 4, "command after a later group, or 53 or 54 before any 52";
    WrongKind = 5, "kind above 15, or a above b";
    NotRising = 6, "pair or triple not above the one before";
    WrongRun = 7, "52 not the next run; 42 or 48 a run not declared; 42 a run as seen by itself";
    TooManyRuns = 8, "17th run; the book has to be split";
    WrongCut = 9, "cut after step 0, or not before the last step";
    NoStepLeft = 10, "48 for a run with no step left";
    BytesAfterEnd = 11, "bytes after 45";
    JudgeBufferShort = 12, "the judge's order or cycle buffer under 128 bytes";
    WriterBufferShort = 13, "the writer's buffer shorter than the book";
    NotDeclared = 20, "gate: run not declared";
    Withdrawn = 21, "gate: run withdrawn";
    AllKept = 22, "gate: all steps of the run kept";
    Tangled = 23, "gate: tangled";
    NoCall = 24, "replay: no call, or a cut-off one, at an offset of the list";
    AnswersShort = 25, "replay: the buffer of answers under two bytes a call";
    Damaged = 26, "gate: a table of the record out of range, or not in agreement with another";
    NoIsland = 27, "islands: run that is not the smallest of an island";
    RunTooLong = 30, "33rd step of a run; the run has to be split";
    TooManySteps = 31, "129th step of the book; the book has to be split";
    TakenBack = 32, "gate: run taken back already";
}

/// What was turned away: why, and the offset at which it was found (0 where it has none).
#[derive(Clone, Copy, Debug, PartialEq, Eq)]
pub struct Refusal {
    pub cause: Cause,
    pub place: u64,
}

impl fmt::Display for Refusal {
    fn fmt(&self, f: &mut fmt::Formatter) -> fmt::Result {
        write!(f, "refused {} at {}: {}", self.cause as u8, self.place, self.cause)
    }
}

impl std::error::Error for Refusal {}

/// What the judge says of a history.
#[derive(Clone, Debug, PartialEq, Eq)]
pub enum Verdict {
    /// The run numbers of a relatively serial order that agrees with the history on all conflicting pairs: the one that takes at each turn the smallest
    /// place whose arc sources are all taken.
    Passed(Vec<u8>),
    /// The places of a cycle of the relative serialization graph.
    Tangled(Vec<u8>),
}

fn carried_out(number: u64, place: u64) -> Result<(), Refusal> {
    if number == 0 {
        Ok(())
    } else {
        Err(Refusal { cause: cause_of(number), place })
    }
}

fn answered(a: RawAnswer) -> Result<u64, Refusal> {
    carried_out(a.number, a.place)?;
    Ok(a.value)
}

fn decided(a: RawAnswer) -> Result<bool, Refusal> {
    Ok(answered(a)? == 1)
}

/// The number of done steps of a book.
pub fn read(book: &[u8]) -> Result<u64, Refusal> {
    answered(unsafe { deck_read(book.as_ptr(), book.len()) })
}

/// What a call of the judge, which is lent an order buffer and a cycle buffer, says of a history.
fn judged(call: impl FnOnce(&mut [u8; STEPS], &mut [u8; STEPS]) -> RawJudgement) -> Result<Verdict, Refusal> {
    let (mut order, mut cycle) = ([0u8; STEPS], [0u8; STEPS]);
    let j = call(&mut order, &mut cycle);
    carried_out(j.number, j.place)?;
    Ok(match j.verdict {
        PASSED => Verdict::Passed(order[..j.count as usize].to_vec()),
        TANGLED => Verdict::Tangled(cycle[..j.count as usize].to_vec()),
        other => unreachable!("no verdict has the number {}", other),
    })
}

/// The verdict on a book's history, with its evidence.
pub fn judge(book: &[u8]) -> Result<Verdict, Refusal> {
    judged(|order, cycle| unsafe { deck_judge(book.as_ptr(), book.len(), order.as_mut_ptr(), STEPS, cycle.as_mut_ptr(), STEPS) })
}

/// Whether each run's done steps stand together. Such a history is relatively atomic and conflict serializable too.
pub fn serial(book: &[u8]) -> Result<bool, Refusal> {
    decided(unsafe { deck_serial(book.as_ptr(), book.len()) })
}

/// Whether the history is relatively atomic. Such a one is relatively serial too.
pub fn relatively_atomic(book: &[u8]) -> Result<bool, Refusal> {
    decided(unsafe { deck_atomic(book.as_ptr(), book.len()) })
}

/// Whether the history is relatively serial. Such a one is passed by the judge.
pub fn relatively_serial(book: &[u8]) -> Result<bool, Refusal> {
    decided(unsafe { deck_relserial(book.as_ptr(), book.len()) })
}

/// Whether the history is conflict serializable. Such a one is passed by the judge, whatever the book's cuts.
pub fn conflict_serializable(book: &[u8]) -> Result<bool, Refusal> {
    decided(unsafe { deck_conflict(book.as_ptr(), book.len()) })
}

/// Whether a list of run numbers is a relatively serial order that agrees with the history on all conflicting pairs.
pub fn check_order(book: &[u8], list: &[u8]) -> Result<bool, Refusal> {
    decided(unsafe { deck_check_order(book.as_ptr(), book.len(), list.as_ptr(), list.len()) })
}

/// Whether a list of places is a cycle of the history's graph.
pub fn check_cycle(book: &[u8], list: &[u8]) -> Result<bool, Refusal> {
    decided(unsafe { deck_check_cycle(book.as_ptr(), book.len(), list.as_ptr(), list.len()) })
}

/// The arcs of the history's graph that lead from one place to another. The cuts of a run, as seen by another, divide its done steps into units.
#[derive(Clone, Copy, Debug, PartialEq, Eq)]
pub struct Arcs {
    /// From a step to the next of its run.
    pub i: bool,
    /// From a step p to a step q of another run that depends on p.
    pub d: bool,
    /// For each D arc from p to q: from the last step of p's unit, as seen by q's run, to q.
    pub f: bool,
    /// For each D arc from p to q: from p to the first step of q's unit, as seen by p's run.
    pub b: bool,
}

impl Arcs {
    /// Whether any arc leads there.
    pub fn any(&self) -> bool {
        self.i || self.d || self.f || self.b
    }

    /// The first of I, D, F and B that holds.
    pub fn first(&self) -> Option<char> {
        [(self.i, 'I'), (self.d, 'D'), (self.f, 'F'), (self.b, 'B')].iter().find(|arc| arc.0).map(|arc| arc.1)
    }
}

/// The arcs that lead from one place to another; a place beyond the done steps has none.
pub fn arcs(book: &[u8], from: usize, to: usize) -> Result<Arcs, Refusal> {
    let sum = answered(unsafe { deck_arc(book.as_ptr(), book.len(), from, to) })?;
    Ok(Arcs { i: sum & ARC_I != 0, d: sum & ARC_D != 0, f: sum & ARC_F != 0, b: sum & ARC_B != 0 })
}

/// The islands of a book. Two runs are joined if a done step of the one conflicts with a done step of the other; an island is a set of runs linked by
/// such joins and not linked to any other run. Each declared run belongs to one island, alone if it is joined to none.
#[derive(Clone, Debug, PartialEq, Eq)]
pub struct Islands {
    /// Of each run, the smallest run of its island.
    pub smallest: Vec<u8>,
    /// The smallest run of each island, in rising order.
    pub list: Vec<u8>,
}

/// The islands of a book, listed by their smallest runs.
pub fn islands(book: &[u8]) -> Result<Islands, Refusal> {
    let found = unsafe { deck_islands(book.as_ptr(), book.len()) };
    carried_out(found.number, found.place)?;
    Ok(Islands { smallest: found.smallest[..found.runs as usize].to_vec(), list: found.list[..found.count as usize].to_vec() })
}

/// The history of the island whose smallest run is this one: the run numbers of its done steps, in the order of the book's history. A run that is not
/// the smallest of an island is refused as `Cause::NoIsland`.
pub fn island_history(book: &[u8], run: u8) -> Result<Vec<u8>, Refusal> {
    let steps = unsafe { deck_island_history(book.as_ptr(), book.len(), run) };
    carried_out(steps.number, steps.place)?;
    Ok(steps.history[..steps.count as usize].to_vec())
}

/// The verdict on the island whose smallest run is this one, with its evidence: that on the book with the island's history in place of its own, so the
/// places of a cycle are places there. A book's history is passed exactly when that of every island is. A run that is not the smallest of an island is
/// refused as `Cause::NoIsland`.
pub fn judge_island(book: &[u8], run: u8) -> Result<Verdict, Refusal> {
    judged(|order, cycle| unsafe { deck_judge_island(book.as_ptr(), book.len(), run, order.as_mut_ptr(), STEPS, cycle.as_mut_ptr(), STEPS) })
}

/// The book, written anew from what was read of it.
pub fn write(book: &[u8]) -> Result<Vec<u8>, Refusal> {
    let mut out = vec![0u8; book.len()];
    let n = answered(unsafe { deck_write(book.as_ptr(), book.len(), out.as_mut_ptr(), out.len()) })?;
    out.truncate(n as usize);
    Ok(out)
}

/// A call to the gate. Changes of the gate add to these.
#[derive(Clone, Copy, Debug, PartialEq, Eq)]
#[non_exhaustive]
pub enum Call {
    Step(u8),
    Withdraw(u8),
    TakeBack(u8),
}

/// What the gate answers. Changes of the gate add to these.
#[derive(Clone, Copy, Debug, PartialEq, Eq)]
#[non_exhaustive]
pub enum Reply {
    /// The place of an admitted step.
    Place(u8),
    Withdrawn,
    TakenBack,
    /// The run is not declared, is withdrawn, has all its steps kept, is tangled, or was taken back already.
    Refused(Cause),
}

/// A gate that is held open over a book: one record, updated by each call. Nothing else writes to it, so no call is refused as `Cause::Damaged`.
#[derive(Clone)]
pub struct Gate {
    record: Box<RawGate>,
}

impl Gate {
    /// A gate over the book, whose own history plays no part: no step is kept, no run withdrawn or taken back.
    pub fn open(book: &[u8]) -> Result<Gate, Refusal> {
        let RawOpened { number, place, gate } = unsafe { deck_open(book.as_ptr(), book.len()) };
        carried_out(number, place)?;
        Ok(Gate { record: Box::new(gate) })
    }

    /// The place of an admitted step, or the refusal, which changes nothing.
    pub fn step(&mut self, run: u8) -> Reply {
        match answered(unsafe { deck_step(&mut *self.record, run) }) {
            Ok(place) => Reply::Place(place as u8),
            Err(refusal) => Reply::Refused(refusal.cause),
        }
    }

    /// Withdraws the run, or is refused and changes nothing.
    pub fn withdraw(&mut self, run: u8) -> Reply {
        match answered(unsafe { deck_withdraw(&mut *self.record, run) }) {
            Ok(_) => Reply::Withdrawn,
            Err(refusal) => Reply::Refused(refusal.cause),
        }
    }

    /// Takes the run back, which may be withdrawn or complete, or is refused and changes nothing. The run's steps leave the kept list, the others stay
    /// in order, and the run is withdrawn. A step of another run, refused as tangled before, may be admitted afterwards.
    pub fn take_back(&mut self, run: u8) -> Reply {
        match answered(unsafe { deck_take_back(&mut *self.record, run) }) {
            Ok(_) => Reply::TakenBack,
            Err(refusal) => Reply::Refused(refusal.cause),
        }
    }

    /// The run numbers of the kept steps, in order.
    pub fn kept(&self) -> &[u8] {
        &self.record.kept[..self.record.kept_count as usize]
    }

    /// The withdrawn runs, those taken back included, in rising order.
    pub fn withdrawn(&self) -> Vec<u8> {
        flagged(&self.record.withdrawn)
    }

    /// The runs taken back, in rising order.
    pub fn taken_back(&self) -> Vec<u8> {
        flagged(&self.record.taken_back)
    }
}

fn flagged(flags: &[u8; RUNS]) -> Vec<u8> {
    (0..RUNS as u8).filter(|&run| flags[run as usize] == 1).collect()
}

/// The answers of a gate newly opened over the book to a list of calls, made in turn.
pub fn replay(book: &[u8], calls: &[Call]) -> Result<Vec<Reply>, Refusal> {
    let bytes: Vec<u8> = calls
        .iter()
        .flat_map(|call| match *call {
            Call::Step(run) => [0x53, run],
            Call::Withdraw(run) => [0x57, run],
            Call::TakeBack(run) => [0x54, run],
        })
        .collect();
    let mut answers = vec![0u8; bytes.len()];
    answered(unsafe { deck_replay(book.as_ptr(), book.len(), bytes.as_ptr(), bytes.len(), answers.as_mut_ptr(), answers.len()) })?;
    Ok(answers
        .chunks(2)
        .map(|answer| match answer[0] {
            0 => Reply::Place(answer[1]),
            1 => Reply::Withdrawn,
            3 => Reply::TakenBack,
            _ => Reply::Refused(cause_of(answer[1].into())),
        })
        .collect())
}

#[cfg(test)]
mod tests {
    use super::*;

    fn book(name: &str) -> Vec<u8> {
        let path = format!("{}/../tests/books/{}.hex", env!("CARGO_MANIFEST_DIR"), name);
        let text = std::fs::read_to_string(path).unwrap();
        text.lines()
            .flat_map(|line| line.split('#').next().unwrap().split_whitespace())
            .map(|byte| u8::from_str_radix(byte, 16).unwrap())
            .collect()
    }

    #[test]
    fn limits_causes_and_arcs_are_those_of_the_header() {
        let header = include_str!("../../include/deck.h");
        let has = |name: &str, number: u64| {
            let text = format!("{} = {},", name, number);
            assert!(header.contains(&text), "{}", text);
        };
        for (name, limit) in [("BOOK", BOOK), ("KINDS", KINDS), ("RUNS", RUNS), ("RUN_STEPS", RUN_STEPS), ("STEPS", STEPS)] {
            has(&format!("DECK_{}", name), limit as u64);
        }
        has("DECK_HOME", HOME.into());
        for (name, number) in [("I", ARC_I), ("D", ARC_D), ("F", ARC_F), ("B", ARC_B)] {
            has(&format!("DECK_ARC_{}", name), number);
        }
        for &cause in CAUSES {
            let number = cause as u64;
            let letters = format!("{:?}", cause);
            let name = letters.chars().map(|c| if c.is_uppercase() { format!("_{}", c) } else { c.to_uppercase().collect() });
            has(&name.collect::<String>(), number);
        }
        let numbers = header.split("enum deck_number {").nth(1).unwrap().split('}').next().unwrap();
        assert_eq!(numbers.matches(" = ").count(), CAUSES.len());
    }

    #[test]
    fn row_3_passes_with_another_order() {
        let b = book("row03");
        assert_eq!(judge(&b), Ok(Verdict::Passed(vec![0, 0, 1, 1])));
        assert_eq!(check_order(&b, &[0, 0, 1, 1]), Ok(true));
        assert_eq!(check_order(&b, &[0, 1, 0, 1]), Ok(false));
        assert_eq!(conflict_serializable(&b), Ok(true));
        assert_eq!(relatively_serial(&b), Ok(false));
    }

    #[test]
    fn row_4_is_tangled_with_a_cycle() {
        let b = book("row04");
        let cycle = match judge(&b) {
            Ok(Verdict::Tangled(cycle)) => cycle,
            other => panic!("{:?}", other),
        };
        assert_eq!(check_cycle(&b, &cycle), Ok(true));
        assert_eq!(check_cycle(&b, &[1, 3]), Ok(true));
        assert_eq!(check_cycle(&b, &[0, 3]), Ok(false));
    }

    #[test]
    fn row_6_is_relatively_atomic_by_its_cut() {
        let b = book("row06");
        assert_eq!(serial(&b), Ok(false));
        assert_eq!(relatively_atomic(&b), Ok(true));
        assert_eq!(judge(&b), Ok(Verdict::Passed(vec![0, 1, 1, 0])));
    }

    /// The arcs of those letters.
    fn arcs_named(letters: &str) -> Arcs {
        let has = |letter| letters.contains(letter);
        Arcs { i: has('I'), d: has('D'), f: has('F'), b: has('B') }
    }

    #[test]
    fn figure_3_has_the_arcs_that_001_names() {
        let b = book("figure3");
        // w1[x] r2[x] r3[z] w2[y] r3[y] r1[z] are places 0 to 5
        let all = [
            (0, 1, "DB"),
            (0, 3, "DB"),
            (0, 4, "DFB"),
            (0, 5, "I"),
            (1, 2, "B"),
            (1, 3, "I"),
            (1, 4, "DF"),
            (2, 4, "I"),
            (3, 2, "B"), // w2[y] to r3[z], which 001 names
            (3, 4, "DF"),
            (5, 1, "F"), // r1[z] to r2[x], which 001 names
            (5, 3, "F"),
        ];
        for from in 0..8 {
            for to in 0..8 {
                let letters = all.iter().find(|arc| (arc.0, arc.1) == (from, to)).map_or("", |arc| arc.2);
                assert_eq!(arcs(&b, from, to), Ok(arcs_named(letters)), "from {} to {}", from, to);
            }
        }
        assert_eq!(arcs(&b, 0, usize::MAX), Ok(arcs_named("")));
        assert_eq!(arcs(&[], 0, 1), Err(Refusal { cause: Cause::EndsEarly, place: 0 }));
    }

    #[test]
    fn the_first_arc_of_those_at_once_is_named() {
        let b = book("arcs-at-once");
        assert_eq!(check_cycle(&b, &[2, 3, 1]), Ok(true));
        for (from, to, letters) in [(2, 3, "B"), (3, 1, "FB"), (1, 2, "DFB")] {
            let found = arcs(&b, from, to).unwrap();
            assert_eq!((found, found.any(), found.first()), (arcs_named(letters), true, letters.chars().next()));
        }
        assert_eq!((arcs_named("").any(), arcs_named("").first()), (false, None));
        assert_eq!((arcs_named("I").any(), arcs_named("I").first()), (true, Some('I')));
    }

    #[test]
    fn refusals_carry_cause_and_place() {
        assert_eq!(read(&[]), Err(Refusal { cause: Cause::EndsEarly, place: 0 }));
        assert_eq!(read(&[0x45]), Ok(0));
        assert_eq!(judge(&[0x45, 0x45]), Err(Refusal { cause: Cause::BytesAfterEnd, place: 1 }));
        assert_eq!(read(&[0; BOOK + 1]), Err(Refusal { cause: Cause::BookTooLong, place: 0 }));
        assert_eq!(serial(&[0x52]), Err(Refusal { cause: Cause::EndsEarly, place: 0 }));
        assert_eq!(read(&[0x45, 0x45]).unwrap_err().to_string(), "refused 11 at 1: bytes after 45");
    }

    #[test]
    fn a_refusal_says_which_limit_a_long_book_broke() {
        assert_eq!(read(&book("refused08")), Err(Refusal { cause: Cause::TooManyRuns, place: 32 }));
        assert_eq!(read(&book("refused30")), Err(Refusal { cause: Cause::RunTooLong, place: 130 }));
        assert_eq!(read(&book("refused31")), Err(Refusal { cause: Cause::TooManySteps, place: 522 }));
        assert_eq!(judge(&book("refused30-both")).unwrap_err().to_string(), "refused 30 at 520: 33rd step of a run; the run has to be split");
        assert_eq!(read(&book("longest-run")), Ok(32));
        assert_eq!(read(&book("longest-runs")), Ok(128));
    }

    #[test]
    fn the_gate_answers_as_in_document_01() {
        use Call::{Step, Withdraw};
        use Cause::{AllKept, NotDeclared, Tangled};
        use Reply::{Place, Refused, Withdrawn};
        let calls = [Step(0), Step(1), Step(1), Step(0), Withdraw(0), Step(0), Step(1), Step(2)];
        let (withdrawn, all_kept) = (Refused(Cause::Withdrawn), Refused(AllKept));
        let answers = [Place(0), Place(1), Place(2), Refused(Tangled), Withdrawn, withdrawn, all_kept, Refused(NotDeclared)];
        assert_eq!(replay(&book("row02"), &calls), Ok(answers.to_vec()));
        assert_eq!(replay(&[], &calls), Err(Refusal { cause: Cause::EndsEarly, place: 0 }));
    }

    #[test]
    fn a_gate_is_held_open_and_stepped() {
        let mut gate = Gate::open(&book("row02")).unwrap();
        assert_eq!([gate.step(0), gate.step(1), gate.step(1)], [Reply::Place(0), Reply::Place(1), Reply::Place(2)]);
        let before = gate.clone();
        assert_eq!(gate.step(0), Reply::Refused(Cause::Tangled));
        assert_eq!(gate.kept(), before.kept());
        assert_eq!(gate.withdraw(0), Reply::Withdrawn);
        assert_eq!([gate.step(0), gate.step(1), gate.step(2)], [Cause::Withdrawn, Cause::AllKept, Cause::NotDeclared].map(Reply::Refused));
        assert_eq!((gate.kept(), gate.withdrawn()), (&[0, 1, 1][..], vec![0]));
        assert_eq!(Gate::open(&[0x45, 0x45]).err(), Some(Refusal { cause: Cause::BytesAfterEnd, place: 1 }));
    }

    #[test]
    fn a_tangled_run_is_admitted_after_another_was_taken_back() {
        let mut gate = Gate::open(&book("row02")).unwrap();
        assert_eq!([gate.step(0), gate.step(1), gate.step(1)], [Reply::Place(0), Reply::Place(1), Reply::Place(2)]);
        assert_eq!(gate.step(0), Reply::Refused(Cause::Tangled));
        assert_eq!(gate.take_back(1), Reply::TakenBack);
        assert_eq!((gate.kept(), gate.withdrawn(), gate.taken_back()), (&[0][..], vec![1], vec![1]));
        assert_eq!(gate.step(0), Reply::Place(1));
        assert_eq!([gate.step(1), gate.withdraw(1)], [Reply::Refused(Cause::Withdrawn); 2]);
        assert_eq!([gate.take_back(1), gate.take_back(2)], [Cause::TakenBack, Cause::NotDeclared].map(Reply::Refused));
        assert_eq!((gate.kept(), gate.withdrawn(), gate.taken_back()), (&[0, 0][..], vec![1], vec![1]));
    }

    #[test]
    fn a_withdrawn_run_and_a_complete_one_are_taken_back() {
        let mut gate = Gate::open(&book("row02")).unwrap();
        assert_eq!([gate.step(0), gate.step(1), gate.step(1)], [Reply::Place(0), Reply::Place(1), Reply::Place(2)]);
        assert_eq!([gate.withdraw(0), gate.withdraw(1)], [Reply::Withdrawn, Reply::Refused(Cause::AllKept)]);
        assert_eq!((gate.withdrawn(), gate.taken_back()), (vec![0], vec![]));
        assert_eq!(gate.take_back(0), Reply::TakenBack);
        assert_eq!((gate.kept(), gate.withdrawn(), gate.taken_back()), (&[1, 1][..], vec![0], vec![0]));
        assert_eq!(gate.take_back(1), Reply::TakenBack);
        assert_eq!((gate.kept(), gate.withdrawn(), gate.taken_back()), (&[][..], vec![0, 1], vec![0, 1]));
    }

    #[test]
    fn a_replay_takes_runs_back() {
        use Call::{Step, TakeBack, Withdraw};
        use Reply::{Place, Refused, TakenBack};
        let calls = [Step(0), Step(1), Step(1), Step(0), TakeBack(1), Step(0), Step(1), Withdraw(1), TakeBack(1), TakeBack(2), TakeBack(0)];
        let (tangled, withdrawn) = (Refused(Cause::Tangled), Refused(Cause::Withdrawn));
        let (again, not_declared) = (Refused(Cause::TakenBack), Refused(Cause::NotDeclared));
        let answers = [Place(0), Place(1), Place(2), tangled, TakenBack, Place(1), withdrawn, withdrawn, again, not_declared, TakenBack];
        assert_eq!(replay(&book("row02"), &calls), Ok(answers.to_vec()));
    }

    #[test]
    fn a_homing_step_tangles_what_was_passed() {
        let (below, homing) = (book("homing-below"), book("homing-tangles"));
        assert_eq!(judge(&below), Ok(Verdict::Passed(vec![0, 1, 0])));
        assert!(matches!(judge(&homing), Ok(Verdict::Tangled(_))));
        for (book, last) in [(below, Reply::Place(2)), (homing, Reply::Refused(Cause::Tangled))] {
            let mut gate = Gate::open(&book).unwrap();
            assert_eq!([gate.step(0), gate.step(1), gate.step(0)], [Reply::Place(0), Reply::Place(1), last]);
        }
    }

    #[test]
    fn a_transfer_conflicts_by_its_second_touch_too() {
        let transfer = book("transfer-tangles");
        let mut apart = transfer.clone();
        let at = apart.iter().position(|&byte| byte == 0x54).unwrap();
        apart[at + 6] = 7; // the second touch where no other step is
        assert_eq!(judge(&apart), Ok(Verdict::Passed(vec![0, 0, 1])));
        assert!(matches!(judge(&transfer), Ok(Verdict::Tangled(_))));
        for (book, last) in [(apart, Reply::Place(2)), (transfer, Reply::Refused(Cause::Tangled))] {
            let mut gate = Gate::open(&book).unwrap();
            assert_eq!([gate.step(0), gate.step(1), gate.step(0)], [Reply::Place(0), Reply::Place(1), last]);
        }
    }

    #[test]
    fn a_transfer_is_one_step() {
        assert_eq!(read(&book("transfer-full")), Ok(STEPS as u64));
        assert_eq!(read(&book("refused30-transfer")), Err(Refusal { cause: Cause::RunTooLong, place: 226 }));
        assert_eq!(read(&book("refused31-transfer")), Err(Refusal { cause: Cause::TooManySteps, place: 928 }));
    }

    #[test]
    fn islands_are_listed_by_their_smallest_runs() {
        let all = |smallest: &[u8], list: &[u8]| Ok(Islands { smallest: smallest.to_vec(), list: list.to_vec() });
        assert_eq!(islands(&book("islands-none")), all(&[0, 1, 2], &[0, 1, 2]));
        assert_eq!(islands(&book("islands-one")), all(&[0, 0, 0], &[0]));
        assert_eq!(islands(&book("islands-chain")), all(&[0, 0, 2, 0, 0], &[0, 2]));
        assert_eq!(islands(&book("islands-homing")), all(&[0, 0, 0, 0], &[0]));
        assert_eq!(islands(&book("islands-empty-run")), all(&[0, 1, 2, 0], &[0, 1, 2]));
        assert_eq!(islands(&book("islands-undone")), all(&[0, 1, 2], &[0, 1, 2]));
        assert_eq!(islands(&book("end-alone")), all(&[], &[]));
        assert_eq!(islands(&[0x45, 0x45]), Err(Refusal { cause: Cause::BytesAfterEnd, place: 1 }));
    }

    #[test]
    fn an_island_keeps_the_order_of_its_steps() {
        let b = book("islands-chain");
        assert_eq!(island_history(&b, 0), Ok(vec![4, 1, 1, 3, 3, 0]));
        assert_eq!(island_history(&b, 2), Ok(vec![2]));
        assert_eq!(island_history(&book("islands-empty-run"), 1), Ok(vec![]));
        for run in [1, 3, 4, 5, 15, 16, 255] {
            assert_eq!(island_history(&b, run), Err(Refusal { cause: Cause::NoIsland, place: 0 }));
            assert_eq!(judge_island(&b, run), Err(Refusal { cause: Cause::NoIsland, place: 0 }));
        }
        assert_eq!(island_history(&[], 0), Err(Refusal { cause: Cause::EndsEarly, place: 0 }));
        assert_eq!(judge_island(&[], 0), Err(Refusal { cause: Cause::EndsEarly, place: 0 }));
    }

    #[test]
    fn one_island_is_tangled_and_another_passed() {
        let b = book("islands-tangled-one");
        assert!(matches!(judge(&b), Ok(Verdict::Tangled(_))));
        assert_eq!(islands(&b), Ok(Islands { smallest: vec![0, 1, 0, 1], list: vec![0, 1] }));
        assert_eq!(judge_island(&b, 0), Ok(Verdict::Passed(vec![0, 2, 2, 0])));
        assert_eq!(island_history(&b, 1), Ok(vec![1, 3, 3, 1]));
        let cycle = match judge_island(&b, 1) {
            Ok(Verdict::Tangled(cycle)) => cycle,
            other => panic!("{:?}", other),
        };
        let mut alone = b[..b.len() - 2 * 8 - 1].to_vec(); // without the history of eight steps and the end
        alone.extend([0x48, 1, 0x48, 3, 0x48, 3, 0x48, 1, 0x45]);
        assert_eq!(check_cycle(&alone, &cycle), Ok(true));
    }

    #[test]
    fn a_book_comes_back_byte_for_byte() {
        for name in ["row01", "row09", "figure1-rs", "figure4", "transfer-touches", "transfer-equal-touches"] {
            let b = book(name);
            assert_eq!(write(&b), Ok(b));
        }
    }
}
