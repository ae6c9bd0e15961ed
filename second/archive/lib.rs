//! The proved programs behind their C names, held to an expected verdict: the whole 64-bit result, every byte of the lent buffer or list, the
//! bytes around it and the bytes of the files.

#[path = "../../include/cudreth.rs"]
mod cudreth;

use cudreth::{cudreth_draw, cudreth_mark, cudreth_paths, cudreth_solve, cudreth_xml_read, cudreth_xml_write, Centre};
use second::one_pass::NumberOrN;
use second::verdict::{hex, list, DrawVerdict, FillVerdict, MarkerVerdict, SolverVerdict};
use second::{centres, Refusal};

/// Where and how the archive differs, with the whole input.
pub struct Disagreement(pub String);

/// Each input is put twice, with different noise around and in the lent bytes, so that a result that hangs on a byte outside shows: once
/// between guard bytes, and once at its exact length, so that a memory checker sees every byte too far.
const WAYS: [Way; 2] = [Way { noise: 0, guard: 64 }, Way { noise: 0xa7, guard: 0 }];

struct Way {
    noise: u8,
    /// In bytes.
    guard: usize,
}

impl Way {
    fn noise(&self, at: usize) -> u8 {
        (at as u8).wrapping_mul(29).wrapping_add(self.noise)
    }
}

/// Bytes are lent, and records of centres, which have no byte between their fields.
trait Lendable: Copy + PartialEq {
    fn noise(at: usize, way: &Way) -> Self;
}

impl Lendable for u8 {
    fn noise(at: usize, way: &Way) -> u8 {
        way.noise(at)
    }
}

impl Lendable for Centre {
    fn noise(at: usize, way: &Way) -> Centre {
        let field = |number: usize| u32::from_ne_bytes([0, 1, 2, 3].map(|byte| way.noise(12 * at + 4 * number + byte)));
        Centre { guarantee: field(0), cap: field(1), drawn: field(2) }
    }
}

/// What is lent between guards, as it was before the call and as it is after it.
struct Lent<T> {
    before: Vec<T>,
    after: Vec<T>,
    /// How many go into the guard bytes on either side.
    guard: usize,
}

impl<T: Lendable> Lent<T> {
    fn noise(length: usize, way: &Way) -> Lent<T> {
        let guard = way.guard / size_of::<T>();
        let all: Vec<T> = (0..length + 2 * guard).map(|at| T::noise(at, way)).collect();
        Lent { before: all.clone(), after: all, guard }
    }

    fn holding(content: &[T], way: &Way) -> Lent<T> {
        let mut lent = Lent::noise(content.len(), way);
        lent.before[lent.guard..][..content.len()].copy_from_slice(content);
        lent.after.copy_from_slice(&lent.before);
        lent
    }

    fn lent(&mut self) -> &mut [T] {
        let end = self.after.len() - self.guard;
        &mut self.after[self.guard..end]
    }

    /// Is all as lent, but for `written` at the front?
    fn changed_only_by(&self, written: &[T]) -> bool {
        let mut expected = self.before.clone();
        expected[self.guard..][..written.len()].copy_from_slice(written);
        self.after == expected
    }
}

pub fn hold_solver(file: &[u8], buffer: usize, allowance: u32, expected: &SolverVerdict) -> Result<(), Disagreement> {
    let written: &[u8] = match expected {
        SolverVerdict::Tree { answer, .. } => answer,
        _ => &[],
    };
    for way in &WAYS {
        let mut constraints = Lent::holding(file, way);
        let mut answer = Lent::noise(buffer, way);
        let (file_lent, answer_lent) = (constraints.lent(), answer.lent());
        let result = unsafe {
            cudreth_solve(file_lent.as_ptr(), file_lent.len(), answer_lent.as_mut_ptr(), answer_lent.len(), allowance)
        };
        let as_expected =
            result == solver_number(expected) && answer.changed_only_by(written) && constraints.changed_only_by(&[]);
        if !as_expected {
            return Err(Disagreement(format!(
                "solve, buffer {buffer}, allowance {allowance}\nconstraints {}\nexpected {expected} = {:#x}\narchive  {:#x}\nbuffer before, with guards {}\nbuffer after, with guards  {}",
                hex(file),
                solver_number(expected),
                result,
                hex(&answer.before),
                hex(&answer.after),
            )));
        }
    }
    Ok(())
}

/// The archive's own verdict, whatever it is: the same both times, with nothing written but the front that it tells of.
pub fn solved(file: &[u8], buffer: usize, allowance: u32) -> Result<SolverVerdict, Disagreement> {
    let said = WAYS.map(|way| {
        let mut constraints = Lent::holding(file, &way);
        let mut answer = Lent::noise(buffer, &way);
        let (file_lent, answer_lent) = (constraints.lent(), answer.lent());
        let result = unsafe {
            cudreth_solve(file_lent.as_ptr(), file_lent.len(), answer_lent.as_mut_ptr(), answer_lent.len(), allowance)
        };
        let written = (result >> 32 & 0xffff) as usize;
        let verdict = answer.lent().get(..written).and_then(|front| solver_verdict(result, front));
        (result, verdict.filter(|verdict| wrote_only(verdict, &answer) && constraints.changed_only_by(&[])))
    });
    match said {
        [(_, Some(verdict)), (_, Some(again))] if verdict == again => Ok(verdict),
        [(first, _), (second, _)] => Err(Disagreement(format!(
            "solve, buffer {buffer}, allowance {allowance}\nconstraints {}\nno verdict, or more written than told, or two results: {first:#x}, {second:#x}",
            hex(file)
        ))),
    }
}

fn wrote_only(verdict: &SolverVerdict, lent: &Lent<u8>) -> bool {
    match verdict {
        SolverVerdict::Tree { answer, .. } => lent.changed_only_by(answer),
        _ => lent.changed_only_by(&[]),
    }
}

pub fn hold_marker(file: &[u8], answer_file: &[u8], expected: &MarkerVerdict) -> Result<(), Disagreement> {
    for way in &WAYS {
        let mut constraints = Lent::holding(file, way);
        let mut answer = Lent::holding(answer_file, way);
        let (file_lent, answer_lent) = (constraints.lent(), answer.lent());
        let result =
            unsafe { cudreth_mark(file_lent.as_ptr(), file_lent.len(), answer_lent.as_ptr(), answer_lent.len()) };
        let as_expected =
            result == marker_number(expected) && answer.changed_only_by(&[]) && constraints.changed_only_by(&[]);
        if !as_expected {
            return Err(Disagreement(format!(
                "mark\nconstraints {}\nanswer {}\nexpected {expected} = {:#x}\narchive  {:#x}",
                hex(file),
                hex(answer_file),
                marker_number(expected),
                result,
            )));
        }
    }
    Ok(())
}

/// A C function that takes one slice to read and fills the front of another.
type Filling = unsafe extern "C" fn(*const u8, usize, *mut u8, usize) -> u64;

pub fn hold_paths(text: &[u8], buffer: usize, expected: &FillVerdict) -> Result<(), Disagreement> {
    hold_filling("paths", cudreth_paths, text, buffer, expected)
}

/// Node records to the writer of XML.
pub fn hold_xml_write(node_records: &[u8], buffer: usize, expected: &FillVerdict) -> Result<(), Disagreement> {
    hold_filling("xml write", cudreth_xml_write, node_records, buffer, expected)
}

/// A text to the reader of XML.
pub fn hold_xml_read(text: &[u8], buffer: usize, expected: &FillVerdict) -> Result<(), Disagreement> {
    hold_filling("xml read", cudreth_xml_read, text, buffer, expected)
}

/// All of them are lent alike, and tell alike what they wrote.
fn hold_filling(
    name: &str,
    filling: Filling,
    input: &[u8],
    buffer: usize,
    expected: &FillVerdict,
) -> Result<(), Disagreement> {
    let written: &[u8] = match expected {
        FillVerdict::Written(bytes) => bytes,
        FillVerdict::Refused(_) => &[],
    };
    for way in &WAYS {
        let mut read = Lent::holding(input, way);
        let mut filled = Lent::noise(buffer, way);
        let (read_lent, filled_lent) = (read.lent(), filled.lent());
        let result =
            unsafe { filling(read_lent.as_ptr(), read_lent.len(), filled_lent.as_mut_ptr(), filled_lent.len()) };
        let as_expected =
            result == fill_number(expected) && filled.changed_only_by(written) && read.changed_only_by(&[]);
        if !as_expected {
            let after = filled.lent();
            let front = &after[..after.len().min(1024)];
            return Err(Disagreement(format!(
                "{name}, buffer {buffer}\ninput {}\nbytes {}\nexpected {expected} = {:#x}\narchive  {:#x}\nfront of the buffer after {}",
                input.escape_ascii(),
                hex(input),
                fill_number(expected),
                result,
                hex(front),
            )));
        }
    }
    Ok(())
}

/// A draw changes the list in its place.
pub fn hold_draw(
    centres: &[centres::Centre],
    total: u32,
    centre: usize,
    amount: u32,
    expected: &DrawVerdict,
) -> Result<(), Disagreement> {
    let before = records_of(centres);
    let after = match expected {
        DrawVerdict::Granted(after) => records_of(after),
        DrawVerdict::Refused(_) => before.clone(),
    };
    for way in &WAYS {
        let mut records = Lent::holding(&before, way);
        let lent = records.lent();
        let result = unsafe { cudreth_draw(lent.as_mut_ptr(), lent.len(), total, centre, amount) };
        if result != draw_number(expected) || !records.changed_only_by(&after) {
            let front = |list: &[Centre]| format!("{:?}", &list[..list.len().min(20)]);
            return Err(Disagreement(format!(
                "draw, total {total}, centre {centre}, amount {amount}\ncentres {}\nexpected {expected} = {:#x}\narchive  {:#x}\nlist before, with guards {}\nlist after, with guards  {}",
                list(centres),
                draw_number(expected),
                result,
                front(&records.before),
                front(&records.after),
            )));
        }
    }
    Ok(())
}

fn records_of(centres: &[centres::Centre]) -> Vec<Centre> {
    let record =
        |centre: &centres::Centre| Centre { guarantee: centre.guarantee, cap: centre.cap, drawn: centre.drawn };
    centres.iter().map(record).collect()
}

fn refused(question: u64) -> u64 {
    number(3, 0, question)
}

fn solved_without_a_buffer(file: &[u8]) -> u64 {
    unsafe { cudreth_solve(file.as_ptr(), file.len(), [].as_mut_ptr(), 0, 0) }
}

fn marked(file: &[u8], answer: &[u8]) -> u64 {
    unsafe { cudreth_mark(file.as_ptr(), file.len(), answer.as_ptr(), answer.len()) }
}

/// Is this the file's number, by the solver without a buffer and by the marker with an answer of one byte? Those of an accepted file are 7 and 8.
pub fn is_refused(file: &[u8], by_solver: u8, by_marker: u8) -> bool {
    solved_without_a_buffer(file) == refused(by_solver as u64) && marked(file, &[1]) == refused(by_marker as u64)
}

/// The archive's own number of a file or its own n, by its answers alone. The solver without a buffer tells the number, or 7 where it has
/// none. Of the smallest tree with 0 to 17 places the marker refuses all with 12 but the answer that has n.
pub fn number_or_n(file: &[u8]) -> Result<NumberOrN, Disagreement> {
    let solved = solved_without_a_buffer(file);
    if let Some(question) = (1..=6).find(|&question| solved == refused(question as u64)) {
        return Ok(Err(Refusal(question)));
    }
    let not_12: Vec<usize> = (0..=17).filter(|&places| marked(file, &smallest_tree(places)) != refused(12)).collect();
    match not_12.as_slice() {
        &[n] if solved == refused(7) => Ok(Ok(n)),
        _ => Err(Disagreement(format!(
            "neither a number nor one n\nconstraints {}\nsolver without a buffer {solved:#x}\nmarker on the smallest tree, not 12 with so many places: {not_12:?}",
            hex(file)
        ))),
    }
}

/// An answer of two nodes, the document node and one element, with so many variables on the element.
pub fn smallest_tree(places: usize) -> Vec<u8> {
    let mut answer = vec![1, 0, 0, 0, 1, 1, 0, 0];
    for variable in 0..places {
        answer.extend([2, variable as u8, 1, 0]);
    }
    answer
}

/// Every result is verdict · 2^48 + middle · 2^32 + low.
fn number(verdict: u64, middle: u64, low: u64) -> u64 {
    (verdict << 48) + (middle << 32) + low
}

fn solver_number(verdict: &SolverVerdict) -> u64 {
    match verdict {
        SolverVerdict::Tree { count, answer } => number(0, answer.len() as u64, *count as u64),
        SolverVerdict::None { count } => number(1, 0, *count as u64),
        SolverVerdict::Spent { count } => number(2, 0, *count as u64),
        SolverVerdict::Refused(Refusal(question)) => number(3, 0, *question as u64),
    }
}

/// `front` is what was written, as the result tells.
fn solver_verdict(result: u64, front: &[u8]) -> Option<SolverVerdict> {
    let low = result as u32;
    let verdict = match result >> 48 {
        0 => SolverVerdict::Tree { count: low, answer: front.to_vec() },
        1 => SolverVerdict::None { count: low },
        2 => SolverVerdict::Spent { count: low },
        _ => SolverVerdict::Refused(Refusal(low.try_into().ok()?)),
    };
    // Nothing is told in bits that the verdict does not use.
    Some(verdict).filter(|verdict| solver_number(verdict) == result)
}

fn marker_number(verdict: &MarkerVerdict) -> u64 {
    match verdict {
        MarkerVerdict::Met => number(0, 0, 0),
        MarkerVerdict::Unmet { position, kind } => number(1, *kind as u64, *position as u64),
        MarkerVerdict::Refused(Refusal(question)) => number(3, 0, *question as u64),
    }
}

fn fill_number(verdict: &FillVerdict) -> u64 {
    match verdict {
        FillVerdict::Written(bytes) => number(0, bytes.len() as u64, 0),
        FillVerdict::Refused(Refusal(question)) => number(3, 0, *question as u64),
    }
}

fn draw_number(verdict: &DrawVerdict) -> u64 {
    match verdict {
        DrawVerdict::Granted(_) => number(0, 0, 0),
        DrawVerdict::Refused(Refusal(question)) => number(3, 0, *question as u64),
    }
}
