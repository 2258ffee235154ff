//! Edits an MLIR module in this process and keeps its analyses up to date.
//!
//! ```
//! let mut session = mlir_work::Session::open(b"%0 = \"t.u\"() : () -> i32\n", 1000)?;
//! session.command("erase #1")?;
//! assert!(session.report("dead")?.is_empty());
//! # Ok::<(), mlir_work::Refused>(())
//! ```

mod handles;
mod numbers;

pub use mlir_work_sys::{Cell, Integer};
pub use numbers::{CellRow, ResultRow, TableRow};

pub use handles::{interned, Attribute, Entry, Interned, Name, Operation, Region, Type, ValueHandle};

use mlir_work_sys as sys;
use std::cell::UnsafeCell;
use std::collections::hash_map::RandomState;
use std::error::Error;
use std::fmt;
use std::hash::{BuildHasher, Hasher};

/// The outcome of a line.
#[derive(Clone, Copy, Debug, PartialEq, Eq)]
pub enum Outcome {
    /// The line is empty or a comment.
    Nothing,
    /// Done.
    Done,
    /// Done; the new operation.
    Made(u64),
    /// How many symbols were erased.
    Swept(u64),
    /// How many rewrites were made; no rule applies any more.
    Converged(u64),
    /// How many rewrites were made, which is the limit.
    Limit(u64),
    /// How many rules a conversion applied.
    Converted(u64),
    /// How often a rule or a pattern was applied: 0 or 1.
    Applied(u64),
    /// A pattern is right for all values up to this width.
    Holds(u64),
    /// A pattern is right at every width, for all values and poison.
    Everywhere,
    /// A pattern never applies up to this width.
    Empty(u64),
    /// A pattern is wrong at this width; the output has the values.
    Fails(u64),
    /// Edge values and random values of this width found no counterexample to a pattern.
    Unrefuted(u64),
}

/// Why a line or a module was refused. The session is unchanged.
#[derive(Clone, Copy, Debug, PartialEq, Eq)]
pub struct Refused {
    /// The number of the refusal (docs/REFUSALS.md).
    pub refusal: u32,
    /// The operation that caused the refusal, if there is one.
    pub operation: Option<u64>,
    /// The byte offset of the fault in the text, if there is one.
    pub byte: Option<u64>,
}

impl fmt::Display for Refused {
    fn fmt(&self, out: &mut fmt::Formatter<'_>) -> fmt::Result {
        write!(out, "refused {}", self.refusal)?;
        if let Some(operation) = self.operation {
            write!(out, " #{operation}")?;
        }
        if let Some(byte) = self.byte {
            write!(out, " at {byte}")?;
        }
        Ok(())
    }
}

impl Error for Refused {}

fn outcome(answer: &sys::Answer) -> Result<Outcome, Refused> {
    let refused = |operation, byte| Err(Refused { refusal: answer.refusal, operation, byte });
    match answer.outcome {
        0 => Ok(Outcome::Nothing),
        1 => Ok(Outcome::Done),
        2 => Ok(Outcome::Made(answer.number)),
        3 => Ok(Outcome::Swept(answer.number)),
        4 => Ok(Outcome::Converged(answer.number)),
        5 => Ok(Outcome::Limit(answer.number)),
        6 => Ok(Outcome::Converted(answer.number)),
        8 => refused(Some(answer.number), None),
        9 => refused(None, Some(answer.number)),
        11 => Ok(Outcome::Applied(answer.number)),
        12 if answer.number == 0 => Ok(Outcome::Everywhere),
        12 => Ok(Outcome::Holds(answer.number)),
        13 => Ok(Outcome::Empty(answer.number)),
        14 => Ok(Outcome::Fails(answer.number)),
        15 => Ok(Outcome::Unrefuted(answer.number)),
        _ => refused(None, None),
    }
}

fn found(number: u64) -> Option<u32> {
    u32::try_from(number).ok()
}

/// A value: a result of an operation, or an argument of the block of one of its regions.
#[derive(Clone, Copy, Debug, PartialEq, Eq, Hash)]
pub enum Value {
    Result(u32, u32),
    Argument(u32, u32, u32),
}

impl Value {
    fn numbers(self) -> sys::Value {
        match self {
            Value::Result(operation, place) => sys::Value { operation, region: sys::RESULT, place },
            Value::Argument(operation, region, place) => sys::Value { operation, region, place },
        }
    }

    fn of(it: sys::Value) -> Value {
        if it.region == sys::RESULT {
            Value::Result(it.operation, it.place)
        } else {
            Value::Argument(it.operation, it.region, it.place)
        }
    }
}

/// An insertion point: before or after an operation, or in the block of one of its regions.
#[derive(Clone, Copy, Debug, PartialEq, Eq, Hash)]
pub enum Spot {
    Before(u32),
    After(u32),
    Start(u32, u32),
    End(u32, u32),
}

impl Spot {
    fn numbers(self) -> sys::Spot {
        let (kind, operation, region) = match self {
            Spot::Before(operation) => (0, operation, 0),
            Spot::After(operation) => (1, operation, 0),
            Spot::Start(operation, region) => (2, operation, region),
            Spot::End(operation, region) => (3, operation, region),
        };
        sys::Spot { kind, operation, region }
    }
}

/// The refusal of a `commit` or `rollback` if no mark is open.
const NO_MARK: u32 = 35;

/// The signature of the calls that open a session.
type Open = unsafe extern "C" fn(*mut sys::Handle, *const u8, usize, u64, u32, *mut sys::Answer);

/// A module with its marks and its analyses. It isn't `Send`, because of the pointer in its handle, and isn't `Sync`.
#[derive(Debug)]
pub struct Session {
    /// A call of the library takes the session out of the handle and puts it back, also if it only reads.
    held: UnsafeCell<sys::Handle>,
    marks: usize,
}

impl Session {
    /// Parses a module and opens a session on it; `limit` is the limit of rewrites for a `canon` without a limit.
    pub fn open(module: impl AsRef<[u8]>, limit: u32) -> Result<Session, Refused> {
        Session::open_by(sys::mlir_work_open, module.as_ref(), limit)
    }

    /// Opens a session that keeps unknown types and attributes as their texts, like `mlir_work --opaque`.
    pub fn open_opaque(module: impl AsRef<[u8]>, limit: u32) -> Result<Session, Refused> {
        Session::open_by(sys::mlir_work_open_opaque, module.as_ref(), limit)
    }

    fn open_by(call: Open, module: &[u8], limit: u32) -> Result<Session, Refused> {
        let key = RandomState::new().build_hasher().finish();
        let session = Session { held: UnsafeCell::new(sys::CLOSED), marks: 0 };
        let mut answer = sys::Answer::default();
        // SAFETY: the handle is closed, and the pointer of a slice isn't null.
        unsafe {
            assert_eq!(sys::mlir_work_version(), sys::VERSION, "libmlir_work.a has another version");
            call(session.handle(), module.as_ptr(), module.len(), key, limit, &mut answer);
        }
        outcome(&answer).map(|_| session)
    }

    /// Runs a line of a script and returns its outcome.
    pub fn command(&mut self, line: impl AsRef<[u8]>) -> Result<Outcome, Refused> {
        self.say(line.as_ref()).and_then(|answer| outcome(&answer))
    }

    /// Runs a line of a script and returns its output, such as the text of a module, or rows.
    pub fn text(&mut self, line: impl AsRef<[u8]>) -> Result<String, Refused> {
        let answer = self.say(line.as_ref())?;
        let mut bytes = vec![0; answer.shown as usize];
        // SAFETY: the handle was opened, and a slice's pointer isn't null.
        let count = unsafe { sys::mlir_work_read(self.handle(), 0, bytes.as_mut_ptr(), bytes.len()) };
        bytes.truncate(count);
        Ok(String::from_utf8_lossy(&bytes).into_owned())
    }

    /// Defines the user patterns of a text, a line each, and returns how many they are. Empty lines and lines that
    /// begin with `//` are skipped. The patterns before one that is refused stay.
    pub fn define(&mut self, patterns: &str) -> Result<usize, Refused> {
        let mut count = 0;
        for line in patterns.lines().map(str::trim).filter(|it| !it.is_empty() && !it.starts_with("//")) {
            self.command(format!("pattern {line}"))?;
            count += 1;
        }
        Ok(count)
    }

    /// Returns the rows of a report, by the word of its kind.
    pub fn report(&mut self, kind: &str) -> Result<Vec<String>, Refused> {
        Ok(self.text(format!("report {kind}"))?.lines().map(str::to_owned).collect())
    }

    /// Makes a mark and calls `work`. If `work` returns an error or panics, the module is rolled back to the mark; else
    /// the mark is committed. Marks that `work` made and left open are rolled back or committed with it.
    ///
    /// If `work` itself committed the mark or rolled it back, nothing is left to go back to: an error is returned as it
    /// is, and a success becomes refusal 35 (no mark is open).
    pub fn marked<T, E: From<Refused>>(&mut self, work: impl FnOnce(&mut Session) -> Result<T, E>) -> Result<T, E> {
        self.mark_by(sys::mlir_work_begin, self.marks + 1)?;
        let mut mark = Mark { depth: self.marks, session: self };
        let done = work(mark.session)?;
        mark.commit()?;
        Ok(done)
    }

    /// Returns how many marks are open.
    pub fn marks(&self) -> usize {
        self.marks
    }

    /// Sets an operand of an operation, by its number, to a value.
    pub fn set_operand(&mut self, operation: u32, operand: u32, value: Value) -> Result<(), Refused> {
        let value = value.numbers();
        // SAFETY: the handle was opened, and no reference is null.
        self.answered(|held, answer| unsafe { sys::mlir_work_set_operand(held, operation, operand, &value, answer) })
    }

    /// Replaces all uses of the first value by the second value.
    pub fn replace(&mut self, old: Value, new: Value) -> Result<(), Refused> {
        let (old, new) = (old.numbers(), new.numbers());
        // SAFETY: as above.
        self.answered(|held, answer| unsafe { sys::mlir_work_replace(held, &old, &new, answer) })
    }

    /// Erases an operation and everything inside it.
    pub fn erase(&mut self, operation: u32) -> Result<(), Refused> {
        // SAFETY: as above.
        self.answered(|held, answer| unsafe { sys::mlir_work_erase(held, operation, answer) })
    }

    /// Moves an operation and everything inside it.
    pub fn move_to(&mut self, operation: u32, spot: Spot) -> Result<(), Refused> {
        let spot = spot.numbers();
        // SAFETY: as above.
        self.answered(|held, answer| unsafe { sys::mlir_work_move(held, operation, &spot, answer) })
    }

    /// Returns whether an operation is in the module.
    pub fn has(&self, operation: u32) -> bool {
        // SAFETY: as above.
        unsafe { sys::mlir_work_has(self.handle(), operation) }
    }

    /// Returns the root: the module's own operation, which contains all others.
    pub fn root(&self) -> Option<u32> {
        // SAFETY: as above.
        found(unsafe { sys::mlir_work_root(self.handle()) })
    }

    /// Returns the parent operation.
    pub fn parent(&self, operation: u32) -> Option<u32> {
        // SAFETY: as above.
        found(unsafe { sys::mlir_work_parent(self.handle(), operation) })
    }

    /// Returns the next operation in the same block.
    pub fn next(&self, operation: u32) -> Option<u32> {
        // SAFETY: as above.
        found(unsafe { sys::mlir_work_next(self.handle(), operation) })
    }

    /// Returns the previous operation in the same block.
    pub fn previous(&self, operation: u32) -> Option<u32> {
        // SAFETY: as above.
        found(unsafe { sys::mlir_work_previous(self.handle(), operation) })
    }

    /// Returns the first operation in the block of a region.
    pub fn first(&self, operation: u32, region: u32) -> Option<u32> {
        // SAFETY: as above.
        found(unsafe { sys::mlir_work_first(self.handle(), operation, region) })
    }

    /// Returns the last operation in the block of a region.
    pub fn last(&self, operation: u32, region: u32) -> Option<u32> {
        // SAFETY: as above.
        found(unsafe { sys::mlir_work_last(self.handle(), operation, region) })
    }

    /// Returns an operand of an operation, by its number.
    pub fn operand(&self, operation: u32, place: usize) -> Option<Value> {
        let mut value = sys::Value::default();
        // SAFETY: as above.
        let is_there = unsafe { sys::mlir_work_operand(self.handle(), operation, place, &mut value) };
        is_there.then(|| Value::of(value))
    }

    /// Returns one of the uses of a value: the operation, and the number of its operand.
    pub fn first_use(&self, value: Value) -> Option<(u32, u32)> {
        let mut user = sys::Use::default();
        // SAFETY: as above.
        let is_there = unsafe { sys::mlir_work_first_use(self.handle(), &value.numbers(), &mut user) };
        is_there.then_some((user.operation, user.operand))
    }

    /// Returns the handle for a call. No call runs inside another one, and no other thread has the session.
    fn handle(&self) -> *mut sys::Handle {
        self.held.get()
    }

    fn answered(&mut self, call: impl FnOnce(*mut sys::Handle, &mut sys::Answer)) -> Result<(), Refused> {
        let mut answer = sys::Answer::default();
        call(self.handle(), &mut answer);
        outcome(&answer).map(|_| ())
    }

    /// Calls a command on marks. If it is accepted, `marks` marks are open.
    fn mark_by(
        &mut self,
        call: unsafe extern "C" fn(*mut sys::Handle, *mut sys::Answer),
        marks: usize,
    ) -> Result<(), Refused> {
        // SAFETY: the handle was opened, and no reference is null.
        self.answered(|held, answer| unsafe { call(held, answer) })?;
        self.marks = marks;
        Ok(())
    }

    fn say(&mut self, line: &[u8]) -> Result<sys::Answer, Refused> {
        let mut answer = sys::Answer::default();
        // SAFETY: the handle was opened, and a slice's pointer isn't null.
        unsafe { sys::mlir_work_command(self.handle(), line.as_ptr(), line.len(), &mut answer) };
        let told = outcome(&answer)?;
        match command_word(line) {
            b"begin" if told == Outcome::Done => self.marks += 1,
            b"commit" | b"rollback" if told == Outcome::Done => self.marks -= 1,
            _ => {}
        }
        Ok(answer)
    }
}

/// Returns the command word of an accepted line, without a leading `expect REFUSAL`.
fn command_word(line: &[u8]) -> &[u8] {
    let mut words = line.split(|byte| b" \t\r\n".contains(byte)).filter(|word| !word.is_empty());
    match words.next() {
        Some(b"expect") => words.nth(1).unwrap_or_default(),
        word => word.unwrap_or_default(),
    }
}

/// A mark that is rolled back if it is dropped before it was committed.
struct Mark<'a> {
    session: &'a mut Session,
    /// How many marks were open just after this mark was made.
    depth: usize,
}

impl Mark<'_> {
    /// Commits the mark and all marks made within it; refused if the mark is no longer open.
    fn commit(&mut self) -> Result<(), Refused> {
        if self.session.marks < self.depth {
            return Err(Refused { refusal: NO_MARK, operation: None, byte: None });
        }
        while self.session.marks >= self.depth {
            self.session.mark_by(sys::mlir_work_commit, self.session.marks - 1)?;
        }
        Ok(())
    }
}

impl Drop for Mark<'_> {
    fn drop(&mut self) {
        while self.session.marks >= self.depth {
            if self.session.mark_by(sys::mlir_work_rollback, self.session.marks - 1).is_err() {
                break;
            }
        }
    }
}

impl Drop for Session {
    fn drop(&mut self) {
        // SAFETY: a handle may be closed at any time.
        unsafe { sys::mlir_work_close(self.handle()) }
    }
}

#[cfg(test)]
mod tests {
    use super::*;

    const MODULE: &str = "%0 = \"test.a\"() : () -> i32\n%1 = \"test.b\"() : () -> i32\n\"test.c\"(%0) : (i32) -> ()\n";

    #[test]
    fn edits() {
        let mut session = Session::open(MODULE, 1000).unwrap();
        assert_eq!(session.operand(3, 0), Some(Value::Result(1, 0)));
        session.set_operand(3, 0, Value::Result(2, 0)).unwrap();
        assert_eq!(session.operand(3, 0), Some(Value::Result(2, 0)));
        assert_eq!(session.first_use(Value::Result(2, 0)), Some((3, 0)));
        assert_eq!(session.first_use(Value::Result(1, 0)), None);
        assert_eq!(session.erase(2).unwrap_err().refusal, 22);
        session.erase(1).unwrap();
        session.move_to(3, Spot::End(0, 0)).unwrap();
        assert_eq!(session.next(2), Some(3));
        assert_eq!(session.report("uses").unwrap(), ["%v2.0 #3 0"]);
    }

    #[test]
    fn a_mark_that_is_not_kept() {
        let mut session = Session::open(MODULE, 1000).unwrap();
        let before = session.text("print").unwrap();
        let fault = session.marked(|it| it.erase(3).and_then(|_| it.erase(99))).unwrap_err();
        assert_eq!((fault.refusal, session.text("print").unwrap()), (20, before));
    }

    /// The marks that are open and the module, after a call of `marked` with 2 marks around it.
    fn after_marked(work: impl FnOnce(&mut Session) -> Result<(), Refused>) -> (Option<u32>, usize, String) {
        let mut session = Session::open(MODULE, 1000).unwrap();
        session.command("begin").unwrap();
        session.command("\t begin\r\n").unwrap();
        let refusal = session.marked(work).err().map(|fault| fault.refusal);
        let (marks, text) = (session.marks(), session.text("print").unwrap());
        // The library counts the open marks too: exactly this many rollbacks succeed.
        for _ in 0..marks {
            session.command("rollback").unwrap();
        }
        assert_eq!(session.command("rollback").unwrap_err().refusal, NO_MARK);
        (refusal, marks, text)
    }

    fn unchanged() -> String {
        Session::open(MODULE, 1000).unwrap().text("print").unwrap()
    }

    /// Marks that were made within a mark, and left open, are rolled back with it.
    #[test]
    fn marks_within_a_mark_that_fails() {
        let found = after_marked(|it| {
            it.erase(3)?;
            it.command("begin")?;
            it.command("expect 22  begin")?;
            it.erase(2)?;
            it.erase(99)
        });
        assert_eq!(found, (Some(20), 2, unchanged()));
    }

    /// Marks that were made within a mark, and left open, are committed with it.
    #[test]
    fn marks_within_a_mark_that_is_kept() {
        let (refusal, marks, text) = after_marked(|it| {
            it.command("begin")?;
            it.erase(3)
        });
        assert_eq!((refusal, marks, text.contains("test.c")), (None, 2, false));
    }

    /// Marks within one another by `marked` each go back to their own mark.
    #[test]
    fn marks_within_one_another() {
        let found = after_marked(|it| {
            it.erase(3)?;
            it.marked(|it| it.erase(2).and_then(|_| it.erase(98))).unwrap_err();
            assert!(it.has(2) && !it.has(3));
            it.marked(|it| it.erase(2))?;
            it.erase(99)
        });
        assert_eq!(found, (Some(20), 2, unchanged()));
    }

    /// A mark that was rolled back within, and made again, is rolled back: no mark is left.
    #[test]
    fn a_mark_that_is_made_again_within() {
        let found = after_marked(|it| {
            it.command("rollback")?;
            it.command("begin")?;
            it.erase(3)?;
            it.erase(99)
        });
        assert_eq!(found, (Some(20), 2, unchanged()));
    }

    /// If the mark was committed within, marks around it are neither committed nor rolled back.
    #[test]
    fn a_mark_that_is_dropped_within() {
        let drop_two = |it: &mut Session| {
            it.erase(3)?;
            it.command("expect NoMark commit")?;
            it.command(" commit").map(|_| ())
        };
        let (refusal, marks, text) = after_marked(drop_two);
        assert_eq!((refusal, marks, text.contains("test.c")), (Some(NO_MARK), 1, false));
        let (refusal, marks, text) = after_marked(|it| drop_two(it).and_then(|_| it.erase(99)));
        assert_eq!((refusal, marks, text.contains("test.c")), (Some(20), 1, false));
    }

    /// A panic within a mark rolls back the mark and the marks made within it, and continues to unwind.
    #[test]
    fn a_panic_within_a_mark() {
        let mut session = Session::open(MODULE, 1000).unwrap();
        let panicked = std::panic::catch_unwind(std::panic::AssertUnwindSafe(|| {
            session.marked(|it| -> Result<(), Refused> {
                it.erase(3)?;
                it.command("begin")?;
                it.erase(2)?;
                panic!("on purpose")
            })
        }));
        assert_eq!(panicked.unwrap_err().downcast_ref::<&str>(), Some(&"on purpose"));
        assert_eq!((session.marks(), session.text("print").unwrap()), (0, unchanged()));
        assert_eq!(session.command("rollback").unwrap_err().refusal, NO_MARK);
    }

    #[test]
    fn texts_are_kept() {
        let module = "%0 = \"test.a\"() {x = 1.0 : f32} : () -> tensor<4xf32>\n";
        assert_eq!(Session::open(module, 1000).unwrap_err().refusal, 13);
        let mut session = Session::open_opaque(module, 1000).unwrap();
        session.command("set-attr #1 y #d.a<b>").unwrap();
        assert!(session.text("print").unwrap().contains("{x = 1.0 : f32, y = #d.a<b>} : () -> tensor<4xf32>"));
    }

    #[test]
    fn sessions_are_apart() {
        let mut all: Vec<_> = (0..64).map(|_| Session::open(MODULE, 1000).unwrap()).collect();
        for it in all.iter_mut().step_by(2) {
            it.erase(3).unwrap();
        }
        assert!(all.iter_mut().enumerate().all(|(at, it)| it.has(3) == (at % 2 == 1)));
    }

    /// Operations that are inserted by numbers are those of a text, and a table shows them.
    #[test]
    fn edits_by_numbers() {
        let mut session = Session::open(MODULE, 1000).unwrap();
        let (name, ty) = (session.intern_name("test.d").unwrap(), session.intern_type("i32").unwrap());
        let (b, a) = (session.intern_name("b").unwrap(), session.intern_name("a").unwrap());
        let five = session.intern_attribute("5 : i8").unwrap();
        let operands = [Value::Result(1, 0), Value::Result(2, 0)];
        let made = session.insert(Spot::After(2), name, &operands, &[ty, ty], &[], &[(b, five), (a, five)]).unwrap();
        assert_eq!(made, 4);
        assert!(session.text("print").unwrap().contains("\"test.d\"(%0, %1) {a = 5 : i8, b = 5 : i8} : (i32, i32)"));
        session.drop_attribute(4, a).unwrap();
        session.set_attribute(3, b, five).unwrap();
        assert_eq!(session.operation(3).attribute("b").and_then(|it| it.integer()).map(|it| it.low), Some(5));
        assert_eq!(session.insert(Spot::After(99), name, &[], &[], &[], &[]).unwrap_err().refusal, 20);
        assert_eq!(session.insert(Spot::After(2), u32::MAX, &[], &[], &[], &[]).unwrap_err().refusal, 60);
        assert_eq!(session.insert(Spot::After(2), name, &[], &[], &[(a, five)], &[(a, five)]).unwrap_err().refusal, 12);
        let rows = session.rows(1).unwrap();
        assert_eq!(rows.len(), session.report("uses").unwrap().len());
        let mut seen = Vec::new();
        session.each(|it| {
            let results: Vec<_> = it.results().map(|result| (result.ty == ty, result.uses().len())).collect();
            seen.push((it.operation, it.operands().len(), results));
        });
        let (none, one) = (Vec::new, |uses| vec![(true, uses)]);
        let wanted = [(0, 0, none()), (1, 0, one(2)), (2, 0, one(1)), (4, 2, vec![(true, 0); 2]), (3, 1, none())];
        assert_eq!(seen, wanted);
    }

    /// User patterns are defined from a text, and checked.
    #[test]
    fn patterns_of_a_text() {
        let mut session = Session::open(MODULE, 1000).unwrap();
        let text = "// doubles\n\ndouble arith.addi(%a, %a) => arith.shli(%a, 1)\n";
        assert_eq!(session.define(text), Ok(1));
        assert!(matches!(session.command("check double width 4"), Ok(Outcome::Holds(4) | Outcome::Fails(_))));
        assert!(session.define("what").is_err());
    }

    #[test]
    fn a_module_that_is_refused() {
        let fault = Session::open("%0 = what", 1000).unwrap_err();
        assert!(fault.byte.is_some() && (1..=14).contains(&fault.refusal));
    }
}
