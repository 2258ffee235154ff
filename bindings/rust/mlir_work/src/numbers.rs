//! Reads of many operations by few calls, edits by interned numbers, and report rows as numbers.

use crate::{outcome, Outcome, Refused, Session, Spot, Value};
use mlir_work_sys as sys;

/// A row of a report as numbers: `bindings/c/mlir_work.h` says what a cell has.
pub type CellRow = Vec<sys::Cell>;

/// How many operations a table reads by one call.
const PAGE: usize = 512;

/// An operation of a table. Its parts are valid until the next row.
#[derive(Clone, Copy, Debug)]
pub struct TableRow<'a> {
    pub operation: u32,
    /// The number of its name.
    pub name: u32,
    operands: &'a [sys::Item],
    results: &'a [sys::Item],
}

/// A result of an operation of a table.
#[derive(Clone, Copy, Debug)]
pub struct ResultRow<'a> {
    /// The number of its type.
    pub ty: u32,
    uses: &'a [sys::Item],
}

impl<'a> TableRow<'a> {
    /// Returns its operands.
    pub fn operands(&self) -> impl ExactSizeIterator<Item = sys::Value> + 'a {
        self.operands.iter().map(|&[operation, region, place]| sys::Value { operation, region, place })
    }

    /// Returns its results.
    pub fn results(&self) -> impl Iterator<Item = ResultRow<'a>> + 'a {
        let mut rest = self.results;
        std::iter::from_fn(move || {
            let (&[ty, count, _], after) = rest.split_first()?;
            let (uses, after) = after.split_at(count as usize);
            rest = after;
            Some(ResultRow { ty, uses })
        })
    }
}

impl<'a> ResultRow<'a> {
    /// Returns its uses, each once, in any order.
    pub fn uses(&self) -> impl ExactSizeIterator<Item = sys::Use> + 'a {
        self.uses.iter().map(|&[operation, operand, _]| sys::Use { operation, operand })
    }
}

/// Takes the first record from the items, if it isn't cut off, and returns it and the items after it.
fn split_record(operation: u32, items: &[sys::Item]) -> Option<(TableRow<'_>, &[sys::Item])> {
    let (&[name, operands, results], after) = items.split_first()?;
    let (operands, after) = after.split_at_checked(operands as usize)?;
    let mut end = 0;
    for _ in 0..results {
        end += 1 + after.get(end)?[1] as usize;
    }
    let (results, after) = after.split_at_checked(end)?;
    Some((TableRow { operation, name, operands, results }, after))
}

impl Session {
    /// Calls `visit` with each operation in pre-order: its name, operands, and results with their types and uses. A
    /// call of the library reads 512 operations, so a walk is faster this way than over handles. Panics if memory runs
    /// out.
    pub fn each(&self, mut visit: impl FnMut(TableRow<'_>)) {
        let (operations, mut items) = (self.numbers(), vec![sys::Item::default(); 16 * PAGE]);
        let mut left = &operations[..];
        while !left.is_empty() {
            let (page, into) = (&left[..left.len().min(PAGE)], items.as_mut_ptr());
            // SAFETY: the session is open, and the pointers of slices aren't null.
            let written =
                unsafe { sys::mlir_work_records(self.handle(), page.as_ptr(), page.len(), into, items.len()) };
            let (mut read, mut rest) = (0, &items[..written]);
            while let Some((row, after)) = page.get(read).and_then(|it| split_record(*it, rest)) {
                visit(row);
                (read, rest) = (read + 1, after);
            }
            if read == 0 {
                items.resize(2 * items.len(), sys::Item::default());
            }
            left = &left[read..];
        }
    }

    fn interned(&mut self, call: sys::Intern, text: &str) -> Result<u32, Refused> {
        let mut answer = sys::Answer::default();
        // SAFETY: the session is open, and the pointer of a slice isn't null.
        unsafe { call(self.handle(), text.as_ptr(), text.len(), &mut answer) };
        outcome(&answer).map(|_| answer.number as u32)
    }

    /// Interns a name, if it is new, and returns its number.
    pub fn intern_name(&mut self, text: &str) -> Result<u32, Refused> {
        self.interned(sys::mlir_work_name, text)
    }

    /// Interns a type, if it is new, and returns its number.
    pub fn intern_type(&mut self, text: &str) -> Result<u32, Refused> {
        self.interned(sys::mlir_work_type, text)
    }

    /// Interns an attribute, if it is new, and returns its number.
    pub fn intern_attribute(&mut self, text: &str) -> Result<u32, Refused> {
        self.interned(sys::mlir_work_attribute, text)
    }

    /// Inserts an operation without regions, and returns its number. `name`, `results` and the entries, pairs of a key
    /// and an attribute, are interned numbers. The entries may be in any order. An inherent attribute is put among the
    /// properties. A key that is given twice is refused.
    pub fn insert(
        &mut self,
        spot: Spot,
        name: u32,
        operands: &[Value],
        results: &[u32],
        properties: &[(u32, u32)],
        attributes: &[(u32, u32)],
    ) -> Result<u32, Refused> {
        let operands: Vec<sys::Value> = operands.iter().map(|it| it.numbers()).collect();
        let given = [(properties, 1), (attributes, 0)];
        let entries: Vec<sys::NewEntry> = given
            .iter()
            .flat_map(|&(them, is_property)| {
                them.iter().map(move |&(key, attribute)| sys::NewEntry { key, attribute, is_property })
            })
            .collect();
        let (made, mut answer) = (sys::New { spot: spot.numbers(), name }, sys::Answer::default());
        // SAFETY: the session is open, and the pointers of slices aren't null.
        unsafe {
            sys::mlir_work_insert(
                self.handle(),
                &made,
                operands.as_ptr(),
                operands.len(),
                results.as_ptr(),
                results.len(),
                entries.as_ptr(),
                entries.len(),
                &mut answer,
            )
        };
        match outcome(&answer)? {
            Outcome::Made(operation) => Ok(operation as u32),
            _ => Err(Refused { refusal: answer.refusal, operation: None, byte: None }),
        }
    }

    /// Sets the entry of an operation at a key to an attribute, by their numbers.
    pub fn set_attribute(&mut self, operation: u32, key: u32, attribute: u32) -> Result<(), Refused> {
        // SAFETY: the session is open, and no reference is null.
        self.answered(|held, answer| unsafe { sys::mlir_work_set_attribute(held, operation, key, attribute, answer) })
    }

    /// Removes the entry of an operation at a key, by its number.
    pub fn drop_attribute(&mut self, operation: u32, key: u32) -> Result<(), Refused> {
        // SAFETY: as above.
        self.answered(|held, answer| unsafe { sys::mlir_work_drop_attribute(held, operation, key, answer) })
    }

    /// Returns the rows of a report as numbers; `kind` is its number, from 1 for `uses` to 7 for `unreached`.
    pub fn rows(&self, kind: u32) -> Result<Vec<CellRow>, Refused> {
        let mut cells = vec![sys::Cell::default(); 64];
        let mut count = self.report_into(kind, &mut cells)?;
        if count > cells.len() {
            cells.resize(count, sys::Cell::default());
            count = self.report_into(kind, &mut cells)?;
        }
        cells.truncate(count);
        Ok(cells.split_inclusive(|it| it.left == 0).map(<[_]>::to_vec).collect())
    }

    fn report_into(&self, kind: u32, cells: &mut [sys::Cell]) -> Result<usize, Refused> {
        let mut answer = sys::Answer::default();
        // SAFETY: the session is open, and no reference is null.
        unsafe { sys::mlir_work_report(self.handle(), kind, cells.as_mut_ptr(), cells.len(), &mut answer) };
        outcome(&answer).map(|_| answer.number as usize)
    }
}
