//! Operations, values, regions and blocks of a session as light handles with iterators. A handle borrows its session,
//! so no edit happens while handles are in use: collect the numbers first.

use crate::{found, Session, Value};
use mlir_work_sys as sys;
use std::fmt;
use std::marker::PhantomData;

/// The kinds of interned items.
pub mod interned {
    use mlir_work_sys as sys;

    /// A kind of interned items: names, types or attributes.
    pub trait Kind: Copy {
        #[doc(hidden)]
        const TEXT: sys::Text;
    }

    #[derive(Clone, Copy, Debug, PartialEq, Eq, Hash)]
    pub enum Name {}
    #[derive(Clone, Copy, Debug, PartialEq, Eq, Hash)]
    pub enum Type {}
    #[derive(Clone, Copy, Debug, PartialEq, Eq, Hash)]
    pub enum Attribute {}

    impl Kind for Name {
        const TEXT: sys::Text = sys::mlir_work_name_text;
    }
    impl Kind for Type {
        const TEXT: sys::Text = sys::mlir_work_type_text;
    }
    impl Kind for Attribute {
        const TEXT: sys::Text = sys::mlir_work_attribute_text;
    }
}

/// An interned name, type or attribute. Two of a session are equal exactly if their numbers are.
#[derive(Clone, Copy)]
pub struct Interned<'a, K> {
    session: &'a Session,
    number: u32,
    kind: PhantomData<K>,
}

pub type Name<'a> = Interned<'a, interned::Name>;
pub type Type<'a> = Interned<'a, interned::Type>;
pub type Attribute<'a> = Interned<'a, interned::Attribute>;

impl<'a, K: interned::Kind> Interned<'a, K> {
    fn of(session: &'a Session, number: u64) -> Option<Interned<'a, K>> {
        found(number).map(|number| Interned { session, number, kind: PhantomData })
    }

    /// Returns its number, which keeps its meaning until the session is closed.
    pub fn number(self) -> u32 {
        self.number
    }

    /// Returns its text as a printed module has it. Panics if memory runs out.
    pub fn text(self) -> String {
        let mut near = [0; 64];
        let length = self.read(&mut near);
        if length <= near.len() {
            return String::from_utf8_lossy(&near[..length]).into_owned();
        }
        let mut all = vec![0; length];
        self.read(&mut all);
        String::from_utf8_lossy(&all).into_owned()
    }

    fn read(self, into: &mut [u8]) -> usize {
        // SAFETY: the session is open, and a slice's pointer isn't null.
        let length = unsafe { K::TEXT(self.session.handle(), self.number, into.as_mut_ptr(), into.len()) };
        assert!(length < sys::NO_MEMORY, "memory ran out");
        length as usize
    }
}

impl Attribute<'_> {
    /// Returns the integer that it is, such as `5 : i32` or `true`.
    pub fn integer(self) -> Option<sys::Integer> {
        let mut integer = sys::Integer::default();
        // SAFETY: the session is open, and no reference is null.
        let is_integer = unsafe { sys::mlir_work_integer(self.session.handle(), self.number, &mut integer) };
        is_integer.then_some(integer)
    }
}

impl<K> PartialEq for Interned<'_, K> {
    fn eq(&self, other: &Self) -> bool {
        self.number == other.number
    }
}

impl<K> Eq for Interned<'_, K> {}

impl<K: interned::Kind> PartialEq<str> for Interned<'_, K> {
    fn eq(&self, text: &str) -> bool {
        self.text() == text
    }
}

impl<K: interned::Kind> PartialEq<&str> for Interned<'_, K> {
    fn eq(&self, text: &&str) -> bool {
        self.text() == *text
    }
}

impl<K: interned::Kind> fmt::Display for Interned<'_, K> {
    fn fmt(&self, out: &mut fmt::Formatter<'_>) -> fmt::Result {
        out.write_str(&self.text())
    }
}

impl<K> fmt::Debug for Interned<'_, K> {
    fn fmt(&self, out: &mut fmt::Formatter<'_>) -> fmt::Result {
        write!(out, "Interned({})", self.number)
    }
}

/// An operation of a session, by its number. One that isn't in the module has no name, and its iterators are empty.
#[derive(Clone, Copy, Debug)]
pub struct Operation<'a> {
    session: &'a Session,
    number: u32,
}

impl PartialEq for Operation<'_> {
    fn eq(&self, other: &Self) -> bool {
        self.number == other.number
    }
}

impl Eq for Operation<'_> {}

/// An entry of the properties or the discardable attributes of an operation.
pub type Entry<'a> = (Name<'a>, Attribute<'a>);

/// The signature of the calls that read an entry by its index.
type EntryAt = unsafe extern "C" fn(*mut sys::Handle, u32, usize, *mut sys::Entry) -> bool;

impl<'a> Operation<'a> {
    /// Returns its number, by which the calls of `Session` name it.
    pub fn number(self) -> u32 {
        self.number
    }

    /// Returns its name, or `None` if it isn't in the module.
    pub fn name(self) -> Option<Name<'a>> {
        // SAFETY: the session is open.
        Interned::of(self.session, unsafe { sys::mlir_work_name_of(self.session.handle(), self.number) })
    }

    /// Returns whether it has this name. Reads the text of its name.
    pub fn is(self, name: &str) -> bool {
        self.name().is_some_and(|it| it == *name)
    }

    /// Returns its operands.
    pub fn operands(self) -> impl ExactSizeIterator<Item = ValueHandle<'a>> {
        let Operation { session, number } = self;
        (0..self.counts().operands).map(move |place| {
            let mut value = sys::Value::default();
            // SAFETY: the session is open, and no reference is null.
            unsafe { sys::mlir_work_operand(session.handle(), number, place, &mut value) };
            session.value(Value::of(value))
        })
    }

    /// Returns its results.
    pub fn results(self) -> impl ExactSizeIterator<Item = ValueHandle<'a>> {
        let Operation { session, number } = self;
        (0..self.counts().results as u32).map(move |place| session.value(Value::Result(number, place)))
    }

    /// Returns its properties, in the order of their keys.
    pub fn properties(self) -> impl ExactSizeIterator<Item = Entry<'a>> {
        self.entries(self.counts().properties, sys::mlir_work_property_at)
    }

    /// Returns its discardable attributes, in the order of their keys.
    pub fn attributes(self) -> impl ExactSizeIterator<Item = Entry<'a>> {
        self.entries(self.counts().attributes, sys::mlir_work_attribute_at)
    }

    /// Returns its property at a key, or else its discardable attribute. The key is looked up among all names of the
    /// session; in a long loop use `attribute_at`.
    pub fn attribute(self, key: &str) -> Option<Attribute<'a>> {
        self.attribute_at(self.session.name(key)?)
    }

    /// Returns its property at a key, or else its discardable attribute.
    pub fn attribute_at(self, key: Name<'_>) -> Option<Attribute<'a>> {
        let (held, key) = (self.session.handle(), key.number());
        // SAFETY: the session is open.
        unsafe {
            Interned::of(self.session, sys::mlir_work_property_by_key(held, self.number, key))
                .or_else(|| Interned::of(self.session, sys::mlir_work_attribute_by_key(held, self.number, key)))
        }
    }

    /// Returns its regions.
    pub fn regions(self) -> impl ExactSizeIterator<Item = Region<'a>> {
        (0..self.counts().regions as u32).map(move |place| Region { owner: self, place })
    }

    /// Returns the operation that contains it.
    pub fn parent(self) -> Option<Operation<'a>> {
        self.session.parent(self.number).map(|it| self.session.operation(it))
    }

    /// Returns the number of its region in the parent.
    pub fn region(self) -> Option<u32> {
        // SAFETY: the session is open.
        found(unsafe { sys::mlir_work_region_of(self.session.handle(), self.number) })
    }

    /// Returns the next operation in its block.
    pub fn next(self) -> Option<Operation<'a>> {
        self.session.next(self.number).map(|it| self.session.operation(it))
    }

    /// Returns it and the operations inside it, in pre-order.
    pub fn walk(self) -> Box<dyn Iterator<Item = Operation<'a>> + 'a> {
        let inside = self.regions().flat_map(|it| it.operations()).flat_map(Operation::walk);
        Box::new(std::iter::once(self).filter(|it| it.session.has(it.number)).chain(inside))
    }

    fn counts(self) -> sys::Count {
        let mut counts = sys::Count::default();
        // SAFETY: the session is open, and no reference is null.
        unsafe { sys::mlir_work_counts(self.session.handle(), self.number, &mut counts) };
        counts
    }

    fn entries(self, count: usize, at: EntryAt) -> impl ExactSizeIterator<Item = Entry<'a>> {
        let Operation { session, number } = self;
        (0..count).map(move |place| {
            let mut entry = sys::Entry::default();
            // SAFETY: the session is open, and no reference is null.
            unsafe { at(session.handle(), number, place, &mut entry) };
            (
                Interned { session, number: entry.key, kind: PhantomData },
                Interned { session, number: entry.attribute, kind: PhantomData },
            )
        })
    }
}

/// A value of a session.
#[derive(Clone, Copy, Debug)]
pub struct ValueHandle<'a> {
    session: &'a Session,
    value: Value,
}

impl<'a> ValueHandle<'a> {
    /// Returns the value, as the calls of `Session` name it.
    pub fn value(self) -> Value {
        self.value
    }

    /// Returns the operation that has the result, or whose region has the block.
    pub fn owner(self) -> Operation<'a> {
        let (Value::Result(number, _) | Value::Argument(number, _, _)) = self.value;
        self.session.operation(number)
    }

    /// Returns its type, or `None` if the module has no such value.
    pub fn ty(self) -> Option<Type<'a>> {
        // SAFETY: the session is open, and no reference is null.
        Interned::of(self.session, unsafe {
            sys::mlir_work_value_type(self.session.handle(), &self.value.numbers())
        })
    }

    /// Returns its uses, each once, in any order: the operations, and the numbers of their operands.
    pub fn uses(self) -> impl ExactSizeIterator<Item = (Operation<'a>, u32)> {
        let mut near = [sys::Use::default(); 8];
        let count = self.fill(&mut near);
        let mut uses = near[..count.min(near.len())].to_vec();
        if count > near.len() {
            uses.resize(count, sys::Use::default());
            self.fill(&mut uses);
        }
        let session = self.session;
        uses.into_iter().map(move |it| (session.operation(it.operation), it.operand))
    }

    fn fill(self, into: &mut [sys::Use]) -> usize {
        // SAFETY: the session is open, and a slice's pointer isn't null.
        unsafe {
            sys::mlir_work_uses(self.session.handle(), &self.value.numbers(), into.as_mut_ptr(), into.len())
        }
    }
}

/// A region of an operation, with the one block that it may have.
#[derive(Clone, Copy, Debug)]
pub struct Region<'a> {
    owner: Operation<'a>,
    place: u32,
}

impl<'a> Region<'a> {
    /// Returns the operation that has the region.
    pub fn owner(self) -> Operation<'a> {
        self.owner
    }

    /// Returns its number among the regions of the operation.
    pub fn place(self) -> u32 {
        self.place
    }

    /// Returns whether it has a block.
    pub fn has_block(self) -> bool {
        self.argument_count().is_some()
    }

    /// Returns the arguments of its block.
    pub fn arguments(self) -> impl ExactSizeIterator<Item = ValueHandle<'a>> {
        let Region { owner, place } = self;
        (0..self.argument_count().unwrap_or(0))
            .map(move |it| owner.session.value(Value::Argument(owner.number, place, it)))
    }

    /// Returns the operations of its block.
    pub fn operations(self) -> impl Iterator<Item = Operation<'a>> {
        let session = self.owner.session;
        let first = session.first(self.owner.number, self.place).map(|it| session.operation(it));
        std::iter::successors(first, |it| it.next())
    }

    fn argument_count(self) -> Option<u32> {
        // SAFETY: the session is open.
        found(unsafe { sys::mlir_work_argument_count(self.owner.session.handle(), self.owner.number, self.place) })
    }
}

impl Session {
    /// Returns a handle of an operation by its number. The operation need not exist.
    pub fn operation(&self, number: u32) -> Operation<'_> {
        Operation { session: self, number }
    }

    /// Returns a handle of a value. The value need not exist.
    pub fn value(&self, value: Value) -> ValueHandle<'_> {
        ValueHandle { session: self, value }
    }

    /// Returns all operations in pre-order, the root first. Panics if memory runs out.
    pub fn walk(&self) -> impl ExactSizeIterator<Item = Operation<'_>> {
        self.numbers().into_iter().map(|number| self.operation(number))
    }

    /// Returns the numbers of all operations in pre-order.
    pub(crate) fn numbers(&self) -> Vec<u32> {
        let mut numbers = vec![0; self.fill(&mut [])];
        self.fill(&mut numbers);
        numbers
    }

    /// Returns the name with this text, or `None` if the session has no such name. Compare it with the names of
    /// operations: that reads no text.
    pub fn name(&self, text: &str) -> Option<Name<'_>> {
        // SAFETY: the session is open, and a slice's pointer isn't null.
        Interned::of(self, unsafe { sys::mlir_work_find_name(self.handle(), text.as_ptr(), text.len()) })
    }

    fn fill(&self, into: &mut [u32]) -> usize {
        // SAFETY: the session is open, and a slice's pointer isn't null.
        let count = unsafe { sys::mlir_work_operations(self.handle(), into.as_mut_ptr(), into.len()) };
        assert!(count < sys::NO_MEMORY, "memory ran out");
        count as usize
    }
}
