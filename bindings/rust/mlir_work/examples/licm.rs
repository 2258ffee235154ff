//! Moves invariant operations out of the loops of a module, as `mlir-opt -loop-invariant-code-motion` does.

use mlir_work::{Operation, Session, Spot, Value, ValueHandle};
use std::error::Error;

/// Returns the number of an operand that is a constant.
fn constant(op: Operation<'_>, operand: usize) -> Option<String> {
    let value = op.operands().nth(operand)?;
    let is_constant = matches!(value.value(), Value::Result(..)) && value.owner().is("arith.constant");
    let text = value.owner().attribute("value").filter(|_| is_constant)?.text(); // 3 : i32
    text.split(' ').next().map(str::to_owned)
}

/// Returns whether an operation has no effects and no undefined behavior, so it may run if the loop doesn't.
fn is_movable(op: Operation<'_>) -> bool {
    let is_pure = match op.name().map(|it| it.text()).as_deref() {
        Some("arith.divui" | "arith.ceildivui") => constant(op, 1).is_some_and(|it| it != "0"),
        Some("arith.divsi" | "arith.ceildivsi" | "arith.floordivsi") => {
            constant(op, 1).is_some_and(|it| it != "0" && it != "-1")
        }
        Some("scf.for") => constant(op, 2).is_some_and(|it| it == "1"),
        Some(name) => name.starts_with("arith.") || name == "scf.if" || name == "scf.yield",
        None => false,
    };
    is_pure && op.walk().skip(1).all(is_movable)
}

/// Returns whether a value is made inside an operation.
fn is_inside(value: ValueHandle<'_>, around: Operation<'_>) -> bool {
    let first = match value.value() {
        Value::Result(..) => value.owner().parent(),
        Value::Argument(..) => Some(value.owner()),
    };
    std::iter::successors(first, |it| it.parent()).any(|it| it == around)
}

/// Returns whether an operation uses only values that are made inside it or outside of the loop.
fn is_invariant(op: Operation<'_>, around: Operation<'_>) -> bool {
    op.walk().flat_map(|it| it.operands()).all(|it| is_inside(it, op) || !is_inside(it, around))
}

fn main() -> Result<(), Box<dyn Error>> {
    let path = std::env::args_os().nth(1).ok_or("usage: licm MODULE")?;
    let mut session = Session::open(std::fs::read(path)?, 1000)?;
    let is_loop = |it: &Operation<'_>| it.is("scf.for") || it.is("scf.while");
    let loops: Vec<u32> = session.walk().filter(is_loop).map(|it| it.number()).collect();
    for around in loops.into_iter().rev() {
        // (inner loops first)
        let inside = session.operation(around).regions().flat_map(|it| it.operations());
        for number in inside.map(|it| it.number()).collect::<Vec<_>>() {
            let (op, around_it) = (session.operation(number), session.operation(around));
            // The terminator has no next operation.
            if op.next().is_some() && is_movable(op) && is_invariant(op, around_it) {
                session.move_to(number, Spot::Before(around))?;
            }
        }
    }
    print!("{}", session.text("print")?);
    Ok(())
}
