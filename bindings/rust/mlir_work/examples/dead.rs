//! Erases dead operations one at a time. Each erasure updates the analysis, and the loop reads its report again.

use std::error::Error;

fn main() -> Result<(), Box<dyn Error>> {
    let path = std::env::args_os().nth(1).ok_or("usage: dead MODULE")?;
    let mut session = mlir_work::Session::open(std::fs::read(path)?, 1000)?;
    let mut erased = 0;
    // No other dead operation uses the operation of the last row, `#N`.
    while let Some(row) = session.report("dead")?.last() {
        session.erase(row.trim_start_matches('#').parse()?)?;
        erased += 1;
    }
    print!("{}// {erased} erased\n", session.text("print")?);
    Ok(())
}
