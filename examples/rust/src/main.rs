//! Prints the nearest smaller suffixes of banana, 6 for none, its tree, and its runs: start, end and period.

fn main() -> Result<(), lyndon::Refusal> {
    let banana = lyndon::Structure::of(b"banana")?;
    for (i, (previous, next)) in banana.previous.iter().zip(&banana.next).enumerate() {
        println!("{i} {previous} {next}");
    }
    for byte in &banana.tree {
        print!("{byte:02x}");
    }
    println!();
    for run in lyndon::runs(b"banana")? {
        println!("run {} {} {}", run.start, run.end, run.period);
    }
    Ok(())
}
