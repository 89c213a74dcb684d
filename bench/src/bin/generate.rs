//! generate DIR FIRST COUNT: writes DIR/SEED.case for COUNT seeds from FIRST on.

fn main() -> std::io::Result<()> {
    let arguments: Vec<String> = std::env::args().collect();
    let [_, dir, first, count] = &arguments[..] else {
        eprintln!("usage: generate DIR FIRST COUNT");
        std::process::exit(2);
    };
    let (first, count): (u64, u64) = (first.parse().expect("FIRST"), count.parse().expect("COUNT"));
    std::fs::create_dir_all(dir)?;
    for seed in first..first + count {
        std::fs::write(format!("{dir}/{seed}.case"), bench::generate::case(seed))?;
    }
    println!("seeds {first} to {}", first + count - 1);
    Ok(())
}
