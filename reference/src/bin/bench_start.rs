//! Writes a bench start: the outcomes of a root attach on an empty store at
//! speed 0, and the store and the actions that the original then left.

#[cfg(not(have_original))]
fn main() {
    println!("{}", reference::original_missing());
}

#[cfg(have_original)]
fn main() -> std::io::Result<()> {
    use reference::call::{Call, Ended, Entry};
    use reference::layout::{LOG, STORE};
    use reference::run::run;
    use reference::sample::{bench_start, log_file, outcomes_files, store_file};

    let outcomes = bench_start();
    let mut store = vec![0; STORE];
    let mut log = vec![0; LOG];
    let call = Call::new(Entry::RootAttach, 0, 0);
    let report = run(call, &vec![0; STORE], &mut store, &outcomes, &mut log);
    assert_eq!((report.answer, report.ended), (0, Ended::Inside));
    for file in outcomes_files() {
        std::fs::write(file, &outcomes)?;
    }
    std::fs::write(store_file(), &store)?;
    std::fs::write(log_file(), &log[..report.logged])?;
    println!("{} requests", report.requests);
    Ok(())
}
