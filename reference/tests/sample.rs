//! The bench start in the repository: what it shows, and that the original leaves it.

use reference::layout::*;
use reference::sample::{bench_start, outcomes_files, store_file};
use reference::sound::is_sound;

fn sample(file: std::path::PathBuf) -> Vec<u8> {
    std::fs::read(file).expect("a file of the repository")
}

#[test]
fn the_outcomes_are_the_script() {
    for file in outcomes_files() {
        assert_eq!(sample(file), bench_start());
    }
}

/// Place, hub place and port of each device but the root, product number.
#[test]
fn each_instrument_stands_on_its_port() {
    let store = sample(store_file());
    assert!(is_sound(&store));
    for (at, hub, port, product) in [(1, 0, 1, 1), (2, 0, 2, 0x12), (3, 2, 0, 2)] {
        let device = place(&store, at);
        assert_eq!(device[STATUS], 4, "configured");
        assert_eq!(usize::from(device[NUMBER]), at + 1);
        assert_eq!(usize::from(device[PARENT]), hub + 1);
        assert_eq!(usize::from(device[PORT_NUMBER]), port);
        assert_eq!(usize::from(place(&store, hub)[CHILDREN + port]), at + 1);
        assert_eq!(device[DEVICE_DESCRIPTOR + 10], product);
    }
    assert_eq!(devices(&store).count(), 4);
}

#[cfg(have_original)]
#[test]
fn the_original_leaves_the_store_and_the_log() {
    use reference::call::{Call, Entry};
    use reference::run::run;
    use reference::sample::log_file;

    let mut store = vec![0; STORE];
    let mut log = vec![0; LOG];
    let call = Call::new(Entry::RootAttach, 0, 0);
    let report = run(call, &vec![0; STORE], &mut store, &bench_start(), &mut log);
    // 4 attaches of 6; 2 hubs of 4 and their ports' power; 6 checks; 3
    // connection changes of 8.
    assert_eq!((report.answer, report.requests), (0, 24 + 8 + 6 + 6 + 24));
    assert_eq!(store, sample(store_file()));
    assert_eq!(log[..report.logged], sample(log_file()));
}
