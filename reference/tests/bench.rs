//! The lines of the bench table.

use reference::bench::Line;

fn assert_lines(lines: Vec<Line>, unanswered: &[&str]) {
    for line in lines {
        match line.got {
            Some(got) => assert_eq!(got, line.expected, "{}", line.name),
            None => assert!(unanswered.contains(&line.name), "{}", line.name),
        }
    }
}

#[test]
fn bench_lines_by_the_rules() {
    assert_lines(reference::bench::rule_lines(), &[]);
}

#[cfg(have_original)]
#[test]
fn bench_lines_on_the_original() {
    assert_lines(reference::bench::lines(), &["walk, first interface 9"]);
}
