//! A short comparison, and the limits on both sides of it.

use compare::orders::Orders;
use compare::run::Run;

#[test]
fn limits_are_the_same() {
    use second::interface::{ANSWER_PLACES, NO_TIP, REPORT_SPACE};
    let of_library = [library::ANSWER_PLACES, library::REPORT_SPACE, library::LONGEST_FILE, library::NO_TIP];
    let of_second = [ANSWER_PLACES, REPORT_SPACE, second::LONGEST_FILE, NO_TIP];
    assert_eq!(of_library, of_second);
    let of_files = [job_file::MOST_TIPS, job_file::MOST_LINES, job_file::MOST_PLACEMENTS, job_file::LONGEST_FILE];
    assert_eq!(of_files, [second::MOST_TIPS, second::MOST_LINES, second::MOST_PLACEMENTS, second::LONGEST_FILE]);
    assert_eq!(library::MOST_PARTS, second::MOST_PARTS);
    assert_eq!(library::EXACT_TIPS, second::EXACT_TIPS);
    let of_junior = [library::JUNIOR_TIPS, library::JUNIOR_LINES];
    assert_eq!(of_junior, [second::JUNIOR_TIPS, second::JUNIOR_LINES]);
}

#[test]
fn short_comparison_shows_no_difference() {
    let mut run = Run::new(2, 120_000, None);
    if let Err(difference) = run.all() {
        panic!("{difference}");
    }
    assert_eq!(run.tally.missing(), Vec::<String>::new());
}

#[test]
fn short_comparison_of_orders_shows_no_difference() {
    let mut orders = Orders::new(2, 10_000);
    if let Err(difference) = orders.all() {
        panic!("{difference}");
    }
    assert_eq!(orders.tally.missing(), Vec::<String>::new());
}
