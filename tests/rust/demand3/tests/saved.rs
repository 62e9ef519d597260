//! Runs of method A that were saved in their middle, as document 02's E10 speaks of them: the opening and the accepted begins were answered by
//! the version before, all other lines by today's. What the members were promised of them holds of the whole.

use demand3::check;
use std::path::Path;

const NAMES: [&str; 4] = ["crossing-a", "losses-a", "overlaps-a", "unfinished-a"];

/// The whole run: the schedule that was saved behind with the one that is played on, and the answers of both.
fn whole(name: &str) -> (String, String) {
    let folder = Path::new(env!("CARGO_MANIFEST_DIR")).join("../../../tests/saved");
    let text = |end: &str| std::fs::read_to_string(folder.join(format!("{name}.{end}"))).expect("a saved run");
    let schedule = text("former.txt") + &text("txt");
    let (former, now) = (text("former.out"), text("out"));
    let answers = former.lines().count();
    let moved = |line: &str| match line.split_once(' ') {
        Some((number, rest)) if !line.starts_with(['W', 'R']) => {
            format!("{} {rest}\n", answers + number.parse::<usize>().expect("a number"))
        }
        _ => format!("{line}\n"),
    };
    (schedule, former + &now.lines().map(moved).collect::<String>())
}

#[test]
fn demand_3_holds_of_the_whole() {
    for name in NAMES {
        let (schedule, printed) = whole(name);
        let seen = check(schedule.as_bytes(), printed.as_bytes()).unwrap_or_else(|found| panic!("{name}: {found}"));
        assert!(seen.openings == 1 && seen.tagged_writes >= 1 && seen.finished_reads >= 1, "{name}");
    }
}

/// The checker's report of the whole with one line of the output made another.
fn report(name: &str, right: &str, wrong: &str) -> String {
    let (schedule, printed) = whole(name);
    assert_eq!(printed.lines().filter(|line| line.ends_with(right)).count(), 1, "{right} stands once");
    let edited = |line: &str| match line.strip_suffix(right) {
        Some(front) => format!("{front}{wrong}\n"),
        None => format!("{line}\n"),
    };
    let wrong: String = printed.lines().map(edited).collect();
    check(schedule.as_bytes(), wrong.as_bytes()).expect_err("a violation").to_string()
}

/// Each is wrong in one answer behind the place where the run was saved.
#[test]
fn what_is_wrong_behind_the_cut_is_reported() {
    // The READ shows the new pressure with the old dwell time, or what no WRITE set.
    assert!(report("crossing-a", "read 0 0=1200@0#0 1=30@0#0", "read 0 0=1800@1#12 1=30@0#0").contains("the row has"));
    assert!(report("overlaps-a", "read 1 0=120@1#302 1=200@0#0", "read 1 0=110@1#301 1=200@0#0").contains("the row has"));
    // It waits for ever.
    assert!(report("crossing-a", "read 0 0=1200@0#0 1=30@0#0", "wait").contains("has not ended"));
    // A tag of another WRITE, a begin in the register that is none, an overlap.
    assert!(report("losses-a", "write 1", "write 2").contains("the WRITE's tag is 1"));
    assert!(report("crossing-a", "R 0 0 4 17 1", "R 0 0 5 17 1").contains("the register has"));
    for wrong in (0..12).filter(|&overlap| overlap != 8) {
        assert!(report("unfinished-a", "R 3 0 33 37 8", &format!("R 3 0 33 37 {wrong}")).contains("the register has"));
    }
}
