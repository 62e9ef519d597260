//! How the cost of a step grows with the log and the versions held, and the worst cases.

use crate::clock::{least_of_passes, Clock};
use crate::goals;
use crate::plans::Plan;
use crate::sides::last_steps;
use crate::table::{print, ratio, time};
use ffi::StoreLibrary;
use model::COORDINATOR;

const ROUNDS: usize = 40;

/// Plans of which so many last steps are measured, made for any size, and the goal.
pub struct Case {
    pub name: &'static str,
    pub goal: f64,
    pub steps: usize,
    pub plan: fn(usize) -> Plan,
}

const fn case(name: &'static str, goal: f64, steps: usize, plan: fn(usize) -> Plan) -> Case {
    Case { name, goal, steps, plan }
}

const LOGS: [usize; 5] = [1, 32, 64, 128, 256];
pub const BY_LOG: [Case; 13] = [
    case("reply keys, one server that no WRITE wrote: one search of the whole log", goals::KEYS, 1, untouched_server),
    case("reply keys, 16 servers of which 15 were never written: 15 such searches", goals::KEYS, 1, untouched_servers),
    case("request get of the newest of as many versions", goals::SEARCH, 1, newest_version),
    case("request set of a new key, behind as many versions, 255 of 256", goals::SEARCH, 1, |entries| new_key(entries, 0)),
    case("request set of a key held, behind as many versions, 255 of 256", goals::SEARCH, 1, |entries| key_again(entries, 0)),
    case("request enter of a new key, behind as many entries, 255 of 256", goals::SEARCH, 1, |entries| {
        new_key(entries, COORDINATOR)
    }),
    case("request enter of a key entered, behind as many entries, 255 of 256", goals::SEARCH, 1, |entries| {
        key_again(entries, COORDINATOR)
    }),
    case("C's last reply, 1 server, the newest tag qualifies", goals::CHOICE, 1, newest_tag_of_one),
    case("C's last reply, 16 servers, the newest tag qualifies", goals::CHOICE, 1, newest_tag),
    case("C's last reply, 16 servers, no tag but 0 qualifies, each WRITE of the last server", goals::CHOICE, 1, |entries| {
        gap(entries, 1, LAST)
    }),
    case("C's last reply, 16 servers, no tag but 0 qualifies, each WRITE of all", goals::CHOICE, 1, |entries| {
        gap(entries, 1, ALL)
    }),
    case(
        "C's last reply, 16 servers, the tag below the newest qualifies, each WRITE of the last server",
        goals::CHOICE,
        1,
        |entries| gap(entries, entries - 1, LAST),
    ),
    case("C's last reply, 16 servers, the tag below the newest qualifies, each WRITE of all", goals::CHOICE, 1, |entries| {
        gap(entries, entries - 1, ALL)
    }),
];

/// Masks of 16 servers.
const ALL: u32 = 0xFFFF;
const LAST: u32 = 1 << 15;

const SERVERS: [usize; 5] = [1, 2, 4, 8, 16];
pub const BY_SERVERS: [Case; 6] = [
    case("begin a WRITE", goals::SHORT, 1, |servers| after_64(2, servers, |plan| plan.begin_write(1, plan.all()))),
    case("a WRITE's last reply set done, and its entry: 3 steps", goals::SHORT, 3, |servers| {
        after_64(2, servers, |plan| plan.write(1, plan.all()))
    }),
    case("begin a READ, C", goals::SHORT, 1, |servers| after_64(3, servers, |plan| plan.begin_read(0, plan.all()))),
    case("reply keys", goals::SHORT, 1, |servers| after_64(2, servers, |plan| read_keys(plan, plan.all()))),
    case("B's last reply", goals::LAST_GOT, 1, |servers| after_64(2, servers, read_to_end)),
    case("C's last reply", goals::CHOICE, 1, |servers| after_64(3, servers, read_to_end)),
];

pub fn report(clock: &Clock, library: StoreLibrary) {
    let logs = LOGS.map(|entries| format!("log of {entries}"));
    print("Growth with the log and the versions, ns", &heads(&logs), &rows(clock, library, &BY_LOG, &LOGS));
    let servers = SERVERS.map(|servers| format!("k = {servers}"));
    print("Growth with the servers, a log of 64, ns", &heads(&servers), &rows(clock, library, &BY_SERVERS, &SERVERS));
}

fn heads(sizes: &[String]) -> Vec<&str> {
    ["step", "side"].into_iter().chain(sizes.iter().map(String::as_str)).collect()
}

/// Three rows a case: proved, fast and their ratio.
fn rows(clock: &Clock, library: StoreLibrary, cases: &[Case], sizes: &[usize]) -> Vec<Vec<String>> {
    let plan_of = |case: &Case, &size: &usize| ((case.plan)(size), case.steps);
    let plans: Vec<(Plan, usize)> = cases.iter().flat_map(|case| sizes.iter().map(move |size| plan_of(case, size))).collect();
    let times = least_of_passes(&plans, |(plan, steps)| last_steps(clock, library, plan, *steps, ROUNDS));
    let mut rows = Vec::new();
    for (case, times) in cases.iter().zip(times.chunks(sizes.len())) {
        let row = |name: &str, side: &str, cell: &dyn Fn(&[f64; 2]) -> String| {
            [name.to_string(), side.to_string()].into_iter().chain(times.iter().map(cell)).collect()
        };
        rows.push(row(case.name, "inner", &|&[proved, _]| time(proved)));
        rows.push(row("", "fast", &|&[_, fast]| time(fast)));
        rows.push(row("", "ratio", &|&[proved, fast]| ratio(proved, fast, case.goal)));
    }
    rows
}

/// A press whose log has 64 entries, each of all servers, and further steps.
fn after_64(method: u32, servers: usize, further: impl FnOnce(&mut Plan)) -> Plan {
    let mut plan = written(method, servers as u32, (1 << servers) - 1, 64);
    further(&mut plan);
    plan
}

fn read_to_end(plan: &mut Plan) {
    plan.begin_read(0, plan.all());
    plan.finish(0);
}

/// An opening with WRITEs of one mask until the log has this many entries.
fn written(method: u32, servers: u32, mask: u32, entries: usize) -> Plan {
    let mut plan = Plan::opened(method, servers, 2);
    for _ in 1..entries {
        plan.write(1, mask);
    }
    plan
}

/// A READ under B up to the keys' arrival.
fn read_keys(plan: &mut Plan, mask: u32) {
    plan.begin_read(0, mask);
    plan.request(0, COORDINATOR);
    plan.reply(0, COORDINATOR);
}

fn untouched_server(entries: usize) -> Plan {
    let mut plan = written(2, 2, 1, entries);
    read_keys(&mut plan, 2);
    plan
}

fn untouched_servers(entries: usize) -> Plan {
    let mut plan = written(2, 16, 1, entries);
    let all = plan.all();
    read_keys(&mut plan, all);
    plan
}

fn newest_version(entries: usize) -> Plan {
    let mut plan = written(2, 1, 1, entries);
    read_keys(&mut plan, 1);
    plan.request(0, 0);
    plan
}

/// A WRITE up to the delivery of its set or its enter, which finds so many versions and entries; 255 where no place would be left.
fn new_key(entries: usize, target: usize) -> Plan {
    let mut plan = written(2, 1, 1, entries.min(255));
    plan.begin_write(1, 1);
    plan.request(1, 0);
    if target == COORDINATOR {
        plan.reply(1, 0);
        plan.request(1, COORDINATOR);
    }
    plan
}

/// The same, and what answered it is lost, and it is sent again and delivered.
fn key_again(entries: usize, target: usize) -> Plan {
    let mut plan = new_key(entries, target);
    plan.request_again(1, target);
    plan
}

fn newest_tag_of_one(entries: usize) -> Plan {
    read_last(written(3, 1, 1, entries), 1)
}

fn newest_tag(entries: usize) -> Plan {
    read_last(written(3, 16, ALL, entries), 16)
}

/// A READ of all servers up to its last reply.
fn read_last(mut plan: Plan, servers: usize) -> Plan {
    plan.begin_read(0, plan.all());
    plan.deliver_requests(0);
    for target in (0..servers).chain([COORDINATOR]) {
        plan.reply(0, target);
    }
    plan
}

/// A READ under C whose last server answers as soon as the log has `early` entries, and all others when it has all of them.
/// So the newest tag that qualifies is `early` less 1, and the 15 servers of lower number have what the newest asks for.
fn gap(entries: usize, early: usize, mask: u32) -> Plan {
    let mut plan = Plan::opened(3, 16, 2);
    plan.begin_read(0, plan.all());
    for logged in 1..=entries {
        if logged == early.max(1) {
            answer(&mut plan, 15);
        }
        if logged < entries {
            plan.write(1, mask);
        }
    }
    for target in (0..15).chain([COORDINATOR]) {
        answer(&mut plan, target);
    }
    plan
}

fn answer(plan: &mut Plan, target: usize) {
    plan.request(0, target);
    plan.reply(0, target);
}

#[cfg(test)]
mod tests {
    use super::*;

    /// The last step of each plan is of the kind that its row names, from the shortest log to the longest.
    #[test]
    fn last_steps_of_sets_and_enters() {
        for entries in LOGS {
            for (target, new, again) in [
                (0, "request set", "request set of a key held"),
                (COORDINATOR, "request enter", "request enter of a key entered"),
            ] {
                assert_eq!(new_key(entries, target).kinds.last(), Some(&new), "{entries}");
                assert_eq!(key_again(entries, target).kinds.last(), Some(&again), "{entries}");
            }
        }
    }
}
