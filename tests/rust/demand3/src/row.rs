//! The row of one opening: its order, the walk along it, real time, and the register that prints it.

use crate::run::{Kind, Run, Transaction};
use crate::text::Value;
use crate::{violation, Violation};

/// The places of the tagged WRITEs and finished READs in the order of the row:
/// the WRITE of each tag, then the READs of that tag "in order of begin step".
pub fn row_of(run: &Run) -> Result<Vec<usize>, Violation> {
    let mut reads: Vec<usize> = (0..run.transactions.len()).filter(|&place| finished_read(&run.transactions[place])).collect();
    let last = run.tagged.len();
    if let Some(&place) = reads.iter().find(|&&place| tag(run, place) > last) {
        let what = format!("a READ shows tag {}, and {last} WRITEs are tagged", tag(run, place));
        return Err(violation(run.transactions[place].line, what));
    }
    reads.sort_by_key(|&place| (tag(run, place), run.transactions[place].begin));
    let mut row = Vec::new();
    let mut reads = reads.into_iter().peekable();
    for number in 0..=last {
        row.extend(number.checked_sub(1).map(|before| run.tagged[before]));
        while let Some(place) = reads.next_if(|&place| tag(run, place) == number) {
            row.push(place);
        }
    }
    Ok(row)
}

fn finished_read(transaction: &Transaction) -> bool {
    !transaction.is_write() && transaction.end.is_some()
}

fn tag(run: &Run, place: usize) -> usize {
    run.transactions[place].tag.expect("those in the row have tags")
}

fn masked(mask: u32, server: usize) -> bool {
    mask >> server & 1 == 1
}

/// "The row is walked with k values, at first the opening's." "A shown tag must be that of the last WRITE to the station ahead
/// of the READ in the row, or 0 where there is none", and a badge is that of "the same WRITE as the setpoint beside it": a WRITE sets
/// its tag and its badge with its setpoint.
pub fn walk(run: &Run, row: &[usize]) -> Result<(), Violation> {
    let mut values: Vec<Value> = run.opening.iter().map(|&setpoint| Value { setpoint, tag: 0, badge: 0 }).collect();
    for &place in row {
        let transaction = &run.transactions[place];
        let stations: Vec<usize> = (0..values.len()).filter(|&server| masked(transaction.mask, server)).collect();
        match &transaction.kind {
            Kind::Write { badge, setpoints, .. } => {
                let value = |server: usize| Value { setpoint: setpoints[server], tag: tag(run, place), badge: *badge };
                stations.iter().for_each(|&server| values[server] = value(server));
            }
            Kind::Read { shown, .. } => {
                let due: Vec<(usize, Value)> = stations.iter().map(|&server| (server, values[server])).collect();
                if *shown != due {
                    let what = format!("the READ shows {}, and the row has {}", text_of(shown), text_of(&due));
                    return Err(violation(transaction.line, what));
                }
            }
        }
    }
    Ok(())
}

/// `station=setpoint@tag#badge` of each station, as a READ shows them.
fn text_of(values: &[(usize, Value)]) -> String {
    let texts: Vec<String> = values.iter().map(|(server, value)| format!("{server}={value}")).collect();
    texts.join(" ")
}

/// A transaction that finished before another began stands before it in the row.
pub fn real_time(run: &Run, row: &[usize]) -> Result<(), Violation> {
    let mut earliest_end = usize::MAX;
    for &place in row.iter().rev() {
        let transaction = &run.transactions[place];
        if earliest_end < transaction.begin {
            let what = format!(
                "real time: a transaction that ended at step {earliest_end} stands behind one begun at step {}",
                transaction.begin
            );
            return Err(violation(0, what));
        }
        earliest_end = earliest_end.min(transaction.end.unwrap_or(usize::MAX));
    }
    Ok(())
}

/// A line of the register.
fn line_of(run: &Run, place: usize) -> String {
    let transaction = &run.transactions[place];
    let Transaction { client, begin, end, .. } = transaction;
    let end_text = end.map_or("-".to_string(), |end| end.to_string());
    let tag = tag(run, place);
    match &transaction.kind {
        Kind::Write { count, badge, .. } => format!("W {tag} {client} {count} {begin} {end_text} {badge}"),
        Kind::Read { beside, .. } => format!("R {tag} {client} {begin} {end_text} {beside}"),
    }
}

/// The register is the row, one line each.
pub fn register(run: &Run, row: &[usize], printed: &[&str]) -> Result<(), Violation> {
    let due: Vec<String> = row.iter().map(|&place| line_of(run, place)).collect();
    for (place, line) in due.iter().enumerate() {
        match printed.get(place) {
            Some(found) if found == line => {}
            other => {
                let found = other.map_or("nothing".to_string(), |found| format!("{found:?}"));
                return Err(violation(0, format!("the register has {found} in place of {line:?}")));
            }
        }
    }
    match printed.get(due.len()) {
        Some(more) => Err(violation(0, format!("the register goes on with {more:?}"))),
        None => Ok(()),
    }
}
