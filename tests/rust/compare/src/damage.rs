//! Tables made odd: single words changed, tables cut short or filled to their limits.

use model::{Step, COORDINATOR};
use schedules::Random;
use words::layout::*;
use words::Tables;

/// Changes sound tables in one to three ways, or in none.
pub fn damage(tables: &mut Tables, random: &mut Random) {
    if random.chance(1, 6) {
        change_together(tables, random);
    }
    match random.below(17) {
        0 => {}
        1 => cut(tables, random),
        2 => change_kept_tag(tables, random),
        3 => change_badge(tables, random),
        4 | 5 => change_kind(tables, random),
        6 => change_asked_key(tables, random),
        7..=13 => change_word(tables, random),
        _ => {
            change_word(tables, random);
            change_word(tables, random);
        }
    }
}

/// One table shorter, by a little or to any length.
fn cut(tables: &mut Tables, random: &mut Random) {
    let which = random.below(8);
    let table = &mut tables.all_mut()[which];
    let length =
        if random.chance(1, 2) { table.len() - random.within(1, 3).min(table.len()) } else { random.below(table.len() + 1) };
    table.truncate(length);
}

/// A word of a used row, or of the row behind the last used one, becomes another.
fn change_word(tables: &mut Tables, random: &mut Random) {
    let which = random.below(8);
    let place = word_place(tables, which, random);
    let count = tables.counts.get(random.below(COUNTS_WORDS)).copied().unwrap_or(0);
    let table = &mut tables.all_mut()[which];
    if place >= table.len() {
        return;
    }
    let other = table[random.below(table.len())];
    table[place] = match random.below(10) {
        0 => table[place].wrapping_add(1),
        1 => table[place].wrapping_sub(1),
        2 => other,
        3 => 0,
        4 => random.below(20) as u32,
        5 => 256 * random.below(256) as u32 + random.below(17) as u32,
        6 => table[place] ^ 1 << random.below(17),
        7 => count,
        8 => count.wrapping_add(1),
        _ => random.word(),
    };
}

/// A tag that a client keeps becomes 0, the log's last one, the log's length, or one more; of a server beyond k that is free.
fn change_kept_tag(tables: &mut Tables, random: &mut Random) {
    let entries = tables.counts[ENTRIES];
    let client = random.below(tables.count(CLIENTS));
    let place = CLIENT_WORDS * client + TAGS + random.below((tables.count(SERVERS) + 1).min(16));
    tables.clients[place] = random.pick(&[0, entries - 1, entries, entries + 1]);
}

/// A word in the place of a badge becomes one just below or above the least that is none: where soundness looks at it (held versions,
/// clients and the WRITEs they keep, set requests, got replies, WRITEs), beside that (behind the last version or record, servers beyond k),
/// and where no badge is (other links, READs).
fn change_badge(tables: &mut Tables, random: &mut Random) {
    let used = |place: usize| tables.count(place);
    let (servers, clients) = (used(SERVERS), used(CLIENTS));
    let which = random.pick(&[1, 2, 2, 4, 6, 7]);
    let place = match which {
        1 if random.chance(1, 2) => CLIENT_WORDS * random.below(clients) + WRITE_BADGE,
        1 => CLIENT_WORDS * random.below(clients) + BADGES + random.below((servers + 1).min(16)),
        2 => LINK_WORDS * link(tables, LINKS_OF_CLIENT * clients, random) + LINK_BADGE,
        4 => {
            let server = random.below(servers);
            value_place(server, random.below(used(HELD + server) + 1))
        }
        6 => RECORD_WORDS * random.below(used(WRITES) + 1) + RECORD_BADGE,
        _ => RECORD_WORDS * random.below(used(READS) + 1) + RECORD_BADGE,
    };
    if let Some(word) = tables.all_mut()[which].get_mut(place) {
        *word = random.pick(&[7, BADGES_BELOW - 1, BADGES_BELOW, BADGES_BELOW + 7, u32::MAX]);
    }
}

/// What a link holds becomes of another kind, most often lost, or of a kind that there is not.
fn change_kind(tables: &mut Tables, random: &mut Random) {
    let place = LINK_WORDS * link(tables, LINKS_OF_CLIENT * tables.count(CLIENTS), random);
    if let Some(kind) = tables.links.get_mut(place) {
        *kind = random.pick(&[LOST, LOST, LOST, LOST, NOTHING, REQUEST, REPLY, 4, 5, 255, 256 + LOST, 65_536 + LOST, u32::MAX]);
    }
}

/// A key that a client keeps becomes another one, or a word that is none: below the first count, of a client beyond p, of more than 16
/// bits. Most often it is one of a client that asks for setpoints; of servers that it does not ask, and of other clients, it is free.
fn change_asked_key(tables: &mut Tables, random: &mut Random) {
    let clients = tables.count(CLIENTS);
    let asking: Vec<usize> = (0..clients).filter(|&client| tables.client(client)[STATE] == 4).collect();
    let client = if asking.is_empty() || random.chance(1, 5) { random.below(clients) } else { random.pick(&asking) };
    let place = CLIENT_WORDS * client + ASKED + random.below((tables.count(SERVERS) + 1).min(16));
    let count = 256 * random.within(1, 255) as u32;
    let beyond = clients as u32;
    tables.clients[place] = random.pick(&[
        0,
        1,
        255,
        256,
        count,
        count + beyond - 1,
        count + beyond,
        count + 255,
        65_535,
        65_536,
        65_536 + count,
        u32::MAX,
    ]);
}

/// Puts the key of a set or enter request to where it would be stored or entered, at one place or two, now and then with all places in use.
/// Gives the delivery of that request, where there is one; the tables stay sound.
pub fn repeat_key(tables: &mut Tables, random: &mut Random) -> Option<Step> {
    let links = 0..LINKS_OF_CLIENT * tables.count(CLIENTS);
    let storing = |link: &usize| {
        let state = tables.client(link / LINKS_OF_CLIENT)[STATE];
        matches!(state, 1 | 2) && tables.links[LINK_WORDS * link] == REQUEST
    };
    let storing: Vec<usize> = links.filter(storing).collect();
    if storing.is_empty() {
        return None;
    }
    let link = random.pick(&storing);
    let (client, target, key) = (link / LINKS_OF_CLIENT, link % LINKS_OF_CLIENT, tables.links[LINK_WORDS * link + 1]);
    let fill = random.chance(1, 2);
    for _ in 0..random.within(1, 2) {
        if target == COORDINATOR {
            if fill || tables.count(ENTRIES) == 1 {
                fill_log(tables, random);
            }
            let tag = random.within(1, tables.count(ENTRIES) - 1);
            tables.log[LOG_WORDS * tag] = key;
        } else {
            if fill || tables.count(HELD + target) == 1 {
                fill_server(tables, target, random);
            }
            let place = random.within(1, tables.count(HELD + target) - 1);
            tables.keys[VERSIONS_OF_SERVER * target + place] = key;
        }
    }
    if random.chance(1, 2) {
        // Another tag than the first one of the key may be recorded.
        let record = RECORD_WORDS * tables.client(client)[RECORD] as usize;
        tables.writes[record + 2] = random.below(tables.count(ENTRIES)) as u32;
    }
    Some(Step::DeliverRequest { client: client as u32, target: target as u32 })
}

/// A delivery, a loss or sending again on a link, most often one that holds something or is lost.
pub fn step_on_a_link(tables: &Tables, random: &mut Random) -> Step {
    let clients = tables.counts.get(CLIENTS).map_or(1, |&clients| clients.clamp(1, 16)) as usize;
    let link = link(tables, LINKS_OF_CLIENT * clients, random);
    let (client, target) = ((link / LINKS_OF_CLIENT) as u32, (link % LINKS_OF_CLIENT) as u32);
    match random.below(4) {
        0 => Step::DeliverRequest { client, target },
        1 => Step::DeliverReply { client, target },
        2 => Step::Lose { client, target },
        _ => Step::Resend { client, target },
    }
}

/// A begin or an end in the records becomes that of another, or one step more or less: of sound tables "begin and end are any". What has no
/// end gets none, and no end is taken, so that they stay sound.
pub fn change_record_step(tables: &mut Tables, random: &mut Random) {
    if tables.count(WRITES) + tables.count(READS) == 0 {
        return;
    }
    let (from, place) = record_step(tables, random);
    let near = tables.all()[from][place].wrapping_add(random.pick(&[0, 0, 1, u32::MAX]));
    let (to, place) = record_step(tables, random);
    let word = &mut tables.all_mut()[to][place];
    if place % RECORD_WORDS != RECORD_END || (*word != 0 && near != 0) {
        *word = near;
    }
}

/// The table, numbered as in `Tables::all`, and the place of some record's begin or end.
fn record_step(tables: &Tables, random: &mut Random) -> (usize, usize) {
    let writes = tables.count(WRITES);
    let record = random.below(writes + tables.count(READS));
    let (which, record) = if record < writes { (6, record) } else { (7, record - writes) };
    (which, RECORD_WORDS * record + random.pick(&[RECORD_BEGIN, RECORD_END]))
}

/// A place in a table, which is numbered as in `Tables::all`.
fn word_place(tables: &Tables, which: usize, random: &mut Random) -> usize {
    let used = |place: usize| tables.counts.get(place).map_or(0, |&count| count as usize % 257);
    let (clients, servers) = (used(CLIENTS).max(1), used(SERVERS).max(1));
    match which {
        0 => random.below(COUNTS_WORDS),
        1 => random.below(CLIENT_WORDS * clients),
        2 => LINK_WORDS * link(tables, LINKS_OF_CLIENT * clients, random) + random.below(LINK_WORDS),
        3 | 4 => {
            let server = random.below(servers);
            let version = VERSIONS_OF_SERVER * server + random.below(used(HELD + server % 16) + 1);
            if which == 3 {
                version
            } else {
                VALUE_WORDS * version + random.below(VALUE_WORDS)
            }
        }
        5 => LOG_WORDS * random.below(used(ENTRIES) + 1) + random.below(LOG_WORDS),
        6 => RECORD_WORDS * random.below(used(WRITES) + 1) + random.below(RECORD_WORDS),
        _ => RECORD_WORDS * random.below(used(READS) + 1) + random.below(RECORD_WORDS),
    }
}

/// A link, most often one that holds something.
fn link(tables: &Tables, links: usize, random: &mut Random) -> usize {
    let busy = |link: &usize| tables.links.get(LINK_WORDS * link).is_some_and(|&kind| kind != NOTHING);
    let waiting: Vec<usize> = (0..links).filter(busy).collect();
    if waiting.is_empty() || random.chance(1, 4) {
        return random.below(links);
    }
    random.pick(&waiting)
}

/// Changes sound tables in several words that belong together: to a limit, or with sums that stay right; or names another method.
fn change_together(tables: &mut Tables, random: &mut Random) {
    match random.below(7) {
        0 => tables.counts[STEP] = random.pick(&[u32::MAX, u32::MAX - 1, u32::MAX - 2]),
        1 => fill_versions(tables, random),
        2 => fill_log(tables, random),
        3 => fill_writes(tables, random),
        4 => fill_reads(tables, random),
        5 => move_counts(tables, random),
        _ => tables.counts[METHOD] = random.within(1, 3) as u32,
    }
}

/// Brings sound tables close to their limits: WRITEs and READs begun, and with them some of the versions, the log and the step number.
pub fn fill_to_limits(tables: &mut Tables, random: &mut Random) {
    fill_writes(tables, random);
    fill_reads(tables, random);
    if random.chance(1, 2) {
        fill_versions(tables, random);
    }
    if random.chance(1, 2) {
        fill_log(tables, random);
    }
    if random.chance(1, 4) {
        tables.counts[STEP] = u32::MAX - random.below(30) as u32;
    }
}

/// The limit, or one less, and no less than is held.
fn near(limit: usize, held: usize, random: &mut Random) -> usize {
    (limit - random.below(2)).max(held)
}

fn fill_versions(tables: &mut Tables, random: &mut Random) {
    let server = random.below(tables.count(SERVERS));
    fill_server(tables, server, random);
}

fn fill_server(tables: &mut Tables, server: usize, random: &mut Random) {
    let first = VERSIONS_OF_SERVER * server;
    let held = tables.count(HELD + server);
    let filled = near(VERSIONS_OF_SERVER, held, random);
    tables.keys[first + held..first + filled].fill(0);
    (held..filled).for_each(|place| tables.values[value_place(server, place)] = BADGES_BELOW - 1);
    tables.counts[HELD + server] = filled as u32;
}

fn fill_log(tables: &mut Tables, random: &mut Random) {
    let filled = near(LOG_ENTRIES, tables.count(ENTRIES), random);
    for tag in tables.count(ENTRIES)..filled {
        tables.log[LOG_WORDS * tag..][..LOG_WORDS].copy_from_slice(&[0, 1]);
    }
    tables.counts[ENTRIES] = filled as u32;
}

/// Finished WRITEs of the last client, and its count with them.
fn fill_writes(tables: &mut Tables, random: &mut Random) {
    let client = tables.count(CLIENTS) - 1;
    let begun = tables.count(WRITES);
    let filled = near(RECORDS, begun, random);
    for place in begun..filled {
        tables.writes[RECORD_WORDS * place..][..RECORD_WORDS].copy_from_slice(&[client as u32, 1, 0, 1, 1, place as u32]);
    }
    tables.clients[CLIENT_WORDS * client + COUNT] += (filled - begun) as u32;
    tables.counts[WRITES] = filled as u32;
}

fn fill_reads(tables: &mut Tables, random: &mut Random) {
    let filled = near(RECORDS, tables.count(READS), random);
    for place in tables.count(READS)..filled {
        tables.reads[RECORD_WORDS * place..][..RECORD_WORDS].copy_from_slice(&[0, 1, 0, 1, 1, u32::MAX]);
    }
    tables.counts[READS] = filled as u32;
}

/// One client's count goes to another, down to 0 or to some number.
fn move_counts(tables: &mut Tables, random: &mut Random) {
    let clients = tables.count(CLIENTS);
    let (from, to) = (random.below(clients), random.below(clients));
    let held = tables.clients[CLIENT_WORDS * from + COUNT];
    let moved = if random.chance(1, 2) { held } else { random.below(held as usize + 1) as u32 };
    tables.clients[CLIENT_WORDS * from + COUNT] -= moved;
    tables.clients[CLIENT_WORDS * to + COUNT] += moved;
}
