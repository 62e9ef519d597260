//! Method C's choice of a tag from what a READ received.

use crate::key::{latest, servers_of, version_of, Entry, Version};

/// "the tag is the greatest t in the log received such that, for each masked station, its key at t is among the
/// versions received". Tag 0 always is: the first version received bears the opening's key.
pub fn chosen_tag(log: &[Entry], versions: &[Vec<Version>; 16], mask: u32) -> usize {
    let received = |server: usize, tag| {
        let key = latest(log, server, tag).key;
        version_of(&versions[server], key).is_some()
    };
    let complete = |&tag: &usize| servers_of(mask).all(|server| received(server, tag));
    (0..log.len()).rev().find(complete).expect("tag 0 qualifies")
}
