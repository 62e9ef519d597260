//! The register: its records, their listing by tag, and overlap.

use std::fmt::Write;

/// "each WRITE's panel, count, tag, begin and end step", and its badge: "The register's W line ends with it."
#[derive(Clone, Debug, PartialEq, Eq)]
pub struct WriteRecord {
    pub client: usize,
    pub count: u8,
    pub tag: usize,
    pub begin: u32,
    pub end: Option<u32>,
    pub badge: u16,
}

/// "each READ's panel, mask, tag, begin, end"
#[derive(Clone, Debug, PartialEq, Eq)]
pub struct ReadRecord {
    pub client: usize,
    pub mask: u32,
    pub tag: usize,
    pub begin: u32,
    pub end: Option<u32>,
}

/// A line of the listing: a record, and of a READ its end and overlap.
#[derive(Clone, Debug, PartialEq, Eq)]
pub enum Listed<'a> {
    Write(&'a WriteRecord),
    Read { record: &'a ReadRecord, end: u32, overlap: usize },
}

/// "A READ's overlap counts the … WRITEs that began before its end and ended after its begin." "A WRITE begun before the READ's end and not
/// finished overlaps it, tagged or not."
fn overlap(writes: &[WriteRecord], begin: u32, end: u32) -> usize {
    let overlaps = |write: &&WriteRecord| write.begin < end && write.end.is_none_or(|ended| ended > begin);
    writes.iter().filter(overlaps).count()
}

/// "The register lists by tag: the WRITE of a tag, finished or not, then finished READs of that tag"; "The register now puts READs
/// of one tag in order of begin step"; "what ties keeps the order of records. Tag 0 has READs only."
pub fn listing<'a>(writes: &'a [WriteRecord], reads: &'a [ReadRecord]) -> Vec<Listed<'a>> {
    let mut finished: Vec<(&ReadRecord, u32)> = reads.iter().filter_map(|read| read.end.map(|end| (read, end))).collect();
    finished.sort_by_key(|&(read, _)| (read.tag, read.begin));
    let mut tagged: Vec<&WriteRecord> = writes.iter().filter(|write| write.tag > 0).collect();
    tagged.sort_by_key(|write| write.tag);

    let mut lines: Vec<Listed> = tagged.into_iter().map(Listed::Write).collect();
    lines.extend(finished.into_iter().map(|(record, end)| {
        let overlap = overlap(writes, record.begin, end);
        Listed::Read { record, end, overlap }
    }));
    // Stable: a tag's WRITE stays ahead of its READs, and those stay by begin.
    lines.sort_by_key(|line| match line {
        Listed::Write(write) => write.tag,
        Listed::Read { record, .. } => record.tag,
    });
    lines
}

/// The register as the yard program prints it.
pub fn printed(writes: &[WriteRecord], reads: &[ReadRecord]) -> String {
    let mut text = String::new();
    for line in listing(writes, reads) {
        let written = match line {
            Listed::Write(WriteRecord { client, count, tag, begin, end, badge }) => {
                let end = end.map_or("-".to_string(), |end| end.to_string());
                writeln!(text, "W {tag} {client} {count} {begin} {end} {badge}")
            }
            Listed::Read { record, end, overlap } => {
                let ReadRecord { client, tag, begin, .. } = record;
                writeln!(text, "R {tag} {client} {begin} {end} {overlap}")
            }
        };
        written.expect("a string takes any text");
    }
    text
}
