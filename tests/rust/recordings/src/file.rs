//! The file of a recording: the number of frames, the length of each, then their bytes. A number has 4 bytes, most significant first.

use frames::recording::Recording;

/// The bytes of the file.
pub fn written(recording: &Recording) -> Vec<u8> {
    let numbers = [&[recording.lengths.len() as u32], &recording.lengths[..]].concat();
    numbers.into_iter().flat_map(u32::to_be_bytes).chain(recording.bytes.iter().copied()).collect()
}

/// The recording of a file; none where it ends ahead of its last length. "An empty file is an empty recording."
pub fn read(file: &[u8]) -> Option<Recording> {
    if file.is_empty() {
        return Some(Recording::default());
    }
    let (frames, rest) = file.split_first_chunk()?;
    let (lengths, bytes) = rest.split_at_checked(4 * u32::from_be_bytes(*frames) as usize)?;
    let number = |bytes: &[u8]| bytes.iter().fold(0, |number, &byte| number << 8 | u32::from(byte));
    Some(Recording { lengths: lengths.chunks_exact(4).map(number).collect(), bytes: bytes.to_vec() })
}
