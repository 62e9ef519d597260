//! A schedule on standard input, its answers and the register on standard output, by the Rust that was written for speed.

use std::fs::File;
use std::io;
use std::mem::ManuallyDrop;
use std::os::fd::FromRawFd;

fn main() -> io::Result<()> {
    // Both are open, and are not closed here.
    let [input, output] = [0, 1].map(|number| ManuallyDrop::new(unsafe { File::from_raw_fd(number) }));
    bench::fast::play::replay(&*input, &*output)
}
