//! The setpoint store from Rust: an opening, a WRITE and a READ that cross, the READ again, and the register.
//!
//! This process holds the tables. Before a request or a reply is delivered, its frame is written from its link and goes through a socket
//! pair to a second process, which stands for the wire: it reads the frame, prints it and sends it back. What comes back must be what was
//! sent; then it is delivered. It prints what `bindings/c/example.c` prints, which `bindings/example.out` has. Nothing of it is proved.

use setpoint_store::{accepted, Arrival, Crossing, Fixed, FrameLibrary, Refused, StoreLibrary, Tables, WireLibrary};
use std::error::Error;
use std::io::{self, Read, Write};
use std::os::fd::{AsFd, OwnedFd};
use std::os::unix::net::UnixStream;
use std::process::{Command, Stdio};

const METHOD_B: u32 = 2;
const STATIONS: usize = 2;
const PANELS: usize = 2;
const HEAD: u32 = 16;
const BOTH: u32 = 3;
const BADGE: u16 = 7;
const LONGEST_FRAME: usize = 1923;
const MOST_ENTRIES: usize = 256;
const ROW: usize = 8;
const ROWS: usize = 510;

type Done = Result<(), Box<dyn Error>>;

/// A frame on a stream: two bytes say how long it is.
fn put_frame(wire: &mut UnixStream, bytes: &[u8]) -> io::Result<()> {
    wire.write_all(&(bytes.len() as u16).to_be_bytes())?;
    wire.write_all(bytes)
}

/// None where the other end is closed.
fn get_frame(wire: &mut UnixStream) -> io::Result<Option<Vec<u8>>> {
    let mut length = [0; 2];
    match wire.read_exact(&mut length) {
        Err(fault) if fault.kind() == io::ErrorKind::UnexpectedEof => return Ok(None),
        other => other?,
    }
    let mut bytes = vec![0; usize::from(u16::from_be_bytes(length))];
    wire.read_exact(&mut bytes)?;
    Ok(Some(bytes))
}

// ---- The second process: the wire.

fn be_the_wire() -> Done {
    let library = FrameLibrary::linked().ok_or("the library of frames is not linked")?;
    let mut wire = UnixStream::from(io::stdin().as_fd().try_clone_to_owned()?);
    let mut slices = [[0; MOST_ENTRIES]; 3];
    while let Some(bytes) = get_frame(&mut wire)? {
        let [keys, badges, numbers] = &mut slices;
        let fixed = library.read(&bytes, keys, badges, numbers).fixed()?;
        println!("    wire: {}", described(&fixed, keys, badges, numbers));
        put_frame(&mut wire, &bytes)?;
    }
    Ok(())
}

fn described(fixed: &Fixed, keys: &[u32], badges: &[u32], numbers: &[u32]) -> String {
    let Fixed { kind, client, server, tag, key: (count, owner), badge, number, entries } = *fixed;
    let each = |of: &dyn Fn(usize) -> String| (0..entries as usize).map(of).collect::<String>();
    let key = |at: usize| format!(" key {}.{}", keys[at] / 256, keys[at] % 256);
    match kind {
        1 => format!("set: panel {client} station {server} key {count}.{owner} badge {badge} setpoint {number}"),
        2 => format!("set done: panel {client} station {server}"),
        3 => format!("enter: panel {client} key {count}.{owner} mask {number}"),
        4 => format!("entered: panel {client} tag {tag}"),
        5 => format!("which keys: panel {client}"),
        6 => format!("keys: panel {client} tag {tag}{}", each(&|at| format!("{} tag {}", key(at), numbers[at]))),
        7 => format!("get: panel {client} station {server} key {count}.{owner}"),
        8 => format!("got: panel {client} station {server} badge {badge} setpoint {number}"),
        9 => format!("get all: panel {client} station {server}"),
        10 => {
            let versions = each(&|at| format!("{} badge {} setpoint {}", key(at), badges[at], numbers[at]));
            format!("all: panel {client} station {server}{versions}")
        }
        11 => format!("get log: panel {client}"),
        _ => format!("log: panel {client}{}", each(&|at| format!("{} mask {}", key(at), numbers[at]))),
    }
}

// ---- The first process: the tables.

struct Press {
    store: StoreLibrary,
    links: WireLibrary,
    tables: Tables,
    wire: UnixStream,
}

impl Press {
    /// Sends what the link holds over the wire and back.
    fn send(&mut self, arrow: char, panel: u32, target: u32) -> Done {
        let mut bytes = [0; LONGEST_FRAME];
        let length = self.links.write_link_frame(self.tables.lent(), panel, target, &mut bytes)?;
        let frame = &bytes[..length];
        println!("{arrow} {panel} {target}:{}", frame.iter().map(|byte| format!(" {byte:02x}")).collect::<String>());
        put_frame(&mut self.wire, frame)?;
        if get_frame(&mut self.wire)?.as_deref() != Some(frame) {
            return Err("another frame came back".into());
        }
        Ok(())
    }

    fn request(&mut self, panel: u32, target: u32) -> Done {
        self.send('>', panel, target)?;
        print_answer(accepted(self.store.deliver_request(self.tables.lent_mut(), panel, target)));
        Ok(())
    }

    fn reply(&mut self, panel: u32, target: u32) -> Done {
        self.send('<', panel, target)?;
        let crossing = self.store.deliver_reply(self.tables.lent_mut(), panel, target);
        print_arrival(&crossing, self.tables.mask(panel as usize));
        Ok(())
    }

    fn begin_read(&mut self, panel: u32, mask: u32) {
        println!("R {panel} {mask}");
        print_answer(accepted(self.store.begin_read(self.tables.lent_mut(), panel, mask)));
    }

    fn play(&mut self) -> Done {
        let (at_first, recipe) = ([1200, 30], [1800, 45]);
        println!("O {METHOD_B} {STATIONS} {PANELS} {} {}", at_first[0], at_first[1]);
        print_answer(accepted(self.store.open(self.tables.lent_mut(), METHOD_B, STATIONS as u32, PANELS as u32, &at_first)));
        println!("W 0 {BOTH} {BADGE} {} {}", recipe[0], recipe[1]);
        print_answer(accepted(self.store.begin_write(self.tables.lent_mut(), 0, BOTH, BADGE, &recipe)));
        self.request(0, 0)?; // station 0 has the new setpoint, station 1 not yet
        self.begin_read(1, BOTH);
        self.request(1, HEAD)?;
        self.reply(1, HEAD)?;
        self.request(1, 1)?;
        self.request(1, 0)?;
        self.request(0, 1)?;
        self.reply(0, 0)?;
        self.reply(0, 1)?;
        self.request(0, HEAD)?;
        self.reply(1, 0)?;
        self.reply(1, 1)?; // both old
        self.reply(0, HEAD)?;

        self.begin_read(1, BOTH);
        self.request(1, HEAD)?;
        self.reply(1, HEAD)?;
        self.request(1, 1)?;
        self.request(1, 0)?;
        self.reply(1, 0)?;
        self.reply(1, 1)?; // both new
        self.print_register()
    }

    fn print_register(&self) -> Done {
        let mut list = [0; ROW * ROWS];
        let rows = self.links.list_register(self.tables.lent(), &mut list)?;
        println!("the register:");
        for row in list.chunks(ROW).take(rows) {
            match *row {
                [0, tag, panel, count, begin, end, _, badge] => println!("W {tag} {panel} {count} {begin} {end} {badge}"),
                [_, tag, panel, _, begin, end, over, _] => println!("R {tag} {panel} {begin} {end} {over}"),
                _ => unreachable!("a row has {ROW} words"),
            }
        }
        Ok(())
    }
}

fn print_answer(answer: Result<(), Refused>) {
    match answer {
        Ok(()) => println!("    ok"),
        Err(refused) => println!("    {refused}"),
    }
}

fn print_arrival(crossing: &Crossing, mask: u32) {
    match crossing.arrival() {
        Ok(Arrival::Wait) => println!("    wait"),
        Ok(Arrival::Next) => println!("    next"),
        Ok(Arrival::Write { tag }) => println!("    write {tag}"),
        Ok(Arrival::Read { tag }) => {
            let shown = |i: usize| format!(" {i}={}@{}#{}", crossing.setpoints[i], crossing.tags[i], crossing.badges[i]);
            println!("    read {tag}{}", (0..STATIONS).filter(|i| mask >> i & 1 == 1).map(shown).collect::<String>());
        }
        Err(refused) => println!("    {refused}"),
    }
}

fn main() -> Done {
    if std::env::args().nth(1).as_deref() == Some("wire") {
        return be_the_wire();
    }
    let (ours, theirs) = UnixStream::pair()?;
    let wire_end = Stdio::from(OwnedFd::from(theirs));
    let mut second = Command::new(std::env::current_exe()?).arg("wire").stdin(wire_end).spawn()?;
    let store = StoreLibrary::linked().ok_or("the library of steps is not linked")?;
    let links = WireLibrary::linked().ok_or("the library of links is not linked")?;
    Press { store, links, tables: Tables::new(STATIONS, PANELS), wire: ours }.play()?;
    if !second.wait()?.success() {
        return Err("the wire ended with a fault".into());
    }
    Ok(())
}
