//! What the memory of a run is compared with, in plain Rust: the events of scripts/measure/library, the copy of them that a world
//! keeps, and the messages, as lists of the same enums, with no nodes; but a value and the rows of a List are a `Vec`
//! here, copied wherever they stand, where Sevunthi's have owners in common.
//! usage: lists EVENTS
#![allow(dead_code)]

use std::hint::black_box;

#[derive(Clone, Copy)]
struct Id {
    index: u8,
    generation: u32,
}

#[derive(Clone, Copy)]
enum Addr {
    Server(Id),
    Coordinator,
    Outside,
}

#[derive(Clone)]
struct Entry {
    term: u32,
    table: u32,
    key: u64,
    version: u64,
    value: Option<Vec<u8>>,
}

#[derive(Clone, Copy)]
struct Part {
    table: u32,
    lo: u64,
    hi: u64,
    term: u32,
}

#[derive(Clone, Copy)]
struct PlanRow {
    seg: u16,
    holder: Id,
    len: usize,
}

#[derive(Clone)]
struct Row {
    seg: u16,
    epoch: u16,
    closed: bool,
    len: usize,
    digest: Vec<u16>,
}

#[derive(Clone)]
enum Body {
    Write { table: u32, key: u64, value: Option<Vec<u8>> },
    Read { table: u32, key: u64 },
    WriteOk { seg: u16, offset: usize, term: u32, table: u32, key: u64, version: u64 },
    ReadOk { table: u32, key: u64, version: u64, value: Option<Vec<u8>> },
    Refused { code: u8 },
    Place { seg: u16, epoch: u16, digest: Vec<u16>, entries: Vec<Entry>, closed: bool },
    Append { seg: u16, offset: usize, entries: Vec<Entry> },
    Close { seg: u16, len: usize },
    Stored { seg: u16, epoch: u16, len: usize, closed: bool },
    Commit { seg: u16, epoch: u16 },
    CommitOk { seg: u16, epoch: u16 },
    Enlist,
    Ready,
    List { version: u32, rows: Vec<(Id, bool)> },
    Gather { attempt: u32, master: Id },
    Replicas { attempt: u32, rows: Vec<Row> },
    Plan { head: u16, attempt: u32, master: Id, rows: Vec<PlanRow>, parts: Vec<Part> },
    Fetch { attempt: u32, master: Id, seg: u16, len: usize, part: Part },
    Data { attempt: u32, seg: u16, term: u32, entries: Vec<Entry> },
    Recovered { attempt: u32, term: u32 },
    Own { table: u32, lo: u64, hi: u64, term: u32, previous: u32, attempt: u32 },
    SplitOk { table: u32, at: u64 },
    Free { seg: u16 },
}

struct Message {
    from: Addr,
    to: Addr,
    body: Body,
}

#[derive(Clone)]
enum Event {
    Ask { to: Id, body: Body },
    Deliver(usize),
    Tick(Addr),
    Stop(Id),
    Start { host: u8, kept: Vec<(Id, u16)> },
    Suspect(Id),
    Decide(Id),
    Create { table: u32, owner: Id },
    Split { table: u32, at: u64 },
}

/// The lists so far.
#[derive(Default)]
struct Lists {
    events: Vec<Event>,
    copies: Vec<Event>,
    messages: Vec<Message>,
}

impl Lists {
    fn happen(&mut self, event: Event) {
        self.copies.push(event.clone());
        self.events.push(event);
    }

    fn say(&mut self, from: Addr, to: Addr, body: Body) {
        self.messages.push(Message { from, to, body });
    }

    fn stored(&mut self, seg: u16) {
        let (from, to) = (Addr::Server(server(1)), Addr::Server(server(0)));
        self.say(from, to, Body::Stored { seg, epoch: 0, len: 1, closed: false });
    }

    /// A write, two Appends with a Stored each, and the answer.
    fn write(&mut self, key: u64) {
        let value = Some(format!("{key:08}").into_bytes());
        let body = Body::Write { table: 0, key, value: value.clone() };
        self.happen(Event::Ask { to: server(0), body: body.clone() });
        self.say(Addr::Outside, Addr::Server(server(0)), body);
        for _ in 0..2 {
            let entry = Entry { term: 1, table: 0, key, version: 1, value: value.clone() };
            let body = Body::Append { seg: 1, offset: 0, entries: vec![entry] };
            self.say(Addr::Server(server(0)), Addr::Server(server(1)), body);
            self.stored(1);
        }
        let body = Body::WriteOk { seg: 1, offset: 0, term: 1, table: 0, key, version: 1 };
        self.say(Addr::Server(server(0)), Addr::Outside, body);
        for number in 0..5 {
            self.happen(Event::Deliver(self.messages.len() + number));
        }
    }
}

fn server(index: u8) -> Id {
    Id { index, generation: 1 }
}

fn main() {
    let most: usize = std::env::args().nth(1).expect("usage: lists EVENTS").parse().unwrap();
    let mut lists = Lists::default();
    let mut entries = 0;
    for number in 0..33 {
        lists.happen(Event::Deliver(number));
    }
    while lists.events.len() + 66 <= most {
        if entries < 3072 {
            lists.write(entries);
            entries += 1;
        }
        for number in 0..30 {
            lists.happen(Event::Deliver(number));
            lists.stored(1);
            lists.happen(Event::Deliver(lists.messages.len() - 1));
        }
    }
    black_box(&lists);
    println!("{} events, {} messages", lists.events.len(), lists.messages.len());
}
