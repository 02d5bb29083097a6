//! A feature with a program between two phones. It prints the state of each slot once nothing is under way.

use media_box::{Address, Event, Goal, Guard, Kind, MediaBox, Medium, Rule, Sent, Setup, Signal, Slot, State};
use std::collections::VecDeque;
use std::error::Error;
use std::net::{Ipv4Addr, SocketAddrV4};

// The ends of two tunnels: each end's far end is the one that stands beside it in its pair.
const ENDS: [(usize, u8); 4] = [(0, 0), (2, 0), (2, 1), (1, 0)];
const NAMES: [&str; 3] = ["alice", "bob", "desk"];

struct Call {
    boxes: Vec<MediaBox>,
    queues: [VecDeque<Signal>; 4],
}

impl Call {
    fn carry(&mut self, who: usize, sent: Vec<Sent>) {
        for Sent { slot, signal } in sent {
            let end = ENDS.iter().position(|end| *end == (who, slot)).expect("a box sends by its own slots");
            self.queues[end ^ 1].push_back(signal);
        }
    }

    fn act(&mut self, who: usize, event: Event) -> Result<(), Box<dyn Error>> {
        let sent = self.boxes[who].act(event)?;
        self.carry(who, sent);
        Ok(())
    }

    fn settle(&mut self) -> Result<(), Box<dyn Error>> {
        loop {
            while self.boxes[2].see()?.shifts {
                self.act(2, Event::Shift)?;
            }
            let Some(end) = (0..4).find(|end| !self.queues[*end].is_empty()) else {
                return Ok(());
            };
            let signal = self.queues[end].pop_front().expect("it isn't empty");
            let (who, slot) = ENDS[end];
            let sent = self.boxes[who].take(slot, &signal)?;
            self.carry(who, sent);
        }
    }

    fn show(&mut self, when: &str) -> Result<(), Box<dyn Error>> {
        println!("{when}");
        for (who, slot) in ENDS {
            let view = self.boxes[who].see_slot(slot)?;
            let sends = view.sends.map_or("None".to_owned(), |flow| {
                format!("{} to {}:{}", flow.codec, Ipv4Addr::from(flow.addr), flow.port)
            });
            println!("{}.{slot} {:?} sends {sends} owes {}", NAMES[who], view.state, view.owes);
        }
        Ok(())
    }
}

fn setup(kind: Kind, number: u32, codecs: &[u8], slots: &[(bool, u32)]) -> Setup {
    let slot = |(initiator, origin): &(bool, u32)| Slot {
        medium: Medium::Audio,
        initiator: *initiator,
        origin: *origin,
        address: None,
    };
    Setup {
        kind,
        number,
        receives: codecs.to_vec(),
        sends: codecs.to_vec(),
        first_version: 1,
        slots: slots.iter().map(slot).collect(),
        program: Vec::new(),
    }
}

// A phone with one slot, which has the media address 192.0.2.`host`:40000.
fn phone(number: u32, codecs: &[u8], initiator: bool, origin: u32, host: u8) -> Setup {
    let mut made = setup(Kind::Device, number, codecs, &[(initiator, origin)]);
    let address = SocketAddrV4::new(Ipv4Addr::new(192, 0, 2, host), 40000);
    made.slots[0].address = Some(Address::from(address));
    made
}

fn main() -> Result<(), Box<dyn Error>> {
    let mut desk = setup(Kind::Feature, 2, &[], &[(false, 1), (true, 2)]);
    let rule = |word, target| Rule {
        guard: Guard::Told(word),
        target,
    };
    desk.program = vec![
        State {
            goals: vec![Goal::Close, Goal::Close],
            rules: vec![rule(1, 1)],
        },
        State {
            goals: vec![Goal::Link(1), Goal::Link(0)],
            rules: vec![rule(0, 0)],
        },
    ];
    let mut call = Call {
        boxes: vec![
            MediaBox::new(&phone(0, &[8, 0], true, 0, 1))?,
            MediaBox::new(&phone(1, &[0, 8], false, 3, 2))?,
            MediaBox::new(&desk)?,
        ],
        queues: Default::default(),
    };
    let refused = call.boxes[0].take(0, &Signal::Closeack);
    println!("{}", refused.expect_err("nothing was closed"));
    call.act(1, Event::Set(0, Goal::Hold))?;
    call.act(0, Event::Set(0, Goal::Open))?;
    call.settle()?;
    call.show("the desk lets nobody through")?;
    call.act(2, Event::Tell(1))?;
    call.act(0, Event::Retry(0))?;
    call.settle()?;
    call.show("talking")?;
    // a box may go to another thread
    let mut alice = call.boxes.swap_remove(0);
    let sent = std::thread::spawn(move || alice.act(Event::Set(0, Goal::Close)));
    println!("{} sent by alice", sent.join().expect("the thread returns")?.len());
    Ok(())
}
