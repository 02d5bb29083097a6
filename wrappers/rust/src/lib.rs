//! One box of a call: its slots, their goals, and what each event does. What a box decides is proved, in the library that
//! this crate links; the crate itself is a thin wrapper, which is outside the proof.
//!
//! `MediaBox::take` and `MediaBox::act` answer what the box sends. Bring each signal to the slot at the other end of its
//! tunnel, in the order of sending, and each once. After an error the box is as it was.

mod raw;

use std::error::Error as StdError;
use std::fmt;
use std::net::SocketAddrV4;

/// Why a call did nothing.
#[derive(Clone, Copy, PartialEq, Eq, Debug)]
pub enum Error {
    /// There was no memory.
    Memory,
    /// The values say no setup, program, signal or event.
    Invalid,
    /// The box has no such slot.
    NoSlot,
    /// The slot can't take this signal now.
    Unlawful,
    /// The event can't happen now.
    Disabled,
    /// The slot's descriptor has the last version.
    VersionEnd,
    /// The library answered a code that this crate doesn't know.
    Other(u32),
}

impl Error {
    fn code(self) -> u32 {
        match self {
            Error::Memory => 3,
            Error::Invalid => 4,
            Error::NoSlot => 5,
            Error::Unlawful => 6,
            Error::Disabled => 7,
            Error::VersionEnd => 8,
            Error::Other(code) => code,
        }
    }
}

impl fmt::Display for Error {
    fn fmt(&self, f: &mut fmt::Formatter<'_>) -> fmt::Result {
        let mut text = raw::Text { at: [0; 48] };
        // SAFETY: `text` is one value that nothing else leads to.
        let known = unsafe { raw::media_box_text(self.code(), &mut text) } == 0;
        let end = text.at.iter().position(|byte| *byte == 0).unwrap_or(0);
        if known {
            f.write_str(&String::from_utf8_lossy(&text.at[..end]))
        } else {
            write!(f, "the code {}", self.code())
        }
    }
}

impl StdError for Error {}

fn checked(code: u32) -> Result<(), Error> {
    Err(match code {
        0 => return Ok(()),
        3 => Error::Memory,
        4 => Error::Invalid,
        5 => Error::NoSlot,
        6 => Error::Unlawful,
        7 => Error::Disabled,
        8 => Error::VersionEnd,
        other => Error::Other(other),
    })
}

#[derive(Clone, Copy, PartialEq, Eq, Debug)]
pub enum Medium {
    Audio,
    Video,
}

#[derive(Clone, Copy, PartialEq, Eq, Debug)]
pub enum Kind {
    Device,
    Feature,
}

/// A state of a slot.
#[derive(Clone, Copy, PartialEq, Eq, Debug)]
pub enum SlotState {
    Closed,
    Opening,
    Opened,
    Flowing,
    Closing,
}

/// What a box wants of a slot.
#[derive(Clone, Copy, PartialEq, Eq, Debug)]
pub enum Goal {
    Open,
    Close,
    Hold,
    /// A link with this slot.
    Link(u8),
}

/// Which media are wanted, and where. At most eight codecs, each below 64 and none twice, the best first.
#[derive(Clone, PartialEq, Eq, Debug)]
pub struct Descriptor {
    pub origin: u32,
    pub version: u32,
    pub addr: u32,
    pub port: u16,
    pub codecs: Vec<u8>,
}

/// The answer to the descriptor of this origin and version: from where media come, and in which codec, if they do.
#[derive(Clone, Copy, PartialEq, Eq, Debug)]
pub struct Selector {
    pub origin: u32,
    pub version: u32,
    pub addr: u32,
    pub port: u16,
    pub codec: Option<u8>,
}

#[derive(Clone, PartialEq, Eq, Debug)]
pub enum Signal {
    Open(Medium, Descriptor),
    Oack(Descriptor),
    Close,
    Closeack,
    Describe(Descriptor),
    Select(Selector),
}

/// A signal that a slot of the box sends.
#[derive(Clone, PartialEq, Eq, Debug)]
pub struct Sent {
    pub slot: u8,
    pub signal: Signal,
}

/// A box that is to be made. Only a feature may have states of a program.
#[derive(Clone, Debug)]
pub struct Setup {
    pub kind: Kind,
    pub number: u32,
    pub receives: Vec<u8>,
    pub sends: Vec<u8>,
    pub first_version: u32,
    pub slots: Vec<Slot>,
    pub program: Vec<State>,
}

/// A slot of it. Of the two ends of a tunnel just one is the initiator. The origin is the slot's number among all.
#[derive(Clone, Copy, PartialEq, Eq, Debug)]
pub struct Slot {
    pub medium: Medium,
    pub initiator: bool,
    pub origin: u32,
    /// Where the slot of a device wants media, and from where it sends them. Without one, that is made of the numbers of
    /// the box and the slot, as `media_box.h` says.
    pub address: Option<Address>,
}

/// A media address: of IPv4, or any other number.
#[derive(Clone, Copy, PartialEq, Eq, Debug)]
pub struct Address {
    pub addr: u32,
    pub port: u16,
}

impl From<SocketAddrV4> for Address {
    fn from(address: SocketAddrV4) -> Address {
        Address {
            addr: u32::from(*address.ip()),
            port: address.port(),
        }
    }
}

/// A state of a program: a goal for each slot, and transitions in their order.
#[derive(Clone, Debug)]
pub struct State {
    pub goals: Vec<Goal>,
    pub rules: Vec<Rule>,
}

/// A transition to the state of this number.
#[derive(Clone, Copy, PartialEq, Eq, Debug)]
pub struct Rule {
    pub guard: Guard,
    pub target: u8,
}

#[derive(Clone, Copy, PartialEq, Eq, Debug)]
pub enum Guard {
    /// The slot is in this state.
    SlotIs(u8, SlotState),
    /// The box was told this word, and hasn't used it.
    Told(u8),
}

/// An event that takes no signal.
#[derive(Clone, Copy, PartialEq, Eq, Debug)]
pub enum Event {
    /// The slot gets the goal; a link is of two slots of a feature.
    Set(u8, Goal),
    Hear(u8, bool),
    Talk(u8, bool),
    Tell(u8),
    /// The slot, which owes a retry, asks again.
    Retry(u8),
    /// The program goes to its next state.
    Shift,
}

/// Media in one direction.
#[derive(Clone, Copy, PartialEq, Eq, Debug)]
pub struct Flow {
    pub codec: u8,
    pub addr: u32,
    pub port: u16,
}

/// What there is to see of a slot.
#[derive(Clone, PartialEq, Eq, Debug)]
pub struct SlotView {
    pub state: SlotState,
    pub medium: Medium,
    pub goal: Goal,
    pub owes: bool,
    pub sends: Option<Flow>,
    pub hears: Option<Flow>,
}

/// What there is to see of a box.
#[derive(Clone, PartialEq, Eq, Debug)]
pub struct BoxView {
    pub kind: Kind,
    pub number: u32,
    pub slots: u8,
    pub has_program: bool,
    pub state: Option<u32>,
    pub told: Option<u8>,
    pub shifts: bool,
}

/// A box. It is ended when it is dropped.
pub struct MediaBox {
    raw: raw::MediaBox,
}

// SAFETY: the library proves that a box may go to another thread. All calls take it by `&mut`, so one uses it at a time.
unsafe impl Send for MediaBox {}

impl MediaBox {
    /// Makes a box.
    pub fn new(setup: &Setup) -> Result<MediaBox, Error> {
        // SAFETY: it takes nothing.
        let version = unsafe { raw::media_box_version() };
        if version != raw::VERSION {
            return Err(Error::Other(u32::MAX));
        }
        let (slots, states) = (raw_slots(setup), raw_states(setup)?);
        let plain = raw::Setup {
            kind: setup.kind as u8,
            receives: raw_codecs(&setup.receives)?,
            sends: raw_codecs(&setup.sends)?,
            number: setup.number,
            first_version: setup.first_version,
        };
        let mut made = MediaBox {
            raw: raw::MediaBox {
                made: false,
                at: std::ptr::null_mut(),
            },
        };
        // SAFETY: each pointer leads to as many values as is said, also where there are none, and to nothing else.
        checked(unsafe {
            raw::media_box_make_programmed(
                &mut made.raw,
                &plain,
                slots.as_ptr(),
                slots.len(),
                states.as_ptr(),
                states.len(),
            )
        })?;
        Ok(made)
    }

    /// A slot takes a signal.
    pub fn take(&mut self, slot: u8, signal: &Signal) -> Result<Vec<Sent>, Error> {
        let plain = raw_signal(signal)?;
        let mut out = [raw::Sent::default(); raw::TAKE_ROOM];
        let mut count = 0;
        // SAFETY: as in `new`.
        checked(unsafe {
            raw::media_box_take(&mut self.raw, slot, &plain, out.as_mut_ptr(), out.len(), &mut count)
        })?;
        Ok(out[..count].iter().map(sent).collect())
    }

    /// An event happens.
    pub fn act(&mut self, event: Event) -> Result<Vec<Sent>, Error> {
        let plain = raw_event(event);
        let mut out = [raw::Sent::default(); raw::ROOM];
        let mut count = 0;
        // SAFETY: as in `new`.
        checked(unsafe {
            raw::media_box_act(&mut self.raw, &plain, out.as_mut_ptr(), out.len(), &mut count)
        })?;
        Ok(out[..count].iter().map(sent).collect())
    }

    /// What there is to see of the box.
    pub fn see(&mut self) -> Result<BoxView, Error> {
        let mut view = raw::BoxView::default();
        // SAFETY: as in `new`.
        checked(unsafe { raw::media_box_see(&mut self.raw, &mut view) })?;
        Ok(BoxView {
            kind: if view.kind == 0 { Kind::Device } else { Kind::Feature },
            number: view.number,
            slots: view.slots,
            has_program: view.has_program == 1,
            state: (view.has_state == 1).then_some(view.state),
            told: (view.was_told == 1).then_some(view.word),
            shifts: view.shifts == 1,
        })
    }

    /// What there is to see of a slot.
    pub fn see_slot(&mut self, slot: u8) -> Result<SlotView, Error> {
        let mut view = raw::SlotView::default();
        // SAFETY: as in `new`.
        checked(unsafe { raw::media_box_see_slot(&mut self.raw, slot, &mut view) })?;
        Ok(SlotView {
            state: match view.state {
                0 => SlotState::Closed,
                1 => SlotState::Opening,
                2 => SlotState::Opened,
                3 => SlotState::Flowing,
                _ => SlotState::Closing,
            },
            medium: medium(view.medium),
            goal: match view.goal {
                0 => Goal::Open,
                1 => Goal::Close,
                2 => Goal::Hold,
                _ => Goal::Link(view.partner),
            },
            owes: view.owes == 1,
            sends: flow(&view.sends),
            hears: flow(&view.hears),
        })
    }
}

impl Drop for MediaBox {
    fn drop(&mut self) {
        // SAFETY: the handle is as the last call left it.
        unsafe { raw::media_box_end(&mut self.raw) };
    }
}

fn raw_codecs(codecs: &[u8]) -> Result<raw::Codecs, Error> {
    let mut list = raw::Codecs::default();
    let places = list.at.get_mut(..codecs.len()).ok_or(Error::Invalid)?;
    places.copy_from_slice(codecs);
    list.count = codecs.len() as u8;
    Ok(list)
}

fn raw_slots(setup: &Setup) -> Vec<raw::Slot> {
    let plain = |slot: &Slot| raw::Slot {
        medium: slot.medium as u8,
        initiator: slot.initiator as u8,
        origin: slot.origin,
        has_address: slot.address.is_some() as u8,
        port: slot.address.map_or(0, |address| address.port),
        addr: slot.address.map_or(0, |address| address.addr),
    };
    setup.slots.iter().map(plain).collect()
}

fn raw_goal(goal: Goal) -> raw::Goal {
    let (goal, partner) = match goal {
        Goal::Open => (0, 0),
        Goal::Close => (1, 0),
        Goal::Hold => (2, 0),
        Goal::Link(partner) => (3, partner),
    };
    raw::Goal { goal, partner }
}

fn raw_rule(rule: &Rule) -> raw::Rule {
    let (guard, first, second) = match rule.guard {
        Guard::SlotIs(slot, state) => (0, slot, state as u8),
        Guard::Told(word) => (1, word, 0),
    };
    raw::Rule {
        guard,
        first,
        second,
        target: rule.target,
    }
}

// A state has a goal for each slot, and no more of either than a box may have.
fn raw_state(state: &State, slots: usize) -> Result<raw::State, Error> {
    if state.goals.len() != slots || slots > 64 || state.rules.len() > 16 {
        return Err(Error::Invalid);
    }
    let mut plain = raw::State {
        count: state.rules.len() as u8,
        goals: [raw::Goal::default(); 64],
        rules: [raw::Rule::default(); 16],
    };
    for (place, goal) in plain.goals.iter_mut().zip(&state.goals) {
        *place = raw_goal(*goal);
    }
    for (place, rule) in plain.rules.iter_mut().zip(&state.rules) {
        *place = raw_rule(rule);
    }
    Ok(plain)
}

fn raw_states(setup: &Setup) -> Result<Vec<raw::State>, Error> {
    let slots = setup.slots.len();
    setup.program.iter().map(|state| raw_state(state, slots)).collect()
}

fn raw_descriptor(kind: u8, medium: u8, d: &Descriptor) -> Result<raw::Signal, Error> {
    Ok(raw::Signal {
        kind,
        medium,
        codecs: raw_codecs(&d.codecs)?,
        port: d.port,
        origin: d.origin,
        version: d.version,
        addr: d.addr,
    })
}

fn raw_signal(signal: &Signal) -> Result<raw::Signal, Error> {
    let bare = |kind| raw::Signal {
        kind,
        ..Default::default()
    };
    match signal {
        Signal::Open(medium, d) => raw_descriptor(0, *medium as u8, d),
        Signal::Oack(d) => raw_descriptor(1, 0, d),
        Signal::Close => Ok(bare(2)),
        Signal::Closeack => Ok(bare(3)),
        Signal::Describe(d) => raw_descriptor(4, 0, d),
        Signal::Select(s) => Ok(raw::Signal {
            kind: 5,
            medium: 0,
            codecs: raw_codecs(s.codec.as_slice())?,
            port: s.port,
            origin: s.origin,
            version: s.version,
            addr: s.addr,
        }),
    }
}

fn raw_event(event: Event) -> raw::Event {
    let (kind, first, second) = match event {
        Event::Set(slot, Goal::Link(partner)) => (1, slot, partner),
        Event::Set(slot, goal) => (0, slot, raw_goal(goal).goal),
        Event::Hear(slot, on) => (2, slot, on as u8),
        Event::Talk(slot, on) => (3, slot, on as u8),
        Event::Tell(word) => (4, word, 0),
        Event::Retry(slot) => (5, slot, 0),
        Event::Shift => (6, 0, 0),
    };
    raw::Event {
        kind,
        first,
        second,
    }
}

fn medium(number: u8) -> Medium {
    if number == 0 {
        Medium::Audio
    } else {
        Medium::Video
    }
}

fn flow(plain: &raw::Flow) -> Option<Flow> {
    (plain.flows == 1).then_some(Flow {
        codec: plain.codec,
        addr: plain.addr,
        port: plain.port,
    })
}

fn codecs(list: &raw::Codecs) -> Vec<u8> {
    list.at[..usize::from(list.count.min(8))].to_vec()
}

fn descriptor(plain: &raw::Signal) -> Descriptor {
    Descriptor {
        origin: plain.origin,
        version: plain.version,
        addr: plain.addr,
        port: plain.port,
        codecs: codecs(&plain.codecs),
    }
}

fn sent(plain: &raw::Sent) -> Sent {
    let signal = &plain.signal;
    Sent {
        slot: plain.slot,
        signal: match signal.kind {
            0 => Signal::Open(medium(signal.medium), descriptor(signal)),
            1 => Signal::Oack(descriptor(signal)),
            2 => Signal::Close,
            3 => Signal::Closeack,
            4 => Signal::Describe(descriptor(signal)),
            _ => Signal::Select(Selector {
                origin: signal.origin,
                version: signal.version,
                addr: signal.addr,
                port: signal.port,
                codec: codecs(&signal.codecs).first().copied(),
            }),
        },
    }
}
