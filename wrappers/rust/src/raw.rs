//! What `media_box.h` declares.

use std::ffi::c_void;

pub const VERSION: u32 = 2;
pub const TAKE_ROOM: usize = 3;
pub const ROOM: usize = 128;

#[repr(C)]
#[derive(Clone, Copy, Default)]
pub struct Codecs {
    pub count: u8,
    pub at: [u8; 8],
}

#[repr(C)]
#[derive(Clone, Copy, Default)]
pub struct Signal {
    pub kind: u8,
    pub medium: u8,
    pub codecs: Codecs,
    pub port: u16,
    pub origin: u32,
    pub version: u32,
    pub addr: u32,
}

#[repr(C)]
#[derive(Clone, Copy, Default)]
pub struct Sent {
    pub slot: u8,
    pub signal: Signal,
}

#[repr(C)]
pub struct Setup {
    pub kind: u8,
    pub receives: Codecs,
    pub sends: Codecs,
    pub number: u32,
    pub first_version: u32,
}

#[repr(C)]
pub struct Slot {
    pub medium: u8,
    pub initiator: u8,
    pub origin: u32,
    pub has_address: u8,
    pub port: u16,
    pub addr: u32,
}

#[repr(C)]
#[derive(Clone, Copy, Default)]
pub struct Goal {
    pub goal: u8,
    pub partner: u8,
}

#[repr(C)]
#[derive(Clone, Copy, Default)]
pub struct Rule {
    pub guard: u8,
    pub first: u8,
    pub second: u8,
    pub target: u8,
}

#[repr(C)]
pub struct State {
    pub count: u8,
    pub goals: [Goal; 64],
    pub rules: [Rule; 16],
}

#[repr(C)]
pub struct Event {
    pub kind: u8,
    pub first: u8,
    pub second: u8,
}

#[repr(C)]
#[derive(Clone, Copy, Default)]
pub struct Flow {
    pub flows: u8,
    pub codec: u8,
    pub port: u16,
    pub addr: u32,
}

#[repr(C)]
#[derive(Default)]
pub struct SlotView {
    pub state: u8,
    pub medium: u8,
    pub goal: u8,
    pub partner: u8,
    pub owes: u8,
    pub sends: Flow,
    pub hears: Flow,
}

#[repr(C)]
#[derive(Default)]
pub struct BoxView {
    pub kind: u8,
    pub slots: u8,
    pub has_program: u8,
    pub has_state: u8,
    pub was_told: u8,
    pub word: u8,
    pub shifts: u8,
    pub state: u32,
    pub number: u32,
}

#[repr(C)]
pub struct Text {
    pub at: [u8; 48],
}

#[repr(C)]
pub struct MediaBox {
    pub made: bool,
    pub at: *mut c_void,
}

extern "C" {
    pub fn media_box_version() -> u32;
    pub fn media_box_text(code: u32, out: *mut Text) -> u32;
    pub fn media_box_make_programmed(
        part: *mut MediaBox,
        setup: *const Setup,
        slots: *const Slot,
        count: usize,
        states: *const State,
        state_count: usize,
    ) -> u32;
    pub fn media_box_end(part: *mut MediaBox) -> u32;
    pub fn media_box_take(
        part: *mut MediaBox,
        slot: u8,
        signal: *const Signal,
        out: *mut Sent,
        room: usize,
        count: *mut usize,
    ) -> u32;
    pub fn media_box_act(
        part: *mut MediaBox,
        event: *const Event,
        out: *mut Sent,
        room: usize,
        count: *mut usize,
    ) -> u32;
    pub fn media_box_see(part: *mut MediaBox, out: *mut BoxView) -> u32;
    pub fn media_box_see_slot(part: *mut MediaBox, slot: u8, out: *mut SlotView) -> u32;
}
