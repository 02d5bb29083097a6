"""One box of a call: its slots, their goals, and what each event does.

What a box decides is proved, in the library that this module loads; the module itself is a thin wrapper, which is outside
the proof. It wants a shared object, whose path is in the environment as MEDIA_BOX_SO, or which the system finds as
libmedia_box.so. The static library makes one:

    cc -shared -o libmedia_box.so -Wl,--whole-archive libmedia_box.a -Wl,--no-whole-archive

Box.take and Box.act return what the box sends. Bring each signal to the slot at the other end of its tunnel, in the order
of sending, and each once. Where a call raises Refused the box is as it was. One thread at a time uses a box.
"""

import ctypes
import os
from ctypes import POINTER, Structure, byref, c_bool, c_char, c_size_t, c_uint8, c_uint16, c_uint32, c_void_p
from ipaddress import IPv4Address

VERSION = 2
OK = 0
AUDIO, VIDEO = range(2)
DEVICE, FEATURE = range(2)
CLOSED, OPENING, OPENED, FLOWING, CLOSING = range(5)
GOAL_OPEN, GOAL_CLOSE, GOAL_HOLD, GOAL_LINK = range(4)
OPEN, OACK, CLOSE, CLOSEACK, DESCRIBE, SELECT = range(6)
SET_GOAL, SET_LINK, HEAR, TALK, TELL, RETRY, SHIFT = range(7)
SLOT_IS, TOLD = range(2)
_ROOM = 128


class Codecs(Structure):
    _fields_ = [("count", c_uint8), ("at", c_uint8 * 8)]

    @classmethod
    def of(cls, codecs):
        """The list of these codecs: at most eight, each below 64 and none twice."""
        if len(codecs) > 8:
            raise ValueError("a list has at most eight codecs")
        return cls(len(codecs), (c_uint8 * 8)(*codecs))

    def __iter__(self):
        return iter(self.at[: min(self.count, 8)])


class Signal(Structure):
    """A signal, by its kind. media_box.h says which fields each kind has."""

    _fields_ = [("kind", c_uint8), ("medium", c_uint8), ("codecs", Codecs), ("port", c_uint16)]
    _fields_ += [("origin", c_uint32), ("version", c_uint32), ("addr", c_uint32)]


class Sent(Structure):
    _fields_ = [("slot", c_uint8), ("signal", Signal)]


class _Setup(Structure):
    _fields_ = [("kind", c_uint8), ("receives", Codecs), ("sends", Codecs), ("number", c_uint32)]
    _fields_ += [("first_version", c_uint32)]


class Slot(Structure):
    """A slot of a box that is to be made. media_box.h says what its fields are."""

    _fields_ = [("medium", c_uint8), ("initiator", c_uint8), ("origin", c_uint32)]
    _fields_ += [("has_address", c_uint8), ("port", c_uint16), ("addr", c_uint32)]

    @classmethod
    def at(cls, medium, initiator, origin, addr, port):
        """The slot of a device that has this media address: a text such as "192.0.2.1", or any number, and a port."""
        number = int(IPv4Address(addr)) if isinstance(addr, str) else addr
        if not (0 <= number < 2**32 and 0 <= port < 2**16):
            raise ValueError("an address has 32 bits, and a port 16")
        return cls(medium, initiator, origin, 1, port, number)


class Goal(Structure):
    _fields_ = [("goal", c_uint8), ("partner", c_uint8)]


class Rule(Structure):
    _fields_ = [("guard", c_uint8), ("first", c_uint8), ("second", c_uint8), ("target", c_uint8)]


class State(Structure):
    """A state of a program."""

    _fields_ = [("count", c_uint8), ("goals", Goal * 64), ("rules", Rule * 16)]

    @classmethod
    def of(cls, goals, rules):
        """The state with these goals, one for each slot, and these transitions."""
        if len(goals) > 64 or len(rules) > 16:
            raise ValueError("a state has at most 64 goals and 16 transitions")
        return cls(len(rules), (Goal * 64)(*goals), (Rule * 16)(*rules))


class _Event(Structure):
    _fields_ = [("kind", c_uint8), ("first", c_uint8), ("second", c_uint8)]


class Flow(Structure):
    _fields_ = [("flows", c_uint8), ("codec", c_uint8), ("port", c_uint16), ("addr", c_uint32)]


class SlotView(Structure):
    _fields_ = [("state", c_uint8), ("medium", c_uint8), ("goal", c_uint8), ("partner", c_uint8), ("owes", c_uint8)]
    _fields_ += [("sends", Flow), ("hears", Flow)]


class BoxView(Structure):
    _fields_ = [("kind", c_uint8), ("slots", c_uint8), ("has_program", c_uint8), ("has_state", c_uint8)]
    _fields_ += [("was_told", c_uint8), ("word", c_uint8), ("shifts", c_uint8), ("state", c_uint32)]
    _fields_ += [("number", c_uint32)]


class _Text(Structure):
    _fields_ = [("at", c_char * 48)]


class _Handle(Structure):
    _fields_ = [("made", c_bool), ("at", c_void_p)]


def _load():
    library = ctypes.CDLL(os.environ.get("MEDIA_BOX_SO", "libmedia_box.so"))
    box, count = POINTER(_Handle), POINTER(c_size_t)
    out = [POINTER(Sent), c_size_t, count]
    for name, words in {
        "version": [],
        "text": [c_uint32, POINTER(_Text)],
        "make_programmed": [box, POINTER(_Setup), POINTER(Slot), c_size_t, POINTER(State), c_size_t],
        "end": [box],
        "take": [box, c_uint8, POINTER(Signal), *out],
        "act": [box, POINTER(_Event), *out],
        "see": [box, POINTER(BoxView)],
        "see_slot": [box, c_uint8, POINTER(SlotView)],
    }.items():
        call = getattr(library, "media_box_" + name)
        call.argtypes, call.restype = words, c_uint32
    if library.media_box_version() != VERSION:
        raise ImportError("libmedia_box has another version of its interface")
    return library


_library = _load()


class Refused(Exception):
    """A call did nothing. `code` says why, as media_box.h has it."""

    def __init__(self, code):
        text = _Text()
        known = _library.media_box_text(code, byref(text)) == OK
        super().__init__(text.at.decode() if known else f"the code {code}")
        self.code = code


def _check(code):
    if code != OK:
        raise Refused(code)


class Box:
    """A box. `close`, or the end of a `with`, ends it."""

    def __init__(self, kind, number, slots, codecs=(), sends=None, first_version=1, program=()):
        sends = codecs if sends is None else sends
        setup = _Setup(kind, Codecs.of(codecs), Codecs.of(sends), number, first_version)
        count, states = len(slots), len(program)
        self._handle = _Handle()
        # an array of at least one place, so that its pointer isn't null
        places, programmed = (Slot * max(count, 1))(*slots), (State * max(states, 1))(*program)
        _check(_library.media_box_make_programmed(self._handle, setup, places, count, programmed, states))

    def _sent(self, call, *words):
        out, count = (Sent * _ROOM)(), c_size_t()
        _check(call(self._handle, *words, out, _ROOM, byref(count)))
        return [(sent.slot, Signal.from_buffer_copy(sent.signal)) for sent in out[: count.value]]

    def take(self, slot, signal):
        """The slot takes a signal. Returns what is sent: pairs of a slot's number and a signal."""
        return self._sent(_library.media_box_take, slot, signal)

    def act(self, kind, first=0, second=0):
        """An event happens. Returns what is sent."""
        return self._sent(_library.media_box_act, _Event(kind, first, second))

    def see(self):
        """What there is to see of the box."""
        view = BoxView()
        _check(_library.media_box_see(self._handle, view))
        return view

    def see_slot(self, slot):
        """What there is to see of a slot."""
        view = SlotView()
        _check(_library.media_box_see_slot(self._handle, slot, view))
        return view

    def close(self):
        """Ends the box. Once it is ended nothing happens."""
        _library.media_box_end(self._handle)

    def __enter__(self):
        return self

    def __exit__(self, *_):
        self.close()

    def __del__(self):
        if hasattr(self, "_handle"):
            self.close()
