/* media_box.h: one box of a call, for programs in C and C++
 *
 * A box is a device, as a phone, or a feature, which stands between devices. It has slots, each of which is one end of
 * a tunnel that carries one medium, and a goal for each of them: open (there are to be media), hold (accept them),
 * close (there are to be none), or a link with another slot. The caller hands a box events and the signals that come to
 * its slots; the box says what its slots send. What it decides is proved; docs/PROTOCOL.md has the rules in words.
 *
 * To link: libmc_box_c.a, and rattle_alloc, rattle_realloc and rattle_dealloc, which call malloc, realloc and free and
 * stand in liblibc_c.a of the kit. Nothing else is wanted. The header is C11 and C++11.
 *
 * What the caller owes. It is all that the library takes on trust:
 *   - Each pointer leads to as many values as is said of it, and no other pointer of the call leads to any of them. It
 *     isn't null, even where there are no values.
 *   - A media_box is MEDIA_BOX_NONE (zeros), or as the last call left it. Nothing else writes it, and while it has a box
 *     it isn't copied, unless the copy alone is used from then on.
 *   - One call at a time uses a media_box. Any thread may make it; where another thread made the one before, a lock, a
 *     join or the like orders the two. Calls that use different boxes may run at once.
 *   - No call is made from a signal handler, or in the child of a fork that several threads had.
 *   - malloc, realloc and free belong together, and align a block to each power of two up to 16 that divides its size.
 *
 * Each number may be anything: where numbers say nothing, the answer is MEDIA_INVALID. Fields that aren't spoken of are
 * not read. All calls but media_box_version answer a code. After each code but MEDIA_OK all is as it was: the box, its
 * buffer and what a view would be put into. No call waits, reads a clock, prints or ends the program. */
#ifndef MEDIA_BOX_H
#define MEDIA_BOX_H

#include <stdbool.h>
#include <stddef.h>
#include <stdint.h>

#ifdef __cplusplus
extern "C" {
#endif

/* The version of this interface. It is another where something that is declared here has changed. */
#define MEDIA_BOX_VERSION 2

/* ---- codes */

enum {
    MEDIA_OK = 0,          /* it was done */
    MEDIA_NO_BOX = 1,      /* there is no box */
    MEDIA_HAS_BOX = 2,     /* there is a box already */
    MEDIA_MEMORY = 3,      /* malloc or realloc gave nothing: a box is made or not, and nothing else asks for memory */
    MEDIA_INVALID = 4,     /* the numbers say no setup, program, signal, event or code */
    MEDIA_NO_SLOT = 5,     /* the box has no such slot */
    MEDIA_UNLAWFUL = 6,    /* the slot can't take this signal now */
    MEDIA_DISABLED = 7,    /* the event can't happen now */
    MEDIA_VERSION_END = 8, /* the slot's descriptor has the last version, so that no newer one can come */
    MEDIA_NO_ROOM = 9      /* the buffer has too few places */
};

/* ---- sizes and limits */

enum {
    MEDIA_SLOT_LIMIT = 64,  /* slots of a box, whose numbers are 0, 1 and so on */
    MEDIA_CODEC_LIMIT = 8,  /* codecs of a list */
    MEDIA_CODEC_END = 64,   /* a codec is a number below this one */
    MEDIA_STATE_LIMIT = 64, /* states of a program */
    MEDIA_RULE_LIMIT = 16,  /* transitions of a state */
    MEDIA_TEXT_SIZE = 48,   /* bytes of the text of a code, with its end */
    MEDIA_TAKE_ROOM = 3,    /* a take sends at most so many signals, */
    MEDIA_ROOM = 128        /* and any other event at most twice as many as the box has slots */
};
#define MEDIA_NUMBER_LIMIT UINT32_C(4294967294)  /* the greatest number of a box */
#define MEDIA_LAST_VERSION UINT32_C(4294967295)  /* the last version of a descriptor */

/* ---- what numbers stand for */

enum { MEDIA_AUDIO = 0, MEDIA_VIDEO = 1 };    /* media */
enum { MEDIA_DEVICE = 0, MEDIA_FEATURE = 1 }; /* kinds of boxes */
/* states of slots, and goals */
enum { MEDIA_CLOSED = 0, MEDIA_OPENING = 1, MEDIA_OPENED = 2, MEDIA_FLOWING = 3, MEDIA_CLOSING = 4 };
enum { MEDIA_GOAL_OPEN = 0, MEDIA_GOAL_CLOSE = 1, MEDIA_GOAL_HOLD = 2, MEDIA_GOAL_LINK = 3 };

/* A list of codecs, the best first: the first `count` numbers of `at`, which are at most eight, each below 64 and none
 * twice. What the numbers stand for is the caller's. */
typedef struct media_codecs {
    uint8_t count;
    uint8_t at[MEDIA_CODEC_LIMIT];
} media_codecs;

/* ---- signals */

enum { MEDIA_OPEN = 0, MEDIA_OACK = 1, MEDIA_CLOSE = 2, MEDIA_CLOSEACK = 3, MEDIA_DESCRIBE = 4, MEDIA_SELECT = 5 };

/* A signal, by its kind:
 *   open               the medium, and a descriptor
 *   oack, describe     a descriptor
 *   select             the origin and the version of the descriptor that it answers, from which address and port media
 *                      will come, and at most one codec, which may be any number; none says that no media will come
 *   close, closeack    nothing more
 * A descriptor has its origin and version, the address and port at which media are wanted, and the codecs in which;
 * none says that no media are wanted. Addresses and ports are numbers as any other, and nothing is decided by them. In
 * what a box sends, unused fields and places are 0. */
typedef struct media_signal {
    uint8_t kind;
    uint8_t medium;
    media_codecs codecs;
    uint16_t port;
    uint32_t origin;
    uint32_t version;
    uint32_t addr;
} media_signal;

/* A signal that a slot of the box sends. Bring it to the slot at the other end of the tunnel, after all that was sent
 * over this tunnel before, and each signal once: the laws of a whole call rest on that. */
typedef struct media_sent {
    uint8_t slot;
    media_signal signal;
} media_sent;

/* ---- what a box is made of */

/* A device has the codecs that it receives and those that it sends, and the version that its descriptors begin with. Of
 * a feature the codecs aren't used, but must be lists. */
typedef struct media_setup {
    uint8_t kind; /* MEDIA_DEVICE or MEDIA_FEATURE */
    media_codecs receives;
    media_codecs sends;
    uint32_t number; /* at most MEDIA_NUMBER_LIMIT */
    uint32_t first_version;
} media_setup;

/* A slot: its medium, whether it is on its tunnel's side of the initiator (of the two ends of a tunnel just one is, and
 * both have one medium), and the origin of its descriptors, a number that no other slot of the network has.
 * A device's slot has a media address too, at which it wants media and from which it sends them: `addr` and `port`,
 * where `has_address` is 1. Where it is 0 these two aren't read, and the address is the box's number + 1, the port 5000 +
 * the slot's number. It is the slot's for as long as the box lives. A feature's slot uses none. */
typedef struct media_slot {
    uint8_t medium;
    uint8_t initiator; /* 0 or 1 */
    uint32_t origin;
    uint8_t has_address; /* 0 or 1 */
    uint16_t port;
    uint32_t addr; /* as of IPv4, with its first byte the highest: 192.0.2.1 is 0xc0000201; or any other number */
} media_slot;

/* The program of a feature is a list of states. A new box is at none, and its first Shift leads to the first state. */

/* The goal of a slot in a state. A link names another slot of the same medium, which is linked back. */
typedef struct media_goal {
    uint8_t goal;    /* MEDIA_GOAL_OPEN and so on */
    uint8_t partner; /* of a link */
} media_goal;

enum { MEDIA_SLOT_IS = 0, MEDIA_TOLD = 1 }; /* guards */

/* A transition to the state of the number `target`. It can be gone where the slot `first` is in the state `second` of
 * slots (MEDIA_SLOT_IS), or where the box was told the word `first`, which it uses up (MEDIA_TOLD). */
typedef struct media_rule {
    uint8_t guard;
    uint8_t first;
    uint8_t second;
    uint8_t target;
} media_rule;

/* A state: the goal of each slot of the box, by its number, and the first `count` of `rules`, of which the first that
 * can be gone is gone. */
typedef struct media_state {
    uint8_t count;
    media_goal goals[MEDIA_SLOT_LIMIT];
    media_rule rules[MEDIA_RULE_LIMIT];
} media_state;

/* ---- events */

enum {
    MEDIA_SET_GOAL = 0, /* the slot `first` gets the goal `second`: MEDIA_GOAL_OPEN, _CLOSE or _HOLD */
    MEDIA_SET_LINK = 1, /* the slots `first` and `second` of a feature, which have one medium, are linked */
    MEDIA_HEAR = 2,     /* the slot `first` of a device hears from now on, or not: `second` is 1 or 0 */
    MEDIA_TALK = 3,     /* it talks, or not */
    MEDIA_TELL = 4,     /* the program is told the word `first`, over one that it hasn't used */
    MEDIA_RETRY = 5,    /* the slot `first`, which owes a retry, asks again for media that it was refused */
    MEDIA_SHIFT = 6     /* the program goes to its next state */
};

/* An event that takes no signal. Signals are taken by media_box_take. */
typedef struct media_event {
    uint8_t kind;
    uint8_t first;
    uint8_t second;
} media_event;

/* ---- what there is to see */

/* Media in one direction. Where `flows` is 0 they don't flow, and the rest is 0. */
typedef struct media_flow {
    uint8_t flows;
    uint8_t codec;
    uint16_t port;
    uint32_t addr;
} media_flow;

/* A slot. While it owes a retry its goal is open and it is closed: MEDIA_RETRY can happen. When that should come is the
 * caller's, as some seconds later. */
typedef struct media_slot_view {
    uint8_t state;   /* MEDIA_CLOSED and so on */
    uint8_t medium;
    uint8_t goal;    /* MEDIA_GOAL_OPEN and so on */
    uint8_t partner; /* of a link */
    uint8_t owes;    /* 1 where it owes a retry */
    media_flow sends; /* to this address and port */
    media_flow hears; /* from this address and port */
} media_slot_view;

/* A box. `state` and `word` are 0 where there is none. */
typedef struct media_box_view {
    uint8_t kind;
    uint8_t slots;       /* how many */
    uint8_t has_program; /* 1 or 0, as the next two and `shifts` */
    uint8_t has_state;   /* the program is at a state, of the number `state` */
    uint8_t was_told;    /* it keeps a told word, of the number `word` */
    uint8_t word;
    uint8_t shifts; /* MEDIA_SHIFT can happen */
    uint32_t state;
    uint32_t number;
} media_box_view;

/* A text that ends with a zero byte. */
typedef struct media_text {
    char at[MEDIA_TEXT_SIZE];
} media_text;

/* A box, or none. It owns the box and its memory until media_box_end. Its fields are the library's. */
typedef struct media_box {
    bool made;
    void *at;
} media_box;

#define MEDIA_BOX_NONE {false, NULL}

/* ---- calls */

/* MEDIA_BOX_VERSION of the library that is linked. Where it isn't that of the header, make no other call. */
uint32_t media_box_version(void);

/* What a code says comes into `*out`. MEDIA_OK, or MEDIA_INVALID where the number is no code. */
uint32_t media_box_text(uint32_t code, media_text *out);

/* Makes a box of `count` slots, at most MEDIA_SLOT_LIMIT. Its slots are closed, its goals are close, and it hears and
 * talks on each slot. `setup` and `slots` are the caller's again after the call.
 * MEDIA_OK, MEDIA_HAS_BOX, MEDIA_MEMORY or MEDIA_INVALID. */
uint32_t media_box_make(media_box *box, const media_setup *setup, const media_slot *slots, size_t count);

/* The same, with the program of `state_count` states, at most MEDIA_STATE_LIMIT. Only a feature may have one; with no
 * states there is none. The codes are those of media_box_make. */
uint32_t media_box_make_programmed(media_box *box, const media_setup *setup, const media_slot *slots, size_t count,
                                   const media_state *states, size_t state_count);

/* Ends the box, and frees its memory. `*box` has none then, and may be made anew. MEDIA_OK or MEDIA_NO_BOX. */
uint32_t media_box_end(media_box *box);

/* A slot takes a signal that came over its tunnel, and its goal has its turn. What is sent comes into the first
 * `*count` of the `room` places of `out`; the others stay. There must be MEDIA_TAKE_ROOM, however few are used. After
 * each code but MEDIA_OK `*count` is 0. It asks for no memory: all that it may use was asked for when the box was made.
 * MEDIA_OK, MEDIA_NO_BOX, MEDIA_INVALID, MEDIA_NO_SLOT, MEDIA_UNLAWFUL or MEDIA_NO_ROOM. */
uint32_t media_box_take(media_box *box, uint8_t slot, const media_signal *signal, media_sent *out, size_t room,
                        size_t *count);

/* An event happens. `out`, `room` and `count` are as in media_box_take, but there must be twice as many places as the
 * box has slots: MEDIA_ROOM are always enough. An event that names no slot of the box is disabled. It asks for no
 * memory.
 * MEDIA_OK, MEDIA_NO_BOX, MEDIA_INVALID, MEDIA_DISABLED, MEDIA_VERSION_END (of MEDIA_HEAR) or MEDIA_NO_ROOM. */
uint32_t media_box_act(media_box *box, const media_event *event, media_sent *out, size_t room, size_t *count);

/* What there is to see of the box comes into `*out`. MEDIA_OK or MEDIA_NO_BOX. */
uint32_t media_box_see(media_box *box, media_box_view *out);

/* What there is to see of a slot comes into `*out`. MEDIA_OK, MEDIA_NO_BOX or MEDIA_NO_SLOT. */
uint32_t media_box_see_slot(media_box *box, uint8_t slot, media_slot_view *out);

#ifdef __cplusplus
}
#endif

#endif
