/* media_shard.h: boxes that are owned, journalled and begun again as one, for programs in C and C++
 *
 * A shard has boxes, as media_box.h has them, and one journal. Its boxes' slots stand at channel ends: a channel leads
 * from an end of one shard to an end of another or of the same one, and carries the signals of its tunnels in order. A
 * turn is one event of one box. It makes one entry, which says what the turn took and what it sent. The caller writes
 * entries where they last, one at a time, and carries what stands in them to the far ends. It may carry a signal more
 * than once, and out of order: each is taken once, and in its order.
 *
 * One turn after another:
 *   media_shard_request or media_shard_arrive   makes a turn, whose entry waits from then on
 *   media_shard_write                           gives the bytes of the entry that waits
 *   (the caller writes them into its journal, at the place that it expects)
 *   media_shard_stands                          the entry stands: what it sent may be carried, and be seen
 * Where the writing failed, or nothing is known of it, end the shard, make it again, and replay its journal.
 *
 * A shard that is made again as it was made first, and into which each entry of its journal was replayed in order, is
 * as it was. What was sent at an end is what the entries of the journal say, so all that wasn't carried can be read there.
 *
 * A snapshot is a shard as bytes, in the place of all of its journal up to then: one that is loaded from it, and into
 * which each later entry was replayed, is as it was. Once it is kept where it lasts, entries that it has may be cut off
 * the front of the journal, up to the first of which media_entry_may_be_cut says that it may not: a neighbour may have to
 * be sent again what that sent.
 *
 * To link: libmc_shard_c.a, and what media_box.h says of malloc. Of media_box.h it has the types and numbers alone, and
 * none of its calls.
 *
 * What the caller owes is what media_box.h says, of a media_shard as of a media_box. Each number may be anything. All
 * calls but media_shard_version answer a code. After each code but MEDIA_OK all is as it was, but that a count, a size,
 * a `made` or a `may` is 0 then, and but for media_shard_replay and media_shard_save, which say so. No call waits, reads
 * a clock, prints or ends the program. */
#ifndef MEDIA_SHARD_H
#define MEDIA_SHARD_H

#include "media_box.h"

#ifdef __cplusplus
extern "C" {
#endif

/* The version of this interface. It is another where something that is declared here has changed. */
#define MEDIA_SHARD_VERSION 2

/* ---- codes, beside those of media_box.h: there MEDIA_NO_BOX says that the shard has no box of the number */

enum {
    MEDIA_NO_SHARD = 10,   /* there is no shard */
    MEDIA_HAS_SHARD = 11,  /* there is a shard already */
    MEDIA_WAITS = 12,      /* an entry waits, and has to stand first */
    MEDIA_NONE_WAITS = 13, /* no entry waits */
    MEDIA_NO_ASKER = 14,   /* the shard has no asker of the number */
    MEDIA_NO_END = 15,     /* the shard has no channel end of the number */
    MEDIA_NO_TUNNEL = 16,  /* no slot is at this tunnel of the channel end */
    MEDIA_AHEAD = 17,      /* it isn't the next of its asker or of its lane, but a later one */
    MEDIA_DIGEST = 18,     /* it is the next of its lane by its number, and not by its digest: its sender lost a part of
                              its journal */
    MEDIA_STAMP = 19,      /* there is no stamp above those that the turn's has to be above */
    MEDIA_NO_ENTRY = 20,   /* the bytes don't begin with an entry */
    MEDIA_DIFFERS = 21,    /* the entry isn't the one that the boxes make */
    MEDIA_NO_SNAPSHOT = 22 /* the bytes aren't the snapshot of a shard */
};

/* ---- sizes */

enum {
    MEDIA_SENT_ROOM = 128,  /* signals that one turn sends at most */
    MEDIA_ENTRY_ROOM = 6998 /* bytes of an entry at most */
};

/* ---- what a shard is made of */

/* A box: its setup, how many of the slots are its own, and how many of the states. */
typedef struct media_shard_box {
    media_setup setup;
    uint32_t slot_count;
    uint32_t state_count;
} media_shard_box;

/* A slot, the channel end at which it is, by its number in the shard, and its tunnel there. */
typedef struct media_shard_slot {
    media_slot slot;
    uint32_t end;
    uint8_t tunnel;
} media_shard_slot;

/* ---- requests and signals at ends */

/* Who asks, and which of its requests it is. An asker is a number below the shard's count of askers, and numbers its
 * requests from 1 on. Where `has_asker` is 0, it is no asker's, and the others aren't read. */
typedef struct media_asked {
    uint8_t has_asker; /* 0 or 1 */
    uint32_t asker;
    uint64_t number;
} media_asked;

/* A signal at a channel end: how many were sent there up to it, itself counted; the stamp of the turn that sent it; a
 * digest of all of them; and its tunnel. What is sent at one end arrives at the far one with its number there for
 * `end`, and all else as it is. */
typedef struct media_at_end {
    uint64_t number;
    uint64_t stamp;
    uint64_t digest;
    uint32_t end;
    uint8_t tunnel;
    media_signal signal;
} media_at_end;

/* ---- entries */

enum { MEDIA_TAKE = 7 }; /* the slot `first` takes a signal: an event of entries alone, which isn't asked for */

/* An entry: how many bytes it takes, the stamp of its turn, which box's it is, the event, which request asked for it,
 * and the signal that it took, where `has_taken` is 1. Where that is 0, `taken` is all 0; and so is `asked`, where it
 * was no asker's. */
typedef struct media_entry {
    size_t size;
    uint64_t stamp;
    uint32_t box;
    media_event event;
    media_asked asked;
    uint8_t has_taken;
    media_at_end taken;
} media_entry;

/* A shard, or none. It owns the shard and its memory until media_shard_end. Its fields are the library's. */
typedef struct media_shard {
    bool made;
    void *at;
} media_shard;

#define MEDIA_SHARD_NONE {false, NULL}

/* ---- calls */

/* MEDIA_SHARD_VERSION of the library that is linked. Where it isn't that of the header, make no other call. */
uint32_t media_shard_version(void);

/* What a code of either header says comes into `*out`. MEDIA_OK, or MEDIA_INVALID where the number is no code. */
uint32_t media_shard_text(uint32_t code, media_text *out);

/* Makes a shard of these boxes, whose numbers are 0, 1 and so on. `slots` and `states` are those of all boxes, one box
 * after another; each box is as media_box_make_programmed has it. The ends have the numbers below `end_count`, each
 * slot is at one of them, and the slots at one end are of one box. Nothing was sent, taken or asked yet.
 * MEDIA_OK, MEDIA_HAS_SHARD, MEDIA_MEMORY, or MEDIA_INVALID where the numbers make no shard. */
uint32_t media_shard_make(media_shard *shard, const media_shard_box *boxes, size_t box_count,
                          const media_shard_slot *slots, size_t slot_count, const media_state *states,
                          size_t state_count, uint32_t end_count, uint32_t askers);

/* Ends the shard, and frees its memory. `*shard` has none then, and may be made anew. MEDIA_OK or MEDIA_NO_SHARD. */
uint32_t media_shard_end(media_shard *shard);

/* The stamp of the last turn, and 0 before the first, comes into `*stamp`. MEDIA_OK, MEDIA_NO_SHARD or MEDIA_WAITS. */
uint32_t media_shard_stamp(media_shard *shard, uint64_t *stamp);

/* An event of a box, that is asked for. Its stamp is the least above that of the last turn and above `known`, the
 * greatest one that the asker knows of (0 where it knows none). `*made` is 1 where a turn was made, whose entry waits
 * then; and 0 where the request was made already, which changes nothing.
 * MEDIA_OK, MEDIA_NO_SHARD, MEDIA_WAITS, MEDIA_INVALID, MEDIA_NO_ASKER, MEDIA_AHEAD, MEDIA_NO_BOX, MEDIA_DISABLED,
 * MEDIA_VERSION_END, MEDIA_STAMP or MEDIA_MEMORY. */
uint32_t media_shard_request(media_shard *shard, const media_asked *asked, uint32_t box, const media_event *event,
                             uint64_t known, uint8_t *made);

/* A signal that came to the end `at->end`. `*made` is 1 where it was taken by a turn, whose entry waits then; and 0
 * where it was taken already, which changes nothing. One that comes before its turn is refused (MEDIA_AHEAD): hand it
 * over again when those before it were taken.
 * MEDIA_OK, MEDIA_NO_SHARD, MEDIA_WAITS, MEDIA_INVALID, MEDIA_NO_END, MEDIA_AHEAD, MEDIA_DIGEST, MEDIA_NO_TUNNEL,
 * MEDIA_UNLAWFUL, MEDIA_STAMP or MEDIA_MEMORY. */
uint32_t media_shard_arrive(media_shard *shard, const media_at_end *at, uint8_t *made);

/* The bytes of the entry that waits come into the first `*count` of the `room` places of `bytes`; the others stay.
 * MEDIA_ENTRY_ROOM are always enough. The entry waits on, and may be written again.
 * MEDIA_OK, MEDIA_NO_SHARD, MEDIA_NONE_WAITS, MEDIA_NO_ROOM or MEDIA_MEMORY. */
uint32_t media_shard_write(media_shard *shard, uint8_t *bytes, size_t room, size_t *count);

/* The entry that waited stands in the journal. What it sent comes into the first `*count` of the `room` places of
 * `out`, in order; the others stay. MEDIA_SENT_ROOM are always enough. Another turn may be made then.
 * MEDIA_OK, MEDIA_NO_SHARD, MEDIA_NONE_WAITS or MEDIA_NO_ROOM. */
uint32_t media_shard_stands(media_shard *shard, media_at_end *out, size_t room, size_t *count);

/* The bytes begin with the entry that comes next in the shard's own journal: its turn is made again, and compared with
 * it. `*size` is how many of the bytes are the entry's. It stands already, so nothing waits.
 * After MEDIA_NO_SHARD, MEDIA_WAITS and MEDIA_NO_ENTRY all is as it was. After each other code but MEDIA_OK the entry
 * couldn't be made again, and the shard is gone: `*shard` has none.
 * MEDIA_OK, MEDIA_NO_SHARD, MEDIA_WAITS, MEDIA_NO_ENTRY, MEDIA_MEMORY; or why the turn isn't made: MEDIA_NO_BOX,
 * MEDIA_NO_ASKER, MEDIA_NO_END, MEDIA_NO_TUNNEL, MEDIA_DISABLED, MEDIA_VERSION_END, MEDIA_UNLAWFUL, MEDIA_AHEAD,
 * MEDIA_DIGEST, MEDIA_STAMP or MEDIA_DIFFERS. */
uint32_t media_shard_replay(media_shard *shard, const uint8_t *bytes, size_t count, size_t *size);

/* How many signals were taken at a channel end comes into `*taken`.
 * MEDIA_OK, MEDIA_NO_SHARD, MEDIA_WAITS or MEDIA_NO_END. */
uint32_t media_shard_taken(media_shard *shard, uint32_t end, uint64_t *taken);

/* The bytes of the shard's snapshot come into the first `*count` of the `room` places of `bytes`; the others stay.
 * After MEDIA_NO_ROOM `*count` is how many there are, so a call without room asks for that.
 * MEDIA_OK, MEDIA_NO_SHARD, MEDIA_WAITS, MEDIA_NO_ROOM or MEDIA_MEMORY. */
uint32_t media_shard_save(media_shard *shard, uint8_t *bytes, size_t room, size_t *count);

/* Makes the shard whose snapshot the bytes are. Bytes that were saved are the snapshot of the shard that was saved, and
 * of no other. MEDIA_OK, MEDIA_HAS_SHARD, MEDIA_MEMORY, or MEDIA_NO_SNAPSHOT where the bytes are the snapshot of none. */
uint32_t media_shard_load(media_shard *shard, const uint8_t *bytes, size_t count);

/* What there is to see of a box comes into `*out`. MEDIA_OK, MEDIA_NO_SHARD, MEDIA_WAITS or MEDIA_NO_BOX. */
uint32_t media_shard_see_box(media_shard *shard, uint32_t box, media_box_view *out);

/* What there is to see of a slot of a box comes into `*out`.
 * MEDIA_OK, MEDIA_NO_SHARD, MEDIA_WAITS, MEDIA_NO_BOX or MEDIA_NO_SLOT. */
uint32_t media_shard_see_slot(media_shard *shard, uint32_t box, uint8_t slot, media_slot_view *out);

/* The entry that bytes begin with, of any shard's journal, comes into `*entry`, and what it sent into the first
 * `*sent_count` of the `room` places of `out`, in order; the others stay. MEDIA_SENT_ROOM are enough for what a shard
 * wrote. MEDIA_OK, MEDIA_NO_ENTRY, MEDIA_NO_ROOM or MEDIA_MEMORY. */
uint32_t media_entry_read(const uint8_t *bytes, size_t count, media_entry *entry, media_at_end *out, size_t room,
                          size_t *sent_count);

/* Whether the entry that bytes begin with, and that a snapshot of its shard has, may be cut off the front of the
 * journal. `*may` is 1 where all that it sent was taken for good, and else 0: `taken` says for each channel end of the
 * shard how many signals the far end's snapshot has taken (media_shard_taken, when that was saved); none were at ends
 * from `end_count` on. `*size` is how many of the bytes are the entry's. MEDIA_OK, MEDIA_NO_ENTRY or MEDIA_MEMORY. */
uint32_t media_entry_may_be_cut(const uint8_t *bytes, size_t count, const uint64_t *taken, size_t end_count,
                                uint8_t *may, size_t *size);

#ifdef __cplusplus
}
#endif

#endif
