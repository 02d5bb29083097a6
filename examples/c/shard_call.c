/* Two shards, each with a phone and a journal, and one channel between them. The program writes each entry into the
 * journal before anybody sees what it sent, and carries that to the other shard, twice: each signal is taken once. Then
 * one shard is lost, and made again from its journal. Both are saved, and what the snapshots make needless is cut off
 * that journal. When the shard is lost once more, it is made again from its snapshot and from what came later. */
#include <stdio.h>
#include <stdlib.h>
#include <string.h>
#include "media_shard.h"

enum { ALICE, BOB, SHARDS };
static const char *const names[SHARDS] = {"alice", "bob"};
static media_shard shards[SHARDS] = {MEDIA_SHARD_NONE, MEDIA_SHARD_NONE};

/* A journal: the bytes of entries, one after another. */
enum { JOURNAL = 64 * 1024, LANE = 64 };
struct journal {
    uint8_t at[JOURNAL];
    size_t count;
};
static struct journal journals[SHARDS];

/* A snapshot: its bytes, how many bytes of the journal it has, and how many signals were taken then. */
struct snapshot {
    uint8_t *at;
    size_t count, had;
    uint64_t taken;
};
static struct snapshot snapshots[SHARDS];

/* What stands in a shard's journal as sent, and is to be carried to the other one. */
struct lane {
    media_at_end at[LANE];
    size_t count;
};
static struct lane lanes[SHARDS];

static const char *const states[] = {"closed", "opening", "opened", "flowing", "closing"};
static const char *const kinds[] = {"open", "oack", "close", "closeack", "describe", "select"};
static const char *const events[] = {"set goal", "set link", "hear", "talk", "tell", "retry", "shift", "take"};

static void want(uint32_t code, const char *what) {
    media_text text;
    if (code == MEDIA_OK) return;
    if (media_shard_text(code, &text) != MEDIA_OK) abort();
    printf("%s: %s\n", what, text.at);
    exit(1);
}

static void make(int who) {
    media_shard_box box = {{MEDIA_DEVICE, {2, {0, 8}}, {2, {8, 0}}, 0, 1}, 1, 0};
    media_shard_slot slot = {{MEDIA_AUDIO, 0, 0, 1, 5004, 0}, 0, 3};
    media_state none;
    memset(&none, 0, sizeof none);
    box.setup.number = (uint32_t)who;
    slot.slot.initiator = who == ALICE;
    slot.slot.origin = (uint32_t)who;
    slot.slot.addr = 0xc0000201 + (uint32_t)who;
    want(media_shard_make(&shards[who], &box, 1, &slot, 1, &none, 0, 1, 1), "make");
}

/* The entry that waits comes into the journal, and stands there. What it sent is to be carried. */
static void write_down(int who) {
    struct journal *journal = &journals[who];
    struct lane *lane = &lanes[who];
    size_t count;
    want(media_shard_write(&shards[who], journal->at + journal->count, JOURNAL - journal->count, &count), "write");
    journal->count += count;
    want(media_shard_stands(&shards[who], lane->at + lane->count, LANE - lane->count, &count), "stands");
    for (size_t i = 0; i < count; i++) {
        const media_at_end *sent = &lane->at[lane->count + i];
        printf("  %s sends %s, number %u, stamp %u\n", names[who], kinds[sent->signal.kind], (unsigned)sent->number,
               (unsigned)sent->stamp);
    }
    lane->count += count;
}

static void ask(int who, uint64_t number, uint8_t goal) {
    media_asked asked = {1, 0, number};
    media_event event = {MEDIA_SET_GOAL, 0, goal};
    uint8_t made;
    want(media_shard_request(&shards[who], &asked, 0, &event, 0, &made), "request");
    printf("%s: request %u %s\n", names[who], (unsigned)number, made ? "makes a turn" : "was made already");
    if (made) write_down(who);
}

/* Carries all that was sent, each signal twice, until both shards are quiet. */
static void settle(size_t carried[SHARDS]) {
    int moved = 1;
    while (moved) {
        moved = 0;
        for (int from = 0; from < SHARDS; from++) {
            while (carried[from] < lanes[from].count) {
                media_at_end at = lanes[from].at[carried[from]++];
                int to = 1 - from;
                uint8_t made;
                at.end = 0;
                want(media_shard_arrive(&shards[to], &at, &made), "arrive");
                if (made) write_down(to);
                want(media_shard_arrive(&shards[to], &at, &made), "arrive again");
                if (made) abort();
                moved = 1;
            }
        }
    }
}

static void show(int who) {
    media_slot_view view;
    uint64_t stamp;
    want(media_shard_see_slot(&shards[who], 0, 0, &view), "see");
    want(media_shard_stamp(&shards[who], &stamp), "stamp");
    printf("%s is %s, stamp %u, sends: %u, hears: %u\n", names[who], states[view.state], (unsigned)stamp,
           (unsigned)view.sends.flows, (unsigned)view.hears.flows);
}

/* The shard makes each entry of the journal from this byte on again. */
static void replay(int who, size_t at) {
    const struct journal *journal = &journals[who];
    media_at_end sent[MEDIA_SENT_ROOM];
    media_entry entry;
    size_t size, count;
    for (; at < journal->count; at += size) {
        want(media_entry_read(journal->at + at, journal->count - at, &entry, sent, MEDIA_SENT_ROOM, &count), "read");
        printf("  %s, stamp %u, sent %u\n", events[entry.event.kind], (unsigned)entry.stamp, (unsigned)count);
        want(media_shard_replay(&shards[who], journal->at + at, journal->count - at, &size), "replay");
        if (size != entry.size) abort();
    }
}

static void save(int who) {
    struct snapshot *snapshot = &snapshots[who];
    uint8_t none;
    size_t need;
    if (media_shard_save(&shards[who], &none, 0, &need) != MEDIA_NO_ROOM) abort();
    free(snapshot->at);
    snapshot->at = malloc(need);
    if (!snapshot->at) abort();
    want(media_shard_save(&shards[who], snapshot->at, need, &snapshot->count), "save");
    if (snapshot->count != need) abort();
    want(media_shard_taken(&shards[who], 0, &snapshot->taken), "taken");
    snapshot->had = journals[who].count;
    printf("%s is saved, with %u signals taken\n", names[who], (unsigned)snapshot->taken);
}

/* What the snapshot has goes off the front of the journal, up to what the other shard's hasn't taken. */
static void cut(int who) {
    struct journal *journal = &journals[who];
    struct snapshot *snapshot = &snapshots[who];
    unsigned entries = 0;
    size_t at = 0, size;
    while (at < snapshot->had) {
        uint8_t may;
        want(media_entry_may_be_cut(journal->at + at, snapshot->had - at, &snapshots[1 - who].taken, 1, &may, &size),
             "may be cut");
        if (!may) break;
        at += size;
        entries++;
    }
    journal->count -= at;
    snapshot->had -= at;
    memmove(journal->at, journal->at + at, journal->count);
    printf("%s: %u entries are cut off\n", names[who], entries);
}

static void load(int who) {
    const struct snapshot *snapshot = &snapshots[who];
    if (media_shard_load(&shards[who], snapshot->at, snapshot->count - 1) != MEDIA_NO_SNAPSHOT) abort();
    want(media_shard_load(&shards[who], snapshot->at, snapshot->count), "load");
}

int main(void) {
    size_t carried[SHARDS] = {0, 0};
    if (media_shard_version() != MEDIA_SHARD_VERSION) return 1;
    make(ALICE);
    make(BOB);
    ask(BOB, 1, MEDIA_GOAL_HOLD);
    ask(ALICE, 1, MEDIA_GOAL_OPEN);
    ask(ALICE, 1, MEDIA_GOAL_OPEN);
    settle(carried);
    show(ALICE);
    show(BOB);
    want(media_shard_end(&shards[ALICE]), "end");
    printf("alice is lost, and made again\n");
    make(ALICE);
    replay(ALICE, 0);
    show(ALICE);
    save(BOB);
    ask(ALICE, 2, MEDIA_GOAL_CLOSE);
    save(ALICE);
    cut(ALICE);
    settle(carried);
    show(ALICE);
    show(BOB);
    want(media_shard_end(&shards[ALICE]), "end");
    printf("alice is lost, and loaded\n");
    load(ALICE);
    replay(ALICE, snapshots[ALICE].had);
    show(ALICE);
    for (int who = 0; who < SHARDS; who++) {
        want(media_shard_end(&shards[who]), "end");
        free(snapshots[who].at);
    }
    return 0;
}
