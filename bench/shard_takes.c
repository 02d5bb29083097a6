/* shard_takes TIMES CODECS: two phones, with so many codecs each, call and hang up so many times over a desk that links
 * its slots, as in takes.c; each is in a shard of its own, and each entry is written before anybody sees what it sent.
 * Then each shard is made again from its journal, and from a snapshot. It prints how many signals were taken, how many
 * entries there are, and how many bytes these have; then the desk's entries, and how many milliseconds of processor time
 * it takes to make the desk again from them; and the same of its snapshot's bytes. bench/shard_takes counts the
 * instructions of the calls. */
#include <stdio.h>
#include <stdlib.h>
#include <string.h>
#include <time.h>
#include "media_shard.h"

enum { QUEUE = 64, ENDS = 4 };
enum { ALICE, BOB, DESK, SHARDS };
static media_shard shards[SHARDS];

/* The end i ^ 1 is the far end of the end i, which is the end `end` of its shard. */
static const struct {
    int shard;
    uint32_t end;
} ends[ENDS] = {{ALICE, 0}, {DESK, 0}, {DESK, 1}, {BOB, 0}};
static const int end_of[SHARDS][2] = {{0, 0}, {3, 3}, {1, 2}};
static struct {
    media_at_end at[QUEUE];
    size_t first, count;
} queues[ENDS];
static struct {
    uint8_t *at;
    size_t size, room;
    unsigned long entries;
} journals[SHARDS];
static unsigned long takes;

static void want(uint32_t code) {
    if (code != MEDIA_OK) abort();
}

/* The entry that waits is written into the journal, and what it sent is brought to the far ends. */
static void stand(int shard) {
    static media_at_end sent[MEDIA_SENT_ROOM];
    size_t size, count;
    if (journals[shard].room - journals[shard].size < MEDIA_ENTRY_ROOM) {
        journals[shard].room = 2 * journals[shard].room + MEDIA_ENTRY_ROOM;
        journals[shard].at = realloc(journals[shard].at, journals[shard].room);
        if (journals[shard].at == NULL) abort();
    }
    want(media_shard_write(&shards[shard], journals[shard].at + journals[shard].size, MEDIA_ENTRY_ROOM, &size));
    journals[shard].size += size;
    journals[shard].entries++;
    want(media_shard_stands(&shards[shard], sent, MEDIA_SENT_ROOM, &count));
    for (size_t i = 0; i < count; i++) {
        int to = end_of[shard][sent[i].end] ^ 1;
        if (queues[to].count == QUEUE) abort();
        media_at_end *at = &queues[to].at[(queues[to].first + queues[to].count++) % QUEUE];
        *at = sent[i];
        at->end = ends[to].end;
    }
}

static void act(int shard, uint8_t kind, uint8_t first, uint8_t second) {
    const media_asked none = {0};
    media_event event = {kind, first, second};
    uint8_t made;
    want(media_shard_request(&shards[shard], &none, 0, &event, 0, &made));
    stand(shard);
}

static void settle(void) {
    for (int i = 0; i < ENDS; i++) {
        if (queues[i].count == 0) continue;
        const media_at_end *at = &queues[i].at[queues[i].first];
        queues[i].first = (queues[i].first + 1) % QUEUE;
        queues[i].count--;
        uint8_t made;
        want(media_shard_arrive(&shards[ends[i].shard], at, &made));
        takes++;
        stand(ends[i].shard);
        i = -1;
    }
}

static void make(int shard, uint8_t kind, media_codecs list, const media_shard_slot *slots, uint32_t count) {
    media_shard_box box = {{kind, list, list, (uint32_t)shard, 1}, count, 0};
    const media_state none = {0};
    want(media_shard_make(&shards[shard], &box, 1, slots, count, &none, 0, count, 0));
}

static void make_all(uint8_t codecs) {
    const media_codecs none = {0};
    const media_codecs alices = {codecs, {7, 0, 1, 2, 3, 4, 5, 6}}, bobs = {codecs, {0, 1, 2, 3, 4, 5, 6, 7}};
    const media_shard_slot phone = {.slot = {.initiator = 1}}, other = {.slot = {.origin = 3}};
    const media_shard_slot desk[] = {{.slot = {.origin = 1}}, {.slot = {.initiator = 1, .origin = 2}, .end = 1}};
    make(ALICE, MEDIA_DEVICE, alices, &phone, 1);
    make(BOB, MEDIA_DEVICE, bobs, &other, 1);
    make(DESK, MEDIA_FEATURE, none, desk, 2);
}

static void end_all(void) {
    for (int i = 0; i < SHARDS; i++) want(media_shard_end(&shards[i]));
}

static double milliseconds(clock_t since) { return 1000.0 * (double)(clock() - since) / CLOCKS_PER_SEC; }

static void begin_again(int shard) {
    for (size_t at = 0, size; at < journals[shard].size; at += size)
        want(media_shard_replay(&shards[shard], journals[shard].at + at, journals[shard].size - at, &size));
}

/* Ends a shard, and begins it from its snapshot, whose bytes are counted. */
static double begin_from_snapshot(int shard, size_t *size) {
    uint8_t none, *bytes;
    if (media_shard_save(&shards[shard], &none, 0, size) != MEDIA_NO_ROOM) abort();
    bytes = malloc(*size);
    if (bytes == NULL) abort();
    want(media_shard_save(&shards[shard], bytes, *size, size));
    want(media_shard_end(&shards[shard]));
    clock_t start = clock();
    for (int i = 0; i < 1000; i++) {
        if (i > 0) want(media_shard_end(&shards[shard]));
        want(media_shard_load(&shards[shard], bytes, *size));
    }
    double took = milliseconds(start) / 1000;
    free(bytes);
    return took;
}

int main(int count, char **words) {
    unsigned long times = count == 3 ? strtoul(words[1], NULL, 10) : 0;
    uint8_t codecs = (uint8_t)(count == 3 ? strtoul(words[2], NULL, 10) : 0);
    make_all(codecs);
    act(DESK, MEDIA_SET_LINK, 0, 1);
    act(BOB, MEDIA_SET_GOAL, 0, MEDIA_GOAL_HOLD);
    for (unsigned long call = 0; call < times; call++) {
        act(ALICE, MEDIA_SET_GOAL, 0, MEDIA_GOAL_OPEN);
        settle();
        act(ALICE, MEDIA_HEAR, 0, 0);
        settle();
        act(ALICE, MEDIA_HEAR, 0, 1);
        settle();
        act(ALICE, MEDIA_SET_GOAL, 0, MEDIA_GOAL_CLOSE);
        settle();
    }
    end_all();
    make_all(codecs);
    begin_again(ALICE);
    begin_again(BOB);
    clock_t start = clock();
    begin_again(DESK);
    double replayed = milliseconds(start);
    size_t snapshot;
    double loaded = begin_from_snapshot(DESK, &snapshot);
    end_all();
    unsigned long entries = 0, size = 0;
    for (int i = 0; i < SHARDS; i++) {
        entries += journals[i].entries;
        size += journals[i].size;
        free(journals[i].at);
    }
    printf("%lu %lu %lu %lu %.1f %zu %.4f\n", takes, entries, size, journals[DESK].entries, replayed, snapshot, loaded);
    return 0;
}
