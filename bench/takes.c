/* takes TIMES CODECS: two phones, with so many codecs each, call and hang up so many times over a desk that links its
 * slots, by the calls of media_box.h. It prints how many signals were taken. bench/takes counts the instructions of
 * media_box_take. */
#include <stdio.h>
#include <stdlib.h>
#include "media_box.h"

enum { QUEUE = 64, ENDS = 4 };
enum { ALICE, BOB, DESK, BOXES };
static media_box boxes[BOXES];

/* The end i ^ 1 is the far end of the end i. */
static const struct {
    int box;
    uint8_t slot;
} ends[ENDS] = {{ALICE, 0}, {DESK, 0}, {DESK, 1}, {BOB, 0}};
static const int end_of[BOXES][2] = {{0, 0}, {3, 3}, {1, 2}};
static struct {
    media_signal at[QUEUE];
    size_t first, count;
} queues[ENDS];
static unsigned long takes;

static void want(uint32_t code) {
    if (code != MEDIA_OK) abort();
}

static void carry(int box, const media_sent *sent, size_t count) {
    for (size_t i = 0; i < count; i++) {
        int to = end_of[box][sent[i].slot] ^ 1;
        if (queues[to].count == QUEUE) abort();
        queues[to].at[(queues[to].first + queues[to].count++) % QUEUE] = sent[i].signal;
    }
}

static void act(int box, uint8_t kind, uint8_t first, uint8_t second) {
    static media_sent sent[MEDIA_ROOM];
    size_t count;
    media_event event = {kind, first, second};
    want(media_box_act(&boxes[box], &event, sent, MEDIA_ROOM, &count));
    carry(box, sent, count);
}

static void settle(void) {
    media_sent sent[MEDIA_TAKE_ROOM];
    size_t count;
    for (int i = 0; i < ENDS; i++) {
        if (queues[i].count == 0) continue;
        const media_signal *signal = &queues[i].at[queues[i].first];
        queues[i].first = (queues[i].first + 1) % QUEUE;
        queues[i].count--;
        want(media_box_take(&boxes[ends[i].box], ends[i].slot, signal, sent, MEDIA_TAKE_ROOM, &count));
        takes++;
        carry(ends[i].box, sent, count);
        i = -1;
    }
}

static void make(int box, uint8_t kind, media_codecs list, const media_slot *slots, size_t count) {
    media_setup setup = {kind, list, list, (uint32_t)box, 1};
    want(media_box_make(&boxes[box], &setup, slots, count));
}

int main(int count, char **words) {
    unsigned long times = count == 3 ? strtoul(words[1], NULL, 10) : 0;
    uint8_t codecs = (uint8_t)(count == 3 ? strtoul(words[2], NULL, 10) : 0);
    const media_codecs none = {0};
    const media_codecs alices = {codecs, {7, 0, 1, 2, 3, 4, 5, 6}}, bobs = {codecs, {0, 1, 2, 3, 4, 5, 6, 7}};
    const media_slot phone[] = {{.initiator = 1}}, other[] = {{.origin = 3}};
    const media_slot desk[] = {{.origin = 1}, {.initiator = 1, .origin = 2}};
    make(ALICE, MEDIA_DEVICE, alices, phone, 1);
    make(BOB, MEDIA_DEVICE, bobs, other, 1);
    make(DESK, MEDIA_FEATURE, none, desk, 2);
    act(DESK, MEDIA_SET_LINK, 0, 1);
    act(BOB, MEDIA_SET_GOAL, 0, MEDIA_GOAL_HOLD);
    for (unsigned long call = 0; call < times; call++) {
        act(ALICE, MEDIA_SET_GOAL, 0, MEDIA_GOAL_OPEN);
        settle();
        act(ALICE, MEDIA_HEAR, 0, 0);
        settle();
        act(ALICE, MEDIA_HEAR, 0, 1);
        settle();
        act(ALICE, MEDIA_SET_GOAL, 0, MEDIA_GOAL_CLOSE);
        settle();
    }
    printf("%lu\n", takes);
    for (int i = 0; i < BOXES; i++) want(media_box_end(&boxes[i]));
    return 0;
}
