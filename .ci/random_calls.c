/* Calls a few boxes at random, with random bytes in every field, and with a malloc and a realloc that fail at random:
 * argv[1] calls, drawn by the seed argv[2]. It stops with a line and the status 1 where a call answers a code that isn't
 * its own, writes past what it says that it wrote, changes anything beside a code other than MEDIA_OK, or sends what no
 * box can send, as a media address that isn't its slot's. At the end it prints how often each code came, by call; every
 * code that a call can answer has to come. It is linked with --wrap=malloc and --wrap=realloc. */
#include <stdio.h>
#include <stdlib.h>
#include <string.h>
#include "media_box.h"

enum { BOXES = 6, POOL = 256, ROOM = MEDIA_ROOM + 8 };
enum { MAKE, MAKE_PROGRAMMED, END, TAKE, ACT, SEE, SEE_SLOT, TEXT, CALLS };
static const char *const names[CALLS] = {"make", "make_programmed", "end", "take", "act", "see", "see_slot", "text"};

/* The codes that the header lists for each call. */
#define BIT(code) (1u << (code))
static const unsigned listed[CALLS] = {
    BIT(MEDIA_OK) | BIT(MEDIA_HAS_BOX) | BIT(MEDIA_MEMORY) | BIT(MEDIA_INVALID),
    BIT(MEDIA_OK) | BIT(MEDIA_HAS_BOX) | BIT(MEDIA_MEMORY) | BIT(MEDIA_INVALID),
    BIT(MEDIA_OK) | BIT(MEDIA_NO_BOX),
    BIT(MEDIA_OK) | BIT(MEDIA_NO_BOX) | BIT(MEDIA_INVALID) | BIT(MEDIA_NO_SLOT) | BIT(MEDIA_UNLAWFUL)
        | BIT(MEDIA_NO_ROOM),
    BIT(MEDIA_OK) | BIT(MEDIA_NO_BOX) | BIT(MEDIA_INVALID) | BIT(MEDIA_DISABLED) | BIT(MEDIA_VERSION_END)
        | BIT(MEDIA_NO_ROOM),
    BIT(MEDIA_OK) | BIT(MEDIA_NO_BOX),
    BIT(MEDIA_OK) | BIT(MEDIA_NO_BOX) | BIT(MEDIA_NO_SLOT),
    BIT(MEDIA_OK) | BIT(MEDIA_INVALID),
};

static uint64_t state;
static uint64_t draw(void) {
    state ^= state << 13;
    state ^= state >> 7;
    state ^= state << 17;
    return state;
}
static uint32_t below(uint32_t n) { return (uint32_t)((draw() >> 20) % n); }

/* While the library is called, one request of memory in 16 fails. */
static bool failing;
void *__real_malloc(size_t size);
void *__wrap_malloc(size_t size);
void *__wrap_malloc(size_t size) { return failing && below(16) == 0 ? NULL : __real_malloc(size); }
void *__real_realloc(void *at, size_t size);
void *__wrap_realloc(void *at, size_t size);
void *__wrap_realloc(void *at, size_t size) { return failing && below(16) == 0 ? NULL : __real_realloc(at, size); }

/* Random bytes; one time in two each is a small number. */
static void fill(void *at, size_t size) {
    unsigned char *bytes = (unsigned char *)at;
    int small = below(2) == 0;
    for (size_t i = 0; i < size; i++) bytes[i] = (unsigned char)(small ? below(4) : draw() >> 30);
}

/* All that there is to see of a box. */
struct seen {
    uint32_t code;
    media_box_view box;
    media_slot_view slots[MEDIA_SLOT_LIMIT];
};

static media_box boxes[BOXES];
static struct seen seen[BOXES];
static media_slot given[BOXES][MEDIA_SLOT_LIMIT]; /* the slots of which each box was made */
static media_signal pool[POOL]; /* signals that were sent, to be taken */
static unsigned long counts[CALLS][10];
static unsigned long flows, links, later_states; /* slots seen sending, slots seen linked, programs past a first state */
static unsigned long addresses;                  /* signals sent with an address that was given */
static unsigned long call;

static void fail(const char *what) {
    printf("call %lu: %s\n", call, what);
    exit(1);
}

static void look(int i, struct seen *out) {
    memset(out, 0, sizeof *out);
    out->code = media_box_see(&boxes[i], &out->box);
    if (out->code != MEDIA_OK) return;
    if (out->box.slots > MEDIA_SLOT_LIMIT || out->box.kind > 1) fail("a view says what no box is");
    later_states += out->box.state > 0;
    for (int slot = 0; slot < out->box.slots; slot++) {
        if (media_box_see_slot(&boxes[i], (uint8_t)slot, &out->slots[slot]) != MEDIA_OK) fail("a slot isn't seen");
        const media_slot_view *view = &out->slots[slot];
        flows += view->sends.flows;
        links += view->goal == MEDIA_GOAL_LINK;
        if (view->state > 4 || view->medium > 1 || view->goal > 3 || view->owes > 1) fail("a view says what none is");
    }
}

static int is_same_flow(const media_flow *a, const media_flow *b) {
    return a->flows == b->flows && a->codec == b->codec && a->port == b->port && a->addr == b->addr;
}

static int is_same_slot(const media_slot_view *a, const media_slot_view *b) {
    return a->state == b->state && a->medium == b->medium && a->goal == b->goal && a->partner == b->partner
           && a->owes == b->owes && is_same_flow(&a->sends, &b->sends) && is_same_flow(&a->hears, &b->hears);
}

static int is_same_box(const media_box_view *a, const media_box_view *b) {
    return a->kind == b->kind && a->slots == b->slots && a->has_program == b->has_program
           && a->has_state == b->has_state && a->was_told == b->was_told && a->word == b->word && a->shifts == b->shifts
           && a->state == b->state && a->number == b->number;
}

static int is_same(const struct seen *a, const struct seen *b) {
    if (a->code != b->code || !is_same_box(&a->box, &b->box)) return 0;
    for (int slot = 0; slot < a->box.slots; slot++)
        if (!is_same_slot(&a->slots[slot], &b->slots[slot])) return 0;
    return 1;
}

static void check_list(const media_codecs *list) {
    if (list->count > MEDIA_CODEC_LIMIT) fail("too many codecs are sent");
    for (int i = list->count; i < MEDIA_CODEC_LIMIT; i++)
        if (list->at[i] != 0) fail("an unused place of a list isn't 0");
}

/* The media address of a device's slot: the one that it was given, or else one of its numbers. */
static void check_address(int i, const media_sent *sent) {
    const media_slot *slot = &given[i][sent->slot];
    uint32_t addr = slot->has_address ? slot->addr : seen[i].box.number + 1;
    uint16_t port = slot->has_address ? slot->port : (uint16_t)(5000 + sent->slot);
    uint8_t kind = sent->signal.kind;
    if (seen[i].box.kind != MEDIA_DEVICE || kind == MEDIA_CLOSE || kind == MEDIA_CLOSEACK) return;
    if (sent->signal.addr != addr || sent->signal.port != port) fail("a device sends an address that isn't its own");
    addresses += slot->has_address;
}

static void check_sent(int i, const media_sent *sent, size_t count, size_t most) {
    if (count > most) fail("too much is sent");
    for (size_t k = 0; k < count; k++) {
        if (sent[k].slot >= seen[i].box.slots || sent[k].signal.kind > MEDIA_SELECT) fail("what no slot sends is sent");
        check_list(&sent[k].signal.codecs);
        check_address(i, &sent[k]);
        pool[below(POOL)] = sent[k].signal;
    }
}

static uint32_t take_or_act(int i, int which) {
    static media_sent out[ROOM], before[ROOM];
    media_signal signal;
    media_event event;
    size_t count = 77, room = below(8) == 0 ? below(4) : MEDIA_ROOM;
    uint32_t code;
    uint8_t slot = (uint8_t)(below(8) == 0 ? draw() >> 30 : below(seen[i].box.slots + 1u));
    memset(before, (int)below(256), sizeof before);
    memcpy(out, before, sizeof out);
    fill(&signal, sizeof signal);
    fill(&event, sizeof event);
    if (below(2) == 0) signal = pool[below(POOL)];
    if (below(16) == 0) signal.kind = MEDIA_CLOSE;
    if (below(2) == 0) event.kind = (uint8_t)below(MEDIA_SHIFT + 2);
    code = which == TAKE ? media_box_take(&boxes[i], slot, &signal, out, room, &count)
                         : media_box_act(&boxes[i], &event, out, room, &count);
    if (code != MEDIA_OK && count != 0) fail("a refused call counts");
    if (count > room) fail("the count is past the room");
    if (memcmp(out + count, before + count, (ROOM - count) * sizeof *out) != 0) fail("a place past the count is written");
    if (code == MEDIA_OK) check_sent(i, out, count, which == TAKE ? MEDIA_TAKE_ROOM : 2u * seen[i].box.slots);
    return code;
}

static void draw_codecs(media_codecs *list) {
    list->count = (uint8_t)below(4);
    for (int k = 0; k < MEDIA_CODEC_LIMIT; k++) list->at[k] = (uint8_t)(k * 3 + below(3));
}

/* Three times in four a setup that can be one, of so many slots. */
static void draw_setup(media_setup *setup, media_slot *slots, size_t count) {
    fill(setup, sizeof *setup);
    fill(slots, count * sizeof *slots);
    if (below(4) == 0) return;
    setup->kind = (uint8_t)below(2);
    draw_codecs(&setup->receives);
    draw_codecs(&setup->sends);
    if (setup->number > MEDIA_NUMBER_LIMIT) setup->number = 1;
    if (below(4) == 0) setup->first_version = MEDIA_LAST_VERSION - below(2);
    for (size_t k = 0; k < count; k++) {
        slots[k].medium = (uint8_t)(below(8) == 0);
        slots[k].initiator = (uint8_t)below(2);
        slots[k].has_address = (uint8_t)below(2);
    }
}

/* A program that may be one: its links are pairs of neighbours. */
static void draw_program(media_setup *setup, size_t count, media_state *states, size_t state_count) {
    fill(states, state_count * sizeof *states);
    if (below(4) == 0) return;
    setup->kind = (uint8_t)(below(4) != 0);
    for (size_t s = 0; s < state_count; s++) {
        for (size_t k = 0; k < MEDIA_SLOT_LIMIT; k++) states[s].goals[k].goal = (uint8_t)below(3);
        for (size_t k = 0; k + 1 < count && k + 1 < MEDIA_SLOT_LIMIT; k += 2)
            if (below(2) == 0) {
                states[s].goals[k] = (media_goal){MEDIA_GOAL_LINK, (uint8_t)(k + 1)};
                states[s].goals[k + 1] = (media_goal){MEDIA_GOAL_LINK, (uint8_t)k};
            }
        states[s].count = (uint8_t)below(4);
        for (int k = 0; k < MEDIA_RULE_LIMIT; k++) {
            media_rule *rule = &states[s].rules[k];
            rule->guard = (uint8_t)below(2);
            rule->first = (uint8_t)(rule->guard == MEDIA_TOLD || count == 0 ? below(3) : below((uint32_t)count));
            rule->second = (uint8_t)below(5);
            rule->target = (uint8_t)(state_count == 0 ? 0 : below((uint32_t)state_count));
        }
    }
}

static uint32_t make(int i, int which) {
    static media_slot slots[MEDIA_SLOT_LIMIT + 2];
    static media_state states[MEDIA_STATE_LIMIT + 2];
    media_setup setup;
    size_t count = below(32) == 0 ? below(MEDIA_SLOT_LIMIT + 3) : 1 + below(4);
    size_t state_count = below(64) == 0 ? below(MEDIA_STATE_LIMIT + 3) : below(4);
    uint32_t code;
    draw_setup(&setup, slots, count);
    if (which == MAKE) {
        code = media_box_make(&boxes[i], &setup, slots, count);
    } else {
        draw_program(&setup, count, states, state_count);
        code = media_box_make_programmed(&boxes[i], &setup, slots, count, states, state_count);
    }
    if (code == MEDIA_OK) memcpy(given[i], slots, count * sizeof *slots);
    return code;
}

static uint32_t see(int i, int which) {
    media_box_view box, old_box;
    media_slot_view slot, old_slot;
    media_text text, old_text;
    uint32_t code;
    fill(&old_box, sizeof old_box);
    fill(&old_slot, sizeof old_slot);
    fill(&old_text, sizeof old_text);
    memcpy(&box, &old_box, sizeof box);
    memcpy(&slot, &old_slot, sizeof slot);
    memcpy(&text, &old_text, sizeof text);
    if (which == SEE) {
        code = media_box_see(&boxes[i], &box);
    } else if (which == SEE_SLOT) {
        code = media_box_see_slot(&boxes[i], (uint8_t)below(6), &slot);
    } else {
        uint32_t asked = below(4) == 0 ? (uint32_t)draw() : below(12);
        code = media_box_text(asked, &text);
        if ((code == MEDIA_OK) != (asked < 10)) fail("a code has no text, or another number has one");
        if (code == MEDIA_OK && (text.at[0] == 0 || text.at[MEDIA_TEXT_SIZE - 1] != 0)) fail("a text has no end");
    }
    if (code != MEDIA_OK && (memcmp(&box, &old_box, sizeof box) != 0 || memcmp(&slot, &old_slot, sizeof slot) != 0
                             || memcmp(&text, &old_text, sizeof text) != 0))
        fail("a view was written though none was given");
    return code;
}

static uint32_t one_call(int i, int which) {
    if (which == MAKE || which == MAKE_PROGRAMMED) return make(i, which);
    if (which == END) return media_box_end(&boxes[i]);
    if (which == TAKE || which == ACT) return take_or_act(i, which);
    return see(i, which);
}

static int draw_call(void) {
    uint32_t n = below(64);
    if (n < 3) return MAKE;
    if (n < 6) return MAKE_PROGRAMMED;
    if (n < 7) return END;
    if (n < 34) return TAKE;
    if (n < 58) return ACT;
    return n < 60 ? SEE : n < 62 ? SEE_SLOT : TEXT;
}

int main(int argc, char **argv) {
    static struct seen now;
    if (argc != 3) return 2;
    unsigned long calls = strtoul(argv[1], NULL, 10);
    state = strtoull(argv[2], NULL, 10) * 0x9e3779b97f4a7c15u + 1;
    for (int i = 0; i < BOXES; i++) look(i, &seen[i]);
    for (call = 0; call < calls; call++) {
        int i = (int)below(BOXES), which = draw_call();
        failing = true;
        uint32_t code = one_call(i, which);
        failing = false;
        if (code > 9 || !(listed[which] & BIT(code))) fail("a code that isn't listed for the call");
        counts[which][code]++;
        if (code == MEDIA_OK ? which <= ACT : below(8) == 0) {
            look(i, &now);
            if (code != MEDIA_OK && !is_same(&now, &seen[i])) fail("a refused call changed the box");
            memcpy(&seen[i], &now, sizeof now);
        }
    }
    for (int i = 0; i < BOXES; i++) media_box_end(&boxes[i]);
    for (int which = 0; which < CALLS; which++)
        for (unsigned code = 0; code < 10; code++)
            if (listed[which] & BIT(code)) {
                printf("%s %u: %lu\n", names[which], code, counts[which][code]);
                if (counts[which][code] == 0) fail("a code never came");
            }
    printf("flowing %lu, linked %lu, later states %lu, given addresses %lu\n", flows, links, later_states, addresses);
    if (flows == 0 || links == 0 || later_states == 0) fail("no slot flowed, or none was linked, or no program went on");
    if (addresses == 0) fail("no given address was sent");
    return 0;
}
