/* Two phones and a feature between them. The program carries what they send, by queues of its own: each queue keeps the
 * order, and loses and doubles nothing. */
#include <stdio.h>
#include <stdlib.h>
#include <string.h>
#include "media_box.h"

enum { QUEUE = 64 };

/* A queue of signals to one end of a tunnel. */
struct queue {
    media_signal at[QUEUE];
    size_t first, count;
};

enum { ALICE, BOB, DESK, BOXES };
static const char *const names[BOXES] = {"alice", "bob", "desk"};
static media_box boxes[BOXES] = {MEDIA_BOX_NONE, MEDIA_BOX_NONE, MEDIA_BOX_NONE};

/* Two tunnels: alice's slot 0 and the desk's slot 0, and the desk's slot 1 and bob's slot 0. */
struct end {
    int box;
    uint8_t slot;
};
enum { ENDS = 4 };
static const struct end ends[ENDS] = {{ALICE, 0}, {DESK, 0}, {DESK, 1}, {BOB, 0}};
static struct queue queues[ENDS]; /* of what is under way to each end */

static const char *const states[] = {"closed", "opening", "opened", "flowing", "closing"};
static const char *const kinds[] = {"open", "oack", "close", "closeack", "describe", "select"};

static void want(uint32_t code, const char *what) {
    media_text text;
    if (code == MEDIA_OK) return;
    if (media_box_text(code, &text) != MEDIA_OK) abort();
    printf("%s: %s\n", what, text.at);
    exit(1);
}

static int end_of(int box, uint8_t slot) {
    for (int i = 0; i < ENDS; i++)
        if (ends[i].box == box && ends[i].slot == slot) return i;
    abort();
}

/* Puts what a box sends into the queues of the far ends. */
static void carry(int box, const media_sent *sent, size_t count) {
    for (size_t i = 0; i < count; i++) {
        struct queue *to = &queues[end_of(box, sent[i].slot) ^ 1];
        if (to->count == QUEUE) abort();
        to->at[(to->first + to->count++) % QUEUE] = sent[i].signal;
        printf("  %s.%u sends %s\n", names[box], (unsigned)sent[i].slot, kinds[sent[i].signal.kind]);
    }
}

static void act(int box, uint8_t kind, uint8_t first, uint8_t second) {
    static media_sent sent[MEDIA_ROOM];
    size_t count;
    media_event event = {kind, first, second};
    want(media_box_act(&boxes[box], &event, sent, MEDIA_ROOM, &count), "act");
    carry(box, sent, count);
}

/* The desk's program goes on as long as it can. */
static void shift(void) {
    media_box_view view;
    want(media_box_see(&boxes[DESK], &view), "see");
    while (view.shifts) {
        act(DESK, MEDIA_SHIFT, 0, 0);
        want(media_box_see(&boxes[DESK], &view), "see");
        printf("  desk goes to the state %u\n", (unsigned)view.state);
    }
}

/* Brings signals to their slots until none is under way. */
static void settle(void) {
    media_sent sent[MEDIA_TAKE_ROOM];
    size_t count;
    shift();
    for (int i = 0; i < ENDS; i++) {
        struct queue *from = &queues[i];
        if (from->count == 0) continue;
        media_signal signal = from->at[from->first];
        from->first = (from->first + 1) % QUEUE;
        from->count--;
        want(media_box_take(&boxes[ends[i].box], ends[i].slot, &signal, sent, MEDIA_TAKE_ROOM, &count), "take");
        carry(ends[i].box, sent, count);
        shift();
        i = -1;
    }
}

static void show_flow(const char *what, const char *way, media_flow flow) {
    if (!flow.flows) return;
    printf(" %s codec %u %s %u.%u.%u.%u:%u", what, (unsigned)flow.codec, way, (unsigned)(flow.addr >> 24),
           (unsigned)(flow.addr >> 16 & 0xff), (unsigned)(flow.addr >> 8 & 0xff), (unsigned)(flow.addr & 0xff),
           (unsigned)flow.port);
}

static void show(const char *when) {
    printf("%s\n", when);
    for (int i = 0; i < ENDS; i++) {
        media_slot_view view;
        want(media_box_see_slot(&boxes[ends[i].box], ends[i].slot, &view), "slot");
        printf("%s.%u %s", names[ends[i].box], (unsigned)ends[i].slot, states[view.state]);
        show_flow("sends", "to", view.sends);
        show_flow("hears", "from", view.hears);
        if (view.owes) printf(" owes a retry");
        printf("\n");
    }
}

static media_codecs codecs(uint8_t count, uint8_t a, uint8_t b) {
    media_codecs list = {count, {a, b}};
    return list;
}

static media_setup setup(int box, uint8_t kind, media_codecs list) {
    media_setup made = {kind, list, list, (uint32_t)box, 1};
    return made;
}

/* The desk lets nobody through at first, links its slots once it is told the word 1, and lets nobody through again after
 * the word 0. */
static void make_desk(void) {
    static media_state program[2];
    media_slot slots[] = {{.medium = MEDIA_AUDIO, .origin = 1},
                          {.medium = MEDIA_AUDIO, .initiator = 1, .origin = 2}};
    media_setup desk = setup(DESK, MEDIA_FEATURE, codecs(0, 0, 0));
    program[0].goals[0] = program[0].goals[1] = (media_goal){MEDIA_GOAL_CLOSE, 0};
    program[0].count = 1;
    program[0].rules[0] = (media_rule){MEDIA_TOLD, 1, 0, 1};
    program[1].goals[0] = (media_goal){MEDIA_GOAL_LINK, 1};
    program[1].goals[1] = (media_goal){MEDIA_GOAL_LINK, 0};
    program[1].count = 1;
    program[1].rules[0] = (media_rule){MEDIA_TOLD, 0, 0, 0};
    want(media_box_make_programmed(&boxes[DESK], &desk, slots, 2, program, 2), "make");
}

static void print_code(uint32_t code) {
    media_text text;
    if (media_box_text(code, &text) != MEDIA_OK) abort();
    printf("%u %s\n", (unsigned)code, text.at);
}

/* Every number may be anything, and nothing changes. */
static void refuse(void) {
    media_sent sent[MEDIA_ROOM];
    size_t count = 7;
    media_signal signal;
    media_text text;
    media_box none = MEDIA_BOX_NONE;
    media_event event = {MEDIA_TALK, 0, 2};
    memset(&signal, 0xff, sizeof signal);
    print_code(media_box_take(&none, 0, &signal, sent, MEDIA_ROOM, &count));
    print_code(media_box_take(&boxes[ALICE], 0, &signal, sent, MEDIA_ROOM, &count));
    print_code(media_box_take(&boxes[ALICE], 9, &signal, sent, MEDIA_ROOM, &count));
    signal = (media_signal){.kind = MEDIA_OPEN, .medium = MEDIA_AUDIO, .codecs = {2, {5, 5}}};
    print_code(media_box_take(&boxes[ALICE], 0, &signal, sent, MEDIA_ROOM, &count));
    signal.codecs.count = 9;
    print_code(media_box_take(&boxes[ALICE], 0, &signal, sent, MEDIA_ROOM, &count));
    signal = (media_signal){.kind = MEDIA_CLOSEACK};
    print_code(media_box_take(&boxes[ALICE], 0, &signal, sent, MEDIA_ROOM, &count));
    print_code(media_box_take(&boxes[ALICE], 0, &signal, sent, 2, &count));
    print_code(media_box_act(&boxes[ALICE], &event, sent, MEDIA_ROOM, &count));
    event = (media_event){MEDIA_SET_LINK, 0, 0};
    print_code(media_box_act(&boxes[DESK], &event, sent, MEDIA_ROOM, &count));
    event = (media_event){MEDIA_TELL, 0, 0};
    print_code(media_box_act(&boxes[ALICE], &event, sent, MEDIA_ROOM, &count));
    media_setup again = setup(ALICE, MEDIA_DEVICE, codecs(0, 0, 0));
    print_code(media_box_make(&boxes[ALICE], &again, (media_slot[]){{.origin = 9}}, 1));
    print_code(media_box_make(&none, &again, (media_slot[]){{.origin = 9, .has_address = 2}}, 1));
    printf("count %zu, text of 10: %u\n", count, (unsigned)media_box_text(10, &text));
}

int main(void) {
    /* alice's media address is 192.0.2.1:40000, and bob's 192.0.2.2:40000 */
    media_slot phone[] = {{MEDIA_AUDIO, 1, 0, 1, 40000, 0xc0000201}};
    media_slot other[] = {{MEDIA_AUDIO, 0, 3, 1, 40000, 0xc0000202}};
    media_setup alice = setup(ALICE, MEDIA_DEVICE, codecs(2, 8, 0)), bob = setup(BOB, MEDIA_DEVICE, codecs(2, 0, 8));
    if (media_box_version() != MEDIA_BOX_VERSION) return 1;
    want(media_box_make(&boxes[ALICE], &alice, phone, 1), "make");
    want(media_box_make(&boxes[BOB], &bob, other, 1), "make");
    make_desk();
    refuse();

    act(BOB, MEDIA_SET_GOAL, 0, MEDIA_GOAL_HOLD);
    act(ALICE, MEDIA_SET_GOAL, 0, MEDIA_GOAL_OPEN);
    settle();
    show("the desk lets nobody through");
    act(DESK, MEDIA_TELL, 1, 0);
    act(ALICE, MEDIA_RETRY, 0, 0);
    settle();
    show("talking");
    act(ALICE, MEDIA_HEAR, 0, 0);
    act(ALICE, MEDIA_TALK, 0, 0);
    settle();
    show("on hold");
    act(ALICE, MEDIA_HEAR, 0, 1);
    act(ALICE, MEDIA_TALK, 0, 1);
    settle();
    show("talking again");
    act(ALICE, MEDIA_SET_GOAL, 0, MEDIA_GOAL_CLOSE);
    act(DESK, MEDIA_TELL, 0, 0);
    settle();
    show("closed");

    for (int i = 0; i < BOXES; i++) want(media_box_end(&boxes[i]), "end");
    print_code(media_box_end(&boxes[ALICE]));
    return 0;
}
