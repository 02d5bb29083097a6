/* Networks of boxes and scripts that are drawn: what the files of this folder share. */
#ifndef DRAWN_H
#define DRAWN_H

#include <stdio.h>
#include "media_box.h"

enum {
    BOX_MOST = 10,
    CHANNEL_MOST = 20,
    TUNNEL_MOST = 30,
    SLOT_MOST = 2 * TUNNEL_MOST, /* of the network */
    CODEC_MOST = 8,
    STATE_MOST = 4,
    WORD_MOST = 4,
    BATCH_MOST = 160,
    SETTLE_MOST = 6,
    NONE = -1
};

/* ---- draws */

struct draws {
    uint64_t at;
};
extern struct draws of_text;

uint32_t draw(struct draws *from, uint32_t end);
/* A draw of what the text says. */
int below(int end);
bool one_in(int count);

/* ---- networks */

struct box {
    media_setup setup;
    bool sends_apart; /* it has a `send` line */
    uint8_t count;
    media_slot slots[MEDIA_SLOT_LIMIT]; /* the origin of a slot is its number in the network */
    uint8_t state_count;                /* 0: it has no program */
    media_state states[STATE_MOST];
    bool awaits_slots; /* a transition waits for a state of a slot */
    bool forgets;      /* each state waits for each word, and the word alone says which state is next */
};
struct tunnel {
    uint8_t channel, medium;
};
struct end {
    uint8_t box, slot;
};
struct network {
    int version; /* of the text */
    int codec_count, box_count, channel_count, tunnel_count, word_count;
    bool has_programs;
    unsigned awaited; /* the words that some program waits for, as bits */
    struct box boxes[BOX_MOST];
    struct tunnel tunnels[TUNNEL_MOST];
    struct end ends[SLOT_MOST]; /* tunnel t has the ends 2t, which is the initiator's, and 2t + 1 */
};
extern struct network net;

int slot_count(void);
/* The number in the network of a box's slot. */
int number_of(int box, int slot);
bool is_feature(int box);

void draw_network(void);
uint8_t draw_end_goal(void);
/* Names a link that a state or a command may make, where that leaves no closed chain of tunnels and named links. */
bool name_link(int one, int other);

/* ---- scripts */

struct command {
    int box;
    media_event event;
};
struct batch {
    int count;
    struct command commands[BATCH_MOST];
};
/* The batches of the settles, and one more, which is read and not made. */
struct script {
    int settle_count;
    struct batch batches[SETTLE_MOST + 1];
};
extern struct script script;

/* Draws a network and a script whose text alone decides what is printed. */
void draw_all(void);

/* ---- texts */

extern const char *const goal_names[], *const medium_names[], *const state_names[];

/* The first letter of a box's name. */
char letter(int box);
void write_text(FILE *to);

#endif
