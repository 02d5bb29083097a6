/* shards FOLDER FIRST COUNT [lost | two | cuts]: networks whose boxes are spread over shards, and scripts for them, all drawn.
 * Some features have programs. Processes host the shards by the calls of media_shard.h. They crash between any two
 * steps, and second ones begin while the first still live. Memory is refused to them. An engine keeps the journals: it
 * loses appends and answers, doubles them, and takes them late. What was sent is lost, doubled, damaged and overtaken
 * on its way, and read again in the journals. Processes save their shards at any moment, a store loses some of these
 * snapshots and gets others late, and what may be cut of the journals is cut, so nobody reads it any more but this
 * program, to compare. With one library a seed draws the same run under each compiler.
 *
 * For each of COUNT seeds N, from FIRST on, FOLDER/N.media is the text, FOLDER/N.journal the journal of all shards
 * together, and FOLDER/N.seen what the slots of the living shards came to at each settle, in the lines that `mediactl
 * run` prints. The text alone decides these lines. Standard output has a line for each seed: what was counted, and
 * `fault` with what was wrong, if anything was; then there may be no journal.
 *
 * With a fourth word the engine breaks its promise now and then: `lost` loses entries that it had taken and answered,
 * `two` lets a second process write at a place that has an entry, over it or behind all, and `cuts` cuts off entries
 * that may not be cut. No shards are saved under the first two. */
#include <stdarg.h>
#include <stdio.h>
#include <stdlib.h>
#include <string.h>
#include "media_shard.h"

enum {
    SHARD_MOST = 64,
    BOX_MOST = 192,
    BOX_SLOT_MOST = 24,
    CHANNEL_MOST = 256,
    TUNNEL_MOST = 512,
    SLOT_MOST = 2 * TUNNEL_MOST, /* of the network */
    END_MOST = 2 * CHANNEL_MOST,
    CODEC_MOST = 6,
    STATE_MOST = 4, /* of a program */
    WORD_MOST = 3,
    ASKER_MOST = 3,
    BATCH_MOST = 2048,
    SETTLE_MOST = 6,
    PROCESS_MOST = 3, /* of a shard at once */
    MESSAGE_MOST = 256,
    APPEND_MOST = 16,
    LOSS_MOST = 64,
    SAVE_MOST = 4, /* snapshots of a shard on their way */
    SIGNAL_SIZE = 54, /* bytes of a signal in an entry, of which the first are the number of its end */
    END_SIZE = 4,
    NONE = -1
};

/* ---- draws: of what the text says, and of what befalls the shards */

struct draws {
    uint64_t at;
};
static struct draws of_text, of_run;

static uint32_t draw(struct draws *from, uint32_t end) {
    uint64_t x = from->at += UINT64_C(0x9e3779b97f4a7c15);
    x = (x ^ x >> 30) * UINT64_C(0xbf58476d1ce4e5b9);
    x = (x ^ x >> 27) * UINT64_C(0x94d049bb133111eb);
    return (uint32_t)((x ^ x >> 31) >> 32) % end;
}
static int below(int end) { return (int)draw(&of_text, (uint32_t)end); }
static bool one_in(int count) { return below(count) == 0; }
static int among(int end) { return (int)draw(&of_run, (uint32_t)end); }
static bool happens(int one_of) { return one_of > 0 && among(one_of) == 0; }

/* ---- what is counted, and what is wrong */

enum count {
    SHARDS, BOXES, SETTLES, TURNS, SIGNALS, CROSSING, CRASHES, LATE_WRITES, SECOND_OWNERS, CLAIMS, FENCED, REPLAYED,
    APPENDS, REFUSED, UNANSWERED, LOST_APPENDS, DOUBLED_APPENDS, LOST_SIGNALS, DOUBLED_SIGNALS, READ_AGAIN, DAMAGED,
    HAD, EARLY, RESENT, RETRIES, MEMORY, PROBES, SPOILT, SAVED, UNKEPT, RESUMED, OUTRUN, CUT, BREAKS, HARMED, COUNTS
};
static const char *const count_names[COUNTS] = {
    "shards", "boxes", "settles", "turns", "signals", "crossing", "crashes", "late", "second", "claims", "fenced",
    "replayed", "appends", "refused", "unanswered", "lost", "doubled", "undelivered", "twice", "reread", "damaged",
    "had", "early", "resent", "retries", "memory", "probes", "spoilt", "saved", "unkept", "resumed", "outrun", "cut",
    "breaks", "harmed"};
static unsigned long counts[COUNTS];
static char fault[400]; /* the first thing that was wrong, or nothing */

__attribute__((format(printf, 1, 2))) static void note(const char *form, ...) {
    if (fault[0] != 0) return;
    va_list words;
    va_start(words, form);
    vsnprintf(fault, sizeof fault, form, words);
    va_end(words);
}

static const char *code_text(uint32_t code) {
    static media_text text;
    return media_shard_text(code, &text) == MEDIA_OK ? text.at : "no code";
}

/* Whether it was done; else that is wrong. */
static bool went(uint32_t code, const char *what, int shard) {
    if (code != MEDIA_OK) note("%s: shard %d: %s", what, shard, code_text(code));
    return code == MEDIA_OK;
}

/* ---- the network: boxes, their channels, and the shards that have them */

struct box {
    media_setup setup;
    bool sends_apart; /* it has a `send` line */
    int count, slots[BOX_SLOT_MOST];
    int shard, number; /* which shard has it, and its number there */
    uint8_t state_count; /* 0: it has no program */
    media_state states[STATE_MOST];
    uint8_t targets[WORD_MOST]; /* the state to which each told word leads, from any state */
};
struct slot {
    int box, channel;
    uint8_t local, tunnel; /* its number in its box, and that of its tunnel in its channel */
    media_slot made;
};
struct shard {
    int box_count, boxes[BOX_MOST];
    int end_count, ends[END_MOST]; /* channel ends, by their numbers in the shard */
    int askers;
};
static struct network {
    int codec_count, box_count, channel_count, slot_count, shard_count, word_count;
    struct box boxes[BOX_MOST];
    struct slot slots[SLOT_MOST]; /* tunnel t has the slots 2t, which is the initiator's, and 2t + 1 */
    int end_boxes[END_MOST];      /* channel k has the ends 2k, which is the initiator's, and 2k + 1 */
    int end_numbers[END_MOST];    /* of each end in its shard */
    struct shard shards[SHARD_MOST];
} net;

static bool has_program(int box) { return net.boxes[box].state_count > 0; }
static bool is_feature(int box) { return net.boxes[box].setup.kind == MEDIA_FEATURE; }
static int end_of(int slot) { return 2 * net.slots[slot].channel + slot % 2; }
static int shard_of(int end) { return net.boxes[net.end_boxes[end]].shard; }

static void draw_codecs(media_codecs *list) {
    uint8_t all[CODEC_MOST];
    memset(list, 0, sizeof *list);
    for (int i = 0; i < net.codec_count; i++) all[i] = (uint8_t)i;
    list->count = (uint8_t)(one_in(8) ? 0 : 1 + below(net.codec_count));
    for (int i = 0; i < list->count; i++) {
        int from = i + below(net.codec_count - i);
        list->at[i] = all[from];
        all[from] = all[i];
    }
}

static int add_box(uint8_t kind) {
    if (net.box_count == BOX_MOST) abort();
    struct box *it = &net.boxes[net.box_count];
    memset(it, 0, sizeof *it);
    it->setup.kind = kind;
    it->setup.number = (uint32_t)net.box_count;
    it->setup.first_version = 1;
    if (kind == MEDIA_FEATURE) return net.box_count++;
    draw_codecs(&it->setup.receives);
    it->setup.sends = it->setup.receives;
    it->sends_apart = one_in(3);
    if (it->sends_apart) draw_codecs(&it->setup.sends);
    if (one_in(4)) it->setup.first_version = 1 + (uint32_t)below(9);
    return net.box_count++;
}

static void add_slot(int box, uint8_t medium, int tunnel) {
    struct box *it = &net.boxes[box];
    int number = net.slot_count++;
    if (it->count == BOX_SLOT_MOST || net.slot_count > SLOT_MOST) abort();
    struct slot *slot = &net.slots[number];
    memset(slot, 0, sizeof *slot);
    slot->box = box;
    slot->channel = net.channel_count;
    slot->local = (uint8_t)it->count;
    slot->tunnel = (uint8_t)tunnel;
    slot->made.medium = medium;
    slot->made.initiator = number % 2 == 0;
    slot->made.origin = (uint32_t)number;
    it->slots[it->count++] = number;
    if (is_feature(box) || one_in(2)) return;
    slot->made.has_address = 1;
    slot->made.addr = draw(&of_text, UINT32_MAX);
    slot->made.port = (uint16_t)below(1 << 16);
}

static void add_channel(int one, int other, bool has_video) {
    if (net.channel_count == CHANNEL_MOST) abort();
    int initiator = one_in(2) ? one : other;
    for (int i = 0; i <= has_video; i++) {
        add_slot(initiator, i == 0 ? MEDIA_AUDIO : MEDIA_VIDEO, i);
        add_slot(one + other - initiator, i == 0 ? MEDIA_AUDIO : MEDIA_VIDEO, i);
    }
    net.end_boxes[2 * net.channel_count] = initiator;
    net.end_boxes[2 * net.channel_count + 1] = one + other - initiator;
    net.channel_count++;
}

/* A feature with room for slots, or NONE. */
static int pick_feature(void) {
    int found = NONE, count = 0;
    for (int i = 0; i < net.box_count; i++)
        if (is_feature(i) && net.boxes[i].count + 2 <= BOX_SLOT_MOST && one_in(++count)) found = i;
    return found;
}

static void add_phone(int feature) {
    int phone = add_box(MEDIA_DEVICE);
    add_channel(feature, phone, one_in(4));
}

/* A phone, features in a row, and a phone. Sometimes one more phone is at a feature, or another call's feature; so the
 * boxes never stand in a ring. */
static void add_call(void) {
    int more = one_in(3) ? pick_feature() : NONE;
    bool has_video = one_in(4);
    int last = add_box(MEDIA_DEVICE);
    for (int i = below(4); i > 0; i--) {
        int feature = add_box(MEDIA_FEATURE);
        add_channel(last, feature, has_video);
        last = feature;
        if (one_in(4)) add_phone(feature);
    }
    if (more != NONE && is_feature(last)) add_channel(last, more, one_in(4));
    add_channel(last, add_box(MEDIA_DEVICE), has_video);
}

/* Each shard gets a box; where the others come is drawn. */
static void draw_shards(void) {
    int order[BOX_MOST];
    for (int i = 0; i < net.box_count; i++) {
        int at = below(i + 1);
        order[i] = order[at];
        order[at] = i;
    }
    for (int i = 0; i < net.box_count; i++)
        net.boxes[order[i]].shard = i < net.shard_count ? i : below(net.shard_count);
    memset(net.shards, 0, sizeof net.shards);
    for (int i = 0; i < net.box_count; i++) {
        struct shard *here = &net.shards[net.boxes[i].shard];
        net.boxes[i].number = here->box_count;
        here->boxes[here->box_count++] = i;
    }
    for (int end = 0; end < 2 * net.channel_count; end++) {
        struct shard *here = &net.shards[shard_of(end)];
        net.end_numbers[end] = here->end_count;
        here->ends[here->end_count++] = end;
    }
    for (int i = 0; i < net.shard_count; i++) net.shards[i].askers = 1 + below(ASKER_MOST);
}

/* Another slot of the box with the same medium, for which no goal is drawn yet, or NONE. */
static int pick_partner(int box, int local, const bool *is_drawn) {
    const struct box *it = &net.boxes[box];
    int found = NONE, count = 0;
    uint8_t medium = net.slots[it->slots[local]].made.medium;
    for (int i = 0; i < it->count; i++)
        if (i != local && !is_drawn[i] && net.slots[it->slots[i]].made.medium == medium && one_in(++count)) found = i;
    return found;
}

/* Links, and ends that open or close: so no path is hold against hold by a program. */
static void draw_goals(int box, media_state *state) {
    bool is_drawn[BOX_SLOT_MOST] = {false};
    for (int i = 0; i < net.boxes[box].count; i++) {
        if (is_drawn[i]) continue;
        int partner = one_in(4) ? NONE : pick_partner(box, i, is_drawn);
        is_drawn[i] = true;
        state->goals[i] = (media_goal){one_in(2) ? MEDIA_GOAL_OPEN : MEDIA_GOAL_CLOSE, 0};
        if (partner == NONE) continue;
        is_drawn[partner] = true;
        state->goals[i] = (media_goal){MEDIA_GOAL_LINK, (uint8_t)partner};
        state->goals[partner] = (media_goal){MEDIA_GOAL_LINK, (uint8_t)i};
    }
}

/* Each state waits for each word, and the last word alone says at which state the program ends. */
static void draw_program(int box) {
    struct box *it = &net.boxes[box];
    it->state_count = (uint8_t)(1 + below(STATE_MOST));
    for (int word = 0; word < net.word_count; word++) it->targets[word] = (uint8_t)below(it->state_count);
    for (int i = 0; i < it->state_count; i++) {
        media_state *state = &it->states[i];
        draw_goals(box, state);
        for (int word = 0; word < net.word_count; word++)
            state->rules[state->count++] = (media_rule){MEDIA_TOLD, (uint8_t)word, 0, it->targets[word]};
    }
}

static void draw_network(void) {
    memset(&net, 0, sizeof net);
    net.codec_count = 1 + below(CODEC_MOST);
    int calls = one_in(8) ? 8 + below(14) : 1 + below(4);
    for (int i = 0; i < calls; i++) add_call();
    net.word_count = 1 + below(WORD_MOST);
    bool has_programs = one_in(2);
    for (int i = 0; has_programs && i < net.box_count; i++)
        if (is_feature(i) && one_in(3)) draw_program(i);
    int most = net.box_count < SHARD_MOST ? net.box_count : SHARD_MOST;
    net.shard_count = one_in(2) ? 1 + below(most) : 1 + below(most < 6 ? most : 6);
    draw_shards();
}

/* ---- the script, whose text alone decides what is printed: no path is hold against hold at a settle */

struct command {
    int box;
    media_event event;
    uint32_t asker;
    uint64_t number;
};
struct batch {
    int count;
    struct command commands[BATCH_MOST];
};
static struct script {
    int settle_count;
    struct batch batches[SETTLE_MOST];
} script;
static struct goal {
    uint8_t goal;
    int partner;
} goals[SLOT_MOST];
static uint64_t asked_so_far[SHARD_MOST][ASKER_MOST];

static void set_free(int slot) {
    if (goals[slot].goal == MEDIA_GOAL_LINK) goals[goals[slot].partner].goal = MEDIA_GOAL_HOLD;
}

/* A program comes to a state. */
static void enter(int box, int state) {
    const struct box *it = &net.boxes[box];
    for (int i = 0; i < it->count; i++) {
        media_goal goal = it->states[state].goals[i];
        goals[it->slots[i]] = (struct goal){goal.goal, goal.goal == MEDIA_GOAL_LINK ? it->slots[goal.partner] : NONE};
    }
}

static void apply(const struct command *it) {
    const struct box *box = &net.boxes[it->box];
    if (it->event.kind == MEDIA_TELL) {
        enter(it->box, box->targets[it->event.first]);
        return;
    }
    int one = box->slots[it->event.first];
    if (it->event.kind == MEDIA_SET_GOAL) {
        set_free(one);
        goals[one].goal = it->event.second;
    }
    if (it->event.kind == MEDIA_SET_LINK) {
        int other = box->slots[it->event.second];
        set_free(one);
        set_free(other);
        goals[one] = (struct goal){MEDIA_GOAL_LINK, other};
        goals[other] = (struct goal){MEDIA_GOAL_LINK, one};
    }
}

/* All that is asked of one box is asked by one asker, so it is made in this order. */
static void add_command(struct batch *batch, int box, uint8_t kind, int first, int second) {
    if (batch->count == BATCH_MOST) abort();
    struct command *it = &batch->commands[batch->count++];
    int shard = net.boxes[box].shard;
    *it = (struct command){box, {kind, (uint8_t)first, (uint8_t)second}, 0, 0};
    it->asker = (uint32_t)(net.boxes[box].number % net.shards[shard].askers);
    it->number = ++asked_so_far[shard][it->asker];
    apply(it);
}

/* The end at which the path from this one ends. */
static int far_end(int slot) {
    int at = slot ^ 1;
    while (goals[at].goal == MEDIA_GOAL_LINK) at = goals[at].partner ^ 1;
    return at;
}

static void decide(struct batch *batch) {
    for (int i = 0; i < net.slot_count; i++) {
        if (goals[i].goal != MEDIA_GOAL_HOLD || goals[far_end(i)].goal != MEDIA_GOAL_HOLD) continue;
        int goal = one_in(4) ? MEDIA_GOAL_CLOSE : MEDIA_GOAL_OPEN;
        add_command(batch, net.slots[i].box, MEDIA_SET_GOAL, net.slots[i].local, goal);
    }
}

static int draw_goal(void) {
    int n = below(20);
    return n < 10 ? MEDIA_GOAL_OPEN : n < 16 ? MEDIA_GOAL_HOLD : MEDIA_GOAL_CLOSE;
}

static void draw_command(struct batch *batch) {
    const bool none_is_drawn[BOX_SLOT_MOST] = {false};
    int box = below(net.box_count), local = below(net.boxes[box].count);
    if (has_program(box)) {
        add_command(batch, box, MEDIA_TELL, below(net.word_count), 0);
        return;
    }
    int partner = is_feature(box) && !one_in(5) ? pick_partner(box, local, none_is_drawn) : NONE;
    if (partner != NONE) add_command(batch, box, MEDIA_SET_LINK, local, partner);
    else if (is_feature(box) || !one_in(3)) add_command(batch, box, MEDIA_SET_GOAL, local, draw_goal());
    else if (one_in(2)) add_command(batch, box, MEDIA_HEAR, local, !one_in(3));
    else add_command(batch, box, MEDIA_TALK, local, !one_in(3));
}

/* Links through all features, and a goal for each phone. */
static void draw_first(struct batch *batch) {
    const bool none_is_drawn[BOX_SLOT_MOST] = {false};
    for (int box = 0; box < net.box_count; box++)
        for (int i = 0; i < net.boxes[box].count && !has_program(box); i++) {
            int partner = is_feature(box) ? pick_partner(box, i, none_is_drawn) : NONE;
            if (partner != NONE && !one_in(8)) add_command(batch, box, MEDIA_SET_LINK, i, partner);
            if (!is_feature(box)) add_command(batch, box, MEDIA_SET_GOAL, i, draw_goal());
        }
}

static void draw_script(void) {
    for (int i = 0; i < SLOT_MOST; i++) goals[i] = (struct goal){MEDIA_GOAL_CLOSE, NONE};
    memset(asked_so_far, 0, sizeof asked_so_far);
    for (int i = 0; i < net.box_count; i++)
        if (has_program(i)) enter(i, 0);
    script.settle_count = 1 + below(SETTLE_MOST);
    for (int i = 0; i < script.settle_count; i++) {
        struct batch *batch = &script.batches[i];
        batch->count = 0;
        if (i == 0) draw_first(batch);
        for (int more = below(4 + net.box_count); more > 0; more--) draw_command(batch);
        decide(batch);
    }
}

/* ---- the text */

static const char *const goal_names[] = {"open", "close", "hold"};
static const char *const medium_names[] = {"audio", "video"};
static const char *const state_names[] = {"closed", "opening", "opened", "flowing", "closing"};

static char letter(int box) { return is_feature(box) ? 'f' : 'd'; }

static void write_codecs(FILE *to, const media_codecs *list) {
    for (int i = 0; i < list->count; i++) fprintf(to, " c%d", list->at[i]);
    fputc('\n', to);
}

static void write_boxes(FILE *to) {
    fprintf(to, "media 2\n");
    for (int i = 0; i < net.codec_count; i++) fprintf(to, "codec c%d\n", i);
    for (int i = 0; i < net.box_count; i++) {
        const media_setup *setup = &net.boxes[i].setup;
        fprintf(to, "%s %c%d", is_feature(i) ? "feat" : "dev", letter(i), i);
        if (setup->first_version != 1) fprintf(to, " %lu", (unsigned long)setup->first_version);
        write_codecs(to, &setup->receives);
        if (!net.boxes[i].sends_apart) continue;
        fprintf(to, "send d%d", i);
        write_codecs(to, &setup->sends);
    }
}

static void write_channels(FILE *to) {
    for (int i = 0; i < net.slot_count; i += 2) {
        const struct slot *one = &net.slots[i], *other = &net.slots[i + 1];
        const char *medium = medium_names[one->made.medium];
        if (one->tunnel > 0) fprintf(to, "also %s s%d s%d\n", medium, one->local, other->local);
        else
            fprintf(to, "chan %s %c%d s%d %c%d s%d\n", medium, letter(one->box), one->box, one->local,
                    letter(other->box), other->box, other->local);
    }
}

static void write_state(FILE *to, const struct box *box, int number) {
    const media_state *state = &box->states[number];
    fprintf(to, "state p%d\n", number);
    for (int i = 0; i < box->count; i++) {
        const media_goal *goal = &state->goals[i];
        if (goal->goal != MEDIA_GOAL_LINK) fprintf(to, "goal s%d %s\n", i, goal_names[goal->goal]);
        else if (goal->partner > i) fprintf(to, "link s%d s%d\n", i, goal->partner);
    }
    for (int i = 0; i < state->count; i++)
        fprintf(to, "when told w%d p%d\n", state->rules[i].first, state->rules[i].target);
}

static void write_programs(FILE *to) {
    for (int i = 0; i < net.box_count; i++) {
        if (!has_program(i)) continue;
        fprintf(to, "prog f%d", i);
        for (int state = 0; state < net.boxes[i].state_count; state++) fprintf(to, " p%d", state);
        fputc('\n', to);
        for (int state = 0; state < net.boxes[i].state_count; state++) write_state(to, &net.boxes[i], state);
    }
}

/* An event of a box as texts and journals have it. */
static void write_event(FILE *to, int box, media_event event) {
    char name = letter(box);
    int first = event.first, second = event.second;
    switch (event.kind) {
    case MEDIA_SET_GOAL: fprintf(to, "set %c%d s%d %s\n", name, box, first, goal_names[second]); break;
    case MEDIA_SET_LINK: fprintf(to, "link %c%d s%d s%d\n", name, box, first, second); break;
    case MEDIA_HEAR: fprintf(to, "hear %c%d s%d %s\n", name, box, first, second ? "on" : "off"); break;
    case MEDIA_TALK: fprintf(to, "talk %c%d s%d %s\n", name, box, first, second ? "on" : "off"); break;
    case MEDIA_TELL: fprintf(to, "tell %c%d w%d\n", name, box, first); break;
    case MEDIA_SHIFT: fprintf(to, "shift %c%d\n", name, box); break;
    case MEDIA_RETRY: fprintf(to, "retry %c%d s%d\n", name, box, first); break;
    case MEDIA_TAKE: fprintf(to, "take %c%d s%d\n", name, box, first); break;
    default: fprintf(to, "event %d\n", event.kind); /* that no text has */
    }
}

static void write_text(FILE *to) {
    write_boxes(to);
    write_channels(to);
    write_programs(to);
    fprintf(to, "begin\n");
    for (int i = 0; i < script.settle_count; i++) {
        const struct batch *batch = &script.batches[i];
        for (int k = 0; k < batch->count; k++) write_event(to, batch->commands[k].box, batch->commands[k].event);
        fprintf(to, "settle\n");
    }
}

/* ---- what goes wrong in a run, and how often: each number says one of how many times, and 0 never */

enum engine { SOUND, LOSES, TWO_WRITE, CUTS };
static enum engine engine;
static struct odds {
    int crash, begin_second, lose_append, double_append, lose_answer, stale_read, lose_signal, double_signal, damage,
        lose_message, refuse_memory, probe, save, lose_snapshot, break_promise;
} odds, calm;

static int rate(int from, int to) { return among(4) == 0 ? 0 : from + among(to - from + 1); }

static void draw_odds(void) {
    memset(&calm, 0, sizeof calm);
    odds = calm;
    odds.crash = rate(20, 400);
    odds.begin_second = rate(30, 800);
    odds.lose_append = rate(3, 40);
    odds.double_append = rate(3, 40);
    odds.lose_answer = rate(3, 40);
    odds.stale_read = rate(3, 20);
    odds.lose_signal = rate(2, 20);
    odds.double_signal = rate(2, 20);
    odds.damage = rate(10, 60);
    odds.lose_message = rate(4, 40);
    odds.refuse_memory = rate(30, 900);
    odds.probe = rate(8, 80);
    odds.save = rate(4, 60);
    odds.lose_snapshot = rate(2, 20);
    if (engine == LOSES) odds.break_promise = 20 + among(300);
    if (engine == TWO_WRITE) odds.break_promise = 1 + among(20);
    if (engine == CUTS) odds.break_promise = 1 + among(20);
    if (engine == LOSES || engine == TWO_WRITE) odds.save = 0;
}

/* ---- memory, which is refused to processes now and then: the linker has malloc and realloc lead here */

void *__real_malloc(size_t size);
void *__real_realloc(void *at, size_t size);
void *__wrap_malloc(size_t size);
void *__wrap_realloc(void *at, size_t size);
static bool may_refuse;

static bool is_refused(void) {
    bool refused = may_refuse && happens(odds.refuse_memory);
    counts[MEMORY] += refused;
    return refused;
}
void *__wrap_malloc(size_t size) { return is_refused() ? NULL : __real_malloc(size); }
void *__wrap_realloc(void *at, size_t size) { return is_refused() ? NULL : __real_realloc(at, size); }

/* Whether this code says that memory was refused, as it may be now. */
static bool lacks_memory(uint32_t code) { return may_refuse && code == MEDIA_MEMORY; }

static void *room_for(void *at, size_t size) {
    void *more = __real_realloc(at, size);
    if (more == NULL) abort();
    return more;
}

/* ---- the engine: a journal of each shard, what is on its way to it, and the answers */

struct place {
    uint8_t *bytes;
    size_t size;
    bool is_mark; /* it isn't an entry, but a process's word that it owns the shard from here on */
    media_entry entry;
    media_at_end *sent;
    size_t sent_count;
};
struct append {
    uint32_t process;
    size_t expected;
    uint8_t *bytes;
    size_t size;
};
struct answer {
    uint32_t process;
    size_t expected;
    bool accepted;
};
struct journal {
    struct place *at;
    size_t count, room;
    size_t cut; /* how many places were cut off: nobody but the comparisons reads them any more */
    struct append appends[APPEND_MOST];
    struct answer answers[APPEND_MOST];
    int append_count, answer_count;
};
static struct journal journals[SHARD_MOST];

/* What the journals say: how many signals were sent and taken at each channel end, the last number of each asker, the
 * greatest stamp, and of each program whether it is at a state, and whether it has a word to go on by. */
static uint64_t sent_at[END_MOST], taken_at[END_MOST], made_of[SHARD_MOST][ASKER_MOST], greatest;
static bool is_at_state[BOX_MOST], has_word[BOX_MOST];

static int end_at(int shard, uint32_t number) { return net.shards[shard].ends[number]; }

/* The retries that are owed: each is asked for once, of a process that knows its journal up to the cut. */
struct owed {
    int slot;
    bool is_made, is_disabled;
};
static struct owed owed[SLOT_MOST];
static int owed_count;
static size_t cuts[SHARD_MOST];

static void count_retry(int shard, const media_entry *entry) {
    for (int i = 0; i < owed_count; i++) {
        const struct box *box = &net.boxes[net.slots[owed[i].slot].box];
        if (box->shard == shard && (uint32_t)box->number == entry->box
            && net.slots[owed[i].slot].local == entry->event.first) owed[i].is_made = true;
    }
}

static void count_program(int box, uint8_t kind) {
    if (kind == MEDIA_TELL) has_word[box] = true;
    if (kind == MEDIA_SHIFT && is_at_state[box]) has_word[box] = false;
    if (kind == MEDIA_SHIFT) is_at_state[box] = true;
}

static void count_place(int shard, const struct place *it) {
    if (it->is_mark) return;
    count_program(net.shards[shard].boxes[it->entry.box], it->entry.event.kind);
    for (size_t i = 0; i < it->sent_count; i++) sent_at[end_at(shard, it->sent[i].end)] = it->sent[i].number;
    if (it->entry.has_taken) taken_at[end_at(shard, it->entry.taken.end)] = it->entry.taken.number;
    if (it->entry.asked.has_asker) made_of[shard][it->entry.asked.asker] = it->entry.asked.number;
    if (it->entry.event.kind == MEDIA_RETRY) count_retry(shard, &it->entry);
    if (it->entry.stamp > greatest) greatest = it->entry.stamp;
}

static void count_again(void) {
    memset(sent_at, 0, sizeof sent_at);
    memset(taken_at, 0, sizeof taken_at);
    memset(made_of, 0, sizeof made_of);
    memset(is_at_state, 0, sizeof is_at_state);
    memset(has_word, 0, sizeof has_word);
    for (int i = 0; i < net.shard_count; i++)
        for (size_t k = 0; k < journals[i].count; k++) count_place(i, &journals[i].at[k]);
}

static void clear_place(struct place *it) {
    free(it->bytes);
    free(it->sent);
}

/* Reads what stands at a place. */
static void read_place(int shard, struct place *it) {
    static media_at_end sent[MEDIA_SENT_ROOM];
    it->is_mark = it->bytes[0] == 0;
    it->sent = NULL;
    it->sent_count = 0;
    if (it->is_mark) return;
    uint32_t code = media_entry_read(it->bytes, it->size, &it->entry, sent, MEDIA_SENT_ROOM, &it->sent_count);
    if (!went(code, "read", shard)) return;
    if (it->entry.size != it->size) note("read: shard %d: an entry has another size", shard);
    it->sent = room_for(NULL, (it->sent_count + 1) * sizeof *sent);
    memcpy(it->sent, sent, it->sent_count * sizeof *sent);
}

static struct place place_of(int shard, const struct append *from) {
    struct place it = {.bytes = room_for(NULL, from->size), .size = from->size};
    memcpy(it.bytes, from->bytes, from->size);
    read_place(shard, &it);
    return it;
}

static void push_place(int shard, const struct append *from) {
    struct journal *to = &journals[shard];
    if (to->count == to->room) {
        to->room = to->room > 0 ? 2 * to->room : 64;
        to->at = room_for(to->at, to->room * sizeof *to->at);
    }
    to->at[to->count] = place_of(shard, from);
    count_place(shard, &to->at[to->count++]);
}

/* What the engine has lost, and whether it stood when all had settled. */
struct loss {
    int shard;
    bool was_settled;
    struct place place;
};
static struct loss losses[LOSS_MOST];
static int loss_count;
static size_t settled_places[SHARD_MOST];

static void lose_place(int shard, size_t number) {
    if (loss_count == LOSS_MOST) abort();
    losses[loss_count++] = (struct loss){shard, number < settled_places[shard], journals[shard].at[number]};
}

/* A second process writes where an entry stands already: over it, or behind all. */
static void write_anyway(int shard, const struct append *from) {
    counts[BREAKS]++;
    if (among(2) == 0) {
        push_place(shard, from);
        return;
    }
    lose_place(shard, from->expected);
    journals[shard].at[from->expected] = place_of(shard, from);
    count_again();
}

/* The last entries of a journal are lost. */
static void lose_places(int shard) {
    struct journal *it = &journals[shard];
    for (int i = among(2); i >= 0 && it->count > 0; i--) lose_place(shard, --it->count);
    counts[BREAKS]++;
    count_again();
}

/* Whether the engine breaks its promise so, now. */
static bool breaks(enum engine how) {
    return engine == how && loss_count + 2 <= LOSS_MOST && happens(odds.break_promise);
}

static bool has_bytes(const struct place *it, const uint8_t *bytes, size_t size) {
    return it->size == size && memcmp(it->bytes, bytes, size) == 0;
}

/* An append that comes to the engine: it is taken where its place is the next one. */
static bool accept(int shard, const struct append *it) {
    const struct journal *to = &journals[shard];
    if (it->expected == to->count) {
        push_place(shard, it);
        return true;
    }
    bool is_other = it->expected < to->count && !has_bytes(&to->at[it->expected], it->bytes, it->size);
    if (is_other && breaks(TWO_WRITE)) {
        write_anyway(shard, it);
        return true;
    }
    counts[REFUSED]++;
    return false;
}

static void answer(struct journal *to, const struct append *it, bool accepted) {
    if (happens(odds.lose_answer) || to->answer_count == APPEND_MOST) counts[UNANSWERED]++;
    else to->answers[to->answer_count++] = (struct answer){it->process, it->expected, accepted};
}

static void serve_append(int shard) {
    struct journal *to = &journals[shard];
    if (to->append_count == 0) return;
    int at = among(to->append_count);
    struct append it = to->appends[at];
    if (happens(odds.lose_append)) counts[LOST_APPENDS]++;
    else {
        answer(to, &it, accept(shard, &it));
        if (breaks(LOSES)) lose_places(shard);
    }
    if (happens(odds.double_append)) {
        counts[DOUBLED_APPENDS]++;
        return;
    }
    to->appends[at] = to->appends[--to->append_count];
    free(it.bytes);
}

static void send_append(int shard, uint32_t process, size_t expected, const uint8_t *bytes, size_t size) {
    struct journal *to = &journals[shard];
    counts[APPENDS]++;
    if (to->append_count == APPEND_MOST) {
        counts[LOST_APPENDS]++;
        return;
    }
    uint8_t *copy = room_for(NULL, size);
    memcpy(copy, bytes, size);
    to->appends[to->append_count++] = (struct append){process, expected, copy, size};
}

/* ---- what is on its way to a shard: requests and signals, in no order */

struct message {
    const struct command *asks; /* or NULL: it is a signal */
    uint64_t known;             /* by who asks: the greatest stamp */
    bool is_damaged;
    media_at_end at;
};
struct traffic {
    struct message at[MESSAGE_MOST];
    int count;
};
static struct traffic traffic[SHARD_MOST];
static const struct batch *batch;
static uint64_t known; /* the greatest stamp that the askers know of */

static void push_message(int shard, const struct message *it) {
    struct traffic *to = &traffic[shard];
    if (to->count < MESSAGE_MOST) to->at[to->count++] = *it;
}

/* Changes something that the digest is of. */
static void damage(media_at_end *it) {
    bool is_bare = it->signal.kind == MEDIA_CLOSE || it->signal.kind == MEDIA_CLOSEACK;
    uint64_t bit = UINT64_C(1) << among(40);
    switch (among(is_bare ? 5 : 7)) {
    case 0: it->stamp ^= bit; break;
    case 1: it->digest ^= bit; break;
    case 2: it->number ^= UINT64_C(1) << among(4); break;
    case 3: it->tunnel ^= (uint8_t)(1 + among(7)); break;
    case 4: it->signal.kind = (uint8_t)((it->signal.kind + 1 + among(5)) % 6); break;
    case 5: it->signal.addr ^= UINT32_C(1) << among(32); break;
    default: it->signal.version ^= UINT32_C(1) << among(32);
    }
}

/* What stands as sent at an end is carried to the far one, or isn't. */
static void carry(int shard, const media_at_end *sent) {
    int far = end_at(shard, sent->end) ^ 1;
    struct message it = {NULL, 0, false, *sent};
    it.at.end = (uint32_t)net.end_numbers[far];
    if (happens(odds.lose_signal)) {
        counts[LOST_SIGNALS]++;
        return;
    }
    push_message(shard_of(far), &it);
    if (happens(odds.double_signal)) {
        counts[DOUBLED_SIGNALS]++;
        push_message(shard_of(far), &it);
    }
    if (happens(odds.damage)) {
        it.is_damaged = true;
        damage(&it.at);
        push_message(shard_of(far), &it);
    }
}

/* Somebody reads a journal for what was sent at one of its ends: from any place, or from that of the first signal that
 * wasn't taken. */
static void read_again(int shard) {
    if (net.shards[shard].end_count == 0) return;
    int end = net.shards[shard].ends[among(net.shards[shard].end_count)];
    const struct journal *from = &journals[shard];
    bool is_any = happens(4) && from->count > from->cut;
    size_t place = from->cut + (is_any ? (size_t)among((int)(from->count - from->cut)) : 0);
    int read = 0;
    if (!is_any && sent_at[end] == taken_at[end ^ 1]) return;
    for (; place < from->count && read < 6; place++)
        for (size_t i = 0; i < from->at[place].sent_count; i++) {
            const media_at_end *it = &from->at[place].sent[i];
            if (end_at(shard, it->end) != end || (!is_any && it->number <= taken_at[end ^ 1])) continue;
            carry(shard, it);
            read++;
        }
    counts[READ_AGAIN] += (unsigned long)read;
}

static bool is_made(int command) {
    const struct command *it = &batch->commands[command];
    return it->number <= made_of[net.boxes[it->box].shard][it->asker];
}

/* An asker sends a request again that it doesn't find in the journal yet, and sometimes one that it does find. */
static void send_request(void) {
    if (batch == NULL || batch->count == 0) return;
    int command = among(batch->count);
    if (is_made(command) && among(16) > 0) return;
    struct message it = {.asks = &batch->commands[command], .known = known};
    counts[RESENT]++;
    push_message(net.boxes[batch->commands[command].box].shard, &it);
}

/* ---- the store: of each shard the snapshot that is kept, and those on their way to it */

struct snapshot {
    uint8_t *bytes;
    size_t size;              /* 0 where there is none */
    size_t place;             /* how many places of the journal it is of */
    uint64_t taken[END_MOST]; /* how many signals were taken at each end, by its number in the shard */
};
struct store {
    struct snapshot kept, on_way[SAVE_MOST];
    int count;
};
static struct store stores[SHARD_MOST];

/* A snapshot that comes to the store is kept where it is of more than the one that is kept. */
static void serve_snapshot(int shard) {
    struct store *to = &stores[shard];
    if (to->count == 0) return;
    int at = among(to->count);
    struct snapshot it = to->on_way[at];
    to->on_way[at] = to->on_way[--to->count];
    if (it.place <= to->kept.place || happens(odds.lose_snapshot)) {
        counts[UNKEPT]++;
        free(it.bytes);
        return;
    }
    free(to->kept.bytes);
    to->kept = it;
}

/* How many signals the far ends' snapshots have taken, by the shard's ends. */
static void list_taken(int shard, uint64_t *taken) {
    for (int i = 0; i < net.shards[shard].end_count; i++) {
        int far = net.shards[shard].ends[i] ^ 1;
        taken[i] = stores[shard_of(far)].kept.taken[net.end_numbers[far]];
    }
}

static bool may_be_cut(int shard, const struct place *it, const uint64_t *taken) {
    uint8_t may;
    size_t size;
    bool all_taken = true;
    if (it->is_mark) return true;
    for (size_t i = 0; i < it->sent_count; i++)
        if (it->sent[i].number > taken[it->sent[i].end]) all_taken = false;
    uint32_t code = media_entry_may_be_cut(it->bytes, it->size, taken, (size_t)net.shards[shard].end_count, &may, &size);
    if (went(code, "cut", shard) && (size != it->size || (may == 1) != all_taken))
        note("cut: shard %d: another entry may be cut", shard);
    return all_taken;
}

/* Whether a signal that this place sent wasn't taken yet. */
static bool is_waited_for(int shard, const struct place *it) {
    for (size_t i = 0; i < it->sent_count; i++)
        if (it->sent[i].number > taken_at[end_at(shard, it->sent[i].end) ^ 1]) return true;
    return false;
}

/* Some places that the kept snapshot has are cut off, up to one that may not be. */
static void cut_front(int shard) {
    static uint64_t taken[END_MOST];
    struct journal *of = &journals[shard];
    list_taken(shard, taken);
    for (int i = among(32); i > 0 && of->cut < stores[shard].kept.place; i--) {
        const struct place *it = &of->at[of->cut];
        bool may = may_be_cut(shard, it, taken);
        if (!may && !(engine == CUTS && happens(odds.break_promise))) return;
        counts[BREAKS] += !may && is_waited_for(shard, it);
        counts[CUT]++;
        of->cut++;
    }
}

/* ---- processes, each of which hosts a shard */

enum phase { GONE, REPLAYING, FREE, MADE, WRITTEN, UNDER_WAY, STANDS };
struct process {
    media_shard shard;
    enum phase phase;
    uint32_t number;      /* of all processes */
    size_t place;         /* how many places of the journal it has made again, or written */
    bool claims, is_mark; /* it writes a word that it owns the shard before it does more; and that is under way */
    uint8_t bytes[MEDIA_ENTRY_ROOM];
    size_t size;
    int patience;
};
static struct process processes[SHARD_MOST][PROCESS_MOST];
static uint32_t process_count;

static bool make_shard(int shard, media_shard *made) {
    static media_shard_box boxes[BOX_MOST];
    static media_shard_slot slots[SLOT_MOST];
    static media_state states[BOX_MOST * STATE_MOST];
    const struct shard *here = &net.shards[shard];
    size_t count = 0, state_count = 0;
    for (int i = 0; i < here->box_count; i++) {
        const struct box *box = &net.boxes[here->boxes[i]];
        boxes[i] = (media_shard_box){box->setup, (uint32_t)box->count, box->state_count};
        for (int k = 0; k < box->state_count; k++) states[state_count++] = box->states[k];
        for (int k = 0; k < box->count; k++) {
            const struct slot *slot = &net.slots[box->slots[k]];
            int end = end_of(box->slots[k]);
            slots[count++] = (media_shard_slot){slot->made, (uint32_t)net.end_numbers[end], slot->tunnel};
        }
    }
    uint32_t code = media_shard_make(made, boxes, (size_t)here->box_count, slots, count, states, state_count,
                                     (uint32_t)here->end_count, (uint32_t)here->askers);
    return !lacks_memory(code) && went(code, "make", shard);
}

static bool load_shard(int shard, media_shard *made) {
    uint32_t code = media_shard_load(made, stores[shard].kept.bytes, stores[shard].kept.size);
    return !lacks_memory(code) && went(code, "load", shard);
}

/* It makes its shard from the kept snapshot, or from nothing, if it can. */
static void begin_process(int shard, struct process *it) {
    bool resumes = stores[shard].kept.size > 0 && (journals[shard].cut > 0 || among(4) > 0);
    memset(it, 0, sizeof *it);
    may_refuse = true;
    bool is_made = resumes ? load_shard(shard, &it->shard) : make_shard(shard, &it->shard);
    may_refuse = false;
    counts[RESUMED] += resumes;
    if (resumes) it->place = stores[shard].kept.place;
    if (!is_made) return;
    it->number = ++process_count;
    it->phase = REPLAYING;
    it->claims = among(4) > 0;
}

static void end_process(int shard, struct process *it) {
    if (it->shard.made) went(media_shard_end(&it->shard), "end", shard);
    it->phase = GONE;
}

static void crash(int shard, struct process *it) {
    counts[CRASHES]++;
    counts[LATE_WRITES] += it->phase == UNDER_WAY;
    end_process(shard, it);
    if (among(2) == 0) traffic[shard].count = 0;
}

/* Makes an entry of the journal again. Else there is no shard any more. */
static bool replay_place(int shard, media_shard *made, size_t place) {
    const struct place *it = &journals[shard].at[place];
    size_t size;
    if (it->is_mark) return true;
    counts[REPLAYED]++;
    uint32_t code = media_shard_replay(made, it->bytes, it->size, &size);
    if (code == MEDIA_OK && size == it->size) return true;
    if (code == MEDIA_OK) note("replay: shard %d, place %zu: another size", shard, place);
    else if (made->made) note("replay: shard %d, place %zu: the shard is left", shard, place);
    else if (!lacks_memory(code)) note("replay: shard %d, place %zu: %s", shard, place, code_text(code));
    return false;
}

static void send_bytes(int shard, struct process *it) {
    send_append(shard, it->number, it->place, it->bytes, it->size);
    it->phase = UNDER_WAY;
    it->patience = 1 + among(12);
}

static void claim(int shard, struct process *it) {
    counts[CLAIMS]++;
    it->claims = false;
    it->is_mark = true;
    it->size = 5;
    it->bytes[0] = 0;
    memcpy(it->bytes + 1, &it->number, sizeof it->number);
    send_bytes(shard, it);
}

/* What the process has to read next was cut off meanwhile. It ends, and another one begins from the snapshot. */
static bool is_outrun(int shard, struct process *it) {
    if (it->place >= journals[shard].cut) return false;
    counts[OUTRUN]++;
    end_process(shard, it);
    return true;
}

/* Some places further, to what the process takes for the end. */
static void step_replaying(int shard, struct process *it) {
    size_t end = journals[shard].count;
    if (is_outrun(shard, it)) return;
    bool is_stale = happens(odds.stale_read);
    for (int i = among(16); i >= 0 && it->place < end; i--) {
        if (!replay_place(shard, &it->shard, it->place)) {
            end_process(shard, it);
            return;
        }
        it->place++;
    }
    if (it->place < end && !is_stale) return;
    if (it->claims) claim(shard, it);
    else it->phase = FREE;
}

/* Whether the journal has more than the process knows, so that it may be told to do what it can't. */
static bool is_behind(int shard, const struct process *it) { return it->place < journals[shard].count; }

static void turn_made(struct process *it) {
    counts[TURNS]++;
    it->phase = MADE;
}

static void step_request(int shard, struct process *it, const struct message *message) {
    const struct command *asked = message->asks;
    media_asked by = {1, asked->asker, asked->number};
    uint8_t made;
    uint32_t box = (uint32_t)net.boxes[asked->box].number;
    uint32_t code = media_shard_request(&it->shard, &by, box, &asked->event, message->known, &made);
    if (code == MEDIA_OK && made == 1) turn_made(it);
    else if (code == MEDIA_OK) counts[HAD]++;
    else if (code == MEDIA_AHEAD) counts[EARLY]++;
    else if (!lacks_memory(code)) note("request: shard %d: %s", shard, code_text(code));
}

/* Each signal but the next one of its lane, as it was sent, is to be refused or to change nothing. */
static void step_signal(int shard, struct process *it, const struct message *message) {
    uint8_t made;
    uint32_t code = media_shard_arrive(&it->shard, &message->at, &made);
    counts[DAMAGED] += message->is_damaged;
    if (code == MEDIA_OK && made == 1 && message->is_damaged) note("signal: shard %d: a damaged one is taken", shard);
    if (code == MEDIA_OK && made == 1) turn_made(it);
    else if (code == MEDIA_OK) counts[HAD]++;
    else if (code == MEDIA_AHEAD) {
        counts[EARLY]++;
        if (!message->is_damaged && among(2) == 0) push_message(shard, message);
    } else if (code == MEDIA_UNLAWFUL && is_behind(shard, it)) {
        counts[FENCED]++;
        if (among(4) == 0) end_process(shard, it);
        else it->phase = REPLAYING;
    } else if (!lacks_memory(code) && (!message->is_damaged || (code != MEDIA_DIGEST && code != MEDIA_INVALID)))
        note("signal: shard %d: %s", shard, code_text(code));
}

/* Asks for a retry that is owed. The process has all that stood at the cut, and its append hangs on what it knows, so
 * no retry can stand twice. */
static bool step_retry(int shard, struct process *it) {
    const media_asked nobody = {0, 0, 0};
    if (it->place < cuts[shard]) return false;
    for (int i = 0; i < owed_count; i++) {
        const struct slot *slot = &net.slots[owed[i].slot];
        uint8_t made;
        if (net.boxes[slot->box].shard != shard || owed[i].is_made || owed[i].is_disabled) continue;
        media_event event = {MEDIA_RETRY, slot->local, 0};
        uint32_t code = media_shard_request(&it->shard, &nobody, (uint32_t)net.boxes[slot->box].number, &event, known,
                                            &made);
        if (code == MEDIA_OK) turn_made(it);
        else if (code == MEDIA_DISABLED && !is_behind(shard, it)) owed[i].is_disabled = true;
        else if (code != MEDIA_DISABLED && !lacks_memory(code)) note("retry: shard %d: %s", shard, code_text(code));
        return true;
    }
    return false;
}

/* Whether a box goes on by its program. Nobody asks for that. */
static bool step_shift(int shard, struct process *it) {
    const media_asked nobody = {0, 0, 0};
    const media_event event = {MEDIA_SHIFT, 0, 0};
    static media_box_view view;
    uint32_t number = (uint32_t)among(net.shards[shard].box_count);
    uint8_t made;
    if (!has_program(net.shards[shard].boxes[number])) return false;
    if (!went(media_shard_see_box(&it->shard, number, &view), "see", shard) || !view.shifts) return false;
    uint32_t code = media_shard_request(&it->shard, &nobody, number, &event, 0, &made);
    if (code == MEDIA_OK) turn_made(it);
    else if (!lacks_memory(code)) note("shift: shard %d: %s", shard, code_text(code));
    return true;
}

/* The bytes of the shard's snapshot, or none where memory is refused. */
static uint8_t *saved_bytes(int shard, media_shard *of, size_t *size) {
    uint8_t nothing, *bytes;
    size_t again;
    uint32_t code = media_shard_save(of, &nothing, 0, size);
    if (lacks_memory(code)) return NULL;
    if (code != MEDIA_NO_ROOM || *size == 0) note("save: shard %d without room: %s", shard, code_text(code));
    bytes = room_for(NULL, *size + 1);
    code = media_shard_save(of, bytes, *size, &again);
    if (lacks_memory(code) || !went(code, "save", shard)) {
        free(bytes);
        return NULL;
    }
    if (again != *size) note("save: shard %d: it has another size", shard);
    return bytes;
}

/* The process sends a snapshot to the store. */
static void step_save(int shard, struct process *it) {
    struct store *to = &stores[shard];
    if (to->count == SAVE_MOST) return;
    struct snapshot *made = &to->on_way[to->count];
    made->place = it->place;
    made->bytes = saved_bytes(shard, &it->shard, &made->size);
    if (made->bytes == NULL) return;
    for (int i = 0; i < net.shards[shard].end_count; i++)
        went(media_shard_taken(&it->shard, (uint32_t)i, &made->taken[i]), "taken", shard);
    counts[SAVED]++;
    to->count++;
}

static void step_free(int shard, struct process *it) {
    struct traffic *from = &traffic[shard];
    if (happens(odds.save)) {
        step_save(shard, it);
        return;
    }
    if (is_behind(shard, it) && among(4) == 0) {
        it->phase = REPLAYING;
        it->claims = among(2) == 0;
        return;
    }
    if (owed_count > 0 && among(2) == 0 && step_retry(shard, it)) return;
    if (among(3) == 0 && step_shift(shard, it)) return;
    if (from->count == 0) return;
    int at = among(from->count);
    struct message message = from->at[at];
    from->at[at] = from->at[--from->count];
    if (happens(odds.lose_message)) return;
    if (message.asks == NULL) step_signal(shard, it, &message);
    else step_request(shard, it, &message);
}

/* Calls that have to wait until the entry stands change nothing. */
static void probe_waiting(int shard, struct process *it) {
    const media_asked nobody = {0, 0, 0};
    const media_event event = {MEDIA_TALK, 0, 0};
    static media_box_view view;
    uint64_t stamp;
    uint8_t made = 1;
    size_t size;
    counts[PROBES]++;
    if (media_shard_stamp(&it->shard, &stamp) != MEDIA_WAITS || media_shard_see_box(&it->shard, 0, &view) != MEDIA_WAITS
        || media_shard_request(&it->shard, &nobody, 0, &event, 0, &made) != MEDIA_WAITS || made != 0
        || media_shard_replay(&it->shard, it->bytes, it->size, &size) != MEDIA_WAITS)
        note("refusal: shard %d: a call doesn't wait", shard);
}

/* A retry that isn't owed changes nothing. */
static void probe_retry(int shard, struct process *it) {
    const media_asked nobody = {0, 0, 0};
    static media_slot_view view;
    uint32_t number = (uint32_t)among(net.shards[shard].box_count);
    const struct box *box = &net.boxes[net.shards[shard].boxes[number]];
    media_event event = {MEDIA_RETRY, (uint8_t)among(box->count), 0};
    uint8_t made;
    if (!went(media_shard_see_slot(&it->shard, number, event.first, &view), "see", shard) || view.owes) return;
    if (media_shard_request(&it->shard, &nobody, number, &event, known, &made) != MEDIA_DISABLED)
        note("refusal: shard %d: a retry is made that isn't owed", shard);
}

/* Calls that have to be refused change nothing. */
static void probe_free(int shard, struct process *it) {
    const struct shard *here = &net.shards[shard];
    const media_asked nobody = {0, 0, 0}, stranger = {1, (uint32_t)here->askers, 1};
    const media_asked later = {1, 0, UINT64_MAX};
    const media_event event = {MEDIA_SET_GOAL, 0, MEDIA_GOAL_OPEN};
    const media_event none = {MEDIA_SET_GOAL, BOX_SLOT_MOST, MEDIA_GOAL_OPEN};
    const media_at_end far_off = {.number = 1, .end = (uint32_t)here->end_count, .signal = {.kind = MEDIA_CLOSE}};
    uint8_t made = 1;
    size_t count;
    counts[PROBES]++;
    if (media_shard_request(&it->shard, &stranger, 0, &event, known, &made) != MEDIA_NO_ASKER || made != 0
        || media_shard_request(&it->shard, &later, 0, &event, known, &made) != MEDIA_AHEAD
        || media_shard_request(&it->shard, &nobody, (uint32_t)here->box_count, &event, known, &made) != MEDIA_NO_BOX
        || media_shard_request(&it->shard, &nobody, 0, &none, known, &made) != MEDIA_DISABLED
        || media_shard_arrive(&it->shard, &far_off, &made) != MEDIA_NO_END
        || media_shard_write(&it->shard, it->bytes, MEDIA_ENTRY_ROOM, &count) != MEDIA_NONE_WAITS)
        note("refusal: shard %d: a call isn't refused as it should be", shard);
    probe_retry(shard, it);
}

static void step_made(int shard, struct process *it) {
    uint32_t code = media_shard_write(&it->shard, it->bytes, MEDIA_ENTRY_ROOM, &it->size);
    if (!lacks_memory(code) && went(code, "write", shard)) it->phase = WRITTEN;
}

/* Whether an answer came to what the process wrote last; others are old. */
static bool find_answer(int shard, const struct process *it, bool *accepted) {
    struct journal *from = &journals[shard];
    for (int i = 0; i < from->answer_count; i++) {
        if (from->answers[i].process != it->number) continue;
        struct answer found = from->answers[i];
        from->answers[i] = from->answers[--from->answer_count];
        *accepted = found.accepted;
        return found.expected == it->place;
    }
    return false;
}

/* Another process's bytes stand at the place of this one's. */
static void give_way(int shard, struct process *it) {
    counts[FENCED]++;
    if (it->is_mark && among(2) == 0) {
        it->is_mark = false;
        it->claims = true;
        it->phase = REPLAYING;
    } else end_process(shard, it);
}

/* The append was refused, or wasn't answered: what stands at its place says what came of it. The journal is never
 * shorter than the process knows, unless the engine lost a part of it. */
static void settle_append(int shard, struct process *it) {
    const struct journal *in = &journals[shard];
    if (is_outrun(shard, it)) return;
    if (it->place > in->count) {
        give_way(shard, it);
        return;
    }
    if (it->place == in->count || happens(odds.stale_read)) {
        if (among(3) == 0) send_bytes(shard, it);
        it->patience = 1 + among(12);
        return;
    }
    if (has_bytes(&in->at[it->place], it->bytes, it->size)) it->phase = STANDS;
    else give_way(shard, it);
}

static void step_under_way(int shard, struct process *it) {
    bool accepted = false;
    if (find_answer(shard, it, &accepted)) {
        if (accepted) it->phase = STANDS;
        else settle_append(shard, it);
    } else if (--it->patience == 0) settle_append(shard, it);
}

static bool same_codecs(const media_codecs *one, const media_codecs *other) {
    return one->count == other->count && memcmp(one->at, other->at, sizeof one->at) == 0;
}

static bool same_at_end(const media_at_end *one, const media_at_end *other) {
    const media_signal *a = &one->signal, *b = &other->signal;
    return one->number == other->number && one->stamp == other->stamp && one->digest == other->digest
        && one->end == other->end && one->tunnel == other->tunnel && a->kind == b->kind && a->medium == b->medium
        && same_codecs(&a->codecs, &b->codecs) && a->port == b->port && a->origin == b->origin
        && a->version == b->version && a->addr == b->addr;
}

/* What is to be carried is what the entry says. */
static void compare_sent(int shard, const struct place *in, const media_at_end *sent, size_t count) {
    bool is_same = count == in->sent_count;
    for (size_t i = 0; is_same && i < count; i++) is_same = same_at_end(&sent[i], &in->sent[i]);
    if (!is_same) note("stands: shard %d: it sends something else than its entry says", shard);
}

static void step_stands(int shard, struct process *it) {
    static media_at_end sent[MEDIA_SENT_ROOM];
    size_t count = 0, place = it->place;
    it->place++;
    it->phase = FREE;
    if (it->is_mark) {
        it->is_mark = false;
        return;
    }
    if (!went(media_shard_stands(&it->shard, sent, MEDIA_SENT_ROOM, &count), "stands", shard)) return;
    if (engine == SOUND) compare_sent(shard, &journals[shard].at[place], sent, count);
    for (size_t i = 0; i < count; i++) carry(shard, &sent[i]);
}

static void step_process(int shard, struct process *it) {
    if (it->phase != GONE && happens(odds.crash)) {
        crash(shard, it);
        return;
    }
    if (it->phase >= MADE && !it->is_mark && happens(odds.probe)) probe_waiting(shard, it);
    if (it->phase == FREE && happens(odds.probe)) probe_free(shard, it);
    may_refuse = true;
    switch (it->phase) {
    case GONE: break;
    case REPLAYING: step_replaying(shard, it); break;
    case FREE: step_free(shard, it); break;
    case MADE: step_made(shard, it); break;
    case WRITTEN: send_bytes(shard, it); break;
    case UNDER_WAY: step_under_way(shard, it); break;
    case STANDS: step_stands(shard, it); break;
    }
    may_refuse = false;
}

/* A process begins where none lives, and sometimes where one does. */
static void tend(int shard) {
    int living = 0;
    struct process *gone = NULL;
    for (int i = 0; i < PROCESS_MOST; i++)
        if (processes[shard][i].phase != GONE) living++;
        else gone = &processes[shard][i];
    if (gone == NULL) return;
    if (living == 0 && among(4) == 0) begin_process(shard, gone);
    if (living > 0 && happens(odds.begin_second)) {
        counts[SECOND_OWNERS]++;
        begin_process(shard, gone);
    }
}

/* ---- lanes: what was sent, and what was taken */

/* The bytes of the signals that a place sent, and of that which it took, without the numbers of their ends. */
static const uint8_t *sent_bytes(const struct place *it, size_t number) {
    return it->bytes + it->size - SIGNAL_SIZE * (it->sent_count - number) + END_SIZE;
}
static const uint8_t *taken_bytes(const struct place *it) {
    return it->bytes + it->size - SIGNAL_SIZE * (it->sent_count + 1) - 2 + END_SIZE;
}

struct found {
    size_t place, number;
};

/* The next signal that was sent at an end, from here on; false where there is none. */
static bool next_sent(int end, struct found *at) {
    const struct journal *from = &journals[shard_of(end)];
    for (; at->place < from->count; *at = (struct found){at->place + 1, 0})
        for (; at->number < from->at[at->place].sent_count; at->number++)
            if (end_at(shard_of(end), from->at[at->place].sent[at->number].end) == end) return true;
    return false;
}

static bool takes_at(int shard, const struct place *it, int end) {
    return !it->is_mark && it->entry.has_taken && end_at(shard, it->entry.taken.end) == end;
}

/* What was taken from the lane that begins at this end is a front of what was sent there, byte by byte. Where the rest
 * begins. */
static struct found compare_front(int end) {
    int far = end ^ 1, shard = shard_of(far);
    struct found at = {0, 0};
    for (size_t i = 0; i < journals[shard].count; i++) {
        const struct place *it = &journals[shard].at[i];
        if (!takes_at(shard, it, far)) continue;
        if (!next_sent(end, &at)) {
            note("lanes: shard %d took more at end %d than was sent", shard, far);
            break;
        }
        const struct place *from = &journals[shard_of(end)].at[at.place];
        if (memcmp(sent_bytes(from, at.number), taken_bytes(it), SIGNAL_SIZE - END_SIZE) != 0) {
            note("lanes: shard %d took another signal at end %d than was sent", shard, far);
            break;
        }
        at.number++;
        counts[SIGNALS]++;
        counts[CROSSING] += shard_of(end) != shard;
    }
    return at;
}

static void compare_fronts(void) {
    for (int end = 0; end < 2 * net.channel_count; end++) compare_front(end);
}

/* And it is all that was sent. */
static void compare_lanes(void) {
    for (int end = 0; fault[0] == 0 && end < 2 * net.channel_count; end++) {
        struct found at = compare_front(end);
        if (next_sent(end, &at)) note("lanes: a signal at end %d wasn't taken", end);
    }
}

/* ---- until all is quiet */

static bool is_quiet(void) {
    for (int i = 0; i < batch->count; i++)
        if (!is_made(i)) return false;
    for (int i = 0; i < owed_count; i++)
        if (!owed[i].is_made && !owed[i].is_disabled) return false;
    for (int i = 0; i < net.box_count; i++)
        if (has_program(i) && (has_word[i] || !is_at_state[i])) return false;
    for (int end = 0; end < 2 * net.channel_count; end++)
        if (sent_at[end] != taken_at[end ^ 1]) return false;
    return true;
}

static void step(void) {
    int shard = among(net.shard_count);
    if (among(4) > 0) serve_append(shard);
    step_process(shard, &processes[shard][among(PROCESS_MOST)]);
    tend(shard);
    if (among(4) == 0) serve_snapshot(shard);
    if (among(4) == 0) cut_front(shard);
    if (among(4) == 0) read_again(shard);
    if (among(4) == 0) send_request();
}

/* Steps until all is quiet. After many of them nothing more is broken; then it has to come to rest. */
static bool settle_down(void) {
    struct odds drawn = odds;
    unsigned long rough = 400ul * (unsigned long)(net.shard_count + batch->count);
    unsigned long most = 20 * rough + 200000;
    unsigned long steps = 0;
    for (; fault[0] == 0 && steps < most && !is_quiet(); steps++) {
        if (steps == rough) odds = calm;
        step();
    }
    odds = drawn;
    if (steps == most) compare_fronts();
    if (steps == most) note("rest: the shards don't come to rest");
    return fault[0] == 0;
}

/* ---- what is seen of the slots, by processes that live and by shards that are made again of their journals */

static media_slot_view views[SLOT_MOST];

static bool see_box(int box, media_shard *in, media_slot_view *to) {
    static media_box_view view;
    uint32_t seen = media_shard_see_box(in, (uint32_t)net.boxes[box].number, &view);
    if (!went(seen, "see", net.boxes[box].shard)) return false;
    if (view.shifts || view.slots != net.boxes[box].count || view.number != (uint32_t)box)
        note("views: box %d isn't at rest, or it is another", box);
    for (int i = 0; i < net.boxes[box].count; i++) {
        int slot = net.boxes[box].slots[i];
        memset(&to[slot], 0, sizeof to[slot]);
        uint32_t code = media_shard_see_slot(in, (uint32_t)net.boxes[box].number, (uint8_t)i, &to[slot]);
        if (!went(code, "see", net.boxes[box].shard)) return false;
    }
    return true;
}

static bool same_flow(const media_flow *one, const media_flow *other) {
    return one->flows == other->flows && one->codec == other->codec && one->port == other->port
        && one->addr == other->addr;
}

static bool same_view(const media_slot_view *one, const media_slot_view *other) {
    return one->state == other->state && one->medium == other->medium && one->goal == other->goal
        && one->partner == other->partner && one->owes == other->owes && same_flow(&one->sends, &other->sends)
        && same_flow(&one->hears, &other->hears);
}

/* The living processes that know all of the journal see the same. */
static void compare_living(int shard) {
    static media_slot_view living[SLOT_MOST];
    for (int i = 0; i < PROCESS_MOST; i++) {
        struct process *it = &processes[shard][i];
        if (it->phase != FREE || is_behind(shard, it)) continue;
        for (int k = 0; k < net.shards[shard].box_count; k++) {
            const struct box *box = &net.boxes[net.shards[shard].boxes[k]];
            if (!see_box(net.shards[shard].boxes[k], &it->shard, living)) return;
            for (int n = 0; n < box->count; n++)
                if (!same_view(&living[box->slots[n]], &views[box->slots[n]]))
                    note("views: a living process of shard %d sees another slot", shard);
        }
    }
}

/* Other bytes than a snapshot's are none, or that of another shard. */
static void spoil_snapshot(int shard, uint8_t *bytes, size_t size) {
    media_shard other = MEDIA_SHARD_NONE;
    size_t length = among(4) == 0 ? (size_t)among((int)size) : size, count = 0;
    if (length == size) bytes[among((int)size)] ^= (uint8_t)(1 << among(8));
    counts[SPOILT]++;
    uint32_t code = media_shard_load(&other, bytes, length);
    if (code == MEDIA_NO_SNAPSHOT || !went(code, "load", shard)) return;
    uint8_t *again = saved_bytes(shard, &other, &count);
    if (again == NULL || count != length || memcmp(again, bytes, length) != 0)
        note("load: shard %d: a spoilt snapshot is another one's", shard);
    free(again);
    went(media_shard_end(&other), "end", shard);
}

/* A shard that goes on from the kept snapshot comes to what the one comes to that was made again of all of its
 * journal: their snapshots are the same bytes. */
static void compare_resumed(int shard, media_shard *whole) {
    const struct snapshot *from = &stores[shard].kept;
    media_shard resumed = MEDIA_SHARD_NONE;
    size_t size = 0, count = 0;
    if (from->size == 0 || !load_shard(shard, &resumed)) return;
    bool is_made = true;
    for (size_t i = from->place; is_made && i < journals[shard].count; i++)
        is_made = replay_place(shard, &resumed, i);
    uint8_t *one = is_made ? saved_bytes(shard, whole, &size) : NULL;
    uint8_t *other = is_made ? saved_bytes(shard, &resumed, &count) : NULL;
    if (one == NULL || other == NULL || size != count || memcmp(one, other, size) != 0)
        note("resumed: shard %d comes to something else from its snapshot", shard);
    else spoil_snapshot(shard, other, count);
    free(one);
    free(other);
    if (resumed.made) went(media_shard_end(&resumed), "end", shard);
}

static bool see_shard(int shard) {
    media_shard again = MEDIA_SHARD_NONE;
    if (!make_shard(shard, &again)) return false;
    bool is_seen = true;
    for (size_t i = 0; is_seen && i < journals[shard].count; i++) is_seen = replay_place(shard, &again, i);
    for (int i = 0; is_seen && i < net.shards[shard].box_count; i++)
        is_seen = see_box(net.shards[shard].boxes[i], &again, views);
    if (is_seen) compare_resumed(shard, &again);
    if (again.made) went(media_shard_end(&again), "end", shard);
    if (is_seen) compare_living(shard);
    return is_seen && fault[0] == 0;
}

/* An entry with another bit among what it sent is none, which changes nothing, or it differs, which ends the shard. A
 * part of an entry is none. */
static void spoil_entry(int shard, media_shard *again, const struct place *it) {
    static uint8_t bytes[MEDIA_ENTRY_ROOM];
    size_t size, at = it->size - 1 - (size_t)among(SIGNAL_SIZE * (int)it->sent_count);
    memcpy(bytes, it->bytes, it->size);
    bytes[at] ^= (uint8_t)(1 << among(8));
    if (media_shard_replay(again, it->bytes, (size_t)among((int)it->size), &size) != MEDIA_NO_ENTRY || size != 0)
        note("replay: shard %d: a part of an entry is made again", shard);
    uint32_t code = media_shard_replay(again, bytes, it->size, &size);
    if (code != MEDIA_NO_ENTRY && (code != MEDIA_DIFFERS || again->made))
        note("replay: shard %d: a spoilt entry: %s", shard, code_text(code));
    if (code == MEDIA_NO_ENTRY) went(media_shard_replay(again, it->bytes, it->size, &size), "replay", shard);
    counts[SPOILT]++;
}

static void try_spoilt(int shard) {
    const struct journal *in = &journals[shard];
    media_shard again = MEDIA_SHARD_NONE;
    size_t place = in->count > 0 ? (size_t)among((int)in->count) : 0;
    while (place < in->count && in->at[place].sent_count == 0) place++;
    if (place == in->count || !make_shard(shard, &again)) return;
    bool is_made = true;
    for (size_t i = 0; is_made && i < place; i++) is_made = replay_place(shard, &again, i);
    if (is_made) spoil_entry(shard, &again, &in->at[place]);
    if (again.made) went(media_shard_end(&again), "end", shard);
}

static bool see_all(void) {
    for (int i = 0; i < net.shard_count; i++)
        if (!see_shard(i)) return false;
    try_spoilt(among(net.shard_count));
    return fault[0] == 0;
}

/* ---- a settle */

static void list_owed(void) {
    owed_count = 0;
    known = greatest;
    for (int i = 0; i < net.slot_count; i++)
        if (views[i].owes) owed[owed_count++] = (struct owed){i, false, false};
    for (int i = 0; i < net.shard_count; i++) cuts[i] = journals[i].count;
}

static bool all_retried(void) {
    for (int i = 0; i < owed_count; i++)
        if (owed[i].is_disabled) return false;
    return true;
}

/* Makes the batch. Then each retry that is owed is asked for; and again, where one couldn't come any more. */
static bool settle(const struct batch *next) {
    batch = next;
    owed_count = 0;
    do {
        if (!settle_down() || !see_all()) return false;
        list_owed();
        counts[RETRIES] += (unsigned long)owed_count;
        if (owed_count > 0 && (!settle_down() || !see_all())) return false;
    } while (!all_retried());
    owed_count = 0;
    known = greatest;
    for (int i = 0; i < net.shard_count; i++) settled_places[i] = journals[i].count;
    counts[SETTLES]++;
    return true;
}

/* Follows the links from an end: the other end, or NONE where the slots on the way differ. */
static int follow(int end) {
    int at = end ^ 1;
    for (int i = 0; views[at].goal == MEDIA_GOAL_LINK && i < net.slot_count; i++) {
        int partner = net.boxes[net.slots[at].box].slots[views[at].partner];
        if (views[at].state != views[end].state || views[partner].state != views[end].state) return NONE;
        at = partner ^ 1;
    }
    return views[at].state == views[end].state ? at : NONE;
}

static void print_heard(FILE *to, int end) {
    const struct slot *at = &net.slots[end];
    fprintf(to, "hears %c%d/s%d ", letter(at->box), at->box, at->local);
    if (views[end].hears.flows) fprintf(to, "c%d\n", views[end].hears.codec);
    else fprintf(to, "none\n");
}

static void print_path(FILE *to, int one, int other) {
    const struct slot *low = &net.slots[one], *high = &net.slots[other];
    fprintf(to, "path %c%d/s%d %c%d/s%d %s %s %s %s\n", letter(low->box), low->box, low->local, letter(high->box),
            high->box, high->local, goal_names[views[one].goal], goal_names[views[other].goal],
            state_names[views[one].state], medium_names[views[one].medium]);
    if (views[one].state != MEDIA_FLOWING) return;
    print_heard(to, one);
    print_heard(to, other);
}

static void print_settle(FILE *to, int number) {
    fprintf(to, "settle %d\n", number);
    for (int i = 0; i < net.slot_count; i++) {
        if (views[i].goal == MEDIA_GOAL_LINK) continue;
        int other = follow(i);
        if (other == NONE) fprintf(to, "the slots of a path differ\n");
        else if (i < other) print_path(to, i, other);
    }
}

/* ---- what the journals say together */

/* Whether somebody has come to rest on an entry that was lost: it stood when all had settled, or a signal that it sent
 * was taken. */
static bool is_rested_on(const struct loss *it) {
    if (it->was_settled) return true;
    for (size_t i = 0; i < it->place.sent_count; i++) {
        int far = end_at(it->shard, it->place.sent[i].end) ^ 1;
        const struct journal *in = &journals[shard_of(far)];
        for (size_t k = 0; k < in->count; k++)
            if (takes_at(shard_of(far), &in->at[k], far)
                && memcmp(sent_bytes(&it->place, i), taken_bytes(&in->at[k]), SIGNAL_SIZE - END_SIZE) == 0) return true;
    }
    return false;
}

static bool stands_again(const struct loss *it) {
    const struct journal *in = &journals[it->shard];
    for (size_t i = 0; i < in->count; i++)
        if (has_bytes(&in->at[i], it->place.bytes, it->place.size)) return true;
    return false;
}

/* A loss does harm where somebody has come to rest on it, and nobody made the entry again. */
static void count_harm(void) {
    for (int i = 0; i < loss_count; i++)
        counts[HARMED] += !losses[i].place.is_mark && is_rested_on(&losses[i]) && !stands_again(&losses[i]);
}

struct line {
    uint64_t stamp;
    int shard, box;
    media_event event;
};

/* By stamp; where these are equal, the greater shard stands first. */
static int by_stamp(const void *one, const void *other) {
    const struct line *a = one, *b = other;
    if (a->stamp != b->stamp) return a->stamp < b->stamp ? -1 : 1;
    return (a->shard < b->shard) - (a->shard > b->shard);
}

static struct line *merge(size_t *count) {
    struct line *lines = NULL;
    size_t room = 1;
    for (int i = 0; i < net.shard_count; i++) room += journals[i].count;
    lines = room_for(NULL, room * sizeof *lines);
    *count = 0;
    for (int i = 0; i < net.shard_count; i++)
        for (size_t k = 0; k < journals[i].count; k++) {
            const media_entry *it = &journals[i].at[k].entry;
            if (journals[i].at[k].is_mark) continue;
            lines[(*count)++] = (struct line){it->stamp, i, net.shards[i].boxes[it->box], it->event};
        }
    qsort(lines, *count, sizeof *lines, by_stamp);
    return lines;
}

/* The journal of the whole network, with a settle behind the greatest stamp that stood when all had settled. */
static void write_journal(FILE *to, const uint64_t *settled) {
    size_t count, at = 0;
    struct line *lines = merge(&count);
    fprintf(to, "journal\n");
    for (int i = 0; i < script.settle_count; i++) {
        for (; at < count && lines[at].stamp <= settled[i]; at++) {
            fprintf(to, "turn ");
            write_event(to, lines[at].box, lines[at].event);
        }
        fprintf(to, "settle\n");
    }
    if (at < count) note("merge: %zu turns came after the last settle", count - at);
    free(lines);
}

/* ---- a run */

static FILE *create(const char *folder, unsigned long seed, const char *ending) {
    char path[1024];
    snprintf(path, sizeof path, "%s/%lu.%s", folder, seed, ending);
    FILE *file = fopen(path, "w");
    if (file != NULL) return file;
    perror(path);
    exit(2);
}

static void close_file(FILE *file) {
    if (fclose(file) == 0) return;
    perror("a file isn't written");
    exit(2);
}

static void begin_run(unsigned long seed) {
    of_text.at = seed * UINT64_C(0x2545f4914f6cdd1d);
    of_run.at = of_text.at + UINT64_C(0xd6e8feb86659fd93);
    memset(counts, 0, sizeof counts);
    memset(journals, 0, sizeof journals);
    memset(processes, 0, sizeof processes);
    memset(traffic, 0, sizeof traffic);
    memset(stores, 0, sizeof stores);
    fault[0] = 0;
    memset(settled_places, 0, sizeof settled_places);
    greatest = known = process_count = 0;
    owed_count = loss_count = 0;
    draw_network();
    draw_script();
    draw_odds();
    count_again();
    counts[SHARDS] = (unsigned long)net.shard_count;
    counts[BOXES] = (unsigned long)net.box_count;
}

static void end_run(void) {
    for (int i = 0; i < net.shard_count; i++) {
        for (int k = 0; k < PROCESS_MOST; k++) end_process(i, &processes[i][k]);
        for (size_t k = 0; k < journals[i].count; k++) clear_place(&journals[i].at[k]);
        for (int k = 0; k < journals[i].append_count; k++) free(journals[i].appends[k].bytes);
        free(journals[i].at);
        for (int k = 0; k < stores[i].count; k++) free(stores[i].on_way[k].bytes);
        free(stores[i].kept.bytes);
    }
    for (int i = 0; i < loss_count; i++) clear_place(&losses[i].place);
}

static void run(const char *folder, unsigned long seed) {
    uint64_t settled[SETTLE_MOST] = {0};
    begin_run(seed);
    FILE *text = create(folder, seed, "media"), *seen = create(folder, seed, "seen");
    write_text(text);
    close_file(text);
    for (int i = 0; i < script.settle_count && settle(&script.batches[i]); i++) {
        settled[i] = greatest;
        print_settle(seen, i + 1);
    }
    close_file(seen);
    count_harm();
    if (fault[0] == 0) compare_lanes();
    if (fault[0] == 0) {
        FILE *journal = create(folder, seed, "journal");
        write_journal(journal, settled);
        close_file(journal);
    }
    end_run();
}

static void print_run(unsigned long seed) {
    printf("seed %lu", seed);
    for (int i = 0; i < COUNTS; i++) printf(" %s %lu", count_names[i], counts[i]);
    if (fault[0] != 0) printf(" fault %s", fault);
    printf("\n");
    fflush(stdout);
}

int main(int count, char **words) {
    if (count < 4 || media_shard_version() != MEDIA_SHARD_VERSION) return 2;
    unsigned long first = strtoul(words[2], NULL, 10), number = strtoul(words[3], NULL, 10);
    if (count > 4) engine = strcmp(words[4], "lost") == 0 ? LOSES : strcmp(words[4], "two") == 0 ? TWO_WRITE : CUTS;
    for (unsigned long i = 0; i < number; i++) {
        run(words[1], first + i);
        print_run(first + i);
    }
    return 0;
}
