/* Draws networks: boxes, channels between them, and programs of features. */
#include <string.h>
#include "drawn.h"

struct draws of_text;
struct network net;
static uint64_t named[SLOT_MOST]; /* the slots that a state or a command may link a slot with */

/* ---- draws */

uint32_t draw(struct draws *from, uint32_t end) {
    uint64_t x = from->at += UINT64_C(0x9e3779b97f4a7c15);
    x = (x ^ x >> 30) * UINT64_C(0xbf58476d1ce4e5b9);
    x = (x ^ x >> 27) * UINT64_C(0x94d049bb133111eb);
    return (uint32_t)((x ^ x >> 31) >> 32) % end;
}
int below(int end) { return (int)draw(&of_text, (uint32_t)end); }
bool one_in(int count) { return below(count) == 0; }

/* ---- boxes and channels */

int slot_count(void) { return 2 * net.tunnel_count; }
int number_of(int box, int slot) { return (int)net.boxes[box].slots[slot].origin; }
bool is_feature(int box) { return net.boxes[box].setup.kind == MEDIA_FEATURE; }

static void draw_codecs(media_codecs *list) {
    uint8_t all[CODEC_MOST];
    memset(list, 0, sizeof *list);
    for (int i = 0; i < net.codec_count; i++) all[i] = (uint8_t)i;
    list->count = (uint8_t)(one_in(8) ? 0 : 1 + below(net.codec_count));
    for (int i = 0; i < list->count; i++) {
        int from = i + below(net.codec_count - i);
        list->at[i] = all[from];
        all[from] = all[i];
    }
}

static void draw_box(int box, uint8_t kind) {
    struct box *it = &net.boxes[box];
    memset(it, 0, sizeof *it);
    it->setup.kind = kind;
    it->setup.number = (uint32_t)box;
    it->setup.first_version = 1;
    if (kind == MEDIA_FEATURE) return;
    draw_codecs(&it->setup.receives);
    it->setup.sends = it->setup.receives;
    it->sends_apart = net.version == 2 && one_in(2);
    if (it->sends_apart) draw_codecs(&it->setup.sends);
    if (one_in(4)) it->setup.first_version = one_in(2) ? 1 + (uint32_t)below(9) : MEDIA_LAST_VERSION - 1000;
}

static void add_slot(int box, int number, int medium) {
    struct box *it = &net.boxes[box];
    net.ends[number] = (struct end){(uint8_t)box, it->count};
    media_slot *slot = &it->slots[it->count++];
    slot->medium = (uint8_t)medium;
    slot->initiator = number % 2 == 0;
    slot->origin = (uint32_t)number;
    if (is_feature(box) || one_in(2)) return;
    slot->has_address = 1;
    slot->addr = draw(&of_text, UINT32_MAX);
    slot->port = (uint16_t)below(1 << 16);
}

static void add_channel(int one, int other) {
    if (one == other || net.channel_count == CHANNEL_MOST || net.tunnel_count == TUNNEL_MOST) return;
    int initiator = one_in(2) ? one : other, more = one_in(16) ? below(8) : one_in(3) ? below(3) : 0;
    for (int i = 0; i <= more && net.tunnel_count < TUNNEL_MOST; i++) {
        struct tunnel *it = &net.tunnels[net.tunnel_count];
        *it = (struct tunnel){(uint8_t)net.channel_count, one_in(3) ? MEDIA_VIDEO : MEDIA_AUDIO};
        add_slot(initiator, 2 * net.tunnel_count, it->medium);
        add_slot(one + other - initiator, 2 * net.tunnel_count + 1, it->medium);
        net.tunnel_count++;
    }
    net.channel_count++;
}

/* A box of this kind in front of `end`, or NONE. */
static int pick_box(uint8_t kind, int end) {
    int found = NONE, count = 0;
    for (int i = 0; i < end; i++)
        if (net.boxes[i].setup.kind == kind && one_in(++count)) found = i;
    return found;
}

/* Features make trees, with devices at them, and some channels go across. */
static void draw_channels(void) {
    net.channel_count = net.tunnel_count = 0;
    for (int i = 0; i < net.box_count; i++) {
        int to = pick_box(MEDIA_FEATURE, is_feature(i) ? i : net.box_count);
        if (to == NONE && !is_feature(i)) to = pick_box(MEDIA_DEVICE, i);
        if (to != NONE) add_channel(i, to);
    }
    for (int i = 0; i < net.box_count; i++)
        for (int tries = 0; is_feature(i) && net.boxes[i].count < 2 && tries < 8; tries++)
            add_channel(i, below(net.box_count));
    for (int i = below(3); i > 0; i--) {
        int one = below(net.box_count);
        add_channel(one, below(net.box_count));
    }
}

/* ---- programs */

/* Whether a link from `from` could be part of a closed chain of tunnels and named links that comes back to `to`, with
 * tunnels that aren't among `used`. */
static bool may_close(int from, int to, uint64_t used) {
    int at = from ^ 1;
    used |= UINT64_C(1) << from / 2;
    if (at == to) return true;
    for (int next = 0; next < slot_count(); next++)
        if (named[at] >> next & 1 && !(used >> next / 2 & 1) && may_close(next, to, used)) return true;
    return false;
}

bool name_link(int one, int other) {
    if (named[one] >> other & 1) return true;
    if (may_close(other, one, 0)) return false;
    named[one] |= UINT64_C(1) << other;
    named[other] |= UINT64_C(1) << one;
    return true;
}

uint8_t draw_end_goal(void) {
    int n = below(20);
    return n < 10 ? MEDIA_GOAL_OPEN : n < 16 ? MEDIA_GOAL_HOLD : MEDIA_GOAL_CLOSE;
}

/* A slot with a greater number than this one's, whose goal isn't drawn yet and which it may be linked with, or NONE. */
static int pick_partner(int box, int slot, const bool *is_drawn) {
    const struct box *it = &net.boxes[box];
    int found = NONE, count = 0;
    for (int i = slot + 1; i < it->count; i++)
        if (!is_drawn[i] && it->slots[i].medium == it->slots[slot].medium && one_in(++count)) found = i;
    return found != NONE && name_link(number_of(box, slot), number_of(box, found)) ? found : NONE;
}

static void draw_goals(int box, media_state *state) {
    bool is_drawn[MEDIA_SLOT_LIMIT] = {false};
    for (int i = 0; i < net.boxes[box].count; i++) {
        if (is_drawn[i]) continue;
        int with = one_in(3) ? NONE : pick_partner(box, i, is_drawn);
        state->goals[i] = (media_goal){draw_end_goal(), 0};
        if (with == NONE) continue;
        state->goals[i] = (media_goal){MEDIA_GOAL_LINK, (uint8_t)with};
        state->goals[with] = (media_goal){MEDIA_GOAL_LINK, (uint8_t)i};
        is_drawn[with] = true;
    }
}

static void add_rule(struct box *of, int state, int guard, int first, int second, int target) {
    media_state *it = &of->states[state];
    it->rules[it->count++] = (media_rule){(uint8_t)guard, (uint8_t)first, (uint8_t)second, (uint8_t)target};
    if (guard == MEDIA_TOLD) net.awaited |= 1u << first;
}

static void draw_rules(struct box *it, int state, const int *target_of) {
    int later = it->state_count - state - 1;
    if (it->awaits_slots && it->count > 0 && later > 0)
        for (int i = 1 + below(2); i > 0; i--) {
            int slot = below(it->count), awaited = one_in(3) ? MEDIA_CLOSED : MEDIA_FLOWING;
            add_rule(it, state, MEDIA_SLOT_IS, slot, awaited, state + 1 + below(later));
        }
    for (int word = 0; word < net.word_count; word++) {
        if (it->forgets) add_rule(it, state, MEDIA_TOLD, word, 0, target_of[word]);
        else if (one_in(2)) add_rule(it, state, MEDIA_TOLD, word, 0, below(it->state_count));
    }
}

/* Lets in one caller after another: each word leads from the state in which all slots close to that in which the first
 * one holds, and where that flows the next one holds, too. So an end may have to ask again after each Shift. */
static void admit_in_turn(struct box *it) {
    int last = it->state_count - 1 < it->count ? it->state_count - 1 : it->count;
    it->state_count = (uint8_t)(last + 1);
    for (int state = 0; state <= last; state++) {
        for (int i = 0; i < it->count; i++)
            it->states[state].goals[i].goal = i < state ? MEDIA_GOAL_HOLD : MEDIA_GOAL_CLOSE;
        for (int word = 0; (state == 0 || state == last) && word < net.word_count; word++)
            add_rule(it, state, MEDIA_TOLD, word, 0, state < last);
        if (0 < state && state < last) add_rule(it, state, MEDIA_SLOT_IS, state - 1, MEDIA_FLOWING, state + 1);
    }
}

static void draw_program(int box, bool awaits_slots) {
    struct box *it = &net.boxes[box];
    int target_of[WORD_MOST];
    it->state_count = (uint8_t)(1 + below(STATE_MOST));
    it->awaits_slots = awaits_slots;
    it->forgets = !awaits_slots && one_in(3);
    if (awaits_slots && one_in(2)) {
        admit_in_turn(it);
        return;
    }
    for (int word = 0; word < WORD_MOST; word++) target_of[word] = below(it->state_count);
    for (int state = 0; state < it->state_count; state++) {
        draw_goals(box, &it->states[state]);
        draw_rules(it, state, target_of);
    }
}

/* At most one program waits for states of slots. */
static void draw_programs(void) {
    memset(named, 0, sizeof named);
    net.has_programs = !one_in(3);
    net.awaited = 0;
    net.word_count = 1 + below(WORD_MOST);
    bool awaits_slots = !one_in(3);
    for (int i = 0; net.has_programs && i < net.box_count; i++)
        if (is_feature(i) && !one_in(3)) {
            draw_program(i, awaits_slots);
            awaits_slots = false;
        }
}

/* ---- all of it */

void draw_network(void) {
    net.version = one_in(2) ? 1 : 2;
    net.codec_count = 1 + below(CODEC_MOST);
    net.box_count = 2 + below(BOX_MOST - 1);
    int device = below(net.box_count);
    for (int i = 0; i < net.box_count; i++) draw_box(i, i == device || one_in(2) ? MEDIA_DEVICE : MEDIA_FEATURE);
    draw_channels();
    draw_programs();
}
