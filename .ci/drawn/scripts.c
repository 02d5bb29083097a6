/* Draws scripts, of batches whose outcome the text alone decides: at each settle the goals are the same in any order,
 * and no path is hold against hold whose state isn't sure. So it is with programs where
 *   - a box isn't told goals in a batch in which its program goes on, and is told one word at most, unless the last
 *     word alone says where its program comes to;
 *   - one program at most waits for states of slots, and where it does, one transition at most can be gone at rest, and
 *     the slots of the others are in none of the states that they wait for, at any moment.
 * Links make no ring at a settle, and none at any time where a box has a program. */
#include <stdlib.h>
#include <string.h>
#include "drawn.h"

#define BIT(goal) (1u << (goal))
enum { UNSURE = -2 };
struct script script;

/* ---- settings, and what each batch leaves */

/* What commands and Shifts change, in whatever order signals come. */
struct settings {
    media_goal goals[SLOT_MOST]; /* the partner is a slot's number in the network */
    int at[BOX_MOST];            /* the state of the program */
    int word[BOX_MOST];          /* that it was told and hasn't used */
    int rest[SLOT_MOST];         /* the state of the slot at the last settle */
};

/* Of each slot in the settle that is looked at: which goals it has had, and whether it was linked or set free. */
static unsigned had[SLOT_MOST];
static bool relinked[SLOT_MOST];

static void give(struct settings *of, int slot, media_goal goal) {
    media_goal *old = &of->goals[slot];
    if (old->goal == goal.goal && (goal.goal != MEDIA_GOAL_LINK || old->partner == goal.partner)) return;
    relinked[slot] |= old->goal == MEDIA_GOAL_LINK || goal.goal == MEDIA_GOAL_LINK;
    had[slot] |= BIT(goal.goal);
    *old = goal;
}

static void free_partner(struct settings *of, int slot) {
    if (of->goals[slot].goal == MEDIA_GOAL_LINK)
        give(of, of->goals[slot].partner, (media_goal){MEDIA_GOAL_HOLD, 0});
}

static void set(struct settings *of, const struct command *command) {
    int one = number_of(command->box, command->event.first);
    if (command->event.kind == MEDIA_SET_GOAL) {
        free_partner(of, one);
        give(of, one, (media_goal){command->event.second, 0});
        return;
    }
    int other = number_of(command->box, command->event.second);
    if (of->goals[one].goal == MEDIA_GOAL_LINK && of->goals[one].partner == other) return;
    free_partner(of, one);
    free_partner(of, other);
    give(of, one, (media_goal){MEDIA_GOAL_LINK, (uint8_t)other});
    give(of, other, (media_goal){MEDIA_GOAL_LINK, (uint8_t)one});
}

static void enter(struct settings *of, int box, int state) {
    of->at[box] = state;
    for (int i = 0; i < net.boxes[box].count; i++) {
        media_goal goal = net.boxes[box].states[state].goals[i];
        if (goal.goal == MEDIA_GOAL_LINK) goal.partner = (uint8_t)number_of(box, goal.partner);
        give(of, number_of(box, i), goal);
    }
}

/* The end to which a walk over the slot's tunnel comes, or NONE where it goes round. */
static int walk(const struct settings *of, int slot, bool *is_kept) {
    int at = slot ^ 1;
    *is_kept = !relinked[slot];
    for (int i = 0; of->goals[at].goal == MEDIA_GOAL_LINK; i++) {
        if (i == net.tunnel_count) return NONE;
        *is_kept = *is_kept && !relinked[at] && !relinked[of->goals[at].partner];
        at = of->goals[at].partner ^ 1;
    }
    *is_kept = *is_kept && !relinked[at];
    return at;
}

struct path {
    int one, other;
    bool is_kept; /* no slot on it was linked or set free in this settle */
};

/* The path that goes over a slot; where that stands on a ring, its ends are NONE. */
static struct path path_over(const struct settings *of, int slot) {
    bool kept = true;
    struct path path = {slot, NONE, true};
    if (of->goals[slot].goal == MEDIA_GOAL_LINK) path.one = walk(of, of->goals[slot].partner, &kept);
    path.other = walk(of, slot, &path.is_kept);
    path.is_kept = path.is_kept && kept;
    return path;
}

/* The state that a slot has once all is settled with these goals. Hold against hold stays as it was, where the path was
 * there all the time, and nobody closed it or opened it. */
static int state_at_rest(const struct settings *of, int slot) {
    struct path path = path_over(of, slot);
    if (path.one == NONE || path.other == NONE) return UNSURE;
    uint8_t one = of->goals[path.one].goal, other = of->goals[path.other].goal;
    if (one == MEDIA_GOAL_CLOSE || other == MEDIA_GOAL_CLOSE) return MEDIA_CLOSED;
    if (one == MEDIA_GOAL_OPEN || other == MEDIA_GOAL_OPEN) return MEDIA_FLOWING;
    int was = of->rest[slot];
    unsigned changes = BIT(was == MEDIA_FLOWING ? MEDIA_GOAL_CLOSE : MEDIA_GOAL_OPEN);
    return path.is_kept && !((had[path.one] | had[path.other]) & changes) ? was : UNSURE;
}

/* Whether no open and no oack comes over the slot's tunnel in this settle: a walk over it comes to an end that closes
 * all the time, over links that stay. */
static bool is_shut(const struct settings *of, int slot) {
    int at = slot ^ 1;
    while (of->goals[at].goal == MEDIA_GOAL_LINK && !relinked[at] && !relinked[of->goals[at].partner])
        at = of->goals[at].partner ^ 1;
    return had[at] == BIT(MEDIA_GOAL_CLOSE);
}

/* Whether the slot isn't in this state at any moment of this settle: flowing, or closed. */
static bool is_never(const struct settings *of, int slot, int state) {
    if (of->rest[slot] == state) return false;
    struct path path = path_over(of, slot);
    unsigned goals = had[path.one] | had[path.other];
    if (state == MEDIA_CLOSED) return path.is_kept && !(goals & BIT(MEDIA_GOAL_CLOSE));
    bool nobody_opens = path.is_kept && !(goals & BIT(MEDIA_GOAL_OPEN));
    if (had[slot] == BIT(MEDIA_GOAL_CLOSE) || is_shut(of, slot) || nobody_opens) return true;
    return of->goals[slot].goal == MEDIA_GOAL_LINK && !relinked[slot] && is_shut(of, of->goals[slot].partner);
}

/* Which of the box's transitions will be gone, in any order; NONE, or UNSURE. */
static int sure_rule(const struct settings *of, int box) {
    const media_state *state = &net.boxes[box].states[of->at[box]];
    int found = NONE;
    for (int i = 0; i < state->count; i++) {
        const media_rule *rule = &state->rules[i];
        bool holds = rule->guard == MEDIA_TOLD && of->word[box] == rule->first;
        if (rule->guard == MEDIA_SLOT_IS) {
            int slot = number_of(box, rule->first), rest = state_at_rest(of, slot);
            holds = rest == rule->second;
            if (rest == UNSURE || (!holds && !is_never(of, slot, rule->second))) return UNSURE;
        }
        if (holds && found != NONE) return UNSURE;
        if (holds) found = i;
    }
    return found;
}

/* Makes the Shifts of a box, and says how many there are, or UNSURE. */
static int run_program(struct settings *of, int box) {
    int shifts = 0;
    if (net.boxes[box].state_count == 0) return 0;
    if (of->at[box] == NONE) {
        enter(of, box, 0);
        shifts++;
    }
    for (int rule; (rule = sure_rule(of, box)) != NONE; shifts++) {
        if (rule == UNSURE) return UNSURE;
        const media_rule *gone = &net.boxes[box].states[of->at[box]].rules[rule];
        if (gone->guard == MEDIA_TOLD) of->word[box] = NONE;
        enter(of, box, gone->target);
    }
    return shifts;
}

/* What a batch does to one box in a settle. */
struct tally {
    int sets, tells, shifts;
};

/* Whether the box comes to the same goals in whatever order its commands and Shifts come. */
static bool is_sure(const struct tally *of, int box, const struct settings *before) {
    if (of->shifts == UNSURE || (of->shifts > 0 && of->sets > 0)) return false;
    if (of->tells > 1 && !net.boxes[box].forgets) return false;
    return !(of->tells > 0 && net.boxes[box].awaits_slots && before->word[box] != NONE);
}

/* Makes the commands, and all Shifts: those of the program that waits for states of slots last, since no other program
 * depends on it. */
static bool make_all(struct settings *of, const struct command *batch, int count) {
    struct tally tallies[BOX_MOST] = {{0, 0, 0}};
    struct settings before = *of;
    for (int i = 0; i < net.box_count; i++)
        if (!net.boxes[i].awaits_slots) tallies[i].shifts = run_program(of, i);
    for (int i = 0; i < count; i++) {
        int box = batch[i].box;
        uint8_t kind = batch[i].event.kind;
        tallies[box].tells += kind == MEDIA_TELL;
        tallies[box].sets += kind == MEDIA_SET_GOAL || kind == MEDIA_SET_LINK;
        if (kind == MEDIA_TELL) of->word[box] = batch[i].event.first;
        if (kind == MEDIA_SET_GOAL || kind == MEDIA_SET_LINK) set(of, &batch[i]);
        if (!net.boxes[box].awaits_slots) tallies[box].shifts += run_program(of, box);
    }
    for (int i = 0; i < net.box_count; i++) {
        if (net.boxes[i].awaits_slots) tallies[i].shifts = run_program(of, i);
        if (!is_sure(&tallies[i], i, &before)) return false;
    }
    return true;
}

/* Whether the text alone decides what this batch comes to. If so, `now` is that; else `*open_end` is an end whose path
 * is undecided, or NONE. */
static bool is_decided(struct settings *now, const struct command *batch, int count, int *open_end) {
    struct settings after = *now;
    int rest[SLOT_MOST] = {0};
    *open_end = NONE;
    for (int i = 0; i < slot_count(); i++) {
        had[i] = BIT(now->goals[i].goal);
        relinked[i] = false;
    }
    if (!make_all(&after, batch, count)) return false;
    for (int i = 0; i < slot_count(); i++) {
        rest[i] = state_at_rest(&after, i);
        if (rest[i] != UNSURE) continue;
        *open_end = path_over(&after, i).one;
        return false;
    }
    memcpy(after.rest, rest, sizeof rest);
    *now = after;
    return true;
}

/* ---- the script */

static bool draw_link(int box, media_event *event) {
    const struct box *it = &net.boxes[box];
    int one = below(it->count), other = one;
    for (int tries = 0; tries < 4 && (other == one || it->slots[other].medium != it->slots[one].medium); tries++)
        other = below(it->count);
    if (other == one || it->slots[other].medium != it->slots[one].medium) return false;
    if (net.has_programs && !name_link(number_of(box, one), number_of(box, other))) return false;
    *event = (media_event){MEDIA_SET_LINK, (uint8_t)one, (uint8_t)other};
    return true;
}

static bool draw_tell(int box, media_event *event) {
    uint8_t word = (uint8_t)below(net.word_count);
    *event = (media_event){MEDIA_TELL, word, 0};
    return net.boxes[box].state_count > 0 && net.awaited >> word & 1;
}

static bool draw_command(struct command *command, bool is_first) {
    int box = command->box = below(net.box_count);
    const struct box *it = &net.boxes[box];
    if (it->count == 0) return false;
    uint8_t slot = (uint8_t)below(it->count);
    if (it->state_count > 0 && is_first) return one_in(8) && draw_tell(box, &command->event);
    if (it->state_count > 0 && one_in(2)) return draw_tell(box, &command->event);
    if (is_feature(box) && !one_in(6)) return draw_link(box, &command->event);
    command->event = (media_event){MEDIA_SET_GOAL, slot, draw_end_goal()};
    if (!is_feature(box) && one_in(3)) {
        command->event.kind = one_in(2) ? MEDIA_HEAR : MEDIA_TALK;
        command->event.second = !one_in(3);
    }
    return true;
}

/* Many commands at first; then few, or each program is told a word. */
static void draw_commands(struct batch *batch, bool is_first) {
    bool tells = net.has_programs && !is_first && one_in(3);
    int count = is_first ? 2 * slot_count() : tells ? net.box_count : below(9);
    batch->count = 0;
    for (int i = 0; i < count; i++) {
        struct command *next = &batch->commands[batch->count];
        next->box = i;
        if (tells ? draw_tell(i, &next->event) : draw_command(next, is_first)) batch->count++;
    }
}

/* Whether the text alone decides this batch, with more commands: where a path is undecided, one of its ends is told to
 * open or to close. */
static bool decide(struct settings *now, struct batch *batch) {
    int open_end;
    while (!is_decided(now, batch->commands, batch->count, &open_end)) {
        if (open_end == NONE || batch->count == BATCH_MOST) return false;
        uint8_t goal = one_in(4) ? MEDIA_GOAL_CLOSE : MEDIA_GOAL_OPEN;
        struct command command = {net.ends[open_end].box, {MEDIA_SET_GOAL, net.ends[open_end].slot, goal}};
        batch->commands[batch->count++] = command;
    }
    return true;
}

static void draw_batch(struct settings *now, struct batch *batch, bool is_first) {
    for (int tries = 0; tries < 40; tries++) {
        draw_commands(batch, is_first);
        if (decide(now, batch)) return;
    }
    batch->count = 0; /* that is decided in each network that is drawn */
    if (!decide(now, batch)) abort();
}

/* A network whose first Shifts are decided, and a script. */
void draw_all(void) {
    struct settings now, first;
    int open_end;
    do {
        draw_network();
        memset(&now, 0, sizeof now);
        for (int i = 0; i < SLOT_MOST; i++) now.goals[i].goal = MEDIA_GOAL_CLOSE;
        for (int i = 0; i < BOX_MOST; i++) now.at[i] = now.word[i] = NONE;
        first = now;
    } while (!is_decided(&first, NULL, 0, &open_end));
    script.settle_count = 1 + below(SETTLE_MOST);
    for (int i = 0; i < script.settle_count; i++) draw_batch(&now, &script.batches[i], i == 0);
    script.batches[script.settle_count].count = 0;
    if (one_in(4)) draw_batch(&now, &script.batches[script.settle_count], false);
}
