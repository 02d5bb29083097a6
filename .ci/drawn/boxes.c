/* Networks that are drawn, with scripts, each as a text for `mediactl run`, and as boxes of the library with queues
 * between them, whose turns come in an order that is drawn, too.
 *
 * drawn FOLDER FIRST COUNT ORDER [swap | lose | double]: for each of COUNT seeds N, from FIRST on, FOLDER/N.media is
 * the text, and FOLDER/N.media.stdout what the boxes came to, in the lines that `run` prints. They are made of what is
 * to be seen at the slots alone. ORDER is the seed of the orders, and no text depends on it. With a fifth word the
 * queues are faulty now and then. Standard output is a summary. The status is 1 where a file can't be written, or where
 * of a hundred networks or more without faults none has something that the summary counts. */
#include <stdlib.h>
#include <string.h>
#include "drawn.h"

enum {
    LANE_MOST = 4096,
    TURN_MOST = 100000 /* of a settle */
};

/* ---- the boxes of the library, and their queues */

enum fault { FAULTLESS, SWAP, LOSE, DOUBLE };
enum count {
    SETTLES, PATHS, LONG_PATHS, FLOWING, CLOSED, UNDECIDED, HEARD, TAKES, RETRIES, FIRST_SHIFTS, TOLD_SHIFTS,
    AWAITED_SHIFTS, COUNTS
};
static const char *const count_names[COUNTS] = {
    "settles", "paths", "paths over three tunnels or more", "paths that flow", "paths that are closed",
    "paths of hold against hold that flow", "ends that hear", "takes", "retries", "shifts to a first state",
    "shifts by a told word", "shifts by a slot's state"};
static unsigned long counts[COUNTS];

struct under_way {
    int to;
    media_signal signal;
};
struct lane {
    struct under_way at[LANE_MOST];
    int first, count;
};
static media_box made[BOX_MOST];
static struct lane lanes[SLOT_MOST];
static media_slot_view views[SLOT_MOST];
static bool one_lane_for_all; /* tunnels of a channel in one direction */
static struct draws of_order;
static enum fault fault;
static FILE *output;

static int among(int end) { return (int)draw(&of_order, (uint32_t)end); }

/* Whether it was done; else the output says with which code it wasn't. */
static bool went(uint32_t code) {
    if (code != MEDIA_OK) fprintf(output, "refused %lu\n", (unsigned long)code);
    return code == MEDIA_OK;
}

static bool make_boxes(void) {
    for (int i = 0; i < SLOT_MOST; i++) lanes[i].first = lanes[i].count = 0;
    for (int i = 0; i < net.box_count; i++) {
        const struct box *it = &net.boxes[i];
        if (!went(media_box_make_programmed(&made[i], &it->setup, it->slots, it->count, it->states, it->state_count)))
            return false;
    }
    return true;
}

static void push(struct lane *lane, struct under_way it) {
    if (lane->count == LANE_MOST) abort();
    lane->at[(lane->first + lane->count++) % LANE_MOST] = it;
}

static void carry(int box, const media_sent *sent, size_t count) {
    for (size_t i = 0; i < count; i++) {
        int to = number_of(box, sent[i].slot) ^ 1;
        struct lane *lane = &lanes[one_lane_for_all ? 2 * net.tunnels[to / 2].channel + to % 2 : to];
        struct under_way it = {to, sent[i].signal};
        enum fault now = among(16) == 0 ? fault : FAULTLESS;
        if (now != LOSE) push(lane, it);
        if (now == DOUBLE) push(lane, it);
        if (now == SWAP && lane->count > 1) {
            struct under_way *last = &lane->at[(lane->first + lane->count - 1) % LANE_MOST];
            struct under_way *before = &lane->at[(lane->first + lane->count - 2) % LANE_MOST];
            *last = *before;
            *before = it;
        }
    }
}

static bool act(int box, media_event event) {
    media_sent sent[MEDIA_ROOM];
    size_t count;
    if (!went(media_box_act(&made[box], &event, sent, MEDIA_ROOM, &count))) return false;
    carry(box, sent, count);
    return true;
}

static bool take(struct lane *lane) {
    media_sent sent[MEDIA_TAKE_ROOM];
    size_t count;
    struct under_way it = lane->at[lane->first];
    const struct end *at = &net.ends[it.to];
    lane->first = (lane->first + 1) % LANE_MOST;
    lane->count--;
    counts[TAKES]++;
    if (!went(media_box_take(&made[at->box], at->slot, &it.signal, sent, MEDIA_TAKE_ROOM, &count))) return false;
    carry(at->box, sent, count);
    return true;
}

static bool see_slots(void) {
    for (int i = 0; i < slot_count(); i++)
        if (!went(media_box_see_slot(&made[net.ends[i].box], net.ends[i].slot, &views[i]))) return false;
    return true;
}

/* ---- a settle */

enum kind { COMMAND, TAKE, SHIFT, RETRY };
struct candidate {
    enum kind kind;
    int at; /* a box, a lane, a box, a slot */
};
enum { CANDIDATE_MOST = 2 * BOX_MOST + SLOT_MOST + 1, SPEEDS = 8 };
static int next_command[BOX_MOST];
static int box_speeds[BOX_MOST], lane_speeds[SLOT_MOST];
static int early_retries; /* that may still come before all is at rest */

static void find_next(const struct batch *batch, int box) {
    int *next = &next_command[box];
    while (*next < batch->count && batch->commands[*next].box != box) ++*next;
}

static bool can_shift(int box) {
    media_box_view view;
    return net.boxes[box].state_count > 0 && went(media_box_see(&made[box], &view)) && view.shifts;
}

static int list_candidates(const struct batch *batch, struct candidate *list) {
    int count = 0;
    for (int i = 0; i < net.box_count; i++) {
        if (next_command[i] < batch->count) list[count++] = (struct candidate){COMMAND, i};
        if (can_shift(i)) list[count++] = (struct candidate){SHIFT, i};
    }
    for (int i = 0; i < slot_count(); i++)
        if (lanes[i].count > 0) list[count++] = (struct candidate){TAKE, i};
    if (count > 0 && early_retries > 0) {
        media_slot_view view;
        int slot = among(slot_count());
        if (went(media_box_see_slot(&made[net.ends[slot].box], net.ends[slot].slot, &view)) && view.owes)
            list[count++] = (struct candidate){RETRY, slot};
    }
    return count;
}

/* One of them: what is slow comes seldom. */
static struct candidate pick(const struct candidate *list, int count) {
    while (true) {
        struct candidate it = list[among(count)];
        int speed = it.kind == RETRY ? 1 : it.kind == TAKE ? lane_speeds[it.at] : box_speeds[it.at];
        if (among(SPEEDS) < speed) return it;
    }
}

static bool shift(int box) {
    media_box_view view;
    if (!went(media_box_see(&made[box], &view))) return false;
    counts[FIRST_SHIFTS] += !view.has_state;
    counts[TOLD_SHIFTS] += view.has_state && view.was_told;
    counts[AWAITED_SHIFTS] += view.has_state && !view.was_told;
    return act(box, (media_event){MEDIA_SHIFT, 0, 0});
}

static bool go(struct candidate it, const struct batch *batch) {
    int number;
    switch (it.kind) {
    case COMMAND:
        number = next_command[it.at]++;
        find_next(batch, it.at);
        return act(it.at, batch->commands[number].event);
    case TAKE:
        return take(&lanes[it.at]);
    case SHIFT:
        return shift(it.at);
    default:
        early_retries--;
        counts[RETRIES]++;
        return act(net.ends[it.at].box, (media_event){MEDIA_RETRY, net.ends[it.at].slot, 0});
    }
}

/* Each end that is refused asks once more. */
static bool retry_all(void) {
    int start = slot_count() > 0 ? among(slot_count()) : 0;
    if (!see_slots()) return false;
    for (int i = 0; i < slot_count(); i++) {
        int slot = (start + i) % slot_count();
        if (!views[slot].owes) continue;
        counts[RETRIES]++;
        if (!act(net.ends[slot].box, (media_event){MEDIA_RETRY, net.ends[slot].slot, 0})) return false;
    }
    return true;
}

static void draw_order(const struct batch *batch) {
    for (int i = 0; i < net.box_count; i++) {
        box_speeds[i] = 1 + among(SPEEDS);
        next_command[i] = 0;
        find_next(batch, i);
    }
    for (int i = 0; i < slot_count(); i++) lane_speeds[i] = 1 + among(SPEEDS);
    early_retries = among(3) == 0 ? 10 : 0;
}

/* Makes the commands, the Takes and the Shifts, and then the retries, until nothing is left to do. */
static bool settle(const struct batch *batch) {
    struct candidate list[CANDIDATE_MOST];
    bool retried = false;
    draw_order(batch);
    for (int turn = 0; turn < TURN_MOST; turn++) {
        int count = list_candidates(batch, list);
        if (count == 0 && retried) return true;
        if (count == 0) {
            retried = true;
            if (!retry_all()) return false;
            continue;
        }
        struct candidate it = pick(list, count);
        if (it.kind == SHIFT) retried = false;
        if (!go(it, batch)) return false;
    }
    fprintf(output, "endless\n");
    return false;
}

/* ---- what is seen after a settle */

/* Follows the links from an end: the other end, with the tunnels between, or NONE where the slots on the way differ. */
static int follow(int end, int *length) {
    int at = end ^ 1;
    for (*length = 1; views[at].goal == MEDIA_GOAL_LINK && *length <= net.tunnel_count; ++*length) {
        int partner = number_of(net.ends[at].box, views[at].partner);
        if (views[at].state != views[end].state || views[partner].state != views[end].state) return NONE;
        at = partner ^ 1;
    }
    return views[at].state == views[end].state ? at : NONE;
}

static void print_heard(int end) {
    const struct end *at = &net.ends[end];
    fprintf(output, "hears %c%d/s%d ", letter(at->box), at->box, at->slot);
    if (views[end].hears.flows) fprintf(output, "c%d\n", views[end].hears.codec);
    else fprintf(output, "none\n");
    counts[HEARD] += views[end].hears.flows;
}

/* Whether the flow has the media address of the device at this end. */
static bool is_address(const media_flow *flow, int end) {
    const struct end *at = &net.ends[end];
    const media_slot *slot = &net.boxes[at->box].slots[at->slot];
    if (slot->has_address) return flow->addr == slot->addr && flow->port == slot->port;
    return flow->addr == at->box + 1u && flow->port == 5000u + at->slot;
}

/* Whether what one end sends is what the other one hears, and each knows the other's address. */
static bool agrees(int from, int to) {
    const media_flow *sent = &views[from].sends, *heard = &views[to].hears;
    if (sent->flows != heard->flows || sent->codec != heard->codec) return false;
    return !sent->flows || (is_address(sent, to) && is_address(heard, from));
}

static void print_path(int one, int other, int length) {
    const struct end *low = &net.ends[one], *high = &net.ends[other];
    bool flows = views[one].state == MEDIA_FLOWING;
    fprintf(output, "path %c%d/s%d %c%d/s%d %s %s %s %s\n", letter(low->box), low->box, low->slot, letter(high->box),
            high->box, high->slot, goal_names[views[one].goal], goal_names[views[other].goal],
            state_names[views[one].state], medium_names[views[one].medium]);
    counts[PATHS]++;
    counts[LONG_PATHS] += length > 2;
    counts[FLOWING] += flows;
    counts[CLOSED] += !flows;
    counts[UNDECIDED] += flows && views[one].goal == MEDIA_GOAL_HOLD && views[other].goal == MEDIA_GOAL_HOLD;
    if (!agrees(one, other) || !agrees(other, one)) fprintf(output, "its ends don't know the same media\n");
    if (!flows) return;
    print_heard(one);
    print_heard(other);
}

static bool print_settle(int number) {
    int length;
    if (!see_slots()) return false;
    fprintf(output, "settle %d\n", number);
    counts[SETTLES]++;
    for (int i = 0; i < slot_count(); i++) {
        if (views[i].goal == MEDIA_GOAL_LINK) continue;
        int other = follow(i, &length);
        if (other == NONE) fprintf(output, "the slots of a path differ\n");
        else if (i < other) print_path(i, other, length);
    }
    return true;
}

static void run_boxes(void) {
    one_lane_for_all = among(2) == 0;
    bool goes_on = make_boxes();
    for (int i = 0; goes_on && i < script.settle_count; i++)
        goes_on = settle(&script.batches[i]) && print_settle(i + 1);
    for (int i = 0; i < net.box_count; i++) media_box_end(&made[i]);
}

/* ---- the files */

static FILE *create(const char *folder, unsigned long seed, const char *ending) {
    char path[1024];
    snprintf(path, sizeof path, "%s/%lu.media%s", folder, seed, ending);
    FILE *file = fopen(path, "w");
    if (file != NULL) return file;
    perror(path);
    exit(1);
}

static void close_file(FILE *file) {
    if (fclose(file) == 0) return;
    perror("a file isn't written");
    exit(1);
}

static void write_files(const char *folder, unsigned long seed, unsigned long order) {
    of_text.at = seed * UINT64_C(0x2545f4914f6cdd1d);
    of_order.at = of_text.at + order * UINT64_C(0xd6e8feb86659fd93);
    draw_all();
    FILE *text = create(folder, seed, "");
    write_text(text);
    close_file(text);
    output = create(folder, seed, ".stdout");
    run_boxes();
    close_file(output);
}

static enum fault fault_of(const char *word) {
    return strcmp(word, "swap") == 0 ? SWAP : strcmp(word, "lose") == 0 ? LOSE : DOUBLE;
}

int main(int argc, char **argv) {
    if (argc < 5 || media_box_version() != MEDIA_BOX_VERSION) return 2;
    unsigned long first = strtoul(argv[2], NULL, 10), count = strtoul(argv[3], NULL, 10);
    unsigned long order = strtoul(argv[4], NULL, 10);
    fault = argc > 5 ? fault_of(argv[5]) : FAULTLESS;
    for (unsigned long i = 0; i < count; i++) write_files(argv[1], first + i, order);
    for (int i = 0; i < COUNTS; i++) {
        printf("%s: %lu\n", count_names[i], counts[i]);
        if (counts[i] == 0 && count >= 100 && fault == FAULTLESS) return 1;
    }
    return 0;
}
