/* Writes what was drawn as a text for `mediactl run`. */
#include "drawn.h"

const char *const goal_names[] = {"open", "close", "hold"};
const char *const medium_names[] = {"audio", "video"};
const char *const state_names[] = {"closed", "opening", "opened", "flowing", "closing"};

char letter(int box) { return is_feature(box) ? 'f' : 'd'; }

static void write_codecs(FILE *to, const media_codecs *list) {
    for (int i = 0; i < list->count; i++) fprintf(to, " c%d", list->at[i]);
    fputc('\n', to);
}

static void write_boxes(FILE *to) {
    fprintf(to, "media %d\n", net.version);
    for (int i = 0; i < net.codec_count; i++) fprintf(to, "codec c%d\n", i);
    for (int i = 0; i < net.box_count; i++) {
        const media_setup *setup = &net.boxes[i].setup;
        fprintf(to, "%s %c%d", is_feature(i) ? "feat" : "dev", letter(i), i);
        if (setup->first_version != 1) fprintf(to, " %lu", (unsigned long)setup->first_version);
        write_codecs(to, &setup->receives);
        if (!net.boxes[i].sends_apart) continue;
        fprintf(to, "send d%d", i);
        write_codecs(to, &setup->sends);
    }
    for (int i = 0; i < net.tunnel_count; i++) {
        const struct end *one = &net.ends[2 * i], *other = &net.ends[2 * i + 1];
        const char *medium = medium_names[net.tunnels[i].medium];
        if (i > 0 && net.tunnels[i].channel == net.tunnels[i - 1].channel)
            fprintf(to, "also %s s%d s%d\n", medium, one->slot, other->slot);
        else
            fprintf(to, "chan %s %c%d s%d %c%d s%d\n", medium, letter(one->box), one->box, one->slot,
                    letter(other->box), other->box, other->slot);
    }
}

static void write_state(FILE *to, const struct box *box, int number) {
    const media_state *state = &box->states[number];
    fprintf(to, "state p%d\n", number);
    for (int i = 0; i < box->count; i++) {
        const media_goal *goal = &state->goals[i];
        if (goal->goal != MEDIA_GOAL_LINK) fprintf(to, "goal s%d %s\n", i, goal_names[goal->goal]);
        else if (goal->partner > i) fprintf(to, "link s%d s%d\n", i, goal->partner);
    }
    for (int i = 0; i < state->count; i++) {
        const media_rule *rule = &state->rules[i];
        if (rule->guard == MEDIA_TOLD) fprintf(to, "when told w%d p%d\n", rule->first, rule->target);
        else fprintf(to, "when is s%d %s p%d\n", rule->first, state_names[rule->second], rule->target);
    }
}

static void write_programs(FILE *to) {
    for (int i = 0; i < net.box_count; i++) {
        if (net.boxes[i].state_count == 0) continue;
        fprintf(to, "prog f%d", i);
        for (int state = 0; state < net.boxes[i].state_count; state++) fprintf(to, " p%d", state);
        fputc('\n', to);
        for (int state = 0; state < net.boxes[i].state_count; state++) write_state(to, &net.boxes[i], state);
    }
}

static void write_command(FILE *to, const struct command *command) {
    int box = command->box, first = command->event.first, second = command->event.second;
    switch (command->event.kind) {
    case MEDIA_SET_GOAL: fprintf(to, "set %c%d s%d %s\n", letter(box), box, first, goal_names[second]); break;
    case MEDIA_SET_LINK: fprintf(to, "link f%d s%d s%d\n", box, first, second); break;
    case MEDIA_HEAR: fprintf(to, "hear d%d s%d %s\n", box, first, second ? "on" : "off"); break;
    case MEDIA_TALK: fprintf(to, "talk d%d s%d %s\n", box, first, second ? "on" : "off"); break;
    default: fprintf(to, "tell f%d w%d\n", box, first); break;
    }
}

void write_text(FILE *to) {
    write_boxes(to);
    write_programs(to);
    fprintf(to, "begin\n");
    for (int i = 0; i <= script.settle_count; i++) {
        for (int k = 0; k < script.batches[i].count; k++) write_command(to, &script.batches[i].commands[k]);
        if (i < script.settle_count) fprintf(to, "settle\n");
    }
}
