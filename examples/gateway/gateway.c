/* A call through two gateways. Each is a process of its own, with a feature box, and drives one phone; README.md says
 * what of this is the caller's.
 *
 *     process left                               process right
 *     alice.0 ------ desk.0 = desk.1 ----------- trunk.0 = trunk.1 ------ bob.0
 *            a queue         link      socket            link     a queue
 *
 * gateway LEFT RIGHT [left | right]: alice calls bob, the desk holds the call and resumes it, and alice hangs up. The
 * two processes write to the files LEFT and RIGHT what their slots send and are. With the third word that process is
 * killed once the call is up. The status is 0 where both ended as they should. */
#define _POSIX_C_SOURCE 200809L
#include <errno.h>
#include <poll.h>
#include <signal.h>
#include <stdio.h>
#include <stdlib.h>
#include <string.h>
#include <sys/socket.h>
#include <sys/types.h>
#include <sys/wait.h>
#include <unistd.h>
#include "media_box.h"

enum { WORKED = 0, FAILED = 1, MISUSED = 2, ALONE = 3 }; /* statuses; ALONE: the other process is gone */
enum { PATIENCE = 20000, LIFE = 60 };                    /* milliseconds for a record, and seconds for a process */

static _Noreturn void fail(const char *what) {
    fprintf(stderr, "gateway: %s\n", what);
    exit(FAILED);
}

static void want(uint32_t code, const char *what) {
    media_text text;
    if (code == MEDIA_OK) return;
    if (media_box_text(code, &text) != MEDIA_OK) abort();
    fprintf(stderr, "gateway: %s: %s\n", what, text.at);
    exit(FAILED);
}

/* ---- the chain, which both processes know */

enum { ALICE, DESK, TRUNK, BOB, BOXES };
static const char *const names[BOXES] = {"alice", "desk", "trunk", "bob"};
static media_box boxes[BOXES] = {MEDIA_BOX_NONE, MEDIA_BOX_NONE, MEDIA_BOX_NONE, MEDIA_BOX_NONE};

/* Tunnel t joins the ends 2t, on the side of its initiator, and 2t + 1. An end's number is the origin of its
 * descriptors, which so is another one at each slot of both processes. */
struct end {
    int box;
    uint8_t slot;
};
enum { ENDS = 6 };
static const struct end ends[ENDS] = {{ALICE, 0}, {DESK, 0}, {DESK, 1}, {TRUNK, 0}, {TRUNK, 1}, {BOB, 0}};

enum side { LEFT, RIGHT };
static enum side side;

static bool is_mine(int end) { return (end >= ENDS / 2) == (side == RIGHT); }
static int end_over_socket(void) { return side == LEFT ? 2 : 3; }

static int end_of(int box, uint8_t slot) {
    for (int i = 0; i < ENDS; i++)
        if (ends[i].box == box && ends[i].slot == slot) return i;
    abort();
}

/* ---- the wire: records of 32 bytes, where a number of several bytes has its highest byte first
 *
 *   at  bytes
 *    0    1   kind: that of a signal, as media_box.h numbers them (0 open to 5 select), or one of those below
 *    1    1   of a signal its tunnel in the channel, which here is 0; of SHOW a step; else 0
 *    2    1   medium
 *    3    1   how many codecs
 *    4    8   the codecs, the best first, and then zeros
 *   12    2   port
 *   14    2   zeros
 *   16    4   origin
 *   20    4   version
 *   24    4   address
 *   28    4   the number of the record in its direction, from 0, by which one that was lost or doubled is found
 *
 * Which fields a kind of signal has is said in media_box.h. The others are zeros. */
enum { RECORD = 32 };
enum {
    ASK = 16,  /* left asks whether all is quiet; right sends it back when it has done all that came before */
    SHOW = 17, /* left says that a step is over */
    END = 18   /* left ends the call in order */
};

struct record {
    uint8_t kind, which;
    media_signal signal;
};

static int channel; /* the socket */
static uint32_t records_put, records_got;

static void put_number(unsigned char *at, int bytes, uint32_t number) {
    for (int i = bytes - 1; i >= 0; i--, number >>= 8) at[i] = number & 0xff;
}

static uint32_t get_number(const unsigned char *at, int bytes) {
    uint32_t number = 0;
    for (int i = 0; i < bytes; i++) number = number << 8 | at[i];
    return number;
}

/* Writes a record. Where the other process is gone it is lost, and the next reading tells so. */
static void put_record(uint8_t kind, uint8_t which, const media_signal *signal) {
    unsigned char bytes[RECORD] = {kind, which, signal->medium, signal->codecs.count};
    memcpy(bytes + 4, signal->codecs.at, MEDIA_CODEC_LIMIT);
    put_number(bytes + 12, 2, signal->port);
    put_number(bytes + 16, 4, signal->origin);
    put_number(bytes + 20, 4, signal->version);
    put_number(bytes + 24, 4, signal->addr);
    put_number(bytes + 28, 4, records_put++);
    for (size_t done = 0; done < RECORD;) {
        ssize_t more = write(channel, bytes + done, RECORD - done);
        if (more < 0 && (errno == EPIPE || errno == ECONNRESET)) return;
        if (more < 0 && errno != EINTR) fail("a record can't be written");
        if (more > 0) done += (size_t)more;
    }
}

static void say(uint8_t kind, uint8_t which) {
    const media_signal nothing = {0};
    put_record(kind, which, &nothing);
}

/* Reads a record. False: there are no more, since the other process is gone. */
static bool get_record(struct record *out) {
    unsigned char bytes[RECORD];
    for (size_t done = 0; done < RECORD;) {
        struct pollfd input = {channel, POLLIN, 0};
        int ready = poll(&input, 1, PATIENCE);
        if (ready == 0) fail("no record came in time");
        ssize_t more = ready < 0 ? -1 : read(channel, bytes + done, RECORD - done);
        if (more == 0 || (more < 0 && errno == ECONNRESET)) return false;
        if (more < 0 && errno != EINTR) fail("a record can't be read");
        if (more > 0) done += (size_t)more;
    }
    if (get_number(bytes + 28, 4) != records_got++) fail("a record was lost or doubled, or came out of order");
    out->kind = bytes[0];
    out->which = bytes[1];
    out->signal = (media_signal){.kind = bytes[0], .medium = bytes[2], .codecs = {.count = bytes[3]}};
    memcpy(out->signal.codecs.at, bytes + 4, MEDIA_CODEC_LIMIT);
    out->signal.port = (uint16_t)get_number(bytes + 12, 2);
    out->signal.origin = get_number(bytes + 16, 4);
    out->signal.version = get_number(bytes + 20, 4);
    out->signal.addr = get_number(bytes + 24, 4);
    return true;
}

/* ---- boxes: what is sent goes into the queue of this process, or over the socket */

enum { QUEUE = 64 };
static struct {
    int end;
    media_signal signal;
} queue[QUEUE];
static size_t queue_first, queue_count;

static void carry(int box, const media_sent *sent, size_t count) {
    static const char *const kinds[] = {"open", "oack", "close", "closeack", "describe", "select"};
    for (size_t i = 0; i < count; i++) {
        int far = end_of(box, sent[i].slot) ^ 1;
        printf("  %s.%u sends %s\n", names[box], (unsigned)sent[i].slot, kinds[sent[i].signal.kind]);
        if (!is_mine(far)) {
            put_record(sent[i].signal.kind, 0, &sent[i].signal);
            continue;
        }
        if (queue_count == QUEUE) fail("the queue is full");
        size_t last = (queue_first + queue_count++) % QUEUE;
        queue[last].end = far;
        queue[last].signal = sent[i].signal;
    }
}

/* The slot at an end takes a signal. */
static void take(int end, const media_signal *signal) {
    media_sent sent[MEDIA_TAKE_ROOM];
    size_t count;
    want(media_box_take(&boxes[ends[end].box], ends[end].slot, signal, sent, MEDIA_TAKE_ROOM, &count), "take");
    carry(ends[end].box, sent, count);
}

/* Slots take what is in the queue, and what that makes others send, until nothing is left. */
static void drain(void) {
    while (queue_count > 0) {
        size_t first = queue_first;
        media_signal signal = queue[first].signal;
        queue_first = (queue_first + 1) % QUEUE;
        queue_count--;
        take(queue[first].end, &signal);
    }
}

static void act(int box, uint8_t kind, uint8_t first, uint8_t second) {
    static media_sent sent[MEDIA_ROOM];
    const media_event event = {kind, first, second};
    size_t count;
    want(media_box_act(&boxes[box], &event, sent, MEDIA_ROOM, &count), "act");
    carry(box, sent, count);
    drain();
}

static media_slot_view see(int end) {
    media_slot_view view;
    want(media_box_see_slot(&boxes[ends[end].box], ends[end].slot, &view), "see");
    return view;
}

static void show_flow(const char *what, const char *way, media_flow flow) {
    if (!flow.flows) return;
    printf(" %s codec %u %s %u.%u.%u.%u:%u", what, (unsigned)flow.codec, way, (unsigned)(flow.addr >> 24),
           (unsigned)(flow.addr >> 16 & 0xff), (unsigned)(flow.addr >> 8 & 0xff), (unsigned)(flow.addr & 0xff),
           (unsigned)flow.port);
}

static void show(const char *when) {
    static const char *const states[] = {"closed", "opening", "opened", "flowing", "closing"};
    printf("%s\n", when);
    for (int i = 0; i < ENDS; i++) {
        if (!is_mine(i)) continue;
        media_slot_view view = see(i);
        printf("%s.%u %s", names[ends[i].box], (unsigned)ends[i].slot, states[view.state]);
        show_flow("sends", "to", view.sends);
        show_flow("hears", "from", view.hears);
        printf("%s\n", view.owes ? " owes a retry" : "");
    }
}

/* ---- the two processes */

/* Where the phones want their media and send them from. They are told to the other process as they are. */
#define ALICES_ADDRESS UINT32_C(0xc0000201) /* 192.0.2.1 */
#define BOBS_ADDRESS UINT32_C(0xc0000202)   /* 192.0.2.2 */
enum { MEDIA_PORT = 40000 };

static void make_box(int box) {
    const bool feature = box == DESK || box == TRUNK;
    const media_codecs none = {0}, alices = {2, {8, 0}}, bobs = {2, {0, 8}};
    const media_codecs list = feature ? none : box == ALICE ? alices : bobs;
    const media_setup setup = {feature ? MEDIA_FEATURE : MEDIA_DEVICE, list, list, (uint32_t)box, 1};
    media_slot slots[2];
    size_t count = 0;
    for (int i = 0; i < ENDS; i++)
        if (ends[i].box == box)
            slots[count++] = (media_slot){.medium = MEDIA_AUDIO, .initiator = i % 2 == 0, .origin = (uint32_t)i,
                                          .has_address = !feature, .port = MEDIA_PORT,
                                          .addr = box == ALICE ? ALICES_ADDRESS : BOBS_ADDRESS};
    want(media_box_make(&boxes[box], &setup, slots, count), "make");
}

static _Noreturn void finish(int status) {
    for (int box = 0; box < BOXES; box++)
        if (boxes[box].made) want(media_box_end(&boxes[box]), "end");
    if (fclose(stdout) != 0) fail("the output can't be written");
    exit(status);
}

/* The other process is gone, with all that was under way. To the box this process is now the far end of that tunnel: it
 * ends the media, as a far end may at any time, or answers the close that it was sent. Both are lawful in each state.
 * After that the box lets nobody through. */
static _Noreturn void go_on_alone(void) {
    int near = end_over_socket(), box = ends[near].box;
    printf("the other process is gone\n");
    for (uint8_t state; (state = see(near).state) != MEDIA_CLOSED;) {
        const media_signal signal = {.kind = state == MEDIA_CLOSING ? MEDIA_CLOSEACK : MEDIA_CLOSE};
        take(near, &signal);
        drain();
    }
    act(box, MEDIA_SET_GOAL, 0, MEDIA_GOAL_CLOSE);
    act(box, MEDIA_SET_GOAL, 1, MEDIA_GOAL_CLOSE);
    show("closed");
    finish(ALONE);
}

/* The next record that is no signal. Each signal before it has come to its slot, and this process is quiet. */
static struct record next_word(bool *quiet) {
    struct record got;
    for (;;) {
        if (!get_record(&got)) go_on_alone();
        if (got.kind >= ASK) return got;
        if (got.which != 0) fail("there is no such tunnel");
        take(end_over_socket(), &got.signal);
        drain();
        *quiet = false;
    }
}

static const char *const steps[] = {"talking", "on hold", "talking again", "closed"};
static int doomed = -1; /* a pipe, where this process is to be killed after its first step */

static void end_step(uint8_t step) {
    show(steps[step]);
    if (doomed < 0) return;
    if (fflush(stdout) != 0 || write(doomed, "", 1) != 1) fail("the output can't be written");
    for (;;) pause();
}

/* A signal makes others only where it is taken. So where no signal came between an ASK and its answer, none is under
 * way in either direction, and none is in a queue of the other process. */
static void settle(uint8_t step) {
    bool quiet;
    do {
        quiet = true;
        say(ASK, 0);
        if (next_word(&quiet).kind != ASK) fail("this is no answer");
    } while (!quiet);
    say(SHOW, step);
    end_step(step);
}

static void lead(void) {
    act(DESK, MEDIA_SET_LINK, 0, 1);
    act(ALICE, MEDIA_SET_GOAL, 0, MEDIA_GOAL_OPEN);
    settle(0);
    act(DESK, MEDIA_SET_GOAL, 1, MEDIA_GOAL_HOLD); /* and so slot 0, which was linked with it */
    settle(1);
    act(DESK, MEDIA_SET_LINK, 0, 1);
    settle(2);
    act(ALICE, MEDIA_SET_GOAL, 0, MEDIA_GOAL_CLOSE);
    settle(3);
    say(END, 0);
}

static void follow(void) {
    bool quiet;
    act(TRUNK, MEDIA_SET_LINK, 0, 1);
    act(BOB, MEDIA_SET_GOAL, 0, MEDIA_GOAL_HOLD);
    for (struct record got; (got = next_word(&quiet)).kind != END;) {
        if (got.kind == ASK) say(ASK, 0);
        else if (got.kind == SHOW && got.which < sizeof steps / sizeof *steps) end_step(got.which);
        else fail("this is no word");
    }
}

static _Noreturn void run(const char *file) {
    if (freopen(file, "w", stdout) == NULL) fail("the output can't be opened");
    if (media_box_version() != MEDIA_BOX_VERSION) fail("the library is another than the header");
    for (int i = 0; i < ENDS; i++)
        if (is_mine(i) && !boxes[ends[i].box].made) make_box(ends[i].box);
    if (side == LEFT) lead();
    else follow();
    finish(WORKED);
}

/* ---- starting both, and killing one */

static pid_t start(enum side it, const char *file, const int sockets[2], const int ready[2], bool dies) {
    pid_t child = fork();
    if (child < 0) fail("no process can be started");
    if (child > 0) return child;
    alarm(LIFE);
    signal(SIGPIPE, SIG_IGN);
    side = it;
    channel = sockets[it];
    close(sockets[1 - it]); /* else no end of it would ever be seen */
    close(ready[0]);
    if (dies) doomed = ready[1];
    else close(ready[1]);
    run(file);
}

static bool ended(pid_t child, bool killed, int status_wanted) {
    int status;
    if (waitpid(child, &status, 0) != child) return false;
    if (killed) return WIFSIGNALED(status) && WTERMSIG(status) == SIGKILL;
    return WIFEXITED(status) && WEXITSTATUS(status) == status_wanted;
}

int main(int count, char **words) {
    const char *killed = count == 4 ? words[3] : "";
    bool dies[2] = {strcmp(killed, "left") == 0, strcmp(killed, "right") == 0};
    bool kills = dies[LEFT] || dies[RIGHT];
    int sockets[2], ready[2];
    char byte;
    if (count < 3 || count > 4 || (count == 4 && !kills)) {
        fprintf(stderr, "usage: gateway LEFT RIGHT [left | right]\n");
        return MISUSED;
    }
    if (socketpair(AF_UNIX, SOCK_STREAM, 0, sockets) != 0 || pipe(ready) != 0) fail("there is no socket");
    alarm(LIFE);
    pid_t left = start(LEFT, words[1], sockets, ready, dies[LEFT]);
    pid_t right = start(RIGHT, words[2], sockets, ready, dies[RIGHT]);
    close(sockets[0]);
    close(sockets[1]);
    close(ready[1]);
    if (kills && read(ready[0], &byte, 1) == 1) kill(dies[LEFT] ? left : right, SIGKILL);
    bool left_ended = ended(left, dies[LEFT], dies[RIGHT] ? ALONE : WORKED);
    bool right_ended = ended(right, dies[RIGHT], dies[LEFT] ? ALONE : WORKED);
    if (!left_ended || !right_ended) fail("a process didn't end as it should");
    return WORKED;
}
