/* One board that serves 64 tunnels with one table.
 *
 * The rule, for each tunnel by itself: after a dose, no second dose until the valve has acknowledged. Events come in bursts, as the tunnels report them,
 * and are posted; the board takes a turn whenever it has time for one event, and opens a valve only when it has heard the dose and the rule stands. Which
 * tunnel broke its rule, and at which of its events, the foreman reads off the watches at any time.
 *
 * Build: (cd crates/tefuji && rt lib) && cc -I include examples/desk.c crates/tefuji/out/libtefuji.a -o desk
 * Run:   ./desk (here, where examples/ is)
 */
#include <stdio.h>
#include <stdlib.h>
#include "tefuji.h"

enum { NOTHING = 0, DOSE = 1, ACKNOWLEDGED = 2, TUNNELS = TEFUJI_DESK_MAX };

static const char *const words[] = {"nothing", "dose", "acknowledged"};

_Static_assert(sizeof(tefuji_watch) == 48, "a watch has no byte but those of its members");

static uint8_t table[TEFUJI_TABLE_MAX];
static uint64_t length, opened;
static tefuji_watch desk[TUNNELS];
static size_t last = TUNNELS; /* outside the row: the first turn begins with tunnel 0 */
static int accepted, heard;   /* how many events */

static uint64_t or_stop(const char *what, uint64_t answer) {
    if (tefuji_refusal(answer)) {
        printf("%s: refused %u at %d\n", what, tefuji_refusal(answer), (int)tefuji_place(answer));
        exit(1);
    }
    return answer;
}

static void start(void) {
    uint8_t rule[460]; /* the longest that is not refused */
    FILE *file = fopen("examples/second_dose.rule", "rb");
    size_t size = file ? fread(rule, 1, sizeof rule, file) : 0;
    if (file) fclose(file);
    length = or_stop("build", tefuji_build(rule, size, table, sizeof table));
    opened = or_stop("open", tefuji_open(table, length, 1)); /* one table, so any number will do */
    or_stop("fresh", tefuji_fresh(desk, TUNNELS, table, length, opened));
    printf("%d tunnels, one table of %d bytes\n", TUNNELS, (int)length);
}

static void post(size_t number, uint8_t event) {
    uint64_t answer = tefuji_post(desk, TUNNELS, table, length, opened, number, event);
    if (tefuji_refusal(answer))
        printf("event %u to tunnel %d: refused %u at %d\n", event, (int)number, tefuji_refusal(answer), (int)tefuji_place(answer));
    else accepted++;
}

static uint64_t turn(void) {
    uint64_t answer = or_stop("turn", tefuji_turn(desk, TUNNELS, table, length, opened, last));
    last = tefuji_last(answer, last);
    heard += tefuji_heard(answer);
    return answer;
}

static void say(uint64_t answer) {
    int held_back = tefuji_event(answer) == DOSE && tefuji_verdict(answer) == TEFUJI_VIOLATED;
    printf("tunnel %d: %s, ", (int)tefuji_number(answer), words[tefuji_event(answer)]);
    if (held_back) printf("held back\n");
    else printf("state %u\n", tefuji_state_number(tefuji_state(answer)));
}

/* The rule of the second dose is never satisfied for good, so the verdict that a watch remembers is that it was broken. */
static void tell_foreman(void) {
    for (size_t number = 0; number < TUNNELS; number++)
        if (desk[number].filled)
            printf("tunnel %d broke its rule at its event %u, of %u heard\n", (int)number, desk[number].first, desk[number].heard);
}

/* Three tunnels report at once. Tunnel 7 lost its acknowledgement and doses again. */
static void burst(void) {
    static const struct { size_t number; uint8_t event; } burst[] = {
        {7, DOSE}, {7, NOTHING}, {7, DOSE}, {3, DOSE}, {3, ACKNOWLEDGED}, {3, DOSE}, {63, DOSE},
    };
    for (size_t i = 0; i < sizeof burst / sizeof *burst; i++) post(burst[i].number, burst[i].event);
    for (uint64_t answer = turn(); tefuji_heard(answer); answer = turn()) say(answer);
    printf("none waits; tunnel %d was heard last\n", (int)last);
}

/* Tunnel 40 was just heard and has one more event, while all others have their queues full and post again whenever one of theirs is heard. */
static void busy(void) {
    post(40, DOSE);
    say(turn());
    post(40, ACKNOWLEDGED);
    for (size_t number = 0; number < TUNNELS; number++)
        for (int i = 0; number != 40 && i < TEFUJI_QUEUE_MAX; i++) post(number, NOTHING);
    int turns = 0;
    do {
        turn();
        turns++;
        if (last != 40) post(last, NOTHING);
    } while (last != 40);
    printf("tunnel 40: heard at turn %d, state %u; tunnel 41 has %u waiting\n", turns, desk[40].state, desk[41].waiting);
}

/* An event that finds the queue full is refused, and the board keeps it until the tunnel was heard. Accepted are in all the 7 events of the burst, 2 of
 * tunnel 40, 63 full queues, 63 events posted again and this dose. */
static void full(void) {
    post(41, DOSE);
    turn();
    post(41, DOSE);
    printf("tunnel %d heard, then a dose posted: %u waiting\n", (int)last, desk[41].waiting);
    uint64_t latest = 0;
    for (uint64_t answer = turn(); tefuji_heard(answer); answer = turn()) latest = answer;
    say(latest);
    printf("none waits; %d events accepted, %d heard\n", accepted, heard);
}

int main(void) {
    start();
    burst();
    tell_foreman();
    busy();
    full();
    tell_foreman(); /* tunnel 7 has heard 3 events of the burst, 32 of its full queue and one posted again */
    post(TUNNELS, DOSE); /* no such tunnel */
    post(5, 4);          /* an event that needs a third signal */
    desk[5].heard = UINT32_MAX; /* as if so many had been heard: no more can be counted */
    post(5, NOTHING);
    return 0;
}
