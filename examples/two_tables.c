/* One board that watches two rules, and mixes up their states.
 *
 * The first rule: after a dose (s0) no second one until the valve has acknowledged (s1). Its table has 3 states; 1 is "a dose waits for its
 * acknowledgement". The second rule: of a flap pair exactly one limit switch is on, always. Its table has 2 states; 1 is "broken for good". So state 1 is
 * in both tables and means something else in each. The board opens the one with the number 1 and the other with the number 2, and whatever is handed to
 * the wrong table is refused by 24, instead of being taken for what it is not.
 *
 * Build: (cd crates/tefuji && rt lib) && cc -I include examples/two_tables.c crates/tefuji/out/libtefuji.a -o two_tables
 */
#include <stdio.h>
#include <stdlib.h>
#include <string.h>
#include "tefuji.h"

enum { DOSE = 1, ACKNOWLEDGED = 2, BOTH = 3, DOSES = 1, FLAPS = 2, TUNNELS = 3 };

static const char *const words[] = {"undecided", "satisfied", "violated", "moot"};

/* A rule's table and its opening. */
typedef struct watched {
    uint8_t table[TEFUJI_TABLE_MAX];
    uint64_t length, opened;
} watched;

static watched doses, flaps;

static uint64_t or_stop(const char *what, uint64_t answer) {
    if (tefuji_refusal(answer)) {
        printf("%s: refused %u at %d\n", what, tefuji_refusal(answer), (int)tefuji_place(answer));
        exit(1);
    }
    return answer;
}

static void say(const char *what, uint64_t answer) {
    if (tefuji_refusal(answer)) printf("%s: refused %u at %d\n", what, tefuji_refusal(answer), (int)tefuji_place(answer));
    else printf("%s: opening %u, state %u, %s\n", what, tefuji_state_opening(tefuji_state(answer)), tefuji_state_number(tefuji_state(answer)), words[tefuji_verdict(answer)]);
}

static void open_rule(watched *rule, const char *text, uint16_t number) {
    uint8_t file[TEFUJI_RULE_MAX];
    uint64_t size = or_stop("write", tefuji_write((const uint8_t *)text, strlen(text), 2, file, sizeof file));
    rule->length = or_stop("build", tefuji_build(file, size, rule->table, sizeof rule->table));
    rule->opened = or_stop("open", tefuji_open(rule->table, rule->length, number));
    printf("%s: number %u, %u signals, %u states, start %u\n", text, tefuji_opening_number(rule->opened), tefuji_signals(rule->opened), tefuji_states(rule->opened), (unsigned)tefuji_start(rule->opened));
}

static uint64_t step(const watched *rule, uint32_t state, uint8_t event) {
    return tefuji_step(rule->table, rule->length, rule->opened, state, event);
}

/* A dose, and both limit switches on: either table stands in its state 1. Then the states are mixed up. */
static uint32_t mix_up(void) {
    uint64_t dosed = step(&doses, tefuji_start(doses.opened), DOSE);
    uint64_t broken = step(&flaps, tefuji_start(flaps.opened), BOTH);
    say("a dose", dosed);
    say("both switches", broken);
    say("the flaps' state by the doses' table", step(&doses, tefuji_state(broken), ACKNOWLEDGED));
    say("the doses' state by the flaps' table", step(&flaps, tefuji_state(dosed), ACKNOWLEDGED));
    uint8_t no_events[] = {4, 4};
    uint64_t count = 5;
    say("also a state too large, and no events", tefuji_run(flaps.table, flaps.length, flaps.opened, tefuji_state(dosed) + 99, no_events, sizeof no_events, &count));
    printf("the count is still %d\n", (int)count);
    return tefuji_state(dosed);
}

/* A state that was stored goes on where it was, if its table has the number that it had. */
static void restart(uint32_t stored) {
    doses.opened = or_stop("open", tefuji_open(doses.table, doses.length, DOSES));
    say("the stored state, then an acknowledgement", step(&doses, stored, ACKNOWLEDGED));
    doses.opened = or_stop("open", tefuji_open(doses.table, doses.length, 3));
    say("with the number 3 instead", step(&doses, stored, ACKNOWLEDGED));
    doses.opened = or_stop("open", tefuji_open(doses.table, doses.length, DOSES));
}

/* Two tables with one number are not told apart: what is answered goes by the table at hand. */
static void one_number_for_both(void) {
    flaps.opened = or_stop("open", tefuji_open(flaps.table, flaps.length, DOSES));
    uint64_t broken = step(&flaps, tefuji_start(flaps.opened), BOTH);
    say("both switches, with the number 1", broken);
    say("taken for a dose that waits", step(&doses, tefuji_state(broken), ACKNOWLEDGED));
    uint64_t second_dose = step(&doses, tefuji_state(step(&doses, tefuji_start(doses.opened), DOSE)), DOSE);
    say("a second dose", second_dose);
    say("no state of the flaps", step(&flaps, tefuji_state(second_dose), ACKNOWLEDGED));
    flaps.opened = or_stop("open", tefuji_open(flaps.table, flaps.length, FLAPS));
}

/* A desk of the one table, served by the other. */
static void serve(void) {
    tefuji_watch desk[TUNNELS], other[TUNNELS];
    or_stop("fresh", tefuji_fresh(desk, TUNNELS, doses.table, doses.length, doses.opened));
    or_stop("fresh", tefuji_fresh(other, TUNNELS, flaps.table, flaps.length, flaps.opened));
    say("a turn with the flaps' table", tefuji_turn(desk, TUNNELS, flaps.table, flaps.length, flaps.opened, 0));
    say("a post with it", tefuji_post(desk, TUNNELS, flaps.table, flaps.length, flaps.opened, 2, DOSE));
    or_stop("post", tefuji_post(desk, TUNNELS, doses.table, doses.length, doses.opened, 2, DOSE));
    uint64_t heard = tefuji_turn(desk, TUNNELS, doses.table, doses.length, doses.opened, 0);
    printf("tunnel %d heard event %u\n", (int)tefuji_number(heard), tefuji_event(heard));
    say("a turn with its own table", heard);
    say("a step from where the watch stands", step(&doses, tefuji_watch_state(&desk[2]), ACKNOWLEDGED));
    desk[0].state = 99;
    desk[1] = other[1];
    say("a watch of the other desk, behind a broken one", tefuji_turn(desk, TUNNELS, doses.table, doses.length, doses.opened, 0));
    desk[1].opening = DOSES;
    say("the broken one alone", tefuji_turn(desk, TUNNELS, doses.table, doses.length, doses.opened, 0));
}

int main(void) {
    open_rule(&doses, "G (s0 -> X (!s0 U s1))", DOSES);
    open_rule(&flaps, "G (s0 ^ s1)", FLAPS);
    uint32_t stored = mix_up();
    restart(stored);
    one_number_for_both();
    serve();
    return 0;
}
