/* A controller board that asks the watcher before each dose.
 *
 * The rule: always (p implies next (not p until q)); p (signal 0) is a dose, q (signal 1) the valve's acknowledgement.
 * After a dose, no second dose until the valve has acknowledged. The board lost an acknowledgement and wants to send again:
 * the step says violated, so the dose is held back and the state stays as it was.
 *
 * Build: (cd crates/tefuji && rt lib) && cc -I include examples/board.c crates/tefuji/out/libtefuji.a -o board
 */
#include <stdio.h>
#include <stdlib.h>
#include "tefuji.h"

enum { DOSE = 1, ACKNOWLEDGED = 2 };

/* The rule as a file: 2 signals and 7 nodes, then the nodes. */
static const uint8_t rule[] = {
    4, 0, 0, 1, 2, 7,      /* header */
    3, 0, 2, 0, 0,         /* 0: signal 0, p */
    3, 0, 2, 0, 1,         /* 1: signal 1, q */
    3, 0, 4, 0, 0,         /* 2: not 0 */
    4, 0, 11, 0, 2, 1,     /* 3: 2 until 1 */
    3, 0, 10, 0, 3,        /* 4: next 3 */
    4, 0, 7, 0, 0, 4,      /* 5: 0 implies 4 */
    3, 0, 13, 0, 5,        /* 6: always 5 */
};

static uint64_t or_stop(const char *what, uint64_t answer) {
    if (tefuji_refusal(answer)) {
        printf("%s: refused %u at %llu\n", what, tefuji_refusal(answer), (unsigned long long)tefuji_place(answer));
        exit(1);
    }
    return answer;
}

int main(void) {
    static uint8_t table[TEFUJI_TABLE_MAX];
    uint64_t length = or_stop("build", tefuji_build(rule, sizeof rule, table, sizeof table));
    uint64_t opened = or_stop("open", tefuji_open(table, length, 1)); /* the board has one table, so any number will do */
    printf("table of %llu bytes, %u signals, %u states\n", (unsigned long long)length, tefuji_signals(opened), tefuji_states(opened));

    /* What happens in the tunnel: a dose, silence, a second try, the acknowledgement, the next dose. */
    const uint8_t wanted[] = {DOSE, 0, DOSE, ACKNOWLEDGED, DOSE};
    uint32_t state = tefuji_start(opened);
    for (size_t i = 0; i < sizeof wanted; i++) {
        uint64_t answer = or_stop("step", tefuji_step(table, length, opened, state, wanted[i]));
        const char *event = wanted[i] == DOSE ? "dose" : wanted[i] == ACKNOWLEDGED ? "acknowledged" : "nothing";
        if (wanted[i] == DOSE && tefuji_verdict(answer) == TEFUJI_VIOLATED) {
            printf("%s: held back\n", event);
            continue; /* the dose does not happen: the watcher stays where it was */
        }
        state = tefuji_state(answer);
        printf("%s: state %u\n", event, tefuji_state_number(state));
    }

    /* The same events as they would have gone without the watcher, in one call. */
    uint64_t count;
    uint64_t end = or_stop("run", tefuji_run(table, length, opened, tefuji_start(opened), wanted, 3, &count));
    printf("unwatched: verdict %u after %llu events\n", tefuji_verdict(end), (unsigned long long)count);

    /* An event that needs a third signal is refused, with its number and place. */
    uint64_t refused = tefuji_step(table, length, opened, state, 4);
    printf("event 4: refused %u at %llu\n", tefuji_refusal(refused), (unsigned long long)tefuji_place(refused));

    /* A table cut short after it was opened: no verdict, but a refusal. */
    refused = tefuji_step(table, 20, opened, state, DOSE);
    printf("table cut to 20 bytes: refused %u at %llu\n", tefuji_refusal(refused), (unsigned long long)tefuji_place(refused));
    return 0;
}
