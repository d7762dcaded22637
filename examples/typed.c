/* Rules typed at a yard: read, built and run; a slip is shown at its place.
 *
 * Build: (cd crates/tefuji && rt lib) && cc -I include examples/typed.c crates/tefuji/out/libtefuji.a -o typed
 */
#include <stdio.h>
#include <string.h>
#include "tefuji.h"

/* Two signals: s0 is a dose, s1 the valve's acknowledgement. The first two are slips. */
static const char *const typed[] = {"G (s0 = s1)", "G (s0 -> X (!s0 U s1)", "G (s0 -> X (!s0 U s1))"};

static int refused(uint64_t answer) {
    int place = (int)tefuji_place(answer);
    if (tefuji_refusal(answer)) printf("%*s^ refused %u at %d\n", place, "", tefuji_refusal(answer), place);
    return tefuji_refusal(answer) != 0;
}

static void run(const char *text) {
    static uint8_t rule[TEFUJI_RULE_MAX], table[TEFUJI_TABLE_MAX];
    printf("%s\n", text);
    uint64_t written = tefuji_write((const uint8_t *)text, strlen(text), 2, rule, sizeof rule);
    if (refused(written)) return;
    uint64_t length = tefuji_build(rule, written, table, sizeof table);
    if (refused(length)) return;
    uint64_t opened = tefuji_open(table, length, 1);
    printf("rule of %d bytes, table of %d bytes\n", (int)written, (int)length);

    const uint8_t events[] = {1, 0, 1}; /* a dose, silence, a second dose */
    uint32_t state = tefuji_start(opened);
    for (size_t i = 0; i < sizeof events; i++) {
        uint64_t answer = tefuji_step(table, length, opened, state, events[i]);
        state = tefuji_state(answer);
        printf("event %u: state %u, verdict %u\n", events[i], tefuji_state_number(state), tefuji_verdict(answer));
    }
}

int main(void) {
    for (size_t i = 0; i < sizeof typed / sizeof *typed; i++) run(typed[i]);
    return 0;
}
