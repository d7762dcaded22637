/* A rule with the largest table, one with as many remaining properties that fall into fewer states, and one with a property too many.
 *
 * Write ek for "signals 0 to 2 show exactly the number k". full_table is the exclusive or of (signal 3 with any other) and of "eventually ek", k from
 * 1 to 7. Behind the first event it matters which of the seven have come, and whether that event had signal 3 and another on: 128 sets, twice, less
 * "none has come, and they were on". With the start that is 1 + 255 states and 7 + 256 * 37 bytes. one_too_many asks for no other with signal 3, so
 * that the pair left out here is reached: 257 properties. merged_states has six of the seven, and (e7 and "always eventually e1"): 64 sets, twice,
 * less one; where the first event shows 7, another 64 sets, twice, which no event ever decides, so that they are one state. With the start that is
 * 1 + 127 + 128 properties, 1 + 127 + 1 states and 7 + 129 * 37 bytes.
 *
 * States are numbered as they are met, shortest lists first: the sets of j numbers in the order 12, 13, .., 67, first those without signal 3. In the
 * full table 0 is the start and 1 "none has come", and {1}, {1, 2}, .., {1, .., 7} are 2, 16, 58, 128, 198, 240, 254 without signal 3, and with it,
 * 7, 21, 35, 35, 21, 7 and 1 later, 9, 37, 93, 163, 219, 247, 255. All seven are an odd number of true terms, satisfied (1); with the first term the
 * number is even, violated (2). In the other, after 0 to 7, 8 is a first event that shows 7: moot (3).
 *
 * Build: (cd crates/tefuji && rt lib) && cc -I include examples/full_table.c crates/tefuji/out/libtefuji.a -o full_table
 * Run:   ./full_table (here, where examples/ is)
 */
#include <stdio.h>
#include <stdlib.h>
#include "tefuji.h"

static uint8_t table[TEFUJI_TABLE_MAX];

/* Builds the table of a rule file and says what came of it. */
static uint64_t build(const char *path) {
    uint8_t rule[460]; /* the longest that is not refused */
    FILE *file = fopen(path, "rb");
    if (!file) {
        printf("cannot read %s\n", path);
        exit(1);
    }
    uint64_t length = tefuji_build(rule, fread(rule, 1, sizeof rule, file), table, sizeof table);
    fclose(file);
    if (tefuji_refusal(length)) printf("%s: refused %u at %d\n", path, tefuji_refusal(length), (int)tefuji_place(length));
    else printf("%s: %d bytes, %u states\n", path, (int)length, tefuji_states(tefuji_open(table, length, 1)));
    return length;
}

/* Reads events one at a time from the start, if a table was built. */
static void watch(uint64_t length, const uint8_t *events, size_t size) {
    if (tefuji_refusal(length)) return;
    uint64_t opened = tefuji_open(table, length, 1);
    uint32_t state = tefuji_start(opened);
    for (size_t i = 0; i < size; i++) {
        uint64_t answer = tefuji_step(table, length, opened, state, events[i]);
        if (tefuji_refusal(answer)) return;
        state = tefuji_state(answer);
        printf("event %u: state %u, verdict %u\n", events[i], tefuji_state_number(state), tefuji_verdict(answer));
    }
}

int main(void) {
    const uint8_t with[] = {9, 2, 3, 4, 5, 6, 7}; /* 9 is 1 and signal 3 */
    const uint8_t without[] = {1, 2, 3, 4, 5, 6, 7}, seventh[] = {7, 1};
    uint64_t length = build("examples/full_table.rule");
    watch(length, with, sizeof with);
    watch(length, without, sizeof without);
    length = build("examples/merged_states.rule");
    watch(length, seventh, sizeof seventh);
    build("examples/one_too_many.rule");
    return 0;
}
