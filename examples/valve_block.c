/* A valve block that never reports a dose and an acknowledgement together, watched with that knowledge and without it.
 *
 * The rule: always (p implies (next (q or next q) and next next p)); p (signal 0) is a dose, q (signal 1) the valve's acknowledgement. A dose is
 * acknowledged within two events, and with the second of them the next dose comes. The second record of the file is a mask, 7: events 0, 1 and 2 can
 * happen, and 3, both at once, cannot.
 *
 * After a dose and silence the acknowledgement would have to come with the next dose. That cannot happen, so with the mask the rule is violated then;
 * without it the watcher speaks one event later.
 *
 * Build: (cd crates/tefuji && rt lib) && cc -I include examples/valve_block.c crates/tefuji/out/libtefuji.a -o valve_block
 * Run:   ./valve_block (here, where examples/ is)
 */
#include <stdio.h>
#include <stdlib.h>
#include <string.h>
#include "tefuji.h"

enum { DOSE = 1, BOTH = 3 };

/* Where the mask stands: behind the header, and six bytes long with its length and kind. */
enum { MASK = 6, NODES = 12 };

static const char *const words[] = {"undecided", "satisfied", "violated", "moot"};

static uint8_t table[TEFUJI_TABLE_MAX], text[TEFUJI_TEXT_ROOM];

static void say(const char *what, uint64_t answer) {
    if (tefuji_refusal(answer)) printf("%s: refused %u at %d\n", what, tefuji_refusal(answer), (int)tefuji_place(answer));
    else printf("%s: state %u, %s\n", what, tefuji_state_number(tefuji_state(answer)), words[tefuji_verdict(answer)]);
}

/* Builds and prints the table of a rule file, and watches a dose, silence and a dose. */
static void watch(const char *name, const uint8_t *rule, size_t size) {
    uint64_t length = tefuji_build(rule, size, table, sizeof table);
    if (tefuji_refusal(length)) {
        say(name, length);
        return;
    }
    printf("%s: rule of %d bytes, table of %d bytes\n", name, (int)size, (int)length);
    fwrite(text, 1, tefuji_text(table, length, text, sizeof text), stdout);

    uint64_t opened = tefuji_open(table, length, 1);
    const uint8_t events[] = {DOSE, 0, DOSE};
    uint32_t state = tefuji_start(opened);
    for (size_t i = 0; i < sizeof events; i++) {
        uint64_t answer = tefuji_step(table, length, opened, state, events[i]);
        say(events[i] == DOSE ? "dose" : "silence", answer);
        state = tefuji_state(answer);
    }
    uint64_t count;
    tefuji_run(table, length, opened, tefuji_start(opened), events, sizeof events, &count);
    printf("decided after %d events\n", (int)count);
    say("both at once", tefuji_step(table, length, opened, tefuji_start(opened), BOTH));
}

int main(void) {
    uint8_t rule[460]; /* the longest that is not refused */
    FILE *file = fopen("examples/valve_block.rule", "rb");
    if (!file) {
        printf("cannot read examples/valve_block.rule\n");
        return 1;
    }
    size_t size = fread(rule, 1, sizeof rule, file);
    fclose(file);
    watch("with the mask", rule, size);

    /* The same file without its second record. */
    uint8_t without[sizeof rule];
    memcpy(without, rule, MASK);
    memcpy(without + MASK, rule + NODES, size - NODES);
    watch("without it", without, size - (NODES - MASK));

    /* The mask's own two bytes are its last. */
    rule[NODES - 2] = 0;
    watch("no event possible", rule, size);
    rule[NODES - 2] = 16;
    watch("an event of three signals", rule, size);
    return 0;
}
