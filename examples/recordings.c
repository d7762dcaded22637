/* Two recordings of the same events, each with gaps, put together after the fact.
 *
 * The rule: always (p implies next (not p until q)); p (signal 0) is a dose, q (signal 1) the valve's acknowledgement. After a dose, no second dose until
 * the valve has acknowledged. The controller records whether a dose was sent and sees no acknowledgement; the valve block records whether it acknowledged
 * and knows of no dose. A recorded event is two bytes: which signals are known, and their values.
 *
 * Neither recording alone says whether the rule was broken: what the one does not see may have gone well or not. Joined they do. A verdict stands only
 * where every way to fill the gaps that are left has it.
 *
 * Build: (cd crates/tefuji && rt lib) && cc -I include examples/recordings.c crates/tefuji/out/libtefuji.a -o recordings
 * Run:   ./recordings (here, where examples/ is)
 */
#include <stdio.h>
#include <stdlib.h>
#include "tefuji.h"

/* What is known, and the value of each signal that is on. */
enum { DOSE = 1, ACKNOWLEDGED = 2, BOTH = 3 };

static const char *const words[] = {"undecided", "satisfied", "violated", "moot"};

static uint8_t table[TEFUJI_TABLE_MAX];
static uint64_t length, opened;

static uint64_t or_stop(const char *what, uint64_t answer) {
    if (tefuji_refusal(answer)) {
        printf("%s: refused %u at %d\n", what, tefuji_refusal(answer), (int)tefuji_place(answer));
        exit(1);
    }
    return answer;
}

static void start(void) {
    uint8_t rule[460]; /* the longest that is not refused */
    FILE *file = fopen("examples/second_dose.rule", "rb");
    size_t size = file ? fread(rule, 1, sizeof rule, file) : 0;
    if (file) fclose(file);
    length = or_stop("build", tefuji_build(rule, size, table, sizeof table));
    opened = or_stop("open", tefuji_open(table, length, 1));
}

static void judge(const char *what, const uint8_t *first, size_t first_length, const uint8_t *second, size_t second_length) {
    uint64_t answer = tefuji_judge(table, length, opened, first, first_length, second, second_length);
    if (tefuji_refusal(answer)) printf("%s: refused %u at %d\n", what, tefuji_refusal(answer), (int)tefuji_place(answer));
    else printf("%s: %s\n", what, words[tefuji_verdict(answer)]);
}

#define JUDGE(what, first, second) judge(what, first, sizeof first, second, sizeof second)

/* Five events. The controller sent doses at the first, the third and the fifth. */
static const uint8_t controller[] = {DOSE, DOSE, DOSE, 0, DOSE, DOSE, DOSE, 0, DOSE, DOSE};
/* The valve block acknowledged the first dose, and not the second. */
static const uint8_t valve_block[] = {ACKNOWLEDGED, 0, ACKNOWLEDGED, ACKNOWLEDGED, ACKNOWLEDGED, 0, ACKNOWLEDGED, 0, ACKNOWLEDGED, 0};
/* As it was, but of the fourth event it has no record. */
static const uint8_t with_a_gap[] = {ACKNOWLEDGED, 0, ACKNOWLEDGED, ACKNOWLEDGED, ACKNOWLEDGED, 0, 0, 0, ACKNOWLEDGED, 0};
/* With a gap at the third event instead: an acknowledgement there would be of no use, as it would come with the dose and not after it. */
static const uint8_t with_another[] = {ACKNOWLEDGED, 0, ACKNOWLEDGED, ACKNOWLEDGED, 0, 0, ACKNOWLEDGED, 0, ACKNOWLEDGED, 0};
/* A valve block that sees doses, too, and saw none at the third event. */
static const uint8_t of_other_doses[] = {BOTH, DOSE, BOTH, ACKNOWLEDGED, BOTH, 0, BOTH, 0, BOTH, DOSE};
/* Nothing is known of five events. */
static const uint8_t nothing[10] = {0};

int main(void) {
    start();
    JUDGE("the controller alone", controller, nothing);
    JUDGE("the valve block alone", nothing, valve_block);
    JUDGE("both joined", controller, valve_block);
    JUDGE("the valve block first", valve_block, controller);
    JUDGE("a gap at the fourth event", controller, with_a_gap);
    JUDGE("a gap at the third event", controller, with_another);
    JUDGE("another valve block", controller, of_other_doses);
    judge("four events and five", controller, 8, valve_block, sizeof valve_block);
    judge("no events", controller, 0, valve_block, 0);

    /* A value without the bit that says it is known is a broken record. */
    uint8_t broken[] = {DOSE, DOSE, DOSE, ACKNOWLEDGED};
    judge("a value of what is unknown", broken, sizeof broken, valve_block, sizeof broken);
    return 0;
}
