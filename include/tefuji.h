/* Tefuji: from a rule in linear temporal logic, typed or as a file, to the smallest monitor table, and runs over it.
 *
 * Every function takes any bytes and any numbers and always returns; it keeps nothing and allocates nothing. All state is the caller's:
 * the table's bytes, what opening it answered, and a state or a row of watches. The functions may be called from several threads at once, but for two calls over one
 * desk, which is written.
 *
 * Pointers. Each goes with its length, in bytes, or in watches where it is a desk, and must be good for that many; it must not be null, not even
 * where the length is 0. A buffer that is written must not overlap one that is read. A buffer that is only read is not changed.
 *
 * Answers. An answer is one number. Below 2^56 it is what was asked for. From there on it is a refusal: the top byte is its number, 1 to 24,
 * and the lower 56 bits are its place; a place of 2^56 or more is shown as 2^56 - 1. On a refusal every byte that was lent keeps its value.
 *
 *   number  when                                                          place
 *   1       the rule file ends within a record or before its last node    start of that record
 *   2       a record's length is below 2, or does not fit its kind        start of the record
 *   3       the first kind is not 256, or a later one is above 13, but    start of the record
 *           for 257, a mask of events, in the second place
 *   4       the signals are not 1 to 4                                    0
 *   5       the nodes are not 1 to 64                                     0
 *   6       an operand is not below the node's own number                 start of the record
 *   7       a signal, a mask or one of the two counts is out of range,    start of the record
 *           or a mask of events has a bit at or above 2^signals
 *   8       an eighth temporal node                                       start of its record
 *   9       bytes after the last node                                     the first such byte
 *   10      the output is shorter than the table, the rule file, or the   0
 *           room that tefuji_text needs
 *   11      more than 256 different remaining properties                  0
 *   12      an event is not below 2^signals, or cannot happen             its index, from 0; of a
 *           in recordings: either has a bit at or above the signals,      post the tunnel's number
 *           or a value of a signal that is unknown, or no possible
 *           event has all that the two know
 *   13      a state is not below the number of states                     0
 *           in a desk: a watch has such a state, over 32 events waiting,  the first such watch
 *           a waiting one that is none or cannot happen, or heard and
 *           waiting events of more than 4,294,967,295 together
 *   14      the bytes are not a table, or not of the opening given,       0
 *           or what is read of them is none of a table's
 *           (65,535 must stand for the same events in every row, not all)
 *   15      the rule text does not fit, or has over 1,024 bytes           see tefuji_write
 *   16      the rule text has more than 64 nodes                          0
 *   17      the mask of events has no bit set: no event can happen        start of the record
 *   18      the row of a desk is empty, or above 64                       0
 *   19      the tunnel's number is outside the row                        the number
 *   20      32 events already wait for the tunnel                         the number
 *   21      the tunnel's heard and waiting events are 4,294,967,295       the number
 *   22      the lengths of two recordings differ, or are odd              0
 *   23      two recordings contradict each other                          the event's index
 *   24      the state, or a watch of the desk, is of an opening with      0; in a desk the
 *           another number                                                first such watch
 *
 * tefuji_write refuses by 4, 7 and 8 as well, for the signals it is given, a signal of the text that is not below them, and an eighth
 * temporal sign; there every place but that of 15 is 0.
 *
 * Events that cannot happen. A rule file may have, second and nowhere else, a record of kind 257 with a mask of two bytes, low byte first: bit e
 * says that event e can happen. Without it all can, and a mask of all says the same. Verdicts are judged by the possible events alone, so they may
 * come earlier. In the table the successor for an event that cannot happen is 65,535, in every row, and such an event is refused by 12.
 *
 * Openings and states. A table is opened with a 16-bit number of the caller's choice, and what tefuji_open answers is the opening: whatever is done with
 * the table takes it beside the bytes. A state is one 32-bit number: the number of its opening, times 65,536, and the state's own number in the table. So
 * 0 is no start any more; tefuji_start gives it. Every answer with a state, and every watch of a desk, carries the number of the opening with which it was
 * made, and a run, a step, a post or a turn with an opening of another number refuses it by 24. A state may be stored, as the 32-bit number that it is, and
 * handed back later, also after a restart; it is refused by 24 if the table was opened with another number than then. So give each table a number of its
 * own, one that stays with it, and another one when the table changes. With openings of distinct numbers over tables that tefuji_build built, a run from a
 * start, or from a state that such a run answered, is refused by 24 exactly if the state is of another opening, and where it is not refused, its verdict is
 * that of all events since that start.
 * Two openings with the same number are not told apart, and are no refusal: a state of the one is then taken by the other, and 13, 12 and the answer go by
 * the table at hand, which may be wrong for the rule that was meant. That the numbers are distinct is up to the caller.
 *
 * Stack: where nothing is said, at most 1 KiB.
 *
 * Link with libtefuji.a (`rt lib` in crates/tefuji). x86-64.
 */
#ifndef TEFUJI_H
#define TEFUJI_H

#include <stddef.h>
#include <stdint.h>

#ifdef __cplusplus
extern "C" {
#endif

/* The largest table in bytes, and what tefuji_text needs. */
#define TEFUJI_TABLE_MAX 9479
#define TEFUJI_TEXT_ROOM 32768

/* The longest rule file in bytes that tefuji_write writes: the header, 31 nodes with two operands, and 33 others, 64 in all. With as much
 * lent it never refuses by 10, whatever the text. It writes no mask of events. (A rule file made otherwise may have up to 460, if it has a mask and each
 * of 64 nodes counts between two bounds.) */
#define TEFUJI_RULE_MAX 357

/* The most watches of a desk, and the most events that wait for one tunnel. */
#define TEFUJI_DESK_MAX 64
#define TEFUJI_QUEUE_MAX 32

/* A count of events that says "none". */
#define TEFUJI_NONE UINT64_MAX

/* Verdicts. Violated: no continuation satisfies the rule. Satisfied: all do. Moot: neither, and no further event will tell. */
enum { TEFUJI_UNDECIDED = 0, TEFUJI_SATISFIED = 1, TEFUJI_VIOLATED = 2, TEFUJI_MOOT = 3 };

/* The watch of one tunnel: the state in which the table stands for it, the number of the opening of which that state is, how many events wait, what it
 * remembers, and the slots, the oldest event first. The first `waiting` slots count; the others are free, whatever stands in them.
 * It remembers how many events were `heard`, and at which of them, counted from 1, a verdict other than undecided `first` stood: 0 before the first
 * event. `first` counts only where `filled` is not 0; where it is 0, no such verdict has stood yet. What stands in `filled` and `first` is not judged.
 * A desk is a row of watches, one per tunnel; a tunnel's number is the index of its watch. It must be aligned as the compiler aligns it, to 4 bytes; a
 * watch has 48 bytes, with none between or behind its members. Any bytes are a watch: one with another number than the opening given is refused by 24, and
 * what no desk can have by 13. tefuji_watch_state gives its state with the number. */
typedef struct tefuji_watch {
    uint16_t state;
    uint16_t opening;
    uint16_t waiting;
    uint16_t filled;
    uint32_t heard;
    uint32_t first;
    uint8_t events[TEFUJI_QUEUE_MAX];
} tefuji_watch;

/* Reads a rule text over so many signals and writes its rule file, which tefuji_build takes, into the front of `rule`. Bytes past the file
 * keep their values. A text names the signals s0 to s3, true and false. It has the prefixes ! (not), X (next), F (eventually) and
 * G (always), which bind tightest, round brackets, and the binary signs, tightest first: U (until), & (and), ^ (exclusive or), | (or),
 * -> (implies), <-> (equals). U and -> group to the right, the others to the left. Spaces (byte 32 alone) may stand before, between and
 * after signs. The file has one node for each occurrence, left operand first, the operator after its operands.
 * Answers the file's length in bytes, or refuses by 15, then 4, 16, 7, 8, 10.
 * 15: the text does not fit. Its place is the first byte where no further text, of any length, could make the part up to and including
 * it fit, or the length if the text merely stops. A text of more than 1,024 bytes is refused by 15 at 1,024, whatever stands in it.
 * Needs less than 128 KiB of stack, on the deepest text (measured: docs/BENCHMARKS.md); a text as people type it some 3 KiB. */
uint64_t tefuji_write(const uint8_t *text, size_t text_length, uint8_t signals, uint8_t *rule, size_t rule_length);

/* Builds the smallest table of a rule file into the front of `table`. Bytes past the table keep their values.
 * Answers the table's length in bytes, or refuses by 1 to 9 and 17, then 11, then 10. Needs less than 28 KiB of stack (measured: docs/BENCHMARKS.md). */
uint64_t tefuji_build(const uint8_t *rule, size_t rule_length, uint8_t *table, size_t table_length);

/* Opens a table with a number of the caller's choice: checks that the bytes are exactly a table; not its order, nor that it is the smallest. A successor of
 * 65,535 must stand for the same events in every row, and not for all events.
 * Answers the opening, signals * 2^32 + number * 65536 + states, which tefuji_signals, tefuji_opening_number and tefuji_states read and which what is done
 * with the table takes; or refuses by 14. Nothing is kept, so a table may be opened any number of times, and there is nothing to close. */
uint64_t tefuji_open(const uint8_t *table, size_t table_length, uint16_t number);

/* The start of an opening: state 0 of its table, with the opening's number; number * 65536. There is no refusal: of any value it is bits 16 to 31 in their
 * place. So of a refusal of tefuji_open handed on it is 0, and what takes that refusal as an opening refuses by 14. */
uint32_t tefuji_start(uint64_t opened);

/* Runs a table that was opened, from a state over a list of events. `opened` is what tefuji_open answered for the same bytes, and the state one of this
 * opening: its start, or what a run, a step or a turn with it answered.
 * Answers verdict * 2^32 + end state, which tefuji_verdict and tefuji_state read; the end state carries the opening's number. Stores in `count` how many
 * events had been read when a verdict other than undecided was first shown: 0 if the given state shows one, TEFUJI_NONE if never. Refuses by 14, then 24,
 * 13, 12, and last by 14, and leaves `count` as it was.
 * 14: the opening is no table's (a refusal of tefuji_open handed on is none), or the bytes have not exactly the length of that table. 24: the state is of
 * an opening with another number. 13: the state's own number is not below the number of states. 12: the first event of the whole list that is not below
 * 2^signals, or for which the row of state 0 has 65,535, also where a verdict was shown before it. 14, at last: a run also tests what it reads. A state on
 * the way, the given one and the last too, that is not below the number of states, or one with a verdict byte above 3, is none of a table's. So whatever the
 * bytes and the opening, also when memory went bad after it was opened, no answer names a state that the table does not have, or a verdict that does not
 * stand in its bytes.
 * From 4,096 events on it needs about 17 KiB of stack, below that at most 1 KiB. */
uint64_t tefuji_run(const uint8_t *table, size_t table_length, uint64_t opened, uint32_t state, const uint8_t *events, size_t events_length, uint64_t *count);

/* Reads one event, at a cost that does not grow with the table: a run over that event alone, with the same answer and the same refusals, 14, 24, 13, 12
 * and 14. The place of 12 is 0. */
uint64_t tefuji_step(const uint8_t *table, size_t table_length, uint64_t opened, uint32_t state, uint8_t event);

/* Writes the table as text, a line for its counts and one for each state, into the front of `text`, which has at least TEFUJI_TEXT_ROOM bytes.
 * The successor for an event that cannot happen is printed as 65535.
 * Answers the text's length, or refuses by 14, then 10. No zero byte is added. */
uint64_t tefuji_text(const uint8_t *table, size_t table_length, uint8_t *text, size_t text_length);

/* Makes a fresh desk of the whole row, whatever stood there: every watch in state 0 with nothing waiting and nothing heard. Its `opening` is the opening's
 * number. Each of its other bytes is 0, but `filled` is 1 where the table's start, state 0, shows a verdict other than undecided: that stood first at 0. The
 * tunnels of a desk are served by one table; `opened` is what tefuji_open answered for it, as for tefuji_run.
 * Answers 0, or refuses by 14, then 18; never by 24, whatever numbers the watches had.
 * 14: as for tefuji_run, the opening is no table's or the bytes have not its length; or the start's verdict byte is above 3. */
uint64_t tefuji_fresh(tefuji_watch *desk, size_t watches, const uint8_t *table, size_t table_length, uint64_t opened);

/* Posts an event to the tunnel with a number: it stands in the first free slot, and one more waits. Nothing else of the desk changes. The table and its
 * opening are those with which the desk was made fresh.
 * Answers 0, or refuses by 14, then 18, 24, 13, 19, 12, 20, 21.
 * 14: as for tefuji_run, the opening is no table's or the bytes have not its length. 24: of all watches of the row, the first whose `opening` is another
 * number than the opening's; also where an earlier watch would be refused by 13. 13: of all watches of the row, the first with a state that is not
 * below the number of states, with more than 32 events waiting, with a waiting one that would be refused by 12, or with more than 4,294,967,295 events
 * heard and waiting. 19: the number is not below `watches`. 12: the event is not below 2^signals, or the row of state 0 has 65,535 for it. 20: 32 events
 * wait already; post again after a turn that heard this tunnel. 21: heard and waiting are 4,294,967,295 already, so that one more could not be counted;
 * only a fresh desk helps. The place of these four is the number as it was given. */
uint64_t tefuji_post(tefuji_watch *desk, size_t watches, const uint8_t *table, size_t table_length, uint64_t opened, size_t number, uint8_t event);

/* Takes a turn: hears the oldest event of the next tunnel after `last` that has one waiting, going round the row, the given tunnel itself at the end. A
 * `last` outside the row counts as the last tunnel, so that a turn then begins with tunnel 0. Hearing moves the tunnel's state to the successor, takes the
 * event out, moves the later slots, the free ones too, up by one, leaves 0 in the last, and adds 1 to `heard`. Where `filled` is 0 and the successor shows
 * a verdict other than undecided, `filled` becomes 1 and `first` the new `heard`; otherwise both are kept. Nothing else of the desk changes.
 * Answers 0 where no event waits; otherwise what tefuji_heard, tefuji_number, tefuji_event, tefuji_state and tefuji_verdict read: the tunnel heard, its
 * event, the successor, which carries the opening's number, and its verdict. tefuji_last gives the number for the next turn. Refuses by 14, then 18, 24,
 * 13, as tefuji_post does, also where none waits; then by 14 where what it reads for this event is none of a table's, as tefuji_run does.
 * From a fresh desk that only posts and turns with its opening change, where each turn is given the number that tefuji_last gave after the turn before: a
 * tunnel with an event waiting is heard within as many turns as the row has watches, at most 64, whoever else posts; and after its j-th heard event
 * a tunnel stands in the state in which a run from the start over its own first j accepted events ends, `heard` is j, and `first` is that run's count, or
 * `filled` is 0 where that is TEFUJI_NONE. With a table that tefuji_build built, `filled` is not 0 exactly while the verdict of the tunnel's state is not
 * undecided. */
uint64_t tefuji_turn(tefuji_watch *desk, size_t watches, const uint8_t *table, size_t table_length, uint64_t opened, size_t last);

/* Joins two recordings of the same events, each of which knows only some signals, and runs the table from state 0 over all that may have happened.
 * A recording has two bytes for each event: which signals are known, bit s for signal s, and their values, with 0 for a signal that is unknown. Joined, a
 * signal is known where either recording knows it. A completion is a list of possible events that have the recorded value at each known signal.
 * `opened` is what tefuji_open answered for the table, as for tefuji_run; whatever its number is, since it takes no state.
 * Answers verdict * 2^32, which tefuji_verdict reads: satisfied, violated or moot exactly if the run over every completion ends with it, otherwise
 * undecided. Recordings of no event show the verdict of state 0. There is no end state in the answer.
 * Refuses by 14, then 22, then for each event by 12, 23, 12, and last by 14; all refusals of one event come before those of the next.
 * 14: as for tefuji_run, the opening is no table's or the bytes have not its length. 22: the lengths in bytes differ, or are odd. 12: in either recording
 * a bit at or above the signals, in either byte, or a value bit of a signal that is unknown. 23: both know a signal, with different values. 12: no event
 * for which the row of state 0 has a successor other than 65,535 has all that is known. The place of 12 and 23 is the event's index, from 0. 14, at last:
 * on the way of a completion stands a state that is not below the number of states, or one with a verdict byte above 3, the first and the last too.
 * The time grows with the events, whatever the number of completions. */
uint64_t tefuji_judge(const uint8_t *table, size_t table_length, uint64_t opened, const uint8_t *first, size_t first_length, const uint8_t *second, size_t second_length);

/* The parts of an answer. */
static inline unsigned tefuji_refusal(uint64_t answer) { return (unsigned)(answer >> 56); } /* 0: not a refusal */
static inline uint64_t tefuji_place(uint64_t answer) { return answer & (((uint64_t)1 << 56) - 1); }
static inline uint32_t tefuji_state(uint64_t answer) { return (uint32_t)answer; } /* of a run, a step or a turn; with the opening's number */
static inline unsigned tefuji_verdict(uint64_t answer) { return (unsigned)(answer >> 32) & 255; }
static inline int tefuji_heard(uint64_t answer) { return answer >> 55 == 1; } /* of a turn; 0: none waits, or a refusal */
static inline uint8_t tefuji_event(uint64_t answer) { return (uint8_t)(answer >> 40); }
static inline size_t tefuji_number(uint64_t answer) { return (size_t)(answer >> 48) & 127; } /* the tunnel's */
static inline size_t tefuji_last(uint64_t answer, size_t last) { return tefuji_heard(answer) ? tefuji_number(answer) : last; }

/* The parts of an opening. */
static inline unsigned tefuji_signals(uint64_t opened) { return (unsigned)(opened >> 32) & 255; }
static inline uint16_t tefuji_opening_number(uint64_t opened) { return (uint16_t)(opened >> 16); }
static inline uint16_t tefuji_states(uint64_t opened) { return (uint16_t)opened; }

/* The parts of a state: the number of its opening, and its own in the table. */
static inline uint16_t tefuji_state_opening(uint32_t state) { return (uint16_t)(state >> 16); }
static inline uint16_t tefuji_state_number(uint32_t state) { return (uint16_t)state; }

/* The state in which a watch stands, as a run or a step with the desk's opening takes it. */
static inline uint32_t tefuji_watch_state(const tefuji_watch *watch) { return (uint32_t)watch->opening << 16 | watch->state; }

#ifdef __cplusplus
}
#endif

#endif
