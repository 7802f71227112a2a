/* The bench's entries for hosts in C and C++. Link target/libhost.a, which host/library.sh builds.
 *
 * A record is a table of 16-bit numbers, 48 to a message, room for at most 512 messages; n of them are there. A table is lent as a
 * pointer and its length in numbers; the pointer may be NULL where that length is 0. No table may overlap another one of the same
 * call. Nothing is kept after a call returns. Every input gets an answer, and a refused call leaves every lent table as it was.
 *
 * Begin with n = 0, and after each kp_step or kp_run that returns 0 let n be the place or the n that it gave. Then the record holds a reached
 * record: what steps from an empty record lead to. This is so in whatever order the two are called, whatever account answers go with
 * each call, and wherever the messages are copied in between. Of such a record it is proved that kp_report never returns 22: a house reply
 * has the four messages of its payment earlier in the record, unless buyer and seller are both the outsider. And from it every honest
 * session of five steps is accepted, other steps between or not, if there is room at each.
 *
 * Numbers returned: 0 accepted; 1 the record is not lawful (its length, its count or a message); 2 no such code, they are 1 to 38; 3 a party
 * or response code out of range, or an unused argument not 0; 4 no such place; 5 a message named holds no such item or has the wrong
 * kind; 6 an honest step's condition does not hold; 7 all room is used; 8 the list is not a whole number of steps, or over 1,024; 9 fewer
 * verdict bytes than steps; 10 a line of a text is unreadable; 11 the text is too long or the step table too short; 20, 21, 22 the report
 * on a reply.
 */
#ifndef KP_BENCH_H
#define KP_BENCH_H

#include <stddef.h>
#include <stdint.h>

/* Lengths are in numbers, as the entries take them; that of a text is in bytes. */
#define KP_MESSAGE_LEN 48       /* a message */
#define KP_MESSAGES_MAX 512     /* the most messages that a record has room for */
#define KP_RECORD_LEN_MAX 24576 /* a record with that room */
#define KP_STEP_LEN 7           /* a step: its code and six arguments */
#define KP_STEPS_MAX 1024       /* the most steps of a list */
#define KP_STEPS_LEN_MAX 7168   /* a list of so many, and the least table that kp_read takes */
#define KP_TEXT_LEN_MAX 16384   /* the most bytes of a text */
#define KP_CODE_MAX 38          /* the greatest code of a step */

#ifdef __cplusplus
extern "C" {
#endif

/* One step against a record of n messages. Bit b of answers is set when account b is good. The step is a code and six arguments, unused
 * ones 0. Accepted (0), the message stands in the next place of the record, which is returned in *place; refused (1 to 7), *place is 0.
 * place must not be NULL. */
uint8_t kp_step(uint16_t *record, size_t record_len, size_t n, uint16_t answers, uint16_t code, uint16_t a1, uint16_t a2, uint16_t a3,
                uint16_t a4, uint16_t a5, uint16_t a6, uint16_t *place);

/* A run of a list of steps, 7 numbers each, from an empty record. Each step's number goes into its verdict byte; a refused step does not
 * stop the run. Played (0), *n is how many messages the record then has; bytes past the last step and places past n stay. Refused (1 for
 * the record's length, 8, 9), *n is 0. n must not be NULL. */
uint8_t kp_run(uint16_t *record, size_t record_len, uint16_t answers, const uint16_t *steps, size_t steps_len, uint8_t *verdicts,
               size_t verdicts_len, uint16_t *n);

/* The report on the reply at a place of a record of n messages: 20 all four messages of its payment stand earlier; 21 its buyer and
 * seller are both the outsider; 22 otherwise. Refused: 1, 4, and 5 if there is no reply made by gateway 1 at that place. */
uint8_t kp_report(const uint16_t *record, size_t record_len, size_t n, size_t place);

/* A step text read into a table of steps, 7 numbers each. Read (0), *answers are its account answers, *count its steps, which stand at
 * the front of the table, and *line is 0; later numbers of the table stay. Refused, the table is as it was, *answers and *count are 0,
 * and *line is the first unreadable line for 10, or 0 for 11: more than 16,384 bytes, a table of fewer than 7,168 numbers, or more than
 * 1,024 steps. answers, count and line must not be NULL. */
uint8_t kp_read(const uint8_t *text, size_t text_len, uint16_t *steps, size_t steps_len, uint16_t *answers, uint16_t *count,
                uint16_t *line);

#ifdef __cplusplus
}
#endif

#endif
