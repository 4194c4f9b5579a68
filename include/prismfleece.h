/* Prismfleece: questions about case files of radio door controllers, and typed text read into a case file, for callers in C.
 *
 * Every function takes any bytes as a file or text and any buffer; nothing has to be checked first. The reply is one number:
 *   a refusal      number * 2^32 + place   (at least 2^32; prismfleece_number and prismfleece_place take it apart)
 *   "no", "wrong"  0
 *   "right"        1
 *   anything else  1 + the number of bytes written to the front of the buffer
 * A refusal, "no" and "wrong" write nothing; a reply writes its own bytes and touches none beyond them.
 *
 * Refusals: 1 the file ends too early, 2 unknown mark, 3 cell after an event, 4 more than 128 cells or 128 events, 5 cell number out of range,
 * 6 LN shows a variable that no earlier MK held, 7 bytes after EN (place: the first of them), 8 variables in a question without them (place: the
 * first VA), 9 buffer too short (place: the length needed), 10 value list in bad form. The place is the offset in the file of the record's mark,
 * unless said otherwise; for 1 the file's length if the file ends between records. Of a typed text: 11 a byte that no line could have there (place: that
 * byte, or the text's length if it ends early), 12 a byte nested deeper than 16 (place: that byte), and 4 and 6 at the first byte of the line. A place of
 * 2^32 - 1 or more, which only a text as long as that can have, is told as 2^32 - 1.
 *
 * Buffers: a pointer with length 0 is neither read nor written through, so it may be null. `out` must share no byte with `file` or `text`; `file` and
 * `list`, which are only read, may overlap.
 *
 * No function allocates, keeps state or calls back; all may be called from several threads at once. The deepest call, a run, takes at most about 260 KB
 * of stack (reckoned; the most that was measured is 67 KB); a text takes at most 170 KB (148,912 bytes measured at 16 nestings).
 */
#ifndef PRISMFLEECE_H
#define PRISMFLEECE_H

#include <stddef.h>
#include <stdint.h>

#define PRISMFLEECE_VERSION "0.1.0"
#define PRISMFLEECE_VERSION_MAJOR 0
#define PRISMFLEECE_VERSION_MINOR 1
#define PRISMFLEECE_VERSION_PATCH 0

#define PRISMFLEECE_CELLS 128  /* the most cells of a file; also the longest list of values or marks */
#define PRISMFLEECE_EVENTS 128 /* the most events of a file */
#define PRISMFLEECE_FILE 898   /* the most bytes of a file, given, reduced or typed */
#define PRISMFLEECE_OWN 255    /* name 0, the intruder's own, as a variable's entry in a value list */

#ifdef __cplusplus
extern "C" {
#endif

/* Most general values of the variables that make the cells a and b show one message: one byte per cell, for a variable the number of a cell that it
 * equals (its own number: free), for any other cell its own number. 0: no values make them equal. Refusals 5 (place: the cell count) and 9. */
uint64_t prismfleece_equate(const uint8_t *file, size_t file_len, size_t a, size_t b, uint8_t *out, size_t out_len);

/* Values of the variables under which the intruder can make each message asked of him from what he had learnt by then: one byte per cell, for a variable
 * the number of a cell that is no variable, or PRISMFLEECE_OWN; for any other cell its own number. 0: there are no such values. Refusal 9. */
uint64_t prismfleece_run(const uint8_t *file, size_t file_len, uint8_t *out, size_t out_len);

/* Is a value list (as prismfleece_run writes it, from anyone) right? 1: right, 0: wrong (also if following it comes round). Refusal 10: place is the cell
 * count if the length is not that, else the number of the first entry in bad form. */
uint64_t prismfleece_check(const uint8_t *file, size_t file_len, const uint8_t *list, size_t list_len);

/* One byte per cell of a file without variables: 1 if its message can be built from all messages that LN events teach, else 0. Refusals 8 and 9. */
uint64_t prismfleece_marks(const uint8_t *file, size_t file_len, uint8_t *out, size_t out_len);

/* The reduced file of a file without variables: two files have equal ones, byte by byte, exactly if what they teach lets him build the same messages.
 * At most PRISMFLEECE_FILE bytes. Refusals 8 and 9. */
uint64_t prismfleece_reduce(const uint8_t *file, size_t file_len, uint8_t *out, size_t out_len);

/* The case file of a typed text. Each line is an event: "learn" or "make", one space, a list, and a line feed. A list is messages joined by commas, paired
 * from the right; a message is a and a number (an atom), X and a number (a variable, the same number the same one), f, a number and a list in round brackets
 * (an application), {| list |} message (a seal and its key), or a list in round brackets. Cells stand in order of first completion, none twice. At most
 * PRISMFLEECE_FILE bytes. Refusals 11 and 12, then 4, then 6, line by line, and 9 after the last line. */
uint64_t prismfleece_text(const uint8_t *text, size_t text_len, uint8_t *out, size_t out_len);

/* The number of a refusal, 0 if the reply is none. */
static inline unsigned prismfleece_number(uint64_t reply) { return (unsigned)(reply >> 32); }

/* The place of a refusal. */
static inline uint32_t prismfleece_place(uint64_t reply) { return (uint32_t)reply; }

#ifdef __cplusplus
}
#endif

#endif
