/* Structural 3.0.0: reading a document in either spelling, checking it, and printing its canonical spelling.
 *
 * SINCE VERSION 0.2.0 READING DOES NOT ANSWER 15 TO 18. It answers 0 for every draft, that is for a document that
 * may still have faults of rows, ids and links. A caller who only reads no longer hears of these: call
 * structural_check on what reading left, with the counts that it answered. It says 15 to 18 with a node, and the place
 * list has the place of that node. Reading and then, under 0, checking answer together what reading alone answered in
 * version 0.1.0; line and column of the place are then for the caller to count.
 *
 * The functions are in target/staticlib/libstructural.a, which `tools/archive` writes, for x86-64 Linux.
 * docs/LANGUAGE.md has the rules that the numbers below answer for.
 *
 * Every slice is a pointer and a length, the length counted in elements and not in bytes. It may be 0.
 * What a caller owes:
 *   - a pointer is not null, also where its length is 0, and is aligned for its type;
 *   - that many elements can be read there and, where the pointer is not to const, written;
 *   - a slice that is written overlaps no other slice of the call, and nothing else uses it meanwhile.
 * Nothing is kept after a call and nothing is shared between calls, so several threads may call at once.
 * Nothing is allocated: a call takes its memory from the stack. Measured at 64 levels of brackets, in a thread that
 * does nothing else, reading took 156,056 bytes of it, checking 53,824 and printing 21,056. These figures are those of
 * an older kit, and were not measured again.
 */
#ifndef STRUCTURAL_H
#define STRUCTURAL_H

#include <stddef.h>
#include <stdint.h>

#ifdef __cplusplus
extern "C" {
#endif

/* ---- Limits ---- */

#define STRUCTURAL_MAX_TEXT 65536u           /* bytes of a text */
#define STRUCTURAL_MAX_NODES 4096u           /* nodes of a document */
#define STRUCTURAL_MAX_POOL 65536u           /* bytes of a pool; what is read is never longer than its text */
#define STRUCTURAL_MAX_NESTED_LEVELS 64u     /* levels of brackets in a nested text */
#define STRUCTURAL_MAX_IMPERATIVE_LEVELS 59u /* levels of brackets in an imperative text */

/* ---- Numbers: what a call answers ----
 *
 * Reading answers 0 to 14 and 19. The first group that applies decides, in the order 1, 2, 3 to 6, 7, 8 to 12,
 * 19, 13, 14. The place is an offset in the text; what stands there is said after "at". Under 0 the lent slices
 * are filled, and what lies past the used part keeps its values. Under all others they keep all their values.
 *
 * The check answers 0, 15 to 18 and 20: 20 first, then 15, 16, 17 and 18, each over the whole document before the
 * next. The node is the first one that has the fault, which is said after "at". It changes nothing that is lent but
 * the words of its answer.
 *
 * Printing answers 0, 20 and 21, in the order 20, 21. It does not look for 15 to 18: drafts are printed.
 */

/* nothing is refused; reading: the text is a draft; check: it is well-formed; printing: the spelling is written */
#define STRUCTURAL_OK 0u
/* the text has more than 65,536 bytes; at 65,536 */
#define STRUCTURAL_TEXT_TOO_LONG 1u
/* the text is not UTF-8; at the first byte of the first ill-formed sequence */
#define STRUCTURAL_NOT_UTF8 2u
/* a character that is forbidden outside strings; at it */
#define STRUCTURAL_FORBIDDEN_CHARACTER 3u
/* a bad escape, or a string that is empty or not closed; at the backslash, or at the opening quote */
#define STRUCTURAL_BAD_STRING 4u
/* a closing bracket without its partner, or a list that is not closed; at it, or at the innermost open bracket */
#define STRUCTURAL_UNPAIRED_BRACKET 5u
/* a 65th level of brackets, in the imperative spelling a 60th; at its bracket */
#define STRUCTURAL_TOO_DEEP 6u
/* no expression, or in a nested text a second one; at the text's end, or at the second */
#define STRUCTURAL_NOT_ONE_EXPRESSION 7u
/* an expression that is not allowed here; at its first byte */
#define STRUCTURAL_NOT_ALLOWED 8u
/* a required parameter is absent, or a verbatim has no content; at the element's bracket */
#define STRUCTURAL_ABSENT 9u
/* an id, type, target or size is malformed; at its bracket */
#define STRUCTURAL_MALFORMED 10u
/* a child of another sort than the first child; at the child */
#define STRUCTURAL_OTHER_SORT 11u
/* an include or import, which is not read; at its bracket */
#define STRUCTURAL_INCLUDE 12u
/* more nodes than 4,096, or than the node words or the place list hold; at 0, counts needed */
#define STRUCTURAL_NODES_SHORT 13u
/* the pool is too short; at 0, counts needed */
#define STRUCTURAL_POOL_SHORT 14u
/* a row has another number of cells than its table's head has names; check, at the first such row */
#define STRUCTURAL_ROW_LENGTH 15u
/* a block has the id of an earlier block; check, at the first such block */
#define STRUCTURAL_REPEATED_ID 16u
/* a link's target is the id of no block; check, at the first such link */
#define STRUCTURAL_UNKNOWN_TARGET 17u
/* a footnote reference's target is the id of no footnote; check, at the first such reference */
#define STRUCTURAL_UNKNOWN_FOOTNOTE 18u
/* imperative: the nested form would nest more than 64 deep; at 0 */
#define STRUCTURAL_NESTED_TOO_DEEP 19u
/* not the table of a draft within the limits; check and printing, also where a count is beyond what is lent */
#define STRUCTURAL_NOT_A_TABLE 20u
/* printing: the output is too short; the length is the one needed */
#define STRUCTURAL_OUTPUT_SHORT 21u

/* Returned, with nothing read and nothing written, where `answer` is shorter than a call's words. */
#define STRUCTURAL_NO_ANSWER 4294967295u

/* ---- Words of an answer ---- */

/* Reading: six words. */
#define STRUCTURAL_READ_WORDS 6u
#define STRUCTURAL_READ_NUMBER 0u
#define STRUCTURAL_READ_PLACE 1u           /* offset in the text, 0 where the number has none */
#define STRUCTURAL_READ_LINE 2u            /* line of the place, from 1 */
#define STRUCTURAL_READ_COLUMN 3u          /* column of the place, from 1, in code points */
#define STRUCTURAL_READ_NODES 4u           /* nodes used under 0, needed under 13 and 14, else 0 */
#define STRUCTURAL_READ_POOL 5u            /* pool bytes, likewise */

/* Check: two words. */
#define STRUCTURAL_CHECK_WORDS 2u
#define STRUCTURAL_CHECK_NUMBER 0u
#define STRUCTURAL_CHECK_NODE 1u           /* the first node with the fault; 0 under 0 and 20 */

/* Printing: two words. */
#define STRUCTURAL_PRINT_WORDS 2u
#define STRUCTURAL_PRINT_NUMBER 0u
#define STRUCTURAL_PRINT_LENGTH 1u         /* bytes written under 0, needed under 21, else 0 */

/* ---- Words of a node ----
 *
 * Nodes are numbered from 0 in document order. Node n has the words from n * STRUCTURAL_NODE_WORDS on.
 * Strings are offset and length in the pool, which holds them decoded, as UTF-8; one that is missing is
 * 0, 0, and none is empty. The place list has one word a node, the offset in the text of its first byte.
 */

#define STRUCTURAL_NODE_WORDS 11u
#define STRUCTURAL_NODE_KIND 0u
#define STRUCTURAL_NODE_PARENT 1u          /* STRUCTURAL_NONE at the root */
#define STRUCTURAL_NODE_END 2u             /* one past its last descendant */
#define STRUCTURAL_NODE_KEY_OFFSET 3u      /* the id of a block, the target of an image, link or reference */
#define STRUCTURAL_NODE_KEY_LENGTH 4u
#define STRUCTURAL_NODE_TYPE_OFFSET 5u
#define STRUCTURAL_NODE_TYPE_LENGTH 6u
#define STRUCTURAL_NODE_TEXT_OFFSET 7u     /* of a text alone */
#define STRUCTURAL_NODE_TEXT_LENGTH 8u
#define STRUCTURAL_NODE_WIDTH 9u           /* of an image alone, else STRUCTURAL_NONE, as where it has no size */
#define STRUCTURAL_NODE_HEIGHT 10u

/* The parent of the root, and a width or height that is not there. */
#define STRUCTURAL_NONE 4294967295u

/* ---- Kinds ---- (1 to 7 are blocks, which may have an id) */

#define STRUCTURAL_KIND_DOCUMENT 1u
#define STRUCTURAL_KIND_PART 2u
#define STRUCTURAL_KIND_SECTION 3u
#define STRUCTURAL_KIND_SUBSECTION 4u
#define STRUCTURAL_KIND_PARAGRAPH 5u
#define STRUCTURAL_KIND_FORMAL_ITEM 6u
#define STRUCTURAL_KIND_FOOTNOTE 7u
#define STRUCTURAL_KIND_TITLE 8u
#define STRUCTURAL_KIND_TEXT 9u
#define STRUCTURAL_KIND_TERM 10u
#define STRUCTURAL_KIND_IMAGE 11u
#define STRUCTURAL_KIND_VERBATIM 12u
#define STRUCTURAL_KIND_LINK 13u
#define STRUCTURAL_KIND_LINK_EXT 14u
#define STRUCTURAL_KIND_FOOTNOTE_REF 15u
#define STRUCTURAL_KIND_LIST_ORDERED 16u
#define STRUCTURAL_KIND_LIST_UNORDERED 17u
#define STRUCTURAL_KIND_ITEM 18u
#define STRUCTURAL_KIND_TABLE 19u
#define STRUCTURAL_KIND_SUMMARY 20u
#define STRUCTURAL_KIND_HEAD 21u
#define STRUCTURAL_KIND_NAME 22u
#define STRUCTURAL_KIND_BODY 23u
#define STRUCTURAL_KIND_ROW 24u
#define STRUCTURAL_KIND_CELL 25u

/* ---- Calls ---- */

/* Reads a text in the nested spelling. Fills `nodes` with STRUCTURAL_NODE_WORDS words a node, `places`
 * with one word a node, `pool` with the strings, and the first six words of `answer`; later words of it
 * are left. Returns the number, 0 to 14 or 19: whether the document is well-formed, structural_check says.
 * To ask what a text needs, lend lengths of 0: 13 has both counts.
 */
uint32_t structural_read_nested(const uint8_t *text, size_t text_length,
                                uint32_t *nodes, size_t nodes_length,
                                uint32_t *places, size_t places_length,
                                uint8_t *pool, size_t pool_length,
                                uint32_t *answer, size_t answer_length);

/* The same of a text in the imperative spelling. */
uint32_t structural_read_imperative(const uint8_t *text, size_t text_length,
                                    uint32_t *nodes, size_t nodes_length,
                                    uint32_t *places, size_t places_length,
                                    uint8_t *pool, size_t pool_length,
                                    uint32_t *answer, size_t answer_length);

/* Checks the table that is the first `node_count` nodes and the first `pool_count` pool bytes, as reading left them
 * with the counts that it answered; what lies past them is not looked at. Fills the first two words of `answer`; later
 * ones are left. Returns the number, 0, 15 to 18 or 20. The place of a fault is the word of the place list that has the
 * node's number; 20 never comes of what reading left under 0.
 */
uint32_t structural_check(const uint32_t *nodes, size_t nodes_length, uint32_t node_count,
                          const uint8_t *pool, size_t pool_length, uint32_t pool_count,
                          uint32_t *answer, size_t answer_length);

/* Writes the canonical spelling of the draft whose table is the first `node_count` nodes and the first
 * `pool_count` pool bytes; what lies past them is not looked at. There is no line end at its close, and
 * what follows it in `out` keeps its values. Fills the first two words of `answer`; later ones are left.
 * Returns the number, 0, 20 or 21; under 20 and 21 `out` keeps all its values. To ask how long the
 * spelling is, lend an output of length 0: 21 has the length needed.
 */
uint32_t structural_print(const uint32_t *nodes, size_t nodes_length, uint32_t node_count,
                          const uint8_t *pool, size_t pool_length, uint32_t pool_count,
                          uint8_t *out, size_t out_length,
                          uint32_t *answer, size_t answer_length);

#ifdef __cplusplus
}
#endif

#endif
