/* Reading the nested text on standard input into memory of the lengths that it asks for. */
#include "structural.h"

#include <stdio.h>
#include <stdlib.h>

static uint8_t text[STRUCTURAL_MAX_TEXT + 1];

struct table {
    uint32_t *nodes;
    uint32_t *places;
    uint8_t *pool;
    uint32_t answer[STRUCTURAL_READ_WORDS];
};

static void *room(size_t count, size_t size)
{
    void *memory = calloc(count + 1, size);
    if (memory == NULL)
        exit(99);
    return memory;
}

/* The number that reading answers; the table is there under 0 alone. */
static uint32_t read_table(struct table *table)
{
    size_t length = fread(text, 1, sizeof text, stdin);
    uint32_t *answer = table->answer;
    uint32_t none[2];
    uint8_t no_byte;
    uint32_t asked = structural_read_nested(text, length, none, 0, none + 1, 0, &no_byte, 0, answer,
                                            STRUCTURAL_READ_WORDS);
    if (asked != STRUCTURAL_NODES_SHORT)
        return asked;
    size_t nodes = answer[STRUCTURAL_READ_NODES];
    size_t pool = answer[STRUCTURAL_READ_POOL];
    table->nodes = room(nodes * STRUCTURAL_NODE_WORDS, sizeof *table->nodes);
    table->places = room(nodes, sizeof *table->places);
    table->pool = room(pool, sizeof *table->pool);
    return structural_read_nested(text, length, table->nodes, nodes * STRUCTURAL_NODE_WORDS, table->places, nodes,
                                  table->pool, pool, answer, STRUCTURAL_READ_WORDS);
}
