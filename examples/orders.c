/* Lists the orders of a table, one per line, by vlodenka.h alone: the table's bytes come on standard input. */
#include <stdio.h>

#include "vlodenka.h"

#define ROOM 2048

static const char *kinds[] = {"first", "end", "step", "cut"};

static uint32_t words[ROOM * VLODENKA_NODE_WORDS];

static const uint32_t *node(uint32_t number)
{
    return words + (size_t)number * VLODENKA_NODE_WORDS;
}

/* One switch: its kind, the job and segment that it names, and the ticks at which it can happen. */
static void print_switch(const uint32_t *n)
{
    if (n[2] == VLODENKA_NONE)
        printf(" %s(%u-%u)", kinds[n[1]], n[4], n[5]);
    else
        printf(" %s(%u-%u):%u.%u", kinds[n[1]], n[4], n[5], n[2], n[3]);
}

static void print_order(uint32_t leaf)
{
    uint32_t path[96];
    int depth = 0;
    for (uint32_t at = leaf; at != VLODENKA_NONE; at = node(at)[0])
        path[depth++] = at;
    while (depth > 0)
        print_switch(node(path[--depth]));
    printf("\n");
}

int main(void)
{
    static uint8_t table[4097];
    size_t length = fread(table, 1, sizeof table, stdin);
    uint32_t nodes, orders, number = 0;
    uint32_t refusal = vlodenka_tree(table, length, words, sizeof words / sizeof *words, &nodes, &orders);
    if (refusal != 0) {
        fprintf(stderr, "refused %u\n", refusal);
        return 1;
    }
    printf("%u orders\n", orders);
    for (uint32_t i = 0; i < nodes; i++) {
        if (node(i)[2] != VLODENKA_NONE)
            continue;
        printf("%u:", number++);
        print_order(i);
    }
    return 0;
}
