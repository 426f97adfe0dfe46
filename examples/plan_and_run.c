/* Plans document 01's table G and runs it over a tree of two lines, for two pairs of priorities.
   At the repository's root, after rt lib in crates/exports:
   gcc -Iexamples examples/plan_and_run.c crates/exports/out/libexports.a -o plan_and_run */
#include <inttypes.h>
#include <stdio.h>
#include <string.h>

#include "skarnuth.h"

#define COUNT(a) (sizeof(a) / sizeof((a)[0]))
#define RULES 3

static const uint16_t G[] = {
    3, 3, 0,                                               /* symbols, rules, start */
    0, 1, 0,  0, 3, 2,  1, 1, 0,                           /* kind, attributes, which of them are inherited */
    0, 1, 1,  2,  0, 1, 10,  9, 1, 8,                      /* scenario = lines */
    1, 2, 2, 1,  3,  0, 4, 8, 16,  17, 1, 1,  2, 1, 18,    /* lines = line lines */
    1, 1, 2,  2,  0, 1, 8,  2, 6, 8, 1,                    /* lines = line */
};

static const uint16_t tree[] = {
    0, 1, 0, 0, 0, 0, 0, 0,         /* node 0: rule 0, its child is node 1 */
    1, 2, 3, 0, 0, 0, 0, 0,         /* node 1: rule 1, its children are nodes 2 and 3 */
    32770, 0, 0, 0, 0, 0, 0, 0,     /* node 2: a line, terminal symbol 2 */
    2, 4, 0, 0, 0, 0, 0, 0,         /* node 3: rule 2, its child is node 4 */
    32770, 0, 0, 0, 0, 0, 0, 0,     /* node 4: a line */
};

static uint64_t rows[64 * RULES];
static uint16_t plan[256 + 112 * RULES];
static int32_t values[COUNT(tree)];

static int refused(uint64_t number, uint64_t place, uint64_t second) {
    fprintf(stderr, "refused %" PRIu64 " %" PRIu64 " %" PRIu64 "\n", number, place, second);
    return 1;
}

int main(void) {
    uint64_t count, number, place, second;
    uint32_t status = skarnuth_plan(G, COUNT(G), rows, COUNT(rows), plan, COUNT(plan), &count, &number, &place, &second);
    if (status == SKARNUTH_REFUSED)
        return refused(number, place, second);
    printf("planned: %" PRIu64 " words\n", count);
    const int32_t priorities[2][2] = {{3, 5}, {3, 2}};
    for (size_t i = 0; i < 2; i++) {
        memset(values, 0, sizeof values);
        values[8 * 2] = priorities[i][0];
        values[8 * 4] = priorities[i][1];
        status = skarnuth_run(G, COUNT(G), rows, COUNT(rows), plan, COUNT(plan), tree, COUNT(tree), values, COUNT(values), UINT32_MAX,
                              &count, &number, &place, &second);
        if (status == SKARNUTH_REFUSED)
            return refused(number, place, second);
        printf("priorities %" PRId32 " then %" PRId32 ": value %" PRId32 ", %" PRIu64 " actions\n",
               priorities[i][0], priorities[i][1], values[0], count);
    }
    return 0;
}
