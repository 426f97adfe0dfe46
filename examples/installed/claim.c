/* Which of two sources is claimed? Reads the words of examples/sources.table on standard input and runs them for some priorities.
   With the installed files:
   gcc claim.c $(pkg-config --cflags --libs skarnuth) -o claim && skarnuth words sources.table | ./claim */
#include <inttypes.h>
#include <stdio.h>
#include <string.h>

#include <skarnuth.h>

#define COUNT(a) (sizeof(a) / sizeof((a)[0]))
#define RULES 2

/* A node has 8 words: its rule, or 32768 + its symbol for a terminal, then its children. */
static const uint16_t tree[] = {
    0, 1, 2, 4, 0, 0, 0, 0,         /* node 0: controller = level source source */
    32770, 0, 0, 0, 0, 0, 0, 0,     /* node 1: level, symbol 2 */
    1, 3, 0, 0, 0, 0, 0, 0,         /* node 2: source = line */
    32771, 0, 0, 0, 0, 0, 0, 0,     /* node 3: line, symbol 3 */
    1, 5, 0, 0, 0, 0, 0, 0,         /* node 4: source = line */
    32771, 0, 0, 0, 0, 0, 0, 0,     /* node 5: line */
};

static uint16_t words[32768];
static uint64_t rows[64 * RULES];
static uint16_t plan[256 + 112 * RULES];
static int32_t values[COUNT(tree)];

int main(void) {
    const int32_t given[][3] = {{3, 5, 2}, {5, 5, 2}, {1, 2, 2}};
    size_t length = 0;
    int low, high;
    while (length < COUNT(words) && (low = getchar()) != EOF && (high = getchar()) != EOF)
        words[length++] = (uint16_t)(low | high << 8);
    for (size_t i = 0; i < COUNT(given); i++) {
        uint64_t count, number, place, second;
        memset(values, 0, sizeof values);
        values[8 * 3] = given[i][0];
        values[8 * 5] = given[i][1];
        values[8 * 1] = given[i][2];
        if (skarnuth_run(words, length, rows, COUNT(rows), plan, COUNT(plan), tree, COUNT(tree), values, COUNT(values), UINT32_MAX,
                         &count, &number, &place, &second) != SKARNUTH_DONE) {
            fprintf(stderr, "refused %" PRIu64 " %" PRIu64 " %" PRIu64 "\n", number, place, second);
            return 1;
        }
        printf("priorities %d and %d, threshold %d: claim %d\n", (int)given[i][0], (int)given[i][1], (int)given[i][2], (int)values[1]);
    }
    return 0;
}
