/* Planning and running attributed grammars: the C functions of the static library. A lent buffer is a pointer and its count of elements; buffers
   do not overlap. Nothing is kept between calls, and there is no heap. C++ may include this too. */
#ifndef SKARNUTH_H
#define SKARNUTH_H

#include <stddef.h>
#include <stdint.h>

/* The version of the library and of this header; the file VERSION has it. */
#define SKARNUTH_VERSION "0.2.0"
#define SKARNUTH_VERSION_MAJOR 0
#define SKARNUTH_VERSION_MINOR 2
#define SKARNUTH_VERSION_PATCH 0

#ifdef __cplusplus
extern "C" {
#endif

/* The status that a call returns. */
enum { SKARNUTH_DONE = 0, SKARNUTH_STOPPED = 1, SKARNUTH_REFUSED = 2 };

/* Plans the grammar of a table. DONE: count is the words of the plan, 256 + 112 for each rule. REFUSED: number, place and second say why and
   where (docs/MANUAL.md). Those of the four that do not belong to the status are set to 0. rows wants 64 words for each rule. */
uint32_t skarnuth_plan(const uint16_t *words, size_t words_count, uint64_t *rows, size_t rows_count, uint16_t *plan, size_t plan_count,
                       uint64_t *count, uint64_t *number, uint64_t *place, uint64_t *second);

/* Plans, checks the tree (8 words a node) and runs the plan over it for at most budget actions. DONE or STOPPED: count is the actions carried out.
   values wants 8 for each node; those of the terminals are there on entry. */
uint32_t skarnuth_run(const uint16_t *words, size_t words_count, uint64_t *rows, size_t rows_count, uint16_t *plan, size_t plan_count,
                      const uint16_t *tree, size_t tree_count, int32_t *values, size_t values_count, uint32_t budget,
                      uint64_t *count, uint64_t *number, uint64_t *place, uint64_t *second);

#ifdef __cplusplus
}
#endif

#endif
