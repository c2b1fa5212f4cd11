/* What tests/names.c and tests/facts.c share: the comparison, the records, and a region by its fields. */
#include "wicktumble.h"
#include <stdio.h>
#include <string.h>

static int failed;

static void same_in(const char *file, int line, const char *what, uint64_t got, uint64_t wanted) {
    if (got != wanted) {
        printf("%s:%d: %s is %llu, not %llu\n", file, line, what, (unsigned long long)got, (unsigned long long)wanted);
        failed++;
    }
}
#define same_at(line, what, got, wanted) same_in(__FILE__, line, what, got, wanted)
#define SAME(got, wanted) same_at(__LINE__, #got, got, wanted)

static uint64_t map[WT_MAP], view[WT_VIEW], device[WT_DEVICE], queue[WT_QUEUE], result[WT_RESULT];

#define FIELD(n, field) map[WT_MAP_REGION(n) + WT_REGION_##field]
#define RANGE(n, field) view[WT_VIEW_RANGE(n) + WT_RANGE_##field]

static void put_region(int n, uint64_t kind, uint64_t parent, uint64_t offset, uint64_t size) {
    FIELD(n, KIND) = kind, FIELD(n, PARENT) = parent, FIELD(n, OFFSET) = offset, FIELD(n, SIZE) = size;
}
