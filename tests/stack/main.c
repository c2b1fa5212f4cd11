/* How much stack each call takes: it runs on a thread whose stack was filled with a pattern before.
 *
 *     tests/stack/run
 */
#define _GNU_SOURCE
#include "wicktumble.h"
#include <pthread.h>
#include <stdio.h>
#include <stdlib.h>
#include <string.h>
#include <sys/mman.h>

enum { STACK = 4 << 20 };

static uint64_t map[WT_MAP], view[WT_VIEW], device[WT_DEVICE], queue[WT_QUEUE], result[WT_RESULT];
static uint8_t memory[0xc000], bytes[56];
static const uint8_t sheet[] = {3, 1, 3, 0, 0x80, 0x80, 0x01, 0, 0, 4, 3, 0x80, 0x80, 0x02, 0x80, 0x80, 0x02, 0,
                                0x80, 0x80, 0x01, 0, 0, 0, 0x80, 0x80, 0x04, 0};

static void *nothing(void *x) { return x; }
static void *read_sheet(void *x) { wt_read_sheet(sheet, sizeof sheet, sizeof memory, map, WT_MAP, result, 3); return x; }
static void *check_map(void *x) { wt_check_map(map, WT_MAP, sizeof memory, result, 3); return x; }
static void *walk(void *x) { wt_walk(map, WT_MAP, sizeof memory, 0x8000, result, 3); return x; }
static void *walk_deep(void *x) { wt_walk(map, WT_MAP, sizeof memory, 0x100, result, 3); return x; }
static void *flatten(void *x) { wt_flatten(map, WT_MAP, sizeof memory, view, WT_VIEW, result, 3); return x; }
static void *set_up(void *x) {
    wt_set_up(map, WT_MAP, sizeof memory, 4096, 0x8000, 0x8000, 0x4000, device, WT_DEVICE, result, 3);
    return x;
}
static void deep(void) { /* 31 containers inside one another and a RAM region in the innermost */
    memset(map, 0, sizeof map);
    map[WT_MAP_COUNT] = WT_REGIONS;
    for (int i = 0; i < WT_REGIONS; i++) {
        uint64_t *r = map + WT_MAP_REGION(i);
        r[WT_REGION_KIND] = i == 0 ? WT_KIND_RAM : WT_KIND_CONTAINER;
        r[WT_REGION_PARENT] = i == WT_REGIONS - 1 ? 0 : i + 2;
        r[WT_REGION_SIZE] = 0x4000;
    }
}
static void *pin(void *x) { wt_pin(device, WT_DEVICE, 0); return x; }
static void *unpin(void *x) { wt_unpin(device, WT_DEVICE, 0); return x; }
static void *resize(void *x) { wt_set_requested_size(device, WT_DEVICE, 0x8000); return x; }
static void *system_reset(void *x) { wt_system_reset(device, WT_DEVICE); return x; }
static void *configuration(void *x) { wt_configuration(device, WT_DEVICE, bytes, 56); return x; }
static void *request(void *x) {
    static const uint8_t plug[24] = {[9] = 0x80, [16] = 1};
    wt_request(device, WT_DEVICE, plug, 24, bytes, 10);
    return x;
}
static void *block_of_byte(void *x) { wt_block_of_byte(device, WT_DEVICE, 0x1000, result, 3); return x; }
static void *look_up(void *x) { wt_look_up(view, WT_VIEW, sizeof memory, 0x100, result, 3); return x; }
static void *route(void *x) {
    wt_route(view, WT_VIEW, sizeof memory, device, WT_DEVICE, 0x100, 4, result, 3);
    return x;
}
static void *route_all(void *x) {
    static uint64_t accesses[4] = {0x100, 4, 0x200, 8}, answers[8];
    wt_route_all(view, WT_VIEW, sizeof memory, device, WT_DEVICE, accesses, 4, answers, 8);
    return x;
}
static void *make_queue(void *x) { wt_make_queue(4, 0x1000, 0x1040, 0x1080, queue, WT_QUEUE); return x; }
static void *reset_queue(void *x) { wt_reset_queue(queue, WT_QUEUE); return x; }
static void offer(void) { /* one PLUG of a block, as examples/plug.c puts it */
    memset(memory, 0, sizeof memory);
    uint8_t *d = memory + 0x1000;
    d[1] = 0x20; d[8] = 24; d[12] = 1; d[14] = 1;
    d[17] = 0x21; d[24] = 10; d[28] = 2;
    memory[0x1042] = 1;
    memory[0x2009] = 0x80; memory[0x2010] = 1;
}
static void *step(void *x) {
    wt_step(view, WT_VIEW, device, WT_DEVICE, queue, WT_QUEUE, memory, sizeof memory, result, 3);
    return x;
}
static void *run(void *x) {
    wt_run(view, WT_VIEW, device, WT_DEVICE, queue, WT_QUEUE, memory, sizeof memory, 256, result, 3);
    return x;
}

static size_t depth(void *(*call)(void *)) {
    uint8_t *stack = mmap(NULL, STACK, PROT_READ | PROT_WRITE, MAP_PRIVATE | MAP_ANONYMOUS, -1, 0);
    memset(stack, 0xa5, STACK);
    pthread_attr_t attributes;
    pthread_t thread;
    pthread_attr_init(&attributes);
    pthread_attr_setstack(&attributes, stack, STACK);
    if (pthread_create(&thread, &attributes, call, NULL)) exit(1);
    pthread_join(thread, NULL);
    size_t low = 0;
    while (low < STACK && stack[low] == 0xa5) low++;
    munmap(stack, STACK);
    return STACK - low;
}

int main(void) {
    size_t base = depth(nothing);
    struct { const char *name; void *(*call)(void *); } calls[] = {
        {"wt_read_sheet", read_sheet}, {"wt_check_map", check_map}, {"wt_walk", walk}, {"wt_flatten", flatten},
        {"wt_set_up", set_up}, {"wt_set_requested_size", resize}, {"wt_request", request}, {"wt_pin", pin},
        {"wt_unpin", unpin}, {"wt_configuration", configuration}, {"wt_block_of_byte", block_of_byte},
        {"wt_route", route}, {"wt_route_all", route_all}, {"wt_look_up", look_up}, {"wt_system_reset", system_reset},
        {"wt_make_queue", make_queue}, {"wt_reset_queue", reset_queue}, {"wt_step", step}, {"wt_run", run}};
    for (size_t i = 0; i < sizeof calls / sizeof *calls; i++) {
        if (calls[i].call == step || calls[i].call == run) {
            system_reset(NULL);
            make_queue(NULL);
            offer();
        }
        size_t used = depth(calls[i].call);
        printf("%-21s %7zu bytes%s\n", calls[i].name, used > base ? used - base : 0,
               calls[i].call == step || calls[i].call == run ? (result[0] == 1 ? " (one chain served)" : " (NOT SERVED)") : "");
    }
    deep();
    size_t walked = depth(walk_deep), flat = depth(flatten);
    printf("%-21s %7zu bytes at 32 levels%s\n", "wt_walk", walked - base, result[0] == 0 ? "" : " (REFUSED)");
    printf("%-21s %7zu bytes at 32 levels%s\n", "wt_flatten", flat - base, view[0] == 1 ? "" : " (NOT ONE RANGE)");
    return 0;
}
