/* A guest plugs two blocks of memory: the smallest host around wicktumble.h.
 *
 *     gcc -O2 -Wall -Iinclude examples/plug.c -L"$LIB" -lwicktumble -o plug && ./plug
 *
 * examples/plug.rs is the same program; both print examples/plug.expected. */
#include <stdio.h>
#include <stdlib.h>
#include <string.h>
#include "wicktumble.h"

/* Three regions: 0 RAM of 16 KiB at 0 (memory from 0); 1 the managed region, 8 blocks of 4,096 bytes at
 * 0x8000 (memory from 0x4000); 2 the root of 64 KiB. A number takes a byte for each seven bits, the lowest first:
 * docs/REFUSALS.md#the-sheet. */
static const uint8_t sheet[] = {
    3,                                       /* regions; then of each kind, parent + 1, offset, size, priority, .. */
    WT_KIND_RAM,       3, 0,                0x80, 0x80, 0x01, 0, 0,                /* .. memory start */
    WT_KIND_MANAGED,   3, 0x80, 0x80, 0x02, 0x80, 0x80, 0x02, 0, 0x80, 0x80, 0x01, /* .. memory start */
    WT_KIND_CONTAINER, 0, 0,                0x80, 0x80, 0x04, 0,
};

enum { BLOCK = 4096, MANAGED_AT = 0x8000 };                                        /* the device */
enum { QUEUE_SIZE = 4, DESCRIPTORS = 0x1000, AVAILABLE = 0x1040, USED = 0x1080 };  /* the queue */
enum { REQUEST = 0x2000, RESPONSE = 0x2100 };                                      /* the guest's buffers */
enum { NEXT = 1, WRITE = 2 };                                                      /* virtio's flags of a descriptor */

static uint8_t memory[0x4000 + 0x8000]; /* guest memory: RAM, then the blocks */
static uint64_t map[WT_MAP], view[WT_VIEW], device[WT_DEVICE], queue[WT_QUEUE], result[WT_RESULT];

static void must(uint64_t number, const char *call) {
    if (number != WT_DONE) {
        printf("%s: refused %d\n", call, (int)number);
        exit(1);
    }
}

/* Writes a little-endian number of some bytes into guest RAM (address and memory place are the same there). */
static void put(uint64_t address, uint64_t value, int bytes) {
    for (int i = 0; i < bytes; i++) memory[address + i] = (uint8_t)(value >> (8 * i));
}

static void put_descriptor(int entry, uint64_t address, uint64_t length, uint64_t flags, uint64_t next) {
    uint64_t at = DESCRIPTORS + 16 * entry;
    put(at, address, 8), put(at + 8, length, 4), put(at + 12, flags, 2), put(at + 14, next, 2);
}

static void print_bytes(const char *name, uint64_t address, int bytes) {
    printf("%s:", name);
    for (int i = 0; i < bytes; i++) printf(" %02x", memory[address + i]);
    printf("\n");
}

int main(void) {
    /* The host: map, view, device, queue. */
    must(wt_read_sheet(sheet, sizeof sheet, sizeof memory, map, WT_MAP, result, WT_RESULT), "wt_read_sheet");
    must(wt_flatten(map, WT_MAP, sizeof memory, view, WT_VIEW, result, WT_RESULT), "wt_flatten");
    must(wt_set_up(map, WT_MAP, sizeof memory, BLOCK, MANAGED_AT, 8 * BLOCK, 4 * BLOCK,
                   device, WT_DEVICE, result, WT_RESULT), "wt_set_up");
    must(wt_make_queue(QUEUE_SIZE, DESCRIPTORS, AVAILABLE, USED, queue, WT_QUEUE), "wt_make_queue");

    /* The guest: PLUG two blocks from the region's first on, and room for the response. */
    put(REQUEST + WT_REQUEST_TYPE, WT_PLUG, 2);
    put(REQUEST + WT_REQUEST_ADDR, MANAGED_AT, 8);
    put(REQUEST + WT_REQUEST_BLOCKS, 2, 2);
    memset(memory + RESPONSE, 0xff, WT_RESPONSE);
    put_descriptor(2, REQUEST, WT_REQUEST, NEXT, 3);
    put_descriptor(3, RESPONSE, WT_RESPONSE, WRITE, 0);
    /* The available ring: flags 0, entry 0 is head 2, idx 1. */
    put(AVAILABLE, 0, 2), put(AVAILABLE + 4, 2, 2), put(AVAILABLE + 2, 1, 2);

    /* The host again, while the guest does not run: one step. */
    must(wt_step(view, WT_VIEW, device, WT_DEVICE, queue, WT_QUEUE, memory, sizeof memory,
                 result, WT_RESULT), "wt_step");
    printf("served %d, notify %d\n", (int)result[WT_RESULT_SERVED], (int)result[WT_RESULT_NOTIFY]);
    print_bytes("response", RESPONSE, WT_RESPONSE);
    print_bytes("used ring", USED, 12); /* flags, idx, element 0: id and length */
    printf("plugged blocks, word 0: %x\n", (unsigned)device[WT_DEVICE_PLUGGED]);
    return 0;
}
