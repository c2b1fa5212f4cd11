/* A first host: a map, its flat view, a memory device, one request of the guest and two accesses.
 *
 *     gcc -Iinclude examples/first.c target/staticlib/libwicktumble.a -o target/first && target/first */
#include <stdio.h>
#include <wicktumble.h>

enum { RAM, MANAGED, ROOT, COUNT }; /* the regions of the map; parents come after their children, the root is last */
enum { MEMORY = 0xc000, BLOCK = 4096, ADDR = 0x8000, REGION = 8 * BLOCK, REQUESTED = 4 * BLOCK };
static uint64_t map[WT_MAP], view[WT_VIEW], device[WT_DEVICE], result[WT_RESULT];

static void put(int n, uint64_t kind, uint64_t parent, uint64_t offset, uint64_t size, uint64_t memory_start) {
    uint64_t *region = &map[WT_MAP_REGION(n)];
    region[WT_REGION_KIND] = kind, region[WT_REGION_PARENT] = parent; /* the parent's number + 1, or 0 for none */
    region[WT_REGION_OFFSET] = offset, region[WT_REGION_SIZE] = size, region[WT_REGION_MEMORY_START] = memory_start;
}

static void touch(uint64_t address) {
    uint64_t number = wt_route(view, WT_VIEW, MEMORY, device, WT_DEVICE, address, 8, result, WT_RESULT);
    if (number) printf("8 bytes at %x: refused %d\n", (int)address, (int)number);
    else printf("8 bytes at %x: byte %x of guest memory\n", (int)address, (int)result[WT_RESULT_MEMORY_PLACE]);
}

int main(void) {
    map[WT_MAP_COUNT] = COUNT;
    put(RAM, WT_KIND_RAM, ROOT + 1, 0, 0x4000, 0);                   /* 16 KiB of RAM at guest address 0 */
    put(MANAGED, WT_KIND_MANAGED, ROOT + 1, ADDR, REGION, 0x4000);   /* 8 blocks for the memory device at 0x8000 */
    put(ROOT, WT_KIND_CONTAINER, 0, 0, 0x10000, 0);                  /* 64 KiB of guest addresses */
    if (wt_flatten(map, WT_MAP, MEMORY, view, WT_VIEW, result, WT_RESULT)) return 1;
    if (wt_set_up(map, WT_MAP, MEMORY, BLOCK, ADDR, REGION, REQUESTED, device, WT_DEVICE, result, WT_RESULT)) return 1;

    uint8_t request[WT_REQUEST] = {WT_PLUG}, response[WT_RESPONSE]; /* the guest: PLUG 2 blocks from 0x8000 on */
    request[WT_REQUEST_ADDR + 1] = ADDR >> 8;                       /* numbers are little-endian */
    request[WT_REQUEST_BLOCKS] = 2;
    if (wt_request(device, WT_DEVICE, request, WT_REQUEST, response, WT_RESPONSE)) return 1;
    printf("PLUG: %s\n", response[WT_RESPONSE_TYPE] == WT_ACK ? "ACK" : "not done");

    touch(0x9ff8); /* in block 1, which is plugged now */
    touch(0xa000); /* in block 2, which is not */
    return 0;
}
