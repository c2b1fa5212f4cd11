/* What docs/HOSTS.md, docs/REFUSALS.md and the header tell a host beyond the rules: a function for each section. tests/hosts
 * builds and runs it; it prints what differs. */
#include "check.h"

#define RESULT_IS(a, b, c) (SAME(result[0], a), SAME(result[1], b), SAME(result[2], c))

enum { RAM, MANAGED, SECOND, ROOT, COUNT }; /* the regions of the map */
enum { BLOCK = 4096, BLOCKS = 80, ADDR = 0x100000, SECOND_AT = 0x8000 };
enum { SIZE = 4, DESCRIPTORS = 0x1000, AVAILABLE = 0x1040, USED = 0x1080, REQUEST = 0x2000, RESPONSE = 0x2100 };
enum { NEXT = 1, WRITE = 2 };

static uint8_t memory[0x4000 + BLOCKS * BLOCK];

/* RAM at 0, the managed region at ADDR, a second way into the RAM, the root. */
static void make_map(void) {
    memset(map, 0, sizeof map);
    map[WT_MAP_COUNT] = COUNT;
    put_region(RAM, WT_KIND_RAM, ROOT + 1, 0, 0x4000);
    put_region(MANAGED, WT_KIND_MANAGED, ROOT + 1, ADDR, BLOCKS * BLOCK);
    FIELD(MANAGED, MEMORY_START) = 0x4000;
    put_region(SECOND, WT_KIND_ALIAS, ROOT + 1, SECOND_AT, 0x1000);
    FIELD(SECOND, TARGET) = RAM, FIELD(SECOND, ALIAS_OFFSET) = 0x2000;
    put_region(ROOT, WT_KIND_CONTAINER, 0, 0, 0x200000);
}

static uint64_t check(void) { return wt_check_map(map, WT_MAP, sizeof memory, result, WT_RESULT); }
static uint64_t walk(uint64_t a) { return wt_walk(map, WT_MAP, sizeof memory, a, result, WT_RESULT); }
static uint64_t flatten(void) { return wt_flatten(map, WT_MAP, sizeof memory, view, WT_VIEW, result, WT_RESULT); }
static uint64_t set_up(uint64_t addr, uint64_t usable, uint64_t requested) {
    return wt_set_up(map, WT_MAP, sizeof memory, BLOCK, addr, usable, requested, device, WT_DEVICE, result, WT_RESULT);
}
static uint64_t route(uint64_t a, uint64_t width) {
    return wt_route(view, WT_VIEW, sizeof memory, device, WT_DEVICE, a, width, result, WT_RESULT);
}
static uint64_t step(void) {
    return wt_step(view, WT_VIEW, device, WT_DEVICE, queue, WT_QUEUE, memory, sizeof memory, result, WT_RESULT);
}
static uint64_t run(uint64_t k) {
    return wt_run(view, WT_VIEW, device, WT_DEVICE, queue, WT_QUEUE, memory, sizeof memory, k, result, WT_RESULT);
}

static void put(uint64_t at, uint64_t value, int bytes) {
    for (int i = 0; i < bytes; i++) memory[at + i] = (uint8_t)(value >> (8 * i));
}

/* A request in descriptors 0 and 1, and so many entries of the ring that name it. */
static void offer(uint64_t type, uint64_t address, uint64_t blocks, int chains) {
    put(REQUEST + WT_REQUEST_TYPE, type, 2), put(REQUEST + WT_REQUEST_ADDR, address, 8);
    put(REQUEST + WT_REQUEST_BLOCKS, blocks, 2);
    put(DESCRIPTORS, REQUEST, 8), put(DESCRIPTORS + 8, WT_REQUEST, 4), put(DESCRIPTORS + 12, NEXT, 2);
    put(DESCRIPTORS + 14, 1, 2);
    put(DESCRIPTORS + 16, RESPONSE, 8), put(DESCRIPTORS + 24, WT_RESPONSE, 4), put(DESCRIPTORS + 28, WRITE, 2);
    for (int i = 0; i < SIZE; i++) put(AVAILABLE + 4 + 2 * i, 0, 2);
    put(AVAILABLE + 2, queue[WT_QUEUE_NEXT_AVAILABLE] + chains, 2);
}

/* The records as a host has them at its start. */
static void begin(void) {
    memset(memory, 0, sizeof memory);
    make_map();
    SAME(flatten(), WT_DONE);
    SAME(set_up(ADDR, BLOCKS * BLOCK, BLOCKS * BLOCK), WT_DONE);
    SAME(wt_make_queue(SIZE, DESCRIPTORS, AVAILABLE, USED, queue, WT_QUEUE), WT_DONE);
}

static void draining(void) {
    begin();
    offer(WT_STATE, ADDR, 1, 3);
    SAME(run(1), WT_DONE), RESULT_IS(1, 1, 0); /* two are left, and no notification will come for them */
    SAME(run(8), WT_DONE), RESULT_IS(2, 1, 1);
    SAME(step(), WT_DONE), RESULT_IS(0, 0, 0);
    offer(WT_STATE, ADDR, 1, 3);
    SAME(run(3), WT_DONE), RESULT_IS(3, 1, 0); /* k chains, and none is left: the run did not look */
    SAME(run(3), WT_DONE), RESULT_IS(0, 0, 1);
    offer(WT_STATE, ADDR, 1, 1);
    put(AVAILABLE, 1, 2); /* the guest wants no interrupt */
    SAME(run(3), WT_DONE), RESULT_IS(1, 0, 1);
    put(AVAILABLE, 0, 2);
    SAME(wt_make_queue(SIZE, DESCRIPTORS, AVAILABLE, USED, queue, WT_QUEUE), WT_DONE);
    queue[WT_QUEUE_NEXT_AVAILABLE] = queue[WT_QUEUE_NEXT_USED] = 3;
    offer(WT_STATE, ADDR, 1, 3);
    put(AVAILABLE + 4 + 2 * (5 % SIZE), 9, 2); /* the third names no descriptor */
    SAME(run(8), WT_REFUSED_HEAD), RESULT_IS(2, 1, 0); /* an interrupt is owed */
    SAME(run(0), WT_DONE), RESULT_IS(0, 0, 0);         /* k = 0 on a stopped queue */
    SAME(run(1), WT_REFUSED_HEAD), RESULT_IS(0, 0, 0);
    SAME(step(), WT_REFUSED_HEAD), RESULT_IS(0, 0, 0);
    SAME(queue[WT_QUEUE_STOP], WT_REFUSED_HEAD);
    SAME(wt_reset_queue(queue, WT_QUEUE), WT_DONE);
    SAME(queue[WT_QUEUE_STOP] + queue[WT_QUEUE_NEXT_AVAILABLE] + queue[WT_QUEUE_NEXT_USED], 0);
    SAME(queue[WT_QUEUE_SIZE], SIZE);
}

static void sizes_and_resets(void) {
    begin();
    SAME(set_up(0x7000, 0, 0), WT_DONE); /* addr is not compared with the map */
    SAME(set_up(ADDR, 0, 0), WT_DONE);
    SAME(wt_set_requested_size(device, WT_DEVICE, 3 * BLOCK), WT_DONE);
    SAME(device[WT_DEVICE_USABLE_SIZE], 3 * BLOCK);
    SAME(wt_set_requested_size(device, WT_DEVICE, BLOCK), WT_DONE);
    SAME(device[WT_DEVICE_USABLE_SIZE], 3 * BLOCK);
    begin();
    memory[0x4000 + 70 * BLOCK] = 0x5a;
    offer(WT_PLUG, ADDR + 70 * BLOCK, 1, 1);
    SAME(step(), WT_DONE);
    SAME(device[WT_DEVICE_PLUGGED + 1], 1 << 6); /* block 70: bit 6 of the second word */
    SAME(wt_pin(device, WT_DEVICE, 70), WT_DONE);
    SAME(device[WT_DEVICE_PINNED + 1], 1 << 6);
    SAME(wt_pin(device, WT_DEVICE, 70), WT_REFUSED_PIN); /* pins are not counted */
    offer(WT_UNPLUG_ALL, 0, 0, 1);
    SAME(step(), WT_DONE), SAME(memory[RESPONSE], WT_BUSY);
    offer(WT_UNPLUG, ADDR + 70 * BLOCK, 1, 1);
    SAME(step(), WT_DONE), SAME(memory[RESPONSE], WT_BUSY);
    SAME(wt_unpin(device, WT_DEVICE, 70), WT_DONE);
    SAME(wt_unpin(device, WT_DEVICE, 70), WT_REFUSED_PIN);
    offer(WT_UNPLUG, ADDR + 70 * BLOCK, 1, 1);
    SAME(step(), WT_DONE), SAME(memory[RESPONSE], WT_ACK);
    SAME(memory[0x4000 + 70 * BLOCK], 0x5a); /* the library clears nothing */
    offer(WT_PLUG, ADDR, 2, 1);
    SAME(step(), WT_DONE);
    SAME(wt_pin(device, WT_DEVICE, 0), WT_DONE);
    SAME(wt_system_reset(device, WT_DEVICE), WT_DONE);
    SAME(device[WT_DEVICE_PLUGGED] + device[WT_DEVICE_PINNED], 0);
    SAME(device[WT_DEVICE_USABLE_SIZE], BLOCKS * BLOCK), SAME(device[WT_DEVICE_REQUESTED_SIZE], BLOCKS * BLOCK);
}

static void configuration_changes(void) {
    uint8_t before[WT_CONFIGURATION], after[WT_CONFIGURATION];
    begin();
    SAME(wt_configuration(device, WT_DEVICE, before, sizeof before), WT_DONE);
    offer(WT_PLUG, ADDR, 2, 1);
    SAME(step(), WT_DONE);
    SAME(wt_configuration(device, WT_DEVICE, after, sizeof after), WT_DONE);
    for (int i = 0; i < WT_CONFIGURATION; i++)
        if (i / 8 != WT_CONFIGURATION_PLUGGED_SIZE / 8) SAME(after[i], before[i]);
    SAME(after[WT_CONFIGURATION_PLUGGED_SIZE + 1], 2 * BLOCK >> 8);
}

/* With 27: nothing is written for a wrong count or a wide queue word, zeros for everything else. */
static void broken_records(void) {
    begin();
    memset(result, 0xff, sizeof result);
    SAME(wt_step(view, WT_VIEW - 1, device, WT_DEVICE, queue, WT_QUEUE, memory, sizeof memory, result, WT_RESULT),
         WT_REFUSED_RECORD);
    RESULT_IS(UINT64_MAX, UINT64_MAX, UINT64_MAX);
    SAME(wt_walk(map, WT_MAP - 1, sizeof memory, 0, result, WT_RESULT), WT_REFUSED_RECORD);
    RESULT_IS(UINT64_MAX, UINT64_MAX, UINT64_MAX);
    queue[WT_QUEUE_NEXT_USED] = 0x10000;
    SAME(run(1), WT_REFUSED_RECORD), RESULT_IS(UINT64_MAX, UINT64_MAX, UINT64_MAX);
    queue[WT_QUEUE_NEXT_USED] = 0;
    SAME(wt_run(view, WT_VIEW, device, WT_DEVICE, queue, WT_QUEUE, memory, 0x3fff, 1, result, WT_RESULT),
         WT_REFUSED_RECORD); /* guest memory too short for the view */
    RESULT_IS(0, 0, 0);
    memset(result, 0xff, sizeof result);
    device[WT_DEVICE_REGION_SIZE] = device[WT_DEVICE_USABLE_SIZE] = device[WT_DEVICE_REQUESTED_SIZE] = BLOCK;
    SAME(route(0, 1), WT_REFUSED_RECORD), RESULT_IS(0, 0, 0); /* a region smaller than the view's */
    memset(result, 0xff, sizeof result);
    device[WT_DEVICE_BLOCK_SIZE] = 3;
    SAME(route(0, 1), WT_REFUSED_RECORD), RESULT_IS(0, 0, 0);
    memset(result, 0xff, sizeof result);
    SAME(wt_read_sheet(memory, 0, sizeof memory, map, WT_MAP, result, WT_RESULT), WT_REFUSED_SHORT);
    RESULT_IS(0, 0, 0); /* a position; a sheet has no wrong length */
    SAME(wt_read_sheet(memory, sizeof memory, sizeof memory, map, WT_MAP, result, WT_RESULT), WT_REFUSED_COUNT);
}

static void no_device(void) {
    uint64_t accesses[2 * WT_ACCESS] = {0x10, 8, ADDR, 8}, answers[2 * WT_ANSWER];
    begin();
    SAME(wt_route(view, WT_VIEW, sizeof memory, device, 0, 0x10, 8, result, WT_RESULT), WT_DONE);
    SAME(wt_route(view, WT_VIEW, sizeof memory, device, 0, ADDR, 8, result, WT_RESULT), WT_REFUSED_UNPLUGGED);
    SAME(wt_route_all(view, WT_VIEW, sizeof memory, device, 0, accesses, 2 * WT_ACCESS, answers, 2 * WT_ANSWER), WT_DONE);
    SAME(answers[WT_ANSWER_NUMBER], WT_DONE);
    SAME(answers[WT_ANSWER + WT_ANSWER_NUMBER], WT_REFUSED_UNPLUGGED);
    memset(answers, 0xff, sizeof answers);
    SAME(wt_route_all(view, WT_VIEW, 0x3fff, device, WT_DEVICE, accesses, 2 * WT_ACCESS, answers, 2 * WT_ANSWER),
         WT_REFUSED_RECORD); /* guest memory too short: no answer is written */
    SAME(answers[0], UINT64_MAX);
    SAME(wt_route_all(view, WT_VIEW, sizeof memory, device, WT_DEVICE, accesses, WT_ACCESS, answers, 2 * WT_ANSWER),
         WT_REFUSED_RECORD); /* room for one answer too many */
    SAME(wt_step(view, WT_VIEW, device, 0, queue, WT_QUEUE, memory, sizeof memory, result, WT_RESULT), WT_REFUSED_RECORD);
    SAME(wt_block_of_byte(device, 0, 0, result, WT_RESULT), WT_REFUSED_RECORD);
}

static void maps(void) {
    begin();
    memset(&map[WT_MAP_REGION(COUNT)], 0xff, (WT_MAP - WT_MAP_REGION(COUNT)) * sizeof *map);
    SAME(check(), WT_DONE); /* regions past the count */
    make_map();
    put_region(SECOND, WT_KIND_MMIO, RAM + 1, 0, 1), FIELD(SECOND, TARGET) = 0, FIELD(SECOND, ALIAS_OFFSET) = 0;
    SAME(check(), WT_REFUSED_LINK); /* a parent with a lower number */
    RESULT_IS(SECOND, SECOND, 0);   /* one region at fault, twice */
    map[WT_MAP_COUNT] = 33;
    SAME(check(), WT_REFUSED_COUNT), RESULT_IS(0, 0, 0);
    make_map();
    put_region(SECOND, WT_KIND_CONTAINER, ROOT + 1, 0x100, 0x10), FIELD(SECOND, TARGET) = 0, FIELD(SECOND, ALIAS_OFFSET) = 0;
    SAME(check(), WT_REFUSED_OVERLAP), RESULT_IS(RAM, SECOND, 0); /* an empty container counts */
    make_map();
    FIELD(SECOND, SIZE) = 0x4000; /* longer than what is left of its target: only 0x2000 bytes are there */
    SAME(walk(SECOND_AT + 0x1fff), WT_DONE), RESULT_IS(1, RAM, 0x3fff);
    SAME(walk(SECOND_AT + 0x2000), WT_DONE), RESULT_IS(0, 0, 0);
    FIELD(MANAGED, OFFSET) = 0x1ff000; /* all but one page is beyond its parent's end */
    SAME(check(), WT_DONE);
    SAME(walk(0x1fffff), WT_DONE), RESULT_IS(1, MANAGED, 0xfff);
    SAME(walk(0x200000), WT_DONE), RESULT_IS(0, 0, 0);
    make_map();
    map[WT_MAP_COUNT] = 6;
    put_region(0, WT_KIND_MMIO, 3, 0x10, 0x10), FIELD(0, MEMORY_START) = 0, FIELD(0, PORT) = 1; /* in RAM */
    put_region(1, WT_KIND_MMIO, 4, 0x20, 0x10), FIELD(1, MEMORY_START) = 0, FIELD(1, PORT) = 2; /* in MMIO */
    put_region(2, WT_KIND_RAM, 6, 0, 0x1000), FIELD(2, TARGET) = 0, FIELD(2, ALIAS_OFFSET) = 0;
    put_region(3, WT_KIND_MMIO, 6, 0x1000, 0x1000), FIELD(3, PORT) = 3;
    put_region(4, WT_KIND_RAM, 0, 0, 0x1000), FIELD(4, MEMORY_START) = 0x1000; /* no parent */
    put_region(5, WT_KIND_CONTAINER, 0, 0, 0x10000);
    SAME(check(), WT_DONE);
    SAME(walk(0x18), WT_DONE), RESULT_IS(1, 0, 8);
    SAME(walk(0x1028), WT_DONE), RESULT_IS(1, 1, 8);
    SAME(walk(0x1030), WT_DONE), RESULT_IS(1, 3, 0x30);
    for (uint64_t a = 0; a < 0x10000; a += 8) {
        SAME(walk(a), WT_DONE);
        if (result[WT_RESULT_FOUND]) SAME(result[WT_RESULT_REGION] != 4, 1);
    }
    FIELD(3, OFFSET) = 0x800; /* over the RAM: by default below it, with priority 1 above it */
    SAME(walk(0x800), WT_DONE), RESULT_IS(1, 2, 0x800);
    FIELD(3, PRIORITY) = 129;
    SAME(walk(0x800), WT_DONE), RESULT_IS(1, 3, 0);
}

static void hand_made_view(void) {
    begin();
    memset(&view[WT_VIEW_RANGE(view[WT_VIEW_COUNT])], 0xff,
           (WT_VIEW - WT_VIEW_RANGE(view[WT_VIEW_COUNT])) * sizeof *view);
    SAME(route(0x10, 8), WT_DONE); /* ranges past the count */
    memset(view, 0, sizeof view);
    view[WT_VIEW_COUNT] = 1;
    RANGE(0, LAST) = 0xff, RANGE(0, KIND) = WT_KIND_MMIO, RANGE(0, BASE) = UINT64_MAX;
    SAME(route(4, 4), WT_DONE), RESULT_IS(WT_TO_PORT, UINT64_MAX, 4); /* any port */
    RANGE(0, KIND) = WT_KIND_RAM, RANGE(0, BASE) = 0x4000; /* memory of the managed region: 27 knows no map */
    SAME(route(4, 4), WT_DONE), RESULT_IS(WT_TO_MEMORY, 0x4004, 0);
}

static void queues(void) {
    begin();
    SAME(wt_make_queue(SIZE, 0x1000, 0x1000, 0x1000, queue, WT_QUEUE), WT_DONE); /* areas that overlap */
    SAME(step(), WT_DONE);
    SAME(wt_make_queue(256, 0, 0x1000, 0x2000, queue, WT_QUEUE), WT_DONE);
    SAME(wt_make_queue(512, 0, 0x1000, 0x2000, queue, WT_QUEUE), WT_REFUSED_QUEUE);
    SAME(wt_make_queue(SIZE, 0x50000, 0x51000, 0x52000, queue, WT_QUEUE), WT_DONE); /* nothing is there: */
    SAME(step(), WT_REFUSED_RING);                                                  /* the step finds it */
    memset(queue, 0, sizeof queue);
    SAME(step(), WT_REFUSED_RECORD); /* no queue yet */
    SAME(wt_reset_queue(queue, WT_QUEUE), WT_REFUSED_RECORD);
}

/* Which of 24 to 26 an access across an edge gets: by its first byte, by the region, by any byte. */
static void edges(void) {
    begin();
    offer(WT_PLUG, ADDR, 1, 1);
    SAME(step(), WT_DONE);
    SAME(route(SECOND_AT - 4, 8), WT_REFUSED_HOLE);
    SAME(route(0x3ffc, 8), WT_REFUSED_SPLIT);
    SAME(route(ADDR + BLOCK - 4, 8), WT_REFUSED_UNPLUGGED);
    SAME(route(ADDR + BLOCK - 4, 4), WT_DONE);
    SAME(route(0, 3), WT_REFUSED_WIDTH);
}

/* memory + base + offset + a - first, of a RAM or managed range, is where a routed access goes. */
static void host_addresses(void) {
    begin();
    offer(WT_PLUG, ADDR, BLOCKS, 1);
    SAME(step(), WT_DONE);
    SAME(view[WT_VIEW_COUNT], 3);
    for (int n = 0; n < 3; n++)
        for (uint64_t a = RANGE(n, FIRST); a <= RANGE(n, LAST); a += 0x800) {
            SAME(route(a, 8), WT_DONE);
            SAME(result[WT_RESULT_MEMORY_PLACE], RANGE(n, BASE) + RANGE(n, OFFSET) + a - RANGE(n, FIRST));
        }
}

/* Whether a step reads the byte, by the header's list. */
static int is_read(uint64_t at) {
    return (at >= AVAILABLE && at < AVAILABLE + 6) || (at >= DESCRIPTORS && at < DESCRIPTORS + 32) ||
           (at >= REQUEST && at < REQUEST + WT_REQUEST);
}
static int is_written(uint64_t at) {
    return (at >= RESPONSE && at < RESPONSE + WT_RESPONSE) || (at >= USED + 2 && at < USED + 4 + 8);
}

/* A step answers alike whatever the bytes outside its list are, and leaves them. */
static void bytes_of_a_step(void) {
    static uint8_t given[sizeof memory];
    uint64_t wanted[WT_DEVICE];
    begin();
    offer(WT_PLUG, ADDR, 2, 1);
    SAME(step(), WT_DONE);
    memcpy(wanted, device, sizeof wanted);
    for (int fill = 0x11; fill <= 0xff; fill += 0x77) {
        begin();
        offer(WT_PLUG, ADDR, 2, 1);
        for (uint64_t at = 0; at < sizeof memory; at++)
            if (!is_read(at)) memory[at] = (uint8_t)(fill + at);
        memcpy(given, memory, sizeof memory);
        SAME(step(), WT_DONE), RESULT_IS(1, 1, 0);
        SAME(memcmp(wanted, device, sizeof wanted), 0);
        for (uint64_t at = 0; at < sizeof memory; at++)
            if (!is_written(at) && memory[at] != given[at]) SAME(at, 0);
        for (int i = 0; i < WT_RESPONSE; i++) SAME(memory[RESPONSE + i], 0);
        SAME(memory[USED + 2] + 256 * memory[USED + 3], 1);
    }
}

/* The words of device and queue, and the memory, are all that a host must keep. */
static void save_and_restore(void) {
    static uint8_t kept[sizeof memory];
    uint64_t kept_device[WT_DEVICE], kept_queue[WT_QUEUE];
    begin();
    offer(WT_PLUG, ADDR, 2, 1);
    SAME(step(), WT_DONE);
    memcpy(kept, memory, sizeof memory), memcpy(kept_device, device, sizeof device), memcpy(kept_queue, queue, sizeof queue);
    begin();
    memcpy(memory, kept, sizeof memory), memcpy(device, kept_device, sizeof device), memcpy(queue, kept_queue, sizeof queue);
    offer(WT_STATE, ADDR, 2, 1);
    SAME(step(), WT_DONE), RESULT_IS(1, 1, 0);
    SAME(memory[RESPONSE + WT_RESPONSE_STATE], WT_STATE_PLUGGED);
}

int main(void) {
    draining();
    sizes_and_resets();
    configuration_changes();
    broken_records();
    no_device();
    maps();
    hand_made_view();
    edges();
    queues();
    host_addresses();
    bytes_of_a_step();
    save_and_restore();
    return failed != 0;
}
