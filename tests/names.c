/* Every name of include/wicktumble.h beside what the library does: records are built and read by name alone, and each
 * refusal is provoked once. tests/hosts builds and runs it; it prints what differs. */
#include "check.h"

enum { RAM, DEVICE_REGISTERS, MANAGED, WINDOW, ROOT, COUNT }; /* the regions of the map */
enum { BLOCK = 4096, ADDR = 0x30000, PORT = 7 };
enum { DESCRIPTORS = 0x1000, AVAILABLE = 0x1040, USED = 0x1080, REQUEST = 0x2000, RESPONSE = 0x2100 };
enum { NEXT = 1, WRITE = 2, INDIRECT = 4 };

static uint8_t memory[0x4000 + 0x8000];

/* RAM at 0, a device's registers, the managed region, a window into the RAM's second page. */
static void make_map(void) {
    memset(map, 0, sizeof map);
    map[WT_MAP_COUNT] = COUNT;
    put_region(RAM, WT_KIND_RAM, ROOT + 1, 0, 0x4000);
    put_region(DEVICE_REGISTERS, WT_KIND_MMIO, ROOT + 1, 0x4000, 0x100);
    FIELD(DEVICE_REGISTERS, PORT) = PORT;
    put_region(MANAGED, WT_KIND_MANAGED, ROOT + 1, 0x8000, 8 * BLOCK);
    FIELD(MANAGED, MEMORY_START) = 0x4000;
    put_region(WINDOW, WT_KIND_ALIAS, ROOT + 1, 0x14000, 0x1000);
    FIELD(WINDOW, TARGET) = RAM, FIELD(WINDOW, ALIAS_OFFSET) = 0x1000;
    put_region(ROOT, WT_KIND_CONTAINER, 0, 0, 0x20000);
}

static uint64_t check(void) { return wt_check_map(map, WT_MAP, sizeof memory, result, WT_RESULT); }
static uint64_t walk(uint64_t a) { return wt_walk(map, WT_MAP, sizeof memory, a, result, WT_RESULT); }
static uint64_t look_up(uint64_t a) { return wt_look_up(view, WT_VIEW, sizeof memory, a, result, WT_RESULT); }
static uint64_t flatten(void) { return wt_flatten(map, WT_MAP, sizeof memory, view, WT_VIEW, result, WT_RESULT); }
static uint64_t read_bytes(const uint8_t *sheet, size_t bytes) {
    return wt_read_sheet(sheet, bytes, sizeof memory, map, WT_MAP, result, WT_RESULT);
}
static uint64_t set_up(uint64_t usable, uint64_t requested) {
    return wt_set_up(map, WT_MAP, sizeof memory, BLOCK, ADDR, usable, requested, device, WT_DEVICE, result, WT_RESULT);
}
static uint64_t route(uint64_t a, uint64_t width) {
    return wt_route(view, WT_VIEW, sizeof memory, device, WT_DEVICE, a, width, result, WT_RESULT);
}

static void sheets(void) {
    static const uint8_t none[1], longer[] = {0x80, 0}, kind[] = {1, 5}, tail[] = {1, 0, 0, 0, 1, 0, 9};
    SAME(read_bytes(none, 0), WT_REFUSED_SHORT);
    SAME(result[WT_RESULT_PLACE], 0);
    SAME(read_bytes(longer, 2), WT_REFUSED_NUMBER);
    SAME(result[WT_RESULT_PLACE], 1);
    SAME(read_bytes(none, 1), WT_REFUSED_COUNT);
    SAME(read_bytes(kind, 2), WT_REFUSED_KIND);
    SAME(result[WT_RESULT_PLACE], 1);
    SAME(read_bytes(tail, 7), WT_REFUSED_TAIL);
    SAME(result[WT_RESULT_PLACE], 6);
    SAME(read_bytes(tail, 6), WT_DONE);
    SAME(map[WT_MAP_COUNT], 1);
    SAME(FIELD(0, SIZE), 1);
}

/* A map that is wrong at the regions a and b. */
static void wrong_at(int line, uint64_t number, uint64_t a, uint64_t b) {
    same_at(line, "the check's number", check(), number);
    same_at(line, "WT_RESULT_REGION_A", result[WT_RESULT_REGION_A], a);
    same_at(line, "WT_RESULT_REGION_B", result[WT_RESULT_REGION_B], b);
    make_map();
}
#define WRONG(number, a, b) wrong_at(__LINE__, number, a, b)

static void maps(void) {
    make_map();
    SAME(check(), WT_DONE);
    map[WT_MAP_COUNT] = WT_REGIONS + 1, WRONG(WT_REFUSED_COUNT, 0, 0);
    map[WT_MAP_COUNT] = WT_REGIONS, WRONG(WT_REFUSED_FIELD, COUNT, COUNT);
    FIELD(MANAGED, KIND) = WT_KIND_MANAGED + 1, WRONG(WT_REFUSED_KIND, MANAGED, MANAGED);
    FIELD(RAM, PORT) = 1, WRONG(WT_REFUSED_FIELD, RAM, RAM);
    FIELD(ROOT, PARENT) = 1, WRONG(WT_REFUSED_LINK, ROOT, ROOT);
    FIELD(WINDOW, TARGET) = WINDOW, WRONG(WT_REFUSED_LINK, WINDOW, WINDOW);
    FIELD(MANAGED, MEMORY_START) += 1, WRONG(WT_REFUSED_MEMORY, MANAGED, MANAGED);
    FIELD(MANAGED, MEMORY_START) -= 1, WRONG(WT_REFUSED_MEMORY, RAM, MANAGED);
    FIELD(RAM, KIND) = WT_KIND_MANAGED, WRONG(WT_REFUSED_MANAGED, RAM, MANAGED);
    FIELD(RAM, KIND) = WT_KIND_MMIO, FIELD(RAM, PORT) = PORT, WRONG(WT_REFUSED_PORT, RAM, DEVICE_REGISTERS);
    FIELD(WINDOW, OFFSET) = 0x3000, WRONG(WT_REFUSED_OVERLAP, RAM, WINDOW);

    SAME(walk(0x14010), WT_DONE);
    SAME(result[WT_RESULT_FOUND], 1);
    SAME(result[WT_RESULT_REGION], RAM);
    SAME(result[WT_RESULT_OFFSET], 0x1010);
    SAME(walk(0x5000), WT_DONE);
    SAME(result[WT_RESULT_FOUND], 0);
    FIELD(WINDOW, OFFSET) = 0x3000, FIELD(WINDOW, PRIORITY) = 127; /* priority -1: below the RAM */
    SAME(walk(0x3000), WT_DONE);
    SAME(result[WT_RESULT_OFFSET], 0x3000);
    FIELD(WINDOW, PRIORITY) = 129; /* priority 1: above it */
    SAME(walk(0x3000), WT_DONE);
    SAME(result[WT_RESULT_OFFSET], 0x1000);
    make_map();
    FIELD(DEVICE_REGISTERS, OFFSET) = 0; /* over the RAM, and both with the default: -1, below the RAM's 0 */
    SAME(walk(0), WT_DONE);
    SAME(result[WT_RESULT_REGION], RAM);
    FIELD(DEVICE_REGISTERS, PRIORITY) = 128, WRONG(WT_REFUSED_OVERLAP, RAM, DEVICE_REGISTERS);
}

static void range_is(int n, uint64_t first, uint64_t last, uint64_t region, uint64_t offset, uint64_t kind, uint64_t base) {
    SAME(RANGE(n, FIRST), first);
    SAME(RANGE(n, LAST), last);
    SAME(RANGE(n, REGION), region);
    SAME(RANGE(n, OFFSET), offset);
    SAME(RANGE(n, KIND), kind);
    SAME(RANGE(n, BASE), base);
}

static void views(void) {
    SAME(flatten(), WT_DONE);
    SAME(view[WT_VIEW_COUNT], 4);
    range_is(0, 0, 0x3fff, RAM, 0, WT_KIND_RAM, 0);
    range_is(1, 0x4000, 0x40ff, DEVICE_REGISTERS, 0, WT_KIND_MMIO, PORT);
    range_is(2, 0x8000, 0xffff, MANAGED, 0, WT_KIND_MANAGED, 0x4000);
    range_is(3, 0x14000, 0x14fff, RAM, 0x1000, WT_KIND_RAM, 0);
    SAME(look_up(0x8123), WT_DONE);
    SAME(result[WT_RESULT_FOUND], 1);
    SAME(result[WT_RESULT_REGION], MANAGED);
    SAME(result[WT_RESULT_OFFSET], 0x123);

    /* Two leaves, doubled eight times: 512 ranges. */
    memset(map, 0, sizeof map);
    put_region(0, WT_KIND_RAM, 3, 0, 1);
    put_region(1, WT_KIND_MMIO, 3, 1, 1);
    put_region(2, WT_KIND_CONTAINER, 0, 0, 2);
    int last = 2;
    for (uint64_t size = 2; size < 512; size *= 2, last += 2) {
        FIELD(last, PARENT) = last + 3;
        put_region(last + 1, WT_KIND_ALIAS, last + 3, size, size);
        FIELD(last + 1, TARGET) = last;
        put_region(last + 2, WT_KIND_CONTAINER, 0, 0, 2 * size);
    }
    map[WT_MAP_COUNT] = last + 1;
    SAME(flatten(), WT_REFUSED_RUNS);
    FIELD(last - 2, PARENT) = 0; /* half of it */
    SAME(flatten(), WT_DONE);
    SAME(view[WT_VIEW_COUNT], WT_RANGES);
    make_map();
}

static uint64_t le(const uint8_t *bytes, int count) {
    return count == 0 ? 0 : bytes[0] + 256 * le(bytes + 1, count - 1);
}
static void put_le(uint8_t *bytes, uint64_t value, int count) {
    for (int i = 0; i < count; i++) bytes[i] = (uint8_t)(value >> (8 * i));
}

static void put_request(uint8_t *bytes, uint64_t type, uint64_t addr, uint64_t blocks) {
    memset(bytes, 0xff, WT_REQUEST);
    put_le(bytes + WT_REQUEST_TYPE, type, 2);
    put_le(bytes + WT_REQUEST_ADDR, addr, 8);
    put_le(bytes + WT_REQUEST_BLOCKS, blocks, 2);
}

/* A request of blocks from the first on, and its answer. */
static void answered(int line, uint64_t type, uint64_t blocks, uint64_t answer, uint64_t state) {
    uint8_t request[WT_REQUEST], response[WT_RESPONSE];
    put_request(request, type, ADDR, blocks);
    same_at(line, "wt_request", wt_request(device, WT_DEVICE, request, WT_REQUEST, response, WT_RESPONSE), WT_DONE);
    same_at(line, "WT_RESPONSE_TYPE", le(response + WT_RESPONSE_TYPE, 2), answer);
    same_at(line, "WT_RESPONSE_STATE", le(response + WT_RESPONSE_STATE, 2), state);
}
#define ANSWERED(type, blocks, answer, state) answered(__LINE__, type, blocks, answer, state)

static void devices(void) {
    SAME(set_up(BLOCK, 2 * BLOCK), WT_REFUSED_SETUP);
    SAME(set_up(6 * BLOCK, 4 * BLOCK), WT_DONE);
    SAME(device[WT_DEVICE_BLOCK_SIZE], BLOCK);
    SAME(device[WT_DEVICE_ADDR], ADDR);
    SAME(device[WT_DEVICE_REGION_SIZE], 8 * BLOCK);
    SAME(device[WT_DEVICE_USABLE_SIZE], 6 * BLOCK);
    SAME(device[WT_DEVICE_REQUESTED_SIZE], 4 * BLOCK);

    ANSWERED(WT_PLUG, 5, WT_NACK, 0);
    ANSWERED(WT_PLUG, 2, WT_ACK, 0);
    SAME(device[WT_DEVICE_PLUGGED], 3);
    ANSWERED(WT_PLUG, 7, WT_ERROR, 0);
    ANSWERED(WT_STATE + 1, 1, WT_ERROR, 0);
    ANSWERED(WT_STATE, 2, WT_ACK, WT_STATE_PLUGGED);
    ANSWERED(WT_STATE, 3, WT_ACK, WT_STATE_MIXED);
    SAME(wt_pin(device, WT_DEVICE, 2), WT_REFUSED_PIN);
    SAME(wt_pin(device, WT_DEVICE, 1), WT_DONE);
    SAME(device[WT_DEVICE_PINNED], 2);
    ANSWERED(WT_UNPLUG, 2, WT_BUSY, 0);
    ANSWERED(WT_UNPLUG_ALL, 0, WT_BUSY, 0);
    SAME(wt_unpin(device, WT_DEVICE, 1), WT_DONE);

    uint8_t bytes[WT_CONFIGURATION];
    SAME(wt_set_requested_size(device, WT_DEVICE, 9 * BLOCK), WT_REFUSED_SIZE);
    SAME(wt_set_requested_size(device, WT_DEVICE, 7 * BLOCK), WT_DONE);
    SAME(wt_configuration(device, WT_DEVICE, bytes, WT_CONFIGURATION), WT_DONE);
    SAME(le(bytes + WT_CONFIGURATION_BLOCK_SIZE, 8), BLOCK);
    SAME(le(bytes + WT_CONFIGURATION_NODE_ID, 8), 0);
    SAME(le(bytes + WT_CONFIGURATION_ADDR, 8), ADDR);
    SAME(le(bytes + WT_CONFIGURATION_REGION_SIZE, 8), 8 * BLOCK);
    SAME(le(bytes + WT_CONFIGURATION_USABLE_SIZE, 8), 7 * BLOCK);
    SAME(le(bytes + WT_CONFIGURATION_PLUGGED_SIZE, 8), 2 * BLOCK);
    SAME(le(bytes + WT_CONFIGURATION_REQUESTED_SIZE, 8), 7 * BLOCK);

    SAME(wt_block_of_byte(device, WT_DEVICE, 5 * BLOCK, result, WT_RESULT), WT_DONE);
    SAME(result[WT_RESULT_FOUND], 1);
    SAME(result[WT_RESULT_BLOCK], 5);
    ANSWERED(WT_UNPLUG, 1, WT_ACK, 0);
    ANSWERED(WT_STATE, 1, WT_ACK, WT_STATE_UNPLUGGED);
    SAME(device[WT_DEVICE_PLUGGED], 2);
    ANSWERED(WT_UNPLUG_ALL, 0, WT_ACK, 0);
    SAME(device[WT_DEVICE_PLUGGED], 0);
    ANSWERED(WT_PLUG, 1, WT_ACK, 0);
    SAME(wt_system_reset(device, WT_DEVICE), WT_DONE);
    SAME(device[WT_DEVICE_PLUGGED], 0);

    /* The largest region that there can be: its last block is the last bit. */
    device[WT_DEVICE_REGION_SIZE] = WT_BLOCKS * BLOCK;
    device[WT_DEVICE_USABLE_SIZE] = device[WT_DEVICE_REQUESTED_SIZE] = WT_BLOCKS * BLOCK;
    device[WT_DEVICE_PLUGGED + (WT_BLOCKS - 1) / 64] = (uint64_t)1 << 63;
    SAME(wt_pin(device, WT_DEVICE, WT_BLOCKS - 1), WT_DONE);
    SAME(device[WT_DEVICE_PINNED + (WT_BLOCKS - 1) / 64], (uint64_t)1 << 63);
    device[WT_DEVICE_REGION_SIZE] += BLOCK;
    SAME(wt_system_reset(device, WT_DEVICE), WT_REFUSED_RECORD);
}

static void routes(void) {
    SAME(flatten(), WT_DONE);
    SAME(set_up(6 * BLOCK, 4 * BLOCK), WT_DONE);
    ANSWERED(WT_PLUG, 1, WT_ACK, 0);
    SAME(route(0x8010, 4), WT_DONE);
    SAME(result[WT_RESULT_TARGET], WT_TO_MEMORY);
    SAME(result[WT_RESULT_MEMORY_PLACE], 0x4010);
    SAME(route(0x4010, 4), WT_DONE);
    SAME(result[WT_RESULT_TARGET], WT_TO_PORT);
    SAME(result[WT_RESULT_PORT], PORT);
    SAME(result[WT_RESULT_PORT_OFFSET], 0x10);
    SAME(route(0, 3), WT_REFUSED_WIDTH);
    SAME(route(0x5000, 1), WT_REFUSED_HOLE);
    SAME(route(0x3ffc, 8), WT_REFUSED_SPLIT);
    SAME(route(0x9000, 1), WT_REFUSED_UNPLUGGED);

    uint64_t accesses[2 * WT_ACCESS] = {0}, answers[2 * WT_ANSWER];
    accesses[WT_ACCESS_ADDRESS] = 0x5000, accesses[WT_ACCESS_WIDTH] = 1;
    accesses[WT_ACCESS + WT_ACCESS_ADDRESS] = 0x4010, accesses[WT_ACCESS + WT_ACCESS_WIDTH] = 2;
    SAME(wt_route_all(view, WT_VIEW, sizeof memory, device, WT_DEVICE, accesses, 2 * WT_ACCESS, answers, 2 * WT_ANSWER), WT_DONE);
    SAME(answers[WT_ANSWER_NUMBER], WT_REFUSED_HOLE);
    SAME(answers[WT_ANSWER + WT_ANSWER_NUMBER], WT_DONE);
    SAME(answers[WT_ANSWER + WT_ANSWER_RESULT + WT_RESULT_TARGET], WT_TO_PORT);
    SAME(answers[WT_ANSWER + WT_ANSWER_RESULT + WT_RESULT_PORT_OFFSET], 0x10);
}

static void put_descriptor(int entry, uint64_t addr, uint64_t length, uint64_t flags, uint64_t next) {
    uint8_t *at = memory + DESCRIPTORS + 16 * entry;
    put_le(at, addr, 8), put_le(at + 8, length, 4), put_le(at + 12, flags, 2), put_le(at + 14, next, 2);
}

/* A chain of two that asks for a block's state, offered `offered` times. */
static void offer(uint64_t offered) {
    memset(memory, 0, 0x4000);
    put_request(memory + REQUEST, WT_STATE, ADDR, 1);
    put_descriptor(0, REQUEST, WT_REQUEST, NEXT, 1);
    put_descriptor(1, RESPONSE, WT_RESPONSE, WRITE, 0);
    put_le(memory + AVAILABLE + 2, offered, 2);
    SAME(wt_make_queue(4, DESCRIPTORS, AVAILABLE, USED, queue, WT_QUEUE), WT_DONE);
}
static uint64_t step(void) {
    return wt_step(view, WT_VIEW, device, WT_DEVICE, queue, WT_QUEUE, memory, sizeof memory, result, WT_RESULT);
}
static uint64_t run(uint64_t k) {
    return wt_run(view, WT_VIEW, device, WT_DEVICE, queue, WT_QUEUE, memory, sizeof memory, k, result, WT_RESULT);
}

static void stops(int line, uint64_t number) {
    same_at(line, "the step's number", step(), number);
    same_at(line, "WT_QUEUE_STOP", queue[WT_QUEUE_STOP], number);
    offer(1);
}
#define STOPS(number) stops(__LINE__, number)

static void queues(void) {
    SAME(wt_make_queue(3, DESCRIPTORS, AVAILABLE, USED, queue, WT_QUEUE), WT_REFUSED_QUEUE);
    offer(1);
    SAME(queue[WT_QUEUE_SIZE], 4);
    SAME(queue[WT_QUEUE_DESCRIPTORS], DESCRIPTORS);
    SAME(queue[WT_QUEUE_AVAILABLE], AVAILABLE);
    SAME(queue[WT_QUEUE_USED], USED);
    put_le(memory + AVAILABLE, 1, 2); /* the guest wants no notice */
    SAME(step(), WT_DONE);
    SAME(result[WT_RESULT_SERVED], 1);
    SAME(result[WT_RESULT_NOTIFY], 0);
    SAME(le(memory + RESPONSE + WT_RESPONSE_STATE, 2), WT_STATE_PLUGGED);
    SAME(queue[WT_QUEUE_NEXT_AVAILABLE], 1);
    SAME(queue[WT_QUEUE_NEXT_USED], 1);
    SAME(step(), WT_DONE);
    SAME(result[WT_RESULT_SERVED], 0);
    queue[WT_QUEUE_NEXT_AVAILABLE] = 0;
    SAME(step(), WT_DONE);
    SAME(queue[WT_QUEUE_NEXT_AVAILABLE], 1);
    SAME(queue[WT_QUEUE_NEXT_USED], 2);

    offer(1), queue[WT_QUEUE_AVAILABLE] = 0x5000, STOPS(WT_REFUSED_RING);
    put_le(memory + AVAILABLE + 2, 5, 2), STOPS(WT_REFUSED_AHEAD);
    put_le(memory + AVAILABLE + 4, 4, 2), STOPS(WT_REFUSED_HEAD);
    put_descriptor(0, REQUEST, WT_REQUEST, INDIRECT, 0), STOPS(WT_REFUSED_CHAIN);
    put_descriptor(0, 0x9000, WT_REQUEST, NEXT, 1), STOPS(WT_REFUSED_REACH);
    put_descriptor(0, REQUEST, WT_REQUEST - 1, NEXT, 1), STOPS(WT_REFUSED_SHAPE);
    put_descriptor(1, RESPONSE, WT_RESPONSE - 1, WRITE, 0), STOPS(WT_REFUSED_SHAPE);

    offer(3);
    SAME(run(2), WT_DONE);
    SAME(result[WT_RESULT_SERVED], 2);
    SAME(result[WT_RESULT_NOTIFY], 1);
    SAME(result[WT_RESULT_IDLE], 0);
    SAME(run(2), WT_DONE);
    SAME(result[WT_RESULT_SERVED], 1);
    SAME(result[WT_RESULT_IDLE], 1);
    SAME(wt_reset_queue(queue, WT_QUEUE), WT_DONE);
    SAME(queue[WT_QUEUE_NEXT_AVAILABLE], 0);
    queue[WT_QUEUE_STOP] = WT_REFUSED_RING - 1;
    SAME(step(), WT_REFUSED_RECORD);
    SAME(wt_reset_queue(queue, WT_QUEUE - 1), WT_REFUSED_RECORD);
}

int main(void) {
    sheets();
    maps();
    views();
    devices();
    routes();
    queues();
    return failed != 0;
}
