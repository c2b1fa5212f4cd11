/* The life of a host: start, notifications, sizes, pins, accesses, KVM's memory slots, resets, save and restore.
 * docs/HOSTS.md goes through it; its code blocks are cut from this file. The guest below is a few lines that do what a
 * driver does, so that the host has something to answer. examples/host.rs is the same program; both print
 * examples/host.expected.
 *
 *     gcc -Iinclude examples/host.c target/staticlib/libwicktumble.a -o target/host && target/host */
#define _DEFAULT_SOURCE
#include <stdio.h>
#include <stdlib.h>
#include <string.h>
#include <sys/mman.h>
#include "wicktumble.h"

/* ---- the machine: guest memory, and what virtio's transport keeps */

enum { PLUG_WORDS = WT_BLOCKS / 64 };
enum { DRIVER_OK = 4, DEVICE_NEEDS_RESET = 64 }; /* virtio's device status */

struct host {
    uint64_t map[WT_MAP], view[WT_VIEW], device[WT_DEVICE], queue[WT_QUEUE];
    uint8_t *memory;
    uint64_t memory_length;
    int queue_enabled;           /* 0: there is no queue yet */
    unsigned status, generation; /* the device status and the configuration generation */
};

static void queue_interrupt(void) { printf("  queue interrupt\n"); }
static void configuration_interrupt(void) { printf("  configuration interrupt\n"); }

static void fail(const char *what, uint64_t number) {
    printf("%s: %d\n", what, (int)number);
    exit(1);
}

/* A refusal here is an error of the host itself: a wrong map, or a damaged record. */
static void must(uint64_t number, const char *call) {
    if (number != WT_DONE) fail(call, number);
}

static int is_set(const uint64_t *words, uint64_t block) { return words[block / 64] >> (block % 64) & 1; }

/* ---- start */

/* Whether the guest sees every byte of the managed region at addr + its offset in the region. */
static int addr_fits(const uint64_t *view, const uint64_t *device) {
    uint64_t bytes = 0;
    for (uint64_t n = 0; n < view[WT_VIEW_COUNT]; n++) {
        const uint64_t *range = &view[WT_VIEW_RANGE(n)];
        if (range[WT_RANGE_KIND] != WT_KIND_MANAGED) continue;
        if (range[WT_RANGE_FIRST] - range[WT_RANGE_OFFSET] == device[WT_DEVICE_ADDR])
            bytes += range[WT_RANGE_LAST] - range[WT_RANGE_FIRST] + 1;
    }
    return bytes == device[WT_DEVICE_REGION_SIZE];
}

static void start(struct host *h, const uint8_t *sheet, size_t sheet_len, uint64_t block_size, uint64_t addr,
                  uint64_t region_size) {
    uint64_t result[WT_RESULT], length = h->memory_length;
    must(wt_read_sheet(sheet, sheet_len, length, h->map, WT_MAP, result, WT_RESULT), "wt_read_sheet");
    must(wt_flatten(h->map, WT_MAP, length, h->view, WT_VIEW, result, WT_RESULT), "wt_flatten");
    must(wt_set_up(h->map, WT_MAP, length, block_size, addr, region_size, 0, h->device, WT_DEVICE, result, WT_RESULT),
         "wt_set_up"); /* usable size: all of the region; requested size: 0 for now */
    if (!addr_fits(h->view, h->device)) fail("not where the map has the managed region", addr);
}

/* The guest's driver has written the queue's size and addresses and enables it. 0: do not enable it. */
static int enable_queue(struct host *h, uint64_t size, uint64_t descriptors, uint64_t available, uint64_t used) {
    if (size > 64) return 0; /* the most that this host offers; the library's own limit is 256 */
    h->queue_enabled = wt_make_queue(size, descriptors, available, used, h->queue, WT_QUEUE) == WT_DONE;
    return h->queue_enabled;
}

/* ---- memory slots, as KVM_SET_USER_MEMORY_REGION takes them */

enum { PAGE = 4096 };
struct slot {
    uint64_t guest_address, size;
    uint8_t *host_address;
};
struct slots {
    struct slot *list;
    size_t count, room;
};

/* Adds memory from a guest address on: to the last slot if it continues that, or as a slot of its own. */
static void add_memory(struct slots *s, struct slot more) {
    struct slot *last = s->count ? &s->list[s->count - 1] : NULL;
    if (last && last->guest_address + last->size == more.guest_address &&
        last->host_address + last->size == more.host_address) {
        last->size += more.size;
        return;
    }
    if (s->count == s->room) {
        s->room = 2 * s->room + 16;
        s->list = realloc(s->list, s->room * sizeof *s->list);
        if (!s->list) fail("no memory for slots", s->room);
    }
    s->list[s->count++] = more;
}

/* All RAM, and the plugged blocks of managed ranges. */
static void memory_slots(const struct host *h, struct slots *s) {
    uint64_t block_size = h->device[WT_DEVICE_BLOCK_SIZE], next;
    for (uint64_t n = 0; n < h->view[WT_VIEW_COUNT]; n++) {
        const uint64_t *range = &h->view[WT_VIEW_RANGE(n)];
        uint64_t kind = range[WT_RANGE_KIND], first = range[WT_RANGE_FIRST], end = range[WT_RANGE_LAST] + 1;
        if (kind == WT_KIND_MMIO) continue; /* no slot: the guest's access exits to the host */
        for (uint64_t a = first; a < end; a = next) {
            uint64_t offset = range[WT_RANGE_OFFSET] + a - first, block = offset / block_size;
            next = kind == WT_KIND_RAM ? end : a + (block + 1) * block_size - offset;
            if (next > end) next = end;
            if (kind == WT_KIND_RAM || is_set(&h->device[WT_DEVICE_PLUGGED], block))
                add_memory(s, (struct slot){a, next - a, h->memory + range[WT_RANGE_BASE] + offset});
        }
    }
}

/* Cuts a slot to its whole pages, of the guest and of the host alike. 0: it has none. */
static int whole_pages(struct slot *slot) {
    uint64_t skip = -slot->guest_address % PAGE, end = slot->guest_address + slot->size;
    if (((uintptr_t)slot->host_address - slot->guest_address) % PAGE != 0 || slot->size < skip + PAGE) return 0;
    slot->guest_address += skip;
    slot->host_address += skip;
    slot->size = (end - slot->guest_address) / PAGE * PAGE;
    return slot->size != 0;
}

/* A host on KVM deletes its old slots here and adds these, with all vCPUs stopped. */
static void update_slots(const struct host *h) {
    struct slots s = {NULL, 0, 0};
    memory_slots(h, &s);
    for (size_t n = 0; n < s.count; n++)
        if (whole_pages(&s.list[n]))
            printf("  slot: guest %x, size %x, memory byte %x\n", (int)s.list[n].guest_address, (int)s.list[n].size,
                   (int)(s.list[n].host_address - h->memory));
    free(s.list);
}

/* ---- after a change of the plugged blocks */

static uint64_t managed_start(const uint64_t *map) {
    for (uint64_t n = 0; n < map[WT_MAP_COUNT]; n++)
        if (map[WT_MAP_REGION(n) + WT_REGION_KIND] == WT_KIND_MANAGED)
            return map[WT_MAP_REGION(n) + WT_REGION_MEMORY_START];
    return 0; /* not reached: wt_set_up refuses a map without a managed region */
}

/* After a call that may have changed the plugged words: first the slots, then the memory of blocks that are gone. */
static void blocks_changed(struct host *h, const uint64_t *before) {
    const uint64_t *now = &h->device[WT_DEVICE_PLUGGED];
    uint64_t start = managed_start(h->map), size = h->device[WT_DEVICE_BLOCK_SIZE];
    if (!memcmp(before, now, PLUG_WORDS * sizeof *now)) return;
    update_slots(h);
    for (uint64_t block = 0; block < WT_BLOCKS; block++) {
        if (!is_set(before, block) || is_set(now, block)) continue;
        if (madvise(h->memory + start + block * size, size, MADV_DONTNEED)) fail("madvise", block);
        printf("  block %d given back\n", (int)block);
    }
}

/* ---- the guest notifies: serve until nothing is left */

/* k such that descriptors times ranges, the work of the longest step, is about 65,536 for a whole call. */
static uint64_t steps_per_call(const struct host *h) {
    uint64_t ranges = h->view[WT_VIEW_COUNT], work = h->queue[WT_QUEUE_SIZE] * (ranges ? ranges : 1);
    uint64_t k = 65536 / work;
    return k < 1 ? 1 : k > 256 ? 256 : k;
}

static int may_serve(const struct host *h) {
    return h->queue_enabled && (h->status & (DRIVER_OK | DEVICE_NEEDS_RESET)) == DRIVER_OK;
}

static void drain(struct host *h) {
    uint64_t result[WT_RESULT] = {0}, before[PLUG_WORDS], number = WT_DONE, notify = 0;
    while (may_serve(h) && number == WT_DONE && !result[WT_RESULT_IDLE]) {
        memcpy(before, &h->device[WT_DEVICE_PLUGGED], sizeof before);
        number = wt_run(h->view, WT_VIEW, h->device, WT_DEVICE, h->queue, WT_QUEUE, h->memory, h->memory_length,
                        steps_per_call(h), result, WT_RESULT);
        if (number == WT_REFUSED_RECORD) fail("wt_run", number); /* an error of the host; result may be stale */
        blocks_changed(h, before);
        if (result[WT_RESULT_SERVED]) h->generation++;           /* the plugged size may have changed */
        notify |= result[WT_RESULT_NOTIFY];                      /* even if number is 17 to 22 */
    }
    if (notify) queue_interrupt();
    if (number != WT_DONE) { /* 17 to 22: the queue is stopped */
        printf("  queue stopped: %d\n", (int)number);
        h->status |= DEVICE_NEEDS_RESET;
        configuration_interrupt();
    }
}

/* ---- what the host itself wants */

static void configuration_changed(struct host *h) {
    h->generation++;
    if (h->status & DRIVER_OK) configuration_interrupt();
}

static void resize(struct host *h, uint64_t size) {
    must(wt_set_requested_size(h->device, WT_DEVICE, size), "wt_set_requested_size");
    configuration_changed(h);
}

static void unpin(struct host *h, uint64_t block) {
    must(wt_unpin(h->device, WT_DEVICE, block), "wt_unpin");
    configuration_changed(h); /* a guest whose UNPLUG was BUSY tries again at once */
}

/* ---- an access that has no memory slot */

static void access_guest(struct host *h, uint64_t address, uint64_t width) {
    uint64_t result[WT_RESULT], number;
    number = wt_route(h->view, WT_VIEW, h->memory_length, h->device, WT_DEVICE, address, width, result, WT_RESULT);
    if (number != WT_DONE) /* of one byte: usually all ones for a read, nothing for a write */
        printf("%x: refused %d\n", (int)address, (int)number);
    else if (result[WT_RESULT_TARGET] == WT_TO_PORT)
        printf("%x: port %d, register %x\n", (int)address, (int)result[WT_RESULT_PORT],
               (int)result[WT_RESULT_PORT_OFFSET]);
    else
        printf("%x: memory byte %x\n", (int)address, (int)result[WT_RESULT_MEMORY_PLACE]);
}

/* ---- resets */

/* The guest writes 0 to the device status, as a driver does first. Plugged blocks stay; there is no queue any more. */
static void reset_device(struct host *h) {
    h->queue_enabled = 0;
    h->status = 0;
}

/* The machine restarts: no block is plugged or pinned any more; the sizes stay. */
static void reset_machine(struct host *h) {
    uint64_t before[PLUG_WORDS];
    memcpy(before, &h->device[WT_DEVICE_PLUGGED], sizeof before);
    must(wt_system_reset(h->device, WT_DEVICE), "wt_system_reset");
    blocks_changed(h, before);
    reset_device(h);
    h->generation++;
}

/* ---- the guest: a driver of a few lines. Its RAM is at address 0, so an address there is a place in memory */

enum { QUEUE_SIZE = 4, DESCRIPTORS = 0x1000, AVAILABLE = 0x1040, USED = 0x1080, REQUEST = 0x2000, RESPONSE = 0x2100 };
enum { NEXT = 1, WRITE = 2 };

static void put(struct host *h, uint64_t address, uint64_t value, int bytes) {
    for (int i = 0; i < bytes; i++) h->memory[address + i] = (uint8_t)(value >> (8 * i));
}

static void put_descriptor(struct host *h, int entry, uint64_t address, uint64_t length, uint64_t flags) {
    uint64_t at = DESCRIPTORS + 16 * entry;
    put(h, at, address, 8), put(h, at + 8, length, 4), put(h, at + 12, flags, 2), put(h, at + 14, entry + 1, 2);
}

/* Resets the device, clears the rings, enables the queue and says that the driver is ready. */
static void set_queue_up(struct host *h, uint64_t size) {
    reset_device(h);
    memset(h->memory + AVAILABLE, 0, REQUEST - AVAILABLE);
    if (enable_queue(h, size, DESCRIPTORS, AVAILABLE, USED)) h->status |= DRIVER_OK;
    printf("guest: a queue of %d: %s\n", (int)size, h->queue_enabled ? "enabled" : "not enabled");
}

/* Offers one chain (request, then response) and notifies the host. */
static void ask(struct host *h, const char *name, uint64_t type, uint64_t address, uint64_t blocks) {
    unsigned offered = h->memory[AVAILABLE + 2] | h->memory[AVAILABLE + 3] << 8;
    put(h, REQUEST + WT_REQUEST_TYPE, type, 2);
    put(h, REQUEST + WT_REQUEST_ADDR, address, 8);
    put(h, REQUEST + WT_REQUEST_BLOCKS, blocks, 2);
    put_descriptor(h, 0, REQUEST, WT_REQUEST, NEXT);
    put_descriptor(h, 1, RESPONSE, WT_RESPONSE, WRITE);
    put(h, AVAILABLE + 4 + 2 * (offered % QUEUE_SIZE), 0, 2);
    put(h, AVAILABLE + 2, offered + 1, 2);
    printf("guest: %s, %d blocks from %x on\n", name, (int)blocks, (int)address);
    drain(h);
    printf("  response %d\n", h->memory[RESPONSE + WT_RESPONSE_TYPE]);
}

/* ---- the map: 16 KiB of RAM at 0, in it a window of 32 bytes with port 7 at 0x3010, and the managed region of 8
 * blocks at 0x8000 */

static const uint8_t sheet[] = {
    4, /* regions; then for each: kind, parent + 1, offset, size, priority field, memory start or port */
    WT_KIND_RAM,       4, 0,                0x80, 0x80, 0x01, 0, 0,
    WT_KIND_MMIO,      4, 0x90, 0x60,       0x20,             129, 1, 7, /* priority field 129: over the RAM */
    WT_KIND_MANAGED,   4, 0x80, 0x80, 0x02, 0x80, 0x80, 0x02, 0, 0x80, 0x80, 0x01,
    WT_KIND_CONTAINER, 0, 0,                0x80, 0x80, 0x04, 0,
};
enum { MEMORY = 0xc000, BLOCK = 4096, ADDR = 0x8000, REGION = 8 * BLOCK };

int main(void) {
    static struct host h, saved;
    static uint8_t saved_memory[MEMORY];
    h.memory_length = MEMORY;
    h.memory = mmap(NULL, MEMORY, PROT_READ | PROT_WRITE, MAP_PRIVATE | MAP_ANONYMOUS, -1, 0);
    if (h.memory == MAP_FAILED) return 1;

    start(&h, sheet, sizeof sheet, BLOCK, ADDR, REGION);
    printf("started\n");
    update_slots(&h);
    drain(&h); /* a notification before there is a queue */
    set_queue_up(&h, 128);
    set_queue_up(&h, QUEUE_SIZE);
    printf("requested size: 4 blocks\n");
    resize(&h, 4 * BLOCK);
    ask(&h, "PLUG", WT_PLUG, ADDR, 3);
    access_guest(&h, 0xaff8, 8);
    access_guest(&h, 0xb000, 8);
    access_guest(&h, 0x3020, 4);
    access_guest(&h, 0x3800, 4); /* RAM, but in no whole page of it: there is no slot */

    must(wt_pin(h.device, WT_DEVICE, 1), "wt_pin");
    printf("block 1 pinned, requested size: 0\n");
    resize(&h, 0);
    ask(&h, "UNPLUG", WT_UNPLUG, ADDR, 3);
    printf("block 1 unpinned\n");
    unpin(&h, 1);
    ask(&h, "UNPLUG", WT_UNPLUG, ADDR + BLOCK, 2);

    saved = h; /* save: the records and the transport's state, and the guest's memory */
    memcpy(saved_memory, h.memory, MEMORY);
    printf("guest: 6 chains in a queue of 4\n");
    put(&h, AVAILABLE + 2, h.queue[WT_QUEUE_NEXT_AVAILABLE] + 6, 2);
    drain(&h);
    set_queue_up(&h, QUEUE_SIZE); /* the driver resets the device and begins again */
    ask(&h, "UNPLUG", WT_UNPLUG, ADDR, 1);
    printf("restored\n");
    h = saved;
    memcpy(h.memory, saved_memory, MEMORY);
    update_slots(&h);
    ask(&h, "STATE", WT_STATE, ADDR, 8);

    printf("machine reset\n");
    reset_machine(&h);
    return 0;
}
