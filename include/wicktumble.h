/* Wicktumble: a region map and its flat view, the virtio memory device (virtio-mem) and its split queue, for a host
 * that runs a guest. x86-64 Linux. Link with libwicktumble.a.
 *
 * docs/HOSTS.md says what a host does and in which order; docs/REFUSALS.md what each returned number means, and the
 * rules behind the calls. Both are installed below PREFIX/share/doc/wicktumble.
 *
 * ANSWERS. Every call returns WT_DONE (0) or the number of a refusal, for every input: contents, counts and numbers
 * are all checked. A refused call leaves records, buffers and guest memory unchanged, except that 17 to 22 mark the
 * queue as stopped and that wt_run keeps the steps it served before. A refusal also writes the result: a position,
 * counts or zeros. The exception is 27 for a wrong count, or for a queue word too wide for its field: then nothing is
 * written.
 *
 * POINTERS are the one thing that is trusted: each must be valid for its count, aligned, and not null, even if the
 * count is 0. An argument that a call writes must not overlap another argument. A call keeps no pointer; the library
 * has no state, allocates nothing and makes no system call.
 *
 * RECORDS are arrays of 64-bit words that the caller owns, passed as a pointer and a count of words. The count must be
 * the record's length (WT_MAP and so on). Records may be saved and restored, within one MAJOR version.
 *
 * MEMORY. memory_length is always the length in bytes of the guest memory that is passed to wt_step and wt_run. A view
 * that maps past the memory passed to a step is refused (27, with zeros in the result).
 *
 * THREADS. Two calls may run concurrently unless one writes something that is passed to the other. wt_step and wt_run
 * write the device, the queue, guest memory and the result.
 *
 * THE GUEST. While wt_step or wt_run runs, no vCPU and no other thread may access guest memory: the proof assumes it.
 * The code touches only these bytes. A step reads the available ring's flags, idx and one entry (6 bytes), the 16
 * bytes of each descriptor of one chain, and the chain's first 24 readable bytes. It writes the chain's first 10
 * writable bytes, one used element (8 bytes) and the used idx (2 bytes). Accesses are plain, not atomic, and there are
 * no barriers: see docs/HOSTS.md.
 *
 * DRAINING. A guest does not notify again for chains that are already available. After a notification call wt_run (k
 * at least 1) until it refuses, or returns 0 with WT_RESULT_IDLE 1; or wt_step until it refuses, or returns 0 with
 * WT_RESULT_SERVED 0.
 *
 * INTERRUPTS. The library raises none. Raise the queue's interrupt whenever WT_RESULT_NOTIFY is 1 after a step or a
 * run, whatever number was returned except 27. Raise the configuration interrupt after wt_set_requested_size, after
 * wt_unpin, and when 17 to 22 stopped the queue (with DEVICE_NEEDS_RESET in the device status). The transport's
 * configuration generation must change after steps too, because the plugged size does.
 *
 * BLOCKS. The library neither clears nor frees guest memory. Compare the plugged words before and after a call, and
 * discard the memory of the blocks that are no longer plugged. */
#ifndef WICKTUMBLE_H
#define WICKTUMBLE_H

#include <stddef.h>
#include <stdint.h>

/* The version of this header and of its library. MAJOR goes up if a host written for the version before may have to
 * change: a call is removed or behaves differently, a word or byte of a record moved or has another meaning, or a call
 * can refuse with another number. MINOR goes up if calls or names are added, or if a number is returned in fewer
 * cases. PATCH goes up if nothing that a host relies on changed. A part that goes up sets those after it to 0. */
#define WT_VERSION_MAJOR 2
#define WT_VERSION_MINOR 0
#define WT_VERSION_PATCH 2

/* What a call returns: docs/REFUSALS.md. */
enum wt_number {
    WT_DONE = 0,
    WT_REFUSED_SHORT = 1,
    WT_REFUSED_NUMBER = 2,
    WT_REFUSED_COUNT = 3,
    WT_REFUSED_KIND = 4,
    WT_REFUSED_TAIL = 5,
    WT_REFUSED_FIELD = 6,
    WT_REFUSED_LINK = 7,
    WT_REFUSED_MEMORY = 8,
    WT_REFUSED_MANAGED = 9,
    WT_REFUSED_PORT = 10,
    WT_REFUSED_OVERLAP = 11,
    WT_REFUSED_RUNS = 12,
    WT_REFUSED_SETUP = 13,
    WT_REFUSED_SIZE = 14,
    WT_REFUSED_PIN = 15,
    WT_REFUSED_QUEUE = 16,
    WT_REFUSED_RING = 17,
    WT_REFUSED_AHEAD = 18,
    WT_REFUSED_HEAD = 19,
    WT_REFUSED_CHAIN = 20,
    WT_REFUSED_REACH = 21,
    WT_REFUSED_SHAPE = 22,
    WT_REFUSED_WIDTH = 23,
    WT_REFUSED_HOLE = 24,
    WT_REFUSED_SPLIT = 25,
    WT_REFUSED_UNPLUGGED = 26,
    WT_REFUSED_RECORD = 27
};

/* Words of each record. */
#define WT_MAP 289
#define WT_VIEW 1537
#define WT_DEVICE 37
#define WT_QUEUE 7
#define WT_RESULT 3

/* A map: the number of regions, then 32 regions of nine words. Region n begins at word WT_MAP_REGION(n); its size, for
 * example, is map[WT_MAP_REGION(n) + WT_REGION_SIZE]. Regions past the number are ignored. The root is the last
 * region. A word that the region's kind does not have must be 0. RAM, MMIO and containers may have children. A region
 * without a parent, except the root, is visible only through aliases. The higher priority wins. */
#define WT_REGIONS 32
#define WT_MAP_COUNT 0
#define WT_MAP_REGION(n) (1 + 9 * (n))
#define WT_REGION_KIND 0
#define WT_REGION_PARENT 1       /* the parent's number + 1, or 0 for none */
#define WT_REGION_OFFSET 2       /* in the parent */
#define WT_REGION_SIZE 3
#define WT_REGION_PRIORITY 4     /* 1 to 255: that number - 128; 0: the default, -1 for MMIO, 0 for other kinds */
#define WT_REGION_MEMORY_START 5 /* RAM and managed: where in guest memory its first byte is */
#define WT_REGION_PORT 6         /* MMIO: the host's number for the device behind it, 0 to 255 */
#define WT_REGION_TARGET 7       /* alias: the number of the region that it shows */
#define WT_REGION_ALIAS_OFFSET 8 /* alias: the offset in the target from which it shows it */

/* Kinds of regions. */
#define WT_KIND_CONTAINER 0
#define WT_KIND_RAM 1
#define WT_KIND_MMIO 2
#define WT_KIND_ALIAS 3
#define WT_KIND_MANAGED 4 /* the memory device's region */

/* A view: the number of ranges, then 256 ranges of six words, ascending by address. Range n begins at word
 * WT_VIEW_RANGE(n). Ranges past the number are ignored. A host may write a view itself. 27 then checks each range and
 * their order, but not ports, nor that regions share no memory: prefer wt_flatten. */
#define WT_RANGES 256
#define WT_VIEW_COUNT 0
#define WT_VIEW_RANGE(n) (1 + 6 * (n))
#define WT_RANGE_FIRST 0  /* the first address */
#define WT_RANGE_LAST 1   /* the last address, included */
#define WT_RANGE_REGION 2 /* the number of the region that it maps to */
#define WT_RANGE_OFFSET 3 /* the offset in the region at the first address */
#define WT_RANGE_KIND 4   /* RAM, MMIO or managed */
#define WT_RANGE_BASE 5   /* the region's memory start, or its port */

/* A device: five numbers, then two tables of one bit for each of up to 1,024 blocks. Block b is plugged if bit b % 64
 * of word WT_DEVICE_PLUGGED + b / 64 is set, and pinned likewise by WT_DEVICE_PINNED. WT_DEVICE_ADDR is the guest
 * address of the managed region's first byte. */
#define WT_BLOCKS 1024
#define WT_DEVICE_BLOCK_SIZE 0
#define WT_DEVICE_ADDR 1
#define WT_DEVICE_REGION_SIZE 2
#define WT_DEVICE_USABLE_SIZE 3
#define WT_DEVICE_REQUESTED_SIZE 4
#define WT_DEVICE_PLUGGED 5 /* 16 words */
#define WT_DEVICE_PINNED 21 /* 16 words */

/* A queue. The two counts are free-running 16-bit numbers. Its three areas may overlap. */
#define WT_QUEUE_SIZE 0
#define WT_QUEUE_DESCRIPTORS 1    /* guest addresses: descriptor table, */
#define WT_QUEUE_AVAILABLE 2      /* available ring (the driver area) */
#define WT_QUEUE_USED 3           /* and used ring (the device area) */
#define WT_QUEUE_NEXT_AVAILABLE 4 /* chains taken */
#define WT_QUEUE_NEXT_USED 5      /* chains returned */
#define WT_QUEUE_STOP 6           /* 0, or the number (17 to 22) that stopped it */

/* A result, by the call that writes it. Words without a name are 0. */
/* wt_read_sheet, refused with 1 to 5: */
#define WT_RESULT_PLACE 0 /* a position in the sheet, in bytes from 0 */
/* Refused with 6 to 11, or with 3 and 4 by a call that takes a map: */
#define WT_RESULT_REGION_A 0 /* the region at fault, twice; or the two regions that clash, the lower number first */
#define WT_RESULT_REGION_B 1
/* wt_walk, wt_look_up: */
#define WT_RESULT_FOUND 0 /* 1, or 0 if nothing is there; then the other words are 0 too */
#define WT_RESULT_REGION 1
#define WT_RESULT_OFFSET 2
/* wt_block_of_byte: WT_RESULT_FOUND, and */
#define WT_RESULT_BLOCK 1
/* wt_route: */
#define WT_RESULT_TARGET 0 /* one of: */
#define WT_TO_MEMORY 1
#define WT_TO_PORT 2
#define WT_RESULT_MEMORY_PLACE 1 /* WT_TO_MEMORY: where in guest memory the first byte is */
#define WT_RESULT_PORT 1         /* WT_TO_PORT */
#define WT_RESULT_PORT_OFFSET 2  /* WT_TO_PORT: the offset in the port's region */
/* wt_step, wt_run: */
#define WT_RESULT_SERVED 0 /* chains served, also before a refusal of wt_run */
#define WT_RESULT_NOTIFY 1 /* 1: raise the queue's interrupt */
#define WT_RESULT_IDLE 2   /* wt_run only: 1 if it ended because it found no chain; 0 after k chains or 17 to 22 */

/* wt_route_all: the words of one access, and of its answer. */
#define WT_ACCESS 2
#define WT_ACCESS_ADDRESS 0
#define WT_ACCESS_WIDTH 1
#define WT_ANSWER 4
#define WT_ANSWER_NUMBER 0 /* what wt_route returns */
#define WT_ANSWER_RESULT 1 /* the three words of its result */

/* A request of the guest, in bytes. Numbers are little-endian; bytes outside the fields are ignored. */
#define WT_REQUEST 24
#define WT_REQUEST_TYPE 0    /* 2 bytes */
#define WT_REQUEST_ADDR 8    /* 8 bytes: a guest address */
#define WT_REQUEST_BLOCKS 16 /* 2 bytes: the number of blocks */

/* Its types; any other is answered with WT_ERROR. */
#define WT_PLUG 0
#define WT_UNPLUG 1
#define WT_UNPLUG_ALL 2
#define WT_STATE 3

/* The response. Bytes outside the fields are 0. */
#define WT_RESPONSE 10
#define WT_RESPONSE_TYPE 0  /* 2 bytes */
#define WT_RESPONSE_STATE 8 /* 2 bytes: 0, except in an acknowledged WT_STATE */

#define WT_ACK 0
#define WT_NACK 1
#define WT_BUSY 2
#define WT_ERROR 3

#define WT_STATE_PLUGGED 0
#define WT_STATE_UNPLUGGED 1
#define WT_STATE_MIXED 2

/* The configuration space that the guest reads, in bytes: little-endian numbers of 8 bytes, except node_id, which has
 * 2 and is 0. The six bytes after node_id are 0. */
#define WT_CONFIGURATION 56
#define WT_CONFIGURATION_BLOCK_SIZE 0
#define WT_CONFIGURATION_NODE_ID 8
#define WT_CONFIGURATION_ADDR 16
#define WT_CONFIGURATION_REGION_SIZE 24
#define WT_CONFIGURATION_USABLE_SIZE 32
#define WT_CONFIGURATION_PLUGGED_SIZE 40
#define WT_CONFIGURATION_REQUESTED_SIZE 48

#ifdef __cplusplus
extern "C" {
#endif

/* Reads a sheet (any length), validates it and writes the map. Refuses with 1 to 5 (a position), 6 to 11 (regions),
 * 27. */
uint64_t wt_read_sheet(const uint8_t *sheet, size_t sheet_len, uint64_t memory_length,
                       uint64_t *map, size_t map_words, uint64_t *result, size_t result_words);

/* Validates a map. Refuses with 3, 4, 6 to 11 (regions), 27. */
uint64_t wt_check_map(const uint64_t *map, size_t map_words, uint64_t memory_length,
                      uint64_t *result, size_t result_words);

/* Walks the tree: which region is at an address, and at which offset. Refuses with 3, 4, 6 to 11 (regions), 27. */
uint64_t wt_walk(const uint64_t *map, size_t map_words, uint64_t memory_length, uint64_t address,
                 uint64_t *result, size_t result_words);

/* Validates a map and writes its flat view. Refuses with 3, 4, 6 to 11 (regions), 12, 27. */
uint64_t wt_flatten(const uint64_t *map, size_t map_words, uint64_t memory_length,
                    uint64_t *view, size_t view_words, uint64_t *result, size_t result_words);

/* Writes a fresh device for the map's managed region. addr is the guest address of the region's first byte; nothing
 * compares it with the map (docs/HOSTS.md says what to check). usable_size is best the whole region: Linux uses only
 * memory blocks of 128 MiB that are wholly inside the usable part. Refuses with 3, 4, 6 to 11 (regions), 13, 27. */
uint64_t wt_set_up(const uint64_t *map, size_t map_words, uint64_t memory_length,
                   uint64_t block_size, uint64_t addr, uint64_t usable_size, uint64_t requested_size,
                   uint64_t *device, size_t device_words, uint64_t *result, size_t result_words);

/* Sets the size that the guest should plug, and raises the usable size to it if that is lower. Then raise the
 * configuration interrupt. Refuses with 14, 27. */
uint64_t wt_set_requested_size(uint64_t *device, size_t device_words, uint64_t size);

/* Pins a plugged block, so that the guest cannot unplug it; unpins it. After wt_unpin raise the configuration
 * interrupt. Both refuse with 15, 27. */
uint64_t wt_pin(uint64_t *device, size_t device_words, uint64_t block);
uint64_t wt_unpin(uint64_t *device, size_t device_words, uint64_t block);

/* The machine was reset: clears all plugged and pinned blocks; addr and the sizes stay. Refuses with 27. */
uint64_t wt_system_reset(uint64_t *device, size_t device_words);

/* Writes the WT_CONFIGURATION bytes that the guest reads. Refuses with 27. */
uint64_t wt_configuration(const uint64_t *device, size_t device_words, uint8_t *bytes, size_t bytes_len);

/* Carries out one request of the guest without a queue: WT_REQUEST bytes in, WT_RESPONSE bytes out. Refuses with 27. */
uint64_t wt_request(uint64_t *device, size_t device_words, const uint8_t *request, size_t request_len,
                    uint8_t *response, size_t response_len);

/* The block that holds the byte at an offset of the device's region. Refuses with 27. */
uint64_t wt_block_of_byte(const uint64_t *device, size_t device_words, uint64_t offset,
                          uint64_t *result, size_t result_words);

/* Routes one access of the guest, of 1, 2, 4 or 8 bytes. No device: device_words 0 and any pointer that is not null.
 * Refuses with 23 to 26, 27. */
uint64_t wt_route(const uint64_t *view, size_t view_words, uint64_t memory_length,
                  const uint64_t *device, size_t device_words, uint64_t address, uint64_t width,
                  uint64_t *result, size_t result_words);

/* Routes many accesses and validates view and device once for all: WT_ACCESS words for each access, WT_ANSWER words
 * for each answer. No device: as wt_route. Returns 0, with each access's own number in its answer; or 27 if a record
 * is refused or the counts do not fit, and then writes no answer. */
uint64_t wt_route_all(const uint64_t *view, size_t view_words, uint64_t memory_length,
                      const uint64_t *device, size_t device_words, const uint64_t *accesses,
                      size_t access_words, uint64_t *answers, size_t answer_words);

/* Looks an address up in a view; the result is wt_walk's. Takes no device, so 27 compares no range with one. Refuses
 * with 27. */
uint64_t wt_look_up(const uint64_t *view, size_t view_words, uint64_t memory_length, uint64_t address,
                    uint64_t *result, size_t result_words);

/* Writes a new queue: its size, a power of two up to 256, and the guest addresses of its areas; both counts 0. A lower
 * maximum is for the host to enforce. Refuses with 16, 27. */
uint64_t wt_make_queue(uint64_t size, uint64_t descriptors, uint64_t available, uint64_t used,
                       uint64_t *queue, size_t queue_words);

/* Resets a queue: both counts 0, not stopped; size and areas stay. Refuses with 27. */
uint64_t wt_reset_queue(uint64_t *queue, size_t queue_words);

/* One step: takes one chain from the queue, carries out its request and returns it. WT_RESULT_SERVED 0 with number 0:
 * no chain is available. Refuses with 17 to 22 (the queue is stopped), 27. */
uint64_t wt_step(const uint64_t *view, size_t view_words, uint64_t *device, size_t device_words,
                 uint64_t *queue, size_t queue_words, uint8_t *memory, size_t memory_len,
                 uint64_t *result, size_t result_words);

/* Up to k steps, at most 256, until no chain is available or one is refused. k = 0 does nothing and returns 0, or 27.
 * Refuses with 17 to 22 (the queue is stopped; the result counts the steps served before), 27. docs/HOSTS.md says how
 * to choose k. */
uint64_t wt_run(const uint64_t *view, size_t view_words, uint64_t *device, size_t device_words,
                uint64_t *queue, size_t queue_words, uint8_t *memory, size_t memory_len, uint64_t k,
                uint64_t *result, size_t result_words);

#ifdef __cplusplus
}
#endif
#endif
