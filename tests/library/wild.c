/* wild IMAGE TIMES: hands arguments at random to the calls, each array between two pages that no one may touch, and
 * refuses each request for memory in turn. Of most calls all arguments are right. The last line is what was tried; a
 * wrong access ends the program. */
#define _DEFAULT_SOURCE
#include <stdio.h>
#include <stdlib.h>
#include <string.h>
#include <sys/mman.h>

#include "gptman.h"

enum { PAGE = 4096, MOST = 1 << 17 };

static uint64_t seed = 1;
static long left = -1, taken, given;

void *__real_malloc(size_t n);
void *__real_realloc(void *p, size_t n);
void __real_free(void *p);

/* So many more requests are served; with -1 all are. */
static int is_served(void) { return left < 0 || left-- > 0; }

void *__wrap_malloc(size_t n) {
    void *p = is_served() ? __real_malloc(n) : NULL;
    taken += p != NULL;
    return p;
}

void *__wrap_realloc(void *p, size_t n) {
    void *q = is_served() ? __real_realloc(p, n) : NULL;
    taken += p == NULL && q != NULL;
    return q;
}

void __wrap_free(void *p) {
    given += p != NULL;
    __real_free(p);
}

static uint64_t draw(uint64_t below) {
    seed = seed * 6364136223846793005u + 1442695040888963407u;
    return below == 0 ? 0 : (seed >> 33) % below;
}

/* A room of so many bytes that ends or begins at a page of no access. */
typedef struct room {
    uint8_t *pages, *at;
} room;

static room take(size_t size, size_t unit, int at_end) {
    size_t pages = (size + PAGE - 1) / PAGE + 2;
    room r;
    r.pages = (uint8_t *)mmap(NULL, pages * PAGE, PROT_NONE, MAP_PRIVATE | MAP_ANONYMOUS, -1, 0);
    if (r.pages == MAP_FAILED || mprotect(r.pages + PAGE, (pages - 2) * PAGE, PROT_READ | PROT_WRITE) != 0) exit(3);
    r.at = at_end ? r.pages + (pages - 1) * PAGE - size : r.pages + PAGE;
    if ((size_t)r.at % unit != 0) r.at -= (size_t)r.at % unit;
    return r;
}

static void give(room r, size_t size) { munmap(r.pages, ((size + PAGE - 1) / PAGE + 2) * PAGE); }

static uint8_t image[MOST];
static size_t image_size;

/* A length that is mostly small. */
static uint64_t draw_length(void) {
    static const uint64_t odd[] = {0, 1, 91, 92, 511, 512, 1024, 1u << 31, 1ull << 32, 1ull << 63, UINT64_MAX};
    return draw(4) == 0 ? odd[draw(sizeof odd / sizeof *odd)] : draw(MOST);
}

/* Mostly the first, so that most calls are done; sometimes the second. */
static uint64_t mostly(uint64_t usual, uint64_t odd) { return draw(12) == 0 ? odd : usual; }

/* The pointer of an array, or null where there may be one. */
static void *at(room r, size_t count) { return count == 0 && draw(2) ? NULL : r.at; }

enum { READ, CHECK, WRITE, NEW, FIT, DOS, MBR, PLACE, GET_NAME, SET_NAME, FAULT_NAME, CALLS };
static const char *const names[CALLS] = {"read", "check", "write", "new", "fit", "dos", "mbr", "place",
                                         "get_name", "set_name", "fault_name"};
static long done[CALLS];

/* The answers from 100 on have the bits from 32 on. */
#define BIT(n) (1ull << ((n) < 100 ? (n) : (n) - 68))
#define READS (BIT(2) | BIT(7) | BIT(103) | BIT(105))
#define WRITES (BIT(8) | BIT(9) | BIT(10) | BIT(14) | BIT(104))
#define PLANS (WRITES | BIT(101) | BIT(102))

/* Counts a call, whose answer is 0 or one of these. */
static void answered(int call, uint32_t answer, uint64_t others) {
    if (answer != 0 && (answer > 119 || (answer > 16 && answer < 100) || (others & BIT(answer)) == 0)) {
        fprintf(stderr, "%s answers %u\n", names[call], (unsigned)answer);
        exit(4);
    }
    done[call] += answer == 0;
}

static void expect(int call, int holds) {
    if (holds) return;
    fprintf(stderr, "%s answers what cannot be\n", names[call]);
    exit(5);
}


/* The arguments that most calls have, each array in a room of its own. */
typedef struct arguments {
    room head, tail, partitions, steps, bytes;
    size_t first, last, partition_count, step_count, byte_count;
    uint64_t size, sector;
    uint32_t flags;
    gptman_table table;
    gptman_needed needed;
} arguments;

#define DISK(a) (const uint8_t *)at((a)->head, (a)->first), (a)->first, (const uint8_t *)at((a)->tail, (a)->last), \
                (a)->last, (a)->size
#define ENDS(a) DISK(a), (a)->sector
#define PLAN(a) (gptman_step *)at((a)->steps, (a)->step_count), (a)->step_count, \
                (uint8_t *)at((a)->bytes, (a)->byte_count), (a)->byte_count, &(a)->needed, (a)->flags
#define ENTRIES(a) (gptman_partition *)at((a)->partitions, (a)->partition_count), (a)->partition_count

/* A plan, or bytes that are lacking. */
static void planned(const arguments *a, int call, uint32_t answer, uint64_t others) {
    answered(call, answer, others);
    expect(call, answer != 0 || (a->needed.steps <= a->step_count && a->needed.bytes <= a->byte_count));
    expect(call, answer != 103 || (a->needed.from <= a->size && a->needed.length <= a->size - a->needed.from));
    expect(call, answer != 104 || a->needed.steps > a->step_count || a->needed.bytes > a->byte_count);
}

/* Another entry, mostly one that is right. */
static void change(arguments *a) {
    if (a->partition_count == 0 || draw(3) == 0) return;
    size_t number = draw(mostly(8, a->partition_count)) % a->partition_count;
    gptman_partition *entry = (gptman_partition *)a->partitions.at + number;
    for (int i = 0; i < 16; i++) entry->type_guid[i] = (uint8_t)draw(256), entry->unique_guid[i] = (uint8_t)draw(256);
    entry->first_lba = mostly(34 + draw(180), draw_length());
    entry->last_lba = entry->first_lba + mostly(draw(3), draw_length());
}

static void call_plans(arguments *a) {
    change(a);
    planned(a, WRITE, gptman_write(ENDS(a), ENTRIES(a), PLAN(a)), READS | PLANS | BIT(100));
    gptman_table table = a->table;
    table.entry_count = (uint32_t)mostly(1 + draw(200), draw_length());
    uint64_t no_memory = table.entry_count >> 20 != 0 ? BIT(15) : 0; /* some hundred MB of entries on a large disk */
    planned(a, NEW, gptman_new(ENDS(a), &table, PLAN(a)), BIT(103) | BIT(105) | PLANS | no_memory);
    planned(a, FIT, gptman_fit(ENDS(a), PLAN(a)), READS | PLANS);
}

static void call_others(arguments *a) {
    gptman_copies copies = {77, 77, 77, {0}};
    uint32_t looked = gptman_check(ENDS(a), &copies, &a->needed);
    answered(CHECK, looked, BIT(103) | BIT(105));
    expect(CHECK, looked == 0 || (copies.primary_fault == 77 && copies.backup_fault == 77 && copies.are_same == 77));
    expect(CHECK, looked != 0 || (copies.primary_fault <= 16 && copies.backup_fault <= 16 && copies.are_same <= 1));
    uint32_t dos = gptman_dos(DISK(a), &a->needed);
    answered(DOS, dos, BIT(103) | BIT(105) | BIT(102));
    expect(DOS, dos != 103 || (a->needed.from == 0 && a->needed.length == 512 && a->size >= 512));
    size_t count = a->byte_count < 130 ? a->byte_count : mostly(a->byte_count, draw(130));
    uint8_t *last = a->bytes.at + (a->byte_count - count);
    uint32_t mbr = gptman_mbr(a->size, a->sector, (uint32_t)mostly(draw(2), 2), last, count);
    answered(MBR, mbr, BIT(8) | BIT(14) | BIT(104) | BIT(105));
    expect(MBR, (mbr != 0 || count >= GPTMAN_MBR_LENGTH) && (mbr != 104 || count < GPTMAN_MBR_LENGTH));
    size_t room = a->byte_count < 40 ? a->byte_count : mostly(40, draw(40));
    char *name = (char *)a->bytes.at + (a->byte_count - room);
    uint32_t named = gptman_fault_name((uint32_t)mostly(draw(160), draw_length()), name, room);
    answered(FAULT_NAME, named, BIT(104));
    expect(FAULT_NAME, named == 0 ? memchr(name, 0, room) != NULL : room < GPTMAN_FAULT_NAME_SIZE);
    uint64_t lba = 7;
    a->table.align = mostly(1 + draw(8), draw_length());
    uint64_t size = mostly(draw(20), draw_length());
    uint32_t choice = (uint32_t)mostly(1 + draw(3), draw(9));
    uint32_t place = gptman_place(&a->table, ENTRIES(a), size, choice, &lba);
    answered(PLACE, place, BIT(8) | BIT(105));
    expect(PLACE, place == 0 || lba == 7);
}

/* A name of random units, and one of random bytes, where there is a partition. */
static void call_names(arguments *a) {
    if (a->partition_count == 0) return;
    gptman_partition *last = (gptman_partition *)a->partitions.at + (a->partition_count - 1);
    for (int i = 0; i < 36; i++) last->name[i] = (uint16_t)(draw(4) == 0 ? 0xd800 + draw(2048) : draw(65536));
    uint8_t *text = a->bytes.at;
    uint32_t told = gptman_get_name(last, (uint8_t *)at(a->bytes, a->byte_count), a->byte_count);
    answered(GET_NAME, told, BIT(104));
    expect(GET_NAME, told == 0 ? memchr(text, 0, a->byte_count) != NULL : a->byte_count < GPTMAN_NAME_SIZE);
    size_t length = told == 0 ? mostly(strlen((const char *)text), draw(a->byte_count + 1)) : draw(a->byte_count + 1);
    answered(SET_NAME, gptman_set_name(last, (const uint8_t *)at(a->bytes, length), length), BIT(105));
}

/* Turns some bits of an end. */
static void turn(uint8_t *bytes, size_t count) {
    for (uint64_t k = draw(3) == 0 ? draw(4) : 0; k > 0 && count > 0; k--) {
        bytes[mostly(draw(2048), draw(count)) % count] ^= (uint8_t)(1 << draw(8));
    }
}

/* One call of each kind with ends of the image, some of its bytes changed. */
static void call_at_random(void) {
    static const uint64_t sectors[] = {1024, 4096, 0, 1, 92, 1ull << 63, UINT64_MAX};
    arguments a;
    memset(&a, 0, sizeof a);
    a.size = mostly(image_size, draw_length()), a.sector = mostly(512, sectors[draw(7)]);
    a.flags = (uint32_t)mostly(draw(2), draw_length());
    a.first = mostly(17408 + draw(4000), draw(40000)), a.last = mostly(16896 + draw(4000), draw(40000));
    if (draw(40) == 0) a.first = 0;
    if (draw(40) == 0) a.last = 0;
    a.partition_count = mostly(128, draw(200)), a.step_count = mostly(20 + draw(20), draw(20));
    a.byte_count = mostly(66000 + draw(2000), draw(66000));
    if (draw(40) == 0) a.partition_count = a.step_count = a.byte_count = 0;
    a.head = take(a.first, 1, draw(2)), a.tail = take(a.last, 1, draw(2));
    a.partitions = take(a.partition_count * sizeof(gptman_partition), 8, 1);
    a.steps = take(a.step_count * sizeof(gptman_step), 8, 1), a.bytes = take(a.byte_count, 1, 1);
    memcpy(a.head.at, image, a.first), memcpy(a.tail.at, image + image_size - a.last, a.last);
    turn(a.head.at + (a.first > 512 ? 512 : 0), a.first > 512 ? a.first - 512 : 0), turn(a.tail.at, a.last);
    uint32_t read = gptman_read(ENDS(&a), &a.table, ENTRIES(&a), &a.needed);
    answered(READ, read, READS | BIT(104));
    expect(READ, read != 0 || a.table.entry_count <= a.partition_count);
    expect(READ, read != 103 || (a.needed.from <= a.size && a.needed.length <= a.size - a.needed.from));
    call_plans(&a), call_others(&a), call_names(&a);
    give(a.head, a.first), give(a.tail, a.last), give(a.bytes, a.byte_count);
    give(a.partitions, a.partition_count * sizeof(gptman_partition)), give(a.steps, a.step_count * sizeof(gptman_step));
}

/* Each call once with the good image, until one is not done: what that one answers. */
static uint32_t call_each(const uint8_t *head, const uint8_t *tail) {
    static gptman_partition partitions[128];
    static gptman_step steps[64];
    static uint8_t bytes[1 << 16];
    gptman_table table = {{0}, 0, 0, 0, 0, 0, 0, 0, 0, 0, {0}};
    gptman_needed needed = {0, 0, 0, 0};
    gptman_copies copies;
    uint64_t lba;
    uint32_t answer = gptman_read(head, 17408, tail, 16896, image_size, 512, &table, partitions, 128, &needed);
    if (answer == 0) {
        answer = gptman_write(head, 17408, tail, 16896, image_size, 512, partitions, 128, steps, 64, bytes,
                              sizeof bytes, &needed, 0);
    }
    if (answer == 0) {
        answer = gptman_fit(head, 17408, tail, 16896, image_size, 512, steps, 64, bytes, sizeof bytes, &needed, 0);
    }
    if (answer == 0) {
        answer = gptman_new(head, 17408, tail, 16896, image_size, 512, &table, steps, 64, bytes, sizeof bytes, &needed, 0);
    }
    if (answer == 0) answer = gptman_check(head, 17408, tail, 16896, image_size, 512, &copies, &needed);
    if (answer == 0) answer = gptman_dos(head, 17408, tail, 16896, image_size, &needed);
    if (answer == 0) answer = gptman_mbr(image_size, 512, 0, bytes, sizeof bytes);
    table.align = 1;
    if (answer == 0) answer = gptman_place(&table, partitions, 128, 1, GPTMAN_BEST, &lba);
    if (answer == 0) answer = gptman_set_name(&partitions[0], (const uint8_t *)"name", 4);
    if (answer == 0) answer = gptman_get_name(&partitions[0], bytes, sizeof bytes);
    return answer;
}

/* The same with each request for memory refused in turn. Answers how many there are. */
static int refuse_in_turn(void) {
    room head = take(17408, 1, 1), tail = take(16896, 1, 1);
    memcpy(head.at, image, 17408), memcpy(tail.at, image + image_size - 16896, 16896);
    for (int k = 0; k < 4000; k++) {
        left = k;
        uint32_t answer = call_each(head.at, tail.at);
        int was_refused = left < 0;
        left = -1;
        if (answer != (was_refused ? 15 : 0)) exit(7);
        if (taken != given) exit(9);
        if (!was_refused) return k;
    }
    exit(10);
}

int main(int argc, char **argv) {
    FILE *file = argc == 3 ? fopen(argv[1], "rb") : NULL;
    if (file == NULL) return 2;
    image_size = fread(image, 1, MOST, file);
    if (image_size != MOST) return 2;
    int refused = refuse_in_turn();
    long runs = atol(argv[2]);
    for (long k = 0; k < runs; k++) call_at_random();
    if (taken != given) return 9;
    printf("%d requests refused, %ld calls of each at random, done of them", refused, runs);
    for (int k = 0; k < CALLS; k++) printf("%s %s %ld", k == 0 ? ":" : ",", names[k], done[k]);
    printf("\n");
    return 0;
}
