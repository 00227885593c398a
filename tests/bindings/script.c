/* Answers a script as mapscript does, by the functions of sections.h. Its lines must be well formed: only a T stands alone, and
 * a G as the first line. The steps of exports, for which scripts have no line, have small letters: o opens and c closes, both
 * alone; p takes a portion, with the places of its three buffers, and f a file, with its bytes. After their answers stands
 * everything that was lent to them. */
#include "sections.h"

#include <inttypes.h>
#include <stdio.h>

#define PLACES 64

/* More than an export needs. */
#define LENT (SECTIONS_MAP_LIMIT + 1)
#define BYTES (SECTIONS_FILE_LIMIT + 100)

static struct sections map;
static uint32_t addresses[LENT];
static uint64_t values[LENT];
static uint16_t owners[LENT];
static uint8_t bytes[BYTES];
static const struct sections_buffers buffers = {addresses, PLACES, values, PLACES, owners, PLACES};

static uint64_t number(void)
{
    uint64_t n = 0;
    for (int c = getchar(); c >= '0' && c <= '9'; c = getchar())
        n = 10 * n + (uint64_t)(c - '0');
    return n;
}

static uint32_t number32(void)
{
    return (uint32_t)number();
}

static void scan(uint32_t seat, uint32_t lo, uint32_t hi)
{
    struct sections_count found = sections_scan(&map, seat, lo, hi, &buffers);
    printf(found.refusal ? "%d" : "%d %zu", found.refusal, found.count);
    for (size_t i = 0; i < found.count; i++)
        printf(" %" PRIu32 " %" PRIu64 " %" PRIu16, addresses[i], values[i], owners[i]);
}

static void read(uint32_t seat, uint32_t address)
{
    struct sections_value read = sections_read(&map, seat, address);
    printf("%d", read.refusal);
    if (read.present)
        printf(" %" PRIu64 " %" PRIu16, read.value, read.owner);
    else if (!read.refusal)
        printf(" -");
    if (!read.refusal)
        printf(" %" PRIu32, read.examined);
}

static void validate(uint32_t seat)
{
    struct sections_serial job = sections_validate(&map, seat);
    printf(job.refusal ? "%d" : "%d %" PRIu32, job.refusal, job.serial);
}

static void fold(struct sections_count folded)
{
    printf("%d %zu", folded.refusal, folded.count);
}

static void put(uint32_t seat, uint32_t address)
{
    uint64_t value = number();
    printf("%d", sections_put(&map, seat, address, value, (uint16_t)number()));
}

static void open_export(void)
{
    struct sections_count opened = sections_export_open(&map);
    printf(opened.refusal ? "%d" : "%d %zu", opened.refusal, opened.count);
}

/* The buffers hold something already, and every place of them is shown. */
static void portion(uint32_t m, uint32_t n, uint32_t o)
{
    for (size_t i = 0; i < LENT; i++) {
        addresses[i] = 7;
        values[i] = 8;
        owners[i] = 9;
    }
    struct sections_buffers lent = {addresses, m, values, n, owners, o};
    struct sections_given given = sections_export_portion(&map, &lent);
    printf(given.refusal ? "%d" : "%d %zu %zu", given.refusal, given.count, given.remaining);
    for (size_t i = 0; i < m; i++)
        printf(" %" PRIu32, addresses[i]);
    for (size_t i = 0; i < n; i++)
        printf(" %" PRIu64, values[i]);
    for (size_t i = 0; i < o; i++)
        printf(" %" PRIu16, owners[i]);
}

static void file(uint32_t size)
{
    for (size_t i = 0; i < BYTES; i++)
        bytes[i] = 85;
    struct sections_count filed = sections_export_file(&map, bytes, size);
    printf(filed.refusal ? "%d " : "%d %zu ", filed.refusal, filed.count);
    for (size_t i = 0; i < size; i++)
        printf("%02x", bytes[i]);
}

/* A line of a letter and nothing else. */
static void answer_alone(char letter)
{
    switch (letter) {
    case 'T': fold(sections_fold_oldest(&map)); break;
    case 'o': open_export(); break;
    case 'c': printf("%d", sections_export_close(&map)); break;
    }
}

static void answer(char letter, uint32_t first)
{
    uint32_t second;
    switch (letter) {
    case 'B': printf("%d", sections_begin(&map, first)); break;
    case 'L': printf("%d", sections_lock(&map, first)); break;
    case 'I': printf("%d", sections_install(&map, first)); break;
    case 'A': printf("%d", sections_abort(&map, first)); break;
    case 'V': validate(first); break;
    case 'M': fold(sections_fold(&map, first)); break;
    case 'R': read(first, number32()); break;
    case 'S':
        second = number32();
        scan(first, second, number32());
        break;
    case 'D': printf("%d", sections_remove(&map, first, number32())); break;
    case 'P': put(first, number32()); break;
    case 'p':
        second = number32();
        portion(first, second, number32());
        break;
    case 'f': file(first); break;
    }
}

/* Makes the map, a guarded one by a line G, and answers the letter of the first step. */
static int start(void)
{
    int letter = getchar();
    if (letter != 'G') {
        sections_init(&map);
        return letter;
    }
    sections_init_guarded(&map);
    getchar();
    printf("G 0\n");
    return getchar();
}

int main(void)
{
    for (int letter = start(); letter != EOF; letter = getchar()) {
        printf("%c ", letter);
        if (getchar() == '\n')
            answer_alone((char)letter);
        else
            answer((char)letter, number32());
        printf("\n");
    }
    size_t count = 0;
    struct sections_record r;
    for (bool more = sections_first(&map, &r); more; more = sections_after(&map, &r))
        count++;
    printf("E %zu", count);
    for (bool more = sections_first(&map, &r); more; more = sections_after(&map, &r))
        printf(" %" PRIu32 " %" PRIu64 " %" PRIu16, r.address, r.value, r.owner);
    printf("\n");
    return 0;
}
