/* The section map of document 01, for C and C++.
 *
 * A map is one `struct sections` in memory of the caller; nothing is allocated. Each step is a function that answers
 * SECTIONS_GRANTED or a refusal, and what was granted. `example.c` beside this file shows them at work. Link
 * crates/sections/out/libsections.a, which `rt lib` proves and writes in crates/sections.
 *
 * A guarded map (request 102) is made by sections_init_guarded, or by sections_run with `guarded`, and stays one. Its values are
 * lengths in bytes, and whatever steps it is given, no two present sections ever overlap. A job scans before it locks: each put
 * needs a scan that sees all sections that could reach into it. Lock refuses by 16, 17 or 18 what would break the promise.
 *
 * An export (request 107) is the present records of the moment when it is opened, in portions and as a file. A map has one at a
 * time; jobs and folds go on meanwhile, and change nothing of it.
 *
 * Every answer is as document 01 and the requests have it, so long as the caller keeps this:
 * - A map is used after sections_init, sections_init_guarded or sections_run, and only these functions write it.
 * - One call at a time for a map. Different maps may be used at the same time.
 * - A map may be copied whole between calls, by assignment, memcpy or a file: it has no pointers. The copy goes on by itself.
 * - Buffers lie outside the map and do not overlap. A buffer or a list of 0 places may be NULL.
 * - 64-bit machines alone: the library is compiled for x86-64. */
#ifndef SECTIONS_H
#define SECTIONS_H

#include <stdbool.h>
#include <stddef.h>
#include <stdint.h>

#if SIZE_MAX != UINT64_MAX
#error "the section map needs a 64-bit machine"
#endif

/* ---- A map. */

/* Document 01's limits, and request 102's. */
#define SECTIONS_SEATS 8
#define SECTIONS_MAP_LIMIT 1024  /* records */
#define SECTIONS_SLOT_COUNT 256  /* of the indexlet */
#define SECTIONS_FILTER_ROWS 256 /* of the indexlet's filter, behind its slots */
#define SECTIONS_BITMAP_ROWS 1   /* of the bitmap of its slots, behind the filter */
#define SECTIONS_READ_LIMIT 64   /* record entries of a job's log */
#define SECTIONS_MARK_LIMIT 32   /* marks of a job's log */
#define SECTIONS_WRITE_LIMIT 16  /* edited addresses of a job */
#define SECTIONS_LONGEST 65536   /* bytes of a section in a guarded map */

/* The most records that a granted scan can show: those that it logs, and the job's own edits. */
#define SECTIONS_SCAN_LIMIT (SECTIONS_READ_LIMIT + SECTIONS_WRITE_LIMIT)

/* The bytes of the file of an export: two sizes of 4, then an address of 4 and an entry of 10 for each record. */
#define SECTIONS_FILE_BYTES(records) (8 + 14 * (records))
#define SECTIONS_FILE_LIMIT SECTIONS_FILE_BYTES(SECTIONS_MAP_LIMIT)

/* How many words an array of the map has: its rows, by the words of a row. */
#define SECTIONS_GLOBALS 8
#define SECTIONS_EXPORTING 3
#define SECTIONS_EXPORTED (SECTIONS_MAP_LIMIT * 3)
#define SECTIONS_RECORDS (SECTIONS_MAP_LIMIT * 4)
#define SECTIONS_LEAVES ((SECTIONS_MAP_LIMIT + 1) * 4)
#define SECTIONS_SLOTS ((SECTIONS_SLOT_COUNT + SECTIONS_FILTER_ROWS + SECTIONS_BITMAP_ROWS) * 9)
#define SECTIONS_READS (SECTIONS_SEATS * SECTIONS_READ_LIMIT * 5)
#define SECTIONS_MARKS (SECTIONS_SEATS * SECTIONS_MARK_LIMIT * 7)
#define SECTIONS_WRITES (SECTIONS_SEATS * SECTIONS_WRITE_LIMIT * 4)

/* The second and third are the map's export: its numbers, and its records. */
struct sections {
    uint64_t globals[SECTIONS_GLOBALS];
    uint64_t exporting[SECTIONS_EXPORTING];
    uint64_t exported[SECTIONS_EXPORTED];
    uint64_t records[SECTIONS_RECORDS];
    uint64_t leaves[SECTIONS_LEAVES];
    uint64_t slots[SECTIONS_SLOTS];
    uint64_t reads[SECTIONS_READS];
    uint64_t marks[SECTIONS_MARKS];
    uint64_t writes[SECTIONS_WRITES];
    uint64_t seats[SECTIONS_SEATS];
};

/* ---- Answers. */

/* Document 01's table, and what requests 102 and 107 add. 12, 13 and 14 end the job; the others change nothing. Of several causes
 * the lowest number is answered, but by lock the first of 1, 2, 4, 16, 17, 18, 9, 10, 11, and by a file 20 before 8. */
enum sections_refusal {
    SECTIONS_GRANTED = 0,
    SECTIONS_NO_SEAT = 1,
    SECTIONS_SEAT_FREE = 2,
    SECTIONS_SEAT_TAKEN = 3,
    SECTIONS_WRONG_STAGE = 4,
    SECTIONS_BACKWARD = 5,
    SECTIONS_LOG_FULL = 6,
    SECTIONS_EDITS_FULL = 7,
    SECTIONS_SHORT_BUFFER = 8,
    SECTIONS_HELD = 9,
    SECTIONS_INDEXLET_FULL = 10,
    SECTIONS_MAP_FULL = 11,
    SECTIONS_CHANGED = 12,
    SECTIONS_UNDER_LOCK = 13,
    SECTIONS_PHANTOM = 14,
    SECTIONS_SPENT = 15,
    /* Of lock in a guarded map, if it holds of any put of the job. */
    SECTIONS_UNFIT = 16,     /* its length is outside 1 to SECTIONS_LONGEST, or its end is past the highest address */
    SECTIONS_UNCOVERED = 17, /* no scan of the job covers from 65,535 addresses before the section, or 0, to its last byte */
    SECTIONS_OVERLAP = 18,   /* another section shares a byte, as the latest such scan found it, with the job's edits laid over */
    SECTIONS_EXPORT_OPEN = 19, /* of opening an export: one is open */
    SECTIONS_NO_EXPORT = 20,   /* of a portion, a file or the close of an export: none is open */
    /* Of a coded step alone: there is no such kind, a seat or an address is above 32 bits, an owner above 16, or a scan or a
     * portion has more places of a buffer than lent, or a file more bytes. */
    SECTIONS_MEANINGLESS = 99
};

/* Document 01's word for it. */
static inline const char *sections_word(enum sections_refusal refusal)
{
    switch (refusal) {
    case SECTIONS_GRANTED: return "granted";
    case SECTIONS_NO_SEAT: return "no seat";
    case SECTIONS_SEAT_FREE: return "seat free";
    case SECTIONS_SEAT_TAKEN: return "seat taken";
    case SECTIONS_WRONG_STAGE: return "wrong stage";
    case SECTIONS_BACKWARD: return "backward";
    case SECTIONS_LOG_FULL: return "log full";
    case SECTIONS_EDITS_FULL: return "edits full";
    case SECTIONS_SHORT_BUFFER: return "short buffer";
    case SECTIONS_HELD: return "held";
    case SECTIONS_INDEXLET_FULL: return "indexlet full";
    case SECTIONS_MAP_FULL: return "map full";
    case SECTIONS_CHANGED: return "changed";
    case SECTIONS_UNDER_LOCK: return "under lock";
    case SECTIONS_PHANTOM: return "phantom";
    case SECTIONS_SPENT: return "spent";
    case SECTIONS_UNFIT: return "unfit";
    case SECTIONS_UNCOVERED: return "uncovered";
    case SECTIONS_OVERLAP: return "overlap";
    case SECTIONS_EXPORT_OPEN: return "export open";
    case SECTIONS_NO_EXPORT: return "no export";
    case SECTIONS_MEANINGLESS: return "no meaning";
    }
    return "unknown";
}

/* Of a read. */
struct sections_value {
    enum sections_refusal refusal;
    bool present;
    uint64_t value;    /* if present */
    uint16_t owner;    /* if present */
    uint32_t examined; /* slots of the indexlet that the look-up examined; 0 for the job's own edit */
};

/* Of a scan or the opening of an export: how many records; of a fold: how many edits it took into the index; of a file: how many
 * bytes. */
struct sections_count {
    enum sections_refusal refusal;
    size_t count;
};

/* Of a portion: how many records, and how many remain after it. */
struct sections_given {
    enum sections_refusal refusal;
    size_t count;
    size_t remaining;
};

/* Of a validate. */
struct sections_serial {
    enum sections_refusal refusal;
    uint32_t serial; /* from 1 */
};

/* Where a scan or a portion puts its records, by rising address; the shortest buffer decides. Places past the count are left. */
struct sections_buffers {
    uint32_t *addresses;
    size_t address_places;
    uint64_t *values;
    size_t value_places;
    uint16_t *owners;
    size_t owner_places;
};

/* A present record; its stamp is the serial number of the job that wrote it. */
struct sections_record {
    uint32_t address;
    uint64_t value;
    uint16_t owner;
    uint32_t stamp;
};

/* ---- Coded steps: what the library takes, and what a list for sections_run is made of. */

#define SECTIONS_CODE_WORDS 7

struct sections_code {
    uint64_t words[SECTIONS_CODE_WORDS];
};

static inline struct sections_code sections_code_of(uint64_t kind, uint64_t a, uint64_t b, uint64_t c, uint64_t d, uint64_t e,
                                                    uint64_t f)
{
    struct sections_code code = {{kind, a, b, c, d, e, f}};
    return code;
}

static inline struct sections_code sections_code_begin(uint32_t seat)
{
    return sections_code_of(0, seat, 0, 0, 0, 0, 0);
}

static inline struct sections_code sections_code_read(uint32_t seat, uint32_t address)
{
    return sections_code_of(1, seat, address, 0, 0, 0, 0);
}

/* The places are those of the scan's own buffers, which are the first ones of the lent buffers. */
static inline struct sections_code sections_code_scan(uint32_t seat, uint32_t lo, uint32_t hi, size_t address_places,
                                                      size_t value_places, size_t owner_places)
{
    return sections_code_of(2, seat, lo, hi, address_places, value_places, owner_places);
}

static inline struct sections_code sections_code_put(uint32_t seat, uint32_t address, uint64_t value, uint16_t owner)
{
    return sections_code_of(3, seat, address, value, owner, 0, 0);
}

static inline struct sections_code sections_code_remove(uint32_t seat, uint32_t address)
{
    return sections_code_of(4, seat, address, 0, 0, 0, 0);
}

static inline struct sections_code sections_code_lock(uint32_t seat)
{
    return sections_code_of(5, seat, 0, 0, 0, 0, 0);
}

static inline struct sections_code sections_code_validate(uint32_t seat)
{
    return sections_code_of(6, seat, 0, 0, 0, 0, 0);
}

static inline struct sections_code sections_code_install(uint32_t seat)
{
    return sections_code_of(7, seat, 0, 0, 0, 0, 0);
}

static inline struct sections_code sections_code_abort(uint32_t seat)
{
    return sections_code_of(8, seat, 0, 0, 0, 0, 0);
}

static inline struct sections_code sections_code_fold(uint32_t address)
{
    return sections_code_of(9, address, 0, 0, 0, 0, 0);
}

static inline struct sections_code sections_code_fold_oldest(void)
{
    return sections_code_of(10, 0, 0, 0, 0, 0, 0);
}

/* The steps of an export, for lists alone; the places and the bytes are the first ones of those lent. */
static inline struct sections_code sections_code_export_open(void)
{
    return sections_code_of(11, 0, 0, 0, 0, 0, 0);
}

static inline struct sections_code sections_code_export_portion(size_t address_places, size_t value_places,
                                                                size_t owner_places)
{
    return sections_code_of(12, 0, 0, 0, address_places, value_places, owner_places);
}

static inline struct sections_code sections_code_export_file(size_t byte_places)
{
    return sections_code_of(13, 0, 0, 0, byte_places, 0, 0);
}

static inline struct sections_code sections_code_export_close(void)
{
    return sections_code_of(14, 0, 0, 0, 0, 0, 0);
}

/* A coded answer: a number of enum sections_refusal, one of enum sections_told, what that says, the number beside it (the owner of
 * the record that a read found, or what remains after a portion), and the slots that a granted read examined; these two are 0
 * otherwise. */
#define SECTIONS_ANSWER_WORDS 5

/* A record of a scan or a portion, in a list's answers: address, value, owner. */
#define SECTIONS_SHOWN_WORDS 3

/* A present record: address, value, owner, stamp. */
#define SECTIONS_FOUND_WORDS 4

enum sections_told {
    SECTIONS_TOLD_NOTHING = 0,
    SECTIONS_TOLD_VALUE = 1,
    SECTIONS_TOLD_ABSENT = 2,
    SECTIONS_TOLD_COUNT = 3, /* of a scan */
    SECTIONS_TOLD_SERIAL = 4,
    SECTIONS_TOLD_FOLDED = 5,
    SECTIONS_TOLD_OPENED = 6,  /* records of an export */
    SECTIONS_TOLD_PORTION = 7, /* its records */
    SECTIONS_TOLD_FILE = 8     /* its bytes */
};

/* Why a list of steps was not run further. */
enum sections_stop {
    SECTIONS_COMPLETE = 0,         /* there are no more steps */
    SECTIONS_STOP_MEANINGLESS = 1, /* the next step has no meaning */
    SECTIONS_FULL = 2              /* no room for the next answer */
};

struct sections_ran {
    enum sections_stop stop;
    size_t taken;   /* steps */
    size_t written; /* words of answers */
};

/* ---- The library's functions, as crates/sections/src/lib.rt has them; the functions below call them. A slice goes as a
 * pointer, which is not NULL, and a count of elements. */

#ifdef __cplusplus
extern "C" {
#endif

void sections_fresh(uint64_t globals[], uint64_t exporting[], uint64_t records[], uint64_t leaves[], uint64_t slots[],
                    uint64_t reads[], uint64_t marks[], uint64_t writes[], uint64_t seats[], bool guarded);

void sections_step(uint64_t answer[], uint32_t *addresses, size_t address_places, uint64_t *values, size_t value_places,
                   uint16_t *owners, size_t owner_places, uint64_t globals[], uint64_t records[], uint64_t leaves[],
                   uint64_t slots[], uint64_t reads[], uint64_t marks[], uint64_t writes[], uint64_t seats[],
                   const uint64_t step[]);

uint64_t sections_replay(uint64_t counts[], uint64_t *out, size_t out_places, uint32_t *addresses, size_t address_places,
                         uint64_t *values, size_t value_places, uint16_t *owners, size_t owner_places, uint8_t *bytes,
                         size_t byte_places, uint64_t globals[], uint64_t exporting[], uint64_t exported[],
                         uint64_t records[], uint64_t leaves[], uint64_t slots[], uint64_t reads[], uint64_t marks[],
                         uint64_t writes[], uint64_t seats[], const uint64_t *steps, size_t step_words, bool guarded);

bool sections_next(uint64_t found[], const uint64_t globals[], const uint64_t records[], const uint64_t leaves[],
                   const uint64_t slots[], const uint64_t reads[], const uint64_t marks[], const uint64_t writes[],
                   const uint64_t seats[], uint64_t from);

void sections_open_export(uint64_t answer[], uint64_t exporting[], uint64_t exported[], const uint64_t globals[],
                          const uint64_t records[], const uint64_t leaves[], const uint64_t slots[],
                          const uint64_t reads[], const uint64_t marks[], const uint64_t writes[],
                          const uint64_t seats[]);

void sections_portion(uint64_t answer[], uint32_t *addresses, size_t address_places, uint64_t *values,
                      size_t value_places, uint16_t *owners, size_t owner_places, uint64_t exporting[],
                      const uint64_t exported[]);

void sections_file(uint64_t answer[], uint8_t *bytes, size_t byte_places, uint64_t exporting[],
                   const uint64_t exported[]);

void sections_close_export(uint64_t answer[], uint64_t exporting[]);

#ifdef __cplusplus
}
#endif

#define SECTIONS_ROWS(map) \
    (map)->records, (map)->leaves, (map)->slots, (map)->reads, (map)->marks, (map)->writes, (map)->seats
#define SECTIONS_ARRAYS(map) (map)->globals, SECTIONS_ROWS(map)

/* ---- Steps. */

/* Makes it a fresh map, whatever it held. Values may be any numbers, and sections may overlap. */
static inline void sections_init(struct sections *map)
{
    sections_fresh(map->globals, map->exporting, SECTIONS_ROWS(map), false);
}

/* Makes it a fresh guarded map, whatever it held. */
static inline void sections_init_guarded(struct sections *map)
{
    sections_fresh(map->globals, map->exporting, SECTIONS_ROWS(map), true);
}

struct sections_answer {
    uint64_t words[SECTIONS_ANSWER_WORDS];
};

/* A place for each buffer. */
struct sections_spare {
    uint32_t address;
    uint64_t value;
    uint16_t owner;
};

/* The library takes no NULL: where there are 0 places it gets one that is not used. */
static inline struct sections_buffers sections_lent(const struct sections_buffers *buffers, struct sections_spare *spare)
{
    struct sections_buffers lent = {&spare->address, 0, &spare->value, 0, &spare->owner, 0};
    if (buffers && buffers->address_places) {
        lent.addresses = buffers->addresses;
        lent.address_places = buffers->address_places;
    }
    if (buffers && buffers->value_places) {
        lent.values = buffers->values;
        lent.value_places = buffers->value_places;
    }
    if (buffers && buffers->owner_places) {
        lent.owners = buffers->owners;
        lent.owner_places = buffers->owner_places;
    }
    return lent;
}

/* Any coded step but those of an export, which have no meaning here; one that is no scan needs no buffers (NULL). */
static inline struct sections_answer sections_perform(struct sections *map, struct sections_code code,
                                                      const struct sections_buffers *buffers)
{
    struct sections_spare spare = {0, 0, 0};
    struct sections_buffers lent = sections_lent(buffers, &spare);
    struct sections_answer answer;
    sections_step(answer.words, lent.addresses, lent.address_places, lent.values, lent.value_places, lent.owners,
                  lent.owner_places, SECTIONS_ARRAYS(map), code.words);
    return answer;
}

static inline enum sections_refusal sections_refusal_of(struct sections_answer answer)
{
    return (enum sections_refusal)answer.words[0];
}

static inline struct sections_count sections_count_of(struct sections_answer answer)
{
    struct sections_count count = {sections_refusal_of(answer), (size_t)answer.words[2]};
    return count;
}

static inline enum sections_refusal sections_begin(struct sections *map, uint32_t seat)
{
    return sections_refusal_of(sections_perform(map, sections_code_begin(seat), NULL));
}

static inline struct sections_value sections_read(struct sections *map, uint32_t seat, uint32_t address)
{
    struct sections_answer answer = sections_perform(map, sections_code_read(seat, address), NULL);
    struct sections_value value = {sections_refusal_of(answer), answer.words[1] == SECTIONS_TOLD_VALUE, answer.words[2],
                                   (uint16_t)answer.words[3], (uint32_t)answer.words[4]};
    return value;
}

/* From lo to hi, both included. Waiting insertions are not shown. */
static inline struct sections_count sections_scan(struct sections *map, uint32_t seat, uint32_t lo, uint32_t hi,
                                                  const struct sections_buffers *buffers)
{
    struct sections_code code =
        sections_code_scan(seat, lo, hi, buffers->address_places, buffers->value_places, buffers->owner_places);
    return sections_count_of(sections_perform(map, code, buffers));
}

/* The owner says whose section it is; to the map it is any number. */
static inline enum sections_refusal sections_put(struct sections *map, uint32_t seat, uint32_t address, uint64_t value,
                                                 uint16_t owner)
{
    return sections_refusal_of(sections_perform(map, sections_code_put(seat, address, value, owner), NULL));
}

static inline enum sections_refusal sections_remove(struct sections *map, uint32_t seat, uint32_t address)
{
    return sections_refusal_of(sections_perform(map, sections_code_remove(seat, address), NULL));
}

static inline enum sections_refusal sections_lock(struct sections *map, uint32_t seat)
{
    return sections_refusal_of(sections_perform(map, sections_code_lock(seat), NULL));
}

static inline struct sections_serial sections_validate(struct sections *map, uint32_t seat)
{
    struct sections_answer answer = sections_perform(map, sections_code_validate(seat), NULL);
    struct sections_serial serial = {sections_refusal_of(answer), (uint32_t)answer.words[2]};
    return serial;
}

static inline enum sections_refusal sections_install(struct sections *map, uint32_t seat)
{
    return sections_refusal_of(sections_perform(map, sections_code_install(seat), NULL));
}

static inline enum sections_refusal sections_abort(struct sections *map, uint32_t seat)
{
    return sections_refusal_of(sections_perform(map, sections_code_abort(seat), NULL));
}

/* All waiting edits of the leaf around the address. */
static inline struct sections_count sections_fold(struct sections *map, uint32_t address)
{
    return sections_count_of(sections_perform(map, sections_code_fold(address), NULL));
}

/* The same of the leaf with the edit that has waited longest, so that an edit waits for 192 such folds at most. Its age counts
 * from the install that began the waiting; of one install the lower address is older. */
static inline struct sections_count sections_fold_oldest(struct sections *map)
{
    return sections_count_of(sections_perform(map, sections_code_fold_oldest(), NULL));
}

/* ---- An export. */

/* Opens one of all present records, those that wait too: how many there are. */
static inline struct sections_count sections_export_open(struct sections *map)
{
    struct sections_answer answer;
    sections_open_export(answer.words, map->exporting, map->exported, SECTIONS_ARRAYS(map));
    return sections_count_of(answer);
}

/* The next records, as many as the shortest buffer holds; with 0 places it is granted, and gives none. */
static inline struct sections_given sections_export_portion(struct sections *map, const struct sections_buffers *buffers)
{
    struct sections_spare spare = {0, 0, 0};
    struct sections_buffers lent = sections_lent(buffers, &spare);
    struct sections_answer answer;
    sections_portion(answer.words, lent.addresses, lent.address_places, lent.values, lent.value_places, lent.owners,
                     lent.owner_places, map->exporting, map->exported);
    struct sections_given given = {sections_refusal_of(answer), (size_t)answer.words[2], (size_t)answer.words[3]};
    return given;
}

/* All its records as a file at the start of the buffer, whatever portions were taken: how many bytes, SECTIONS_FILE_BYTES of its
 * records. Bytes past it are left, and all of them if the buffer is too short. docs/EXPORTS.md has the layout. */
static inline struct sections_count sections_export_file(struct sections *map, uint8_t *bytes, size_t byte_places)
{
    uint8_t spare = 0;
    struct sections_answer answer;
    sections_file(answer.words, byte_places ? bytes : &spare, byte_places, map->exporting, map->exported);
    return sections_count_of(answer);
}

/* Records may remain. */
static inline enum sections_refusal sections_export_close(struct sections *map)
{
    struct sections_answer answer;
    sections_close_export(answer.words, map->exporting);
    return sections_refusal_of(answer);
}

/* ---- Contents and lists. */

/* The first present record from an address on; false if there is none. */
static inline bool sections_from(const struct sections *map, uint64_t address, struct sections_record *record)
{
    uint64_t found[SECTIONS_FOUND_WORDS];
    if (!sections_next(found, SECTIONS_ARRAYS(map), address))
        return false;
    record->address = (uint32_t)found[0];
    record->value = found[1];
    record->owner = (uint16_t)found[2];
    record->stamp = (uint32_t)found[3];
    return true;
}

/* All present records by rising address: for (more = sections_first(&map, &r); more; more = sections_after(&map, &r)) */
static inline bool sections_first(const struct sections *map, struct sections_record *record)
{
    return sections_from(map, 0, record);
}

static inline bool sections_after(const struct sections *map, struct sections_record *record)
{
    return sections_from(map, (uint64_t)record->address + 1, record);
}

/* Makes it a fresh map, guarded or not, and runs a list of steps on it. For each step the words of its answer go to `answers`,
 * and after those of a scan or a portion the words of each record. A step is taken if `answers` has room for
 * SECTIONS_ANSWER_WORDS, and of a scan or a portion for SECTIONS_SHOWN_WORDS more for each place of its shortest buffer. Files go
 * to the start of `bytes`, so that the last granted one stands there; an export that is still open stays open. */
static inline struct sections_ran sections_run(struct sections *map, const struct sections_code *steps, size_t count,
                                               const struct sections_buffers *buffers, uint8_t *bytes,
                                               size_t byte_places, uint64_t *answers, size_t answer_places,
                                               bool guarded)
{
    struct sections_spare spare = {0, 0, 0};
    uint8_t byte = 0;
    uint64_t word = 0, counts[2];
    struct sections_code none = sections_code_of(0, 0, 0, 0, 0, 0, 0);
    struct sections_buffers lent = sections_lent(buffers, &spare);
    uint64_t stop = sections_replay(counts, answer_places ? answers : &word, answer_places, lent.addresses,
                                    lent.address_places, lent.values, lent.value_places, lent.owners, lent.owner_places,
                                    byte_places ? bytes : &byte, byte_places, map->globals, map->exporting, map->exported,
                                    SECTIONS_ROWS(map), count ? steps->words : none.words,
                                    count * SECTIONS_CODE_WORDS, guarded);
    struct sections_ran ran = {(enum sections_stop)stop, (size_t)counts[0], (size_t)counts[1]};
    return ran;
}

#endif
