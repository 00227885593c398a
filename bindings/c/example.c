/* A morning with the section map: two jobs, a phantom, a fold, an export, a guard. Build it with
 *
 *     cc -std=c11 -I bindings/c bindings/c/example.c crates/sections/out/libsections.a
 *
 * It prints what example.stdout has. */
#include "sections.h"

#include <inttypes.h>
#include <stdio.h>

/* A map is 166 KB: static memory suits it. */
static struct sections map;

static void say(const char *step, enum sections_refusal refusal)
{
    printf("%s: %d, %s\n", step, refusal, sections_word(refusal));
}

/* Whose sections they are: two cores share the map. */
enum { FIRST_CORE = 1, SECOND_CORE = 2 };

/* A job edits, locks what it edited, validates and installs. Any of these may be refused; only then is there more to do. */
static enum sections_refusal enter(uint32_t seat, uint32_t address, uint64_t length, uint16_t owner)
{
    enum sections_refusal refusal = sections_begin(&map, seat);
    if (!refusal)
        refusal = sections_put(&map, seat, address, length, owner);
    if (!refusal)
        refusal = sections_lock(&map, seat);
    if (!refusal)
        refusal = sections_validate(&map, seat).refusal;
    if (!refusal)
        refusal = sections_install(&map, seat);
    return refusal;
}

/* A scan writes into buffers of the caller. This many places always suffice; with fewer it may be refused by 8. */
static uint32_t addresses[SECTIONS_SCAN_LIMIT];
static uint64_t lengths[SECTIONS_SCAN_LIMIT];
static uint16_t owners[SECTIONS_SCAN_LIMIT];
static const struct sections_buffers buffers = {addresses, SECTIONS_SCAN_LIMIT, lengths, SECTIONS_SCAN_LIMIT,
                                                owners, SECTIONS_SCAN_LIMIT};

static void look(uint32_t seat)
{
    struct sections_count found = sections_scan(&map, seat, 0, 16383, &buffers);
    say("scan", found.refusal);
    for (size_t i = 0; i < found.count; i++)
        printf("  section at %" PRIu32 ", %" PRIu64 " bytes, owner %" PRIu16 "\n", addresses[i], lengths[i], owners[i]);
}

/* The address sheet: all that is present at the opening, here in portions of one record, and as a file. */
static void export_sheet(void)
{
    static uint8_t file[SECTIONS_FILE_LIMIT];
    struct sections_buffers one = {addresses, 1, lengths, 1, owners, 1};
    struct sections_given given;
    printf("export: %zu records\n", sections_export_open(&map).count);

    /* Meanwhile a job drops the second record. Only the next export shows it. */
    sections_begin(&map, 2);
    sections_remove(&map, 2, 12288);
    sections_lock(&map, 2);
    sections_validate(&map, 2);
    sections_install(&map, 2);

    while ((given = sections_export_portion(&map, &one)).count)
        printf("  section at %" PRIu32 ", %zu to come\n", addresses[0], given.remaining);
    printf("file: %zu bytes\n", sections_export_file(&map, file, sizeof file).count);
    say("close", sections_export_close(&map));
    printf("export: %zu record\n", sections_export_open(&map).count);
    sections_export_close(&map);
}

int main(void)
{
    sections_init(&map);

    /* The boot code, by a job at seat 0. */
    say("enter", enter(0, 4096, 8192, FIRST_CORE));

    /* A scan does not show what waits in the indexlet, so the job that relied on it is ended at its validation. */
    sections_begin(&map, 1);
    look(1);
    sections_lock(&map, 1);
    say("validate", sections_validate(&map, 1).refusal);

    /* A fold takes it into the index, and now it is seen. */
    struct sections_count fold = sections_fold(&map, 0);
    printf("fold: %zu waiting edit\n", fold.count);
    sections_begin(&map, 1);
    look(1);

    /* A read gives value and owner, or says that there is no record; and how many slots of the indexlet were examined for it. */
    struct sections_value here = sections_read(&map, 1, 4096), there = sections_read(&map, 1, 0);
    printf("read: %" PRIu64 " bytes of owner %" PRIu16 " at 4096, %s at 0\n", here.value, here.owner,
           there.present ? "something" : "nothing");
    printf("slots examined: %" PRIu32 " and %" PRIu32 "\n", here.examined, there.examined);

    /* What a copy of the map goes through, the map does not see. */
    static struct sections trial;
    trial = map;
    sections_remove(&trial, 1, 4096);
    sections_lock(&trial, 1);
    sections_validate(&trial, 1);
    sections_install(&trial, 1);

    /* The job goes on in the map, and gets the next serial number. */
    sections_put(&map, 1, 12288, 1024, SECOND_CORE);
    sections_lock(&map, 1);
    struct sections_serial job = sections_validate(&map, 1);
    say("validate", job.refusal);
    printf("serial number %" PRIu32 "\n", job.serial);
    sections_install(&map, 1);

    /* All present records, those that wait too. */
    struct sections_record r;
    for (bool more = sections_first(&map, &r); more; more = sections_after(&map, &r))
        printf("address %" PRIu32 ", value %" PRIu64 ", owner %" PRIu16 ", stamp %" PRIu32 "\n", r.address, r.value, r.owner,
               r.stamp);

    /* A fold that picks its own leaf: the one whose edit has waited longest. With nothing waiting it counts 0. */
    fold = sections_fold_oldest(&map);
    printf("fold of the oldest: %zu waiting edit, then %zu\n", fold.count, sections_fold_oldest(&map).count);

    /* An export goes beside the jobs. */
    export_sheet();

    /* A list of steps in one call, from a fresh map: five words for each answer. */
    struct sections_code list[] = {sections_code_begin(0), sections_code_put(0, 4096, 32, FIRST_CORE),
                                   sections_code_begin(0)};
    uint64_t answers[3 * SECTIONS_ANSWER_WORDS];
    struct sections_ran ran = sections_run(&trial, list, 3, NULL, NULL, 0, answers, 3 * SECTIONS_ANSWER_WORDS, false);
    printf("list: %zu of 3 steps taken\n", ran.taken);
    say("the last", (enum sections_refusal)answers[2 * SECTIONS_ANSWER_WORDS]);

    /* In a guarded map no two sections overlap. The job has to look first; refused, it is still open and can move a section. */
    sections_init_guarded(&trial);
    sections_begin(&trial, 0);
    sections_scan(&trial, 0, 0, 16383, &buffers);
    sections_put(&trial, 0, 4096, 8192, FIRST_CORE);
    sections_put(&trial, 0, 12287, 1024, SECOND_CORE);
    say("guarded lock", sections_lock(&trial, 0));
    sections_remove(&trial, 0, 12287);
    sections_put(&trial, 0, 12288, 1024, SECOND_CORE);
    say("guarded lock", sections_lock(&trial, 0));
    return ran.stop != SECTIONS_COMPLETE;
}
