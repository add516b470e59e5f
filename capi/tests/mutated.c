/*
 * 10,000 load files and 10,000 object files, each made of a good one by a few changes: in pieces of
 * any size they give the same as in one, and object files also if what is in them is kept. The same
 * changes are made on every run.
 */
#include "files.h"
#include "mutations.h"

/* How often each outcome was seen: of the statuses, and of the reasons. */
static size_t statuses[14], reasons[18];

static void count_outcome(const amihunk_answer *answer)
{
    CHECK(answer->status < COUNT(statuses) && answer->reason < COUNT(reasons));
    if (answer->status < COUNT(statuses) && answer->reason < COUNT(reasons)) {
        statuses[answer->status]++;
        reasons[answer->reason]++;
    }
}

/* Feeds in pieces of random sizes, empty ones too, whatever is answered. */
static amihunk_answer load_at_random(amihunk_loader *loader, struct file file)
{
    amihunk_answer answer;
    size_t most = 2 + dice(12);
    for (size_t start = 0; start < file.size;) {
        size_t size = dice(most);
        size = size < file.size - start ? size : file.size - start;
        amihunk_loader_feed(loader, file.bytes + start, size, NULL);
        start += size;
    }
    amihunk_loader_finish(loader, &answer);
    return answer;
}

static void load_files_in_pieces_and_whole(void)
{
    seed = 1;
    memset(statuses, 0, sizeof(statuses));
    memset(reasons, 0, sizeof(reasons));
    for (size_t i = 0; i < 10000; i++) {
        static const uint32_t bases[] = {0x10000, 0x20000};
        static struct file (*const kinds[])(void) = {one_hunk, relocated_zeros, two_hunks,
                                                     caller_and_definer};
        size_t kind = dice(COUNT(kinds));
        struct file file = mutated(kinds[kind]());
        struct counted counted = {0};
        amihunk_loader whole = {0}, pieces = {0};
        size_t count = dice(20) == 0 ? 1 + dice(2) : kind < 2 ? 1 : 2;
        CHECK(amihunk_loader_open(&whole, amihunk_from_malloc(), bases, count) == AMIHUNK_OK);
        CHECK(amihunk_loader_open(&pieces, counted_memory(&counted), bases, count) == AMIHUNK_OK);
        amihunk_answer answer = load_pieces(&whole, file, 0);
        amihunk_answer other = load_at_random(&pieces, file);
        CHECK(same_answer(&answer, &other));
        count_outcome(&answer);
        if (answer.status == AMIHUNK_OK) {
            check_same_hunks(&whole, &pieces);
        } else {
            char one_line[100], other_line[100];
            CHECK(amihunk_loader_line(&whole, "x", one_line, 100) ==
                  amihunk_loader_line(&pieces, "x", other_line, 100));
            CHECK(strcmp(one_line, other_line) == 0);
        }
        amihunk_loader_close(&whole);
        amihunk_loader_close(&pieces);
        CHECK(counted.blocks == 0);
        free(file.bytes);
    }
    CHECK(statuses[AMIHUNK_OK] > 500 && statuses[AMIHUNK_BAD_FILE] > 2000 &&
          statuses[AMIHUNK_WRONG_COUNT] > 20);
    for (size_t reason = 1; reason < COUNT(reasons); reason++) {
        CHECK(reasons[reason] != 0 || reason == AMIHUNK_REASON_UNSUPPORTED_EXT);
    }
}

static amihunk_answer link_at_random(amihunk_linker *linker, const struct file *files, size_t count)
{
    amihunk_answer answer;
    size_t most = 2 + dice(12);
    for (size_t i = 0; i < count; i++) {
        for (size_t start = 0; start < files[i].size;) {
            size_t size = dice(most);
            size = size < files[i].size - start ? size : files[i].size - start;
            amihunk_linker_feed(linker, files[i].bytes + start, size, NULL);
            start += size;
        }
        amihunk_linker_end_input(linker, NULL);
    }
    amihunk_linker_finish(linker, &answer);
    return answer;
}

static void object_files_in_pieces_and_whole(void)
{
    seed = 2;
    memset(statuses, 0, sizeof(statuses));
    memset(reasons, 0, sizeof(reasons));
    for (size_t i = 0; i < 10000; i++) {
        static struct file (*const kinds[])(void) = {caller, definer, table, assembled};
        struct file files[] = {definer(), mutated(kinds[dice(COUNT(kinds))]()), caller()};
        size_t first = dice(2), count = 3 - first;
        amihunk_options options = {
            .strip = dice(2) == 0, .short_form = dice(2) == 0, .trim = dice(2) == 0};
        struct counted counted = {0};
        amihunk_linker whole = {0}, pieces = {0};
        CHECK(amihunk_linker_open(&whole, amihunk_from_malloc(), options) == AMIHUNK_OK);
        options.keep = i % 2 != 0;
        options.key[0] = dice(1u << 30);
        options.key[1] = dice(1u << 30);
        CHECK(amihunk_linker_open(&pieces, counted_memory(&counted), options) == AMIHUNK_OK);
        amihunk_answer answer = link_pieces(&whole, files + first, count, 0);
        amihunk_answer other = link_at_random(&pieces, files + first, count);
        CHECK(same_answer(&answer, &other));
        count_outcome(&answer);
        if (answer.status == AMIHUNK_OK) {
            amihunk_bytes one_file, other_file;
            CHECK(amihunk_linker_get_file(&whole, &one_file) == AMIHUNK_OK);
            CHECK(amihunk_linker_get_file(&pieces, &other_file) == AMIHUNK_OK);
            CHECK(one_file.size == other_file.size &&
                  memcmp(one_file.bytes, other_file.bytes, one_file.size) == 0);
        } else {
            char one_line[200], other_line[200];
            CHECK(amihunk_linker_line(&whole, "x", one_line, 200) ==
                  amihunk_linker_line(&pieces, "x", other_line, 200));
            CHECK(strcmp(one_line, other_line) == 0);
            CHECK(amihunk_linker_name(&whole, one_line, 200) ==
                  amihunk_linker_name(&pieces, other_line, 200));
            CHECK(strcmp(one_line, other_line) == 0);
        }
        amihunk_linker_close(&whole);
        amihunk_linker_close(&pieces);
        CHECK(counted.blocks == 0);
        for (size_t k = 0; k < COUNT(files); k++) {
            free(files[k].bytes);
        }
    }
    CHECK(statuses[AMIHUNK_OK] > 500 && statuses[AMIHUNK_BAD_FILE] > 2000);
    CHECK(statuses[AMIHUNK_NO_SUCH_HUNK] > 20 && statuses[AMIHUNK_DUPLICATE_NAME] > 20);
    CHECK(statuses[AMIHUNK_UNDEFINED_NAME] > 20);
}

int main(void)
{
    static const struct test tests[] = {
        TEST(load_files_in_pieces_and_whole),
        TEST(object_files_in_pieces_and_whole),
    };
    return run_tests(tests, COUNT(tests));
}
