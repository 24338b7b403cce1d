/* independent compare: two logs side by side, place by place. */
#include "compare.h"

#include "files.h"
#include "log.h"

enum { LIST_MOST = 1000, FIELDS = 6 };

/* The fields of a log record, each up to where the next begins. */
static const char *const field_names[FIELDS] = {"kind",     "host",   "revision",
                                                "function", "length", "request"};
static const size_t field_at[FIELDS + 1] = {KIND_AT,   HOST_AT,    REVISION_AT, FUNCTION_AT,
                                            LENGTH_AT, REQUEST_AT, LOG_RECORD};

struct comparison {
    uint64_t places;    /* compared so far */
    uint64_t differing; /* of them, listed or not */
    uint64_t left;      /* bytes that only the longer log has */
    uint64_t list[LIST_MOST];
    uint8_t fields[LIST_MOST]; /* bit k for field k of a listed place */
};

/* Which fields differ in the first `length` bytes of two records. */
static uint8_t differing_fields(const uint8_t *one, const uint8_t *other, size_t length)
{
    unsigned fields = 0;

    for (size_t k = 0; k < FIELDS && field_at[k] < length; k++) {
        size_t from = field_at[k];
        size_t end = field_at[k + 1] < length ? field_at[k + 1] : length;
        fields |= (unsigned)(memcmp(one + from, other + from, end - from) != 0) << k;
    }
    return (uint8_t)fields;
}

/* Compares a place, of which at least one byte is in both logs. */
static void compare_place(struct comparison *comparison, const uint8_t *one,
                          const uint8_t *other, size_t length)
{
    if (memcmp(one, other, length) != 0) {
        if (comparison->differing < LIST_MOST) {
            comparison->list[comparison->differing] = comparison->places;
            comparison->fields[comparison->differing] = differing_fields(one, other, length);
        }
        comparison->differing++;
    }
    comparison->places++;
}

static void compare_part(struct comparison *comparison, const uint8_t *one,
                         const uint8_t *other, size_t length)
{
    size_t at = 0;

    if (memcmp(one, other, length) == 0) { /* as most are */
        comparison->places += (length + LOG_RECORD - 1) / LOG_RECORD;
        return;
    }
    for (; at + LOG_RECORD <= length; at += LOG_RECORD)
        compare_place(comparison, one + at, other + at, LOG_RECORD);
    if (at < length)
        compare_place(comparison, one + at, other + at, length - at);
}

/* False if a log cannot be read to its end, which is then said. */
static bool compare_logs(struct comparison *comparison, FILE *const logs[2],
                         const char *const names[2])
{
    static uint8_t parts[2][LOG_PART];
    size_t got[2] = {LOG_PART, LOG_PART};

    /* A part that is not full is a log's last, and the other log's bytes behind it are left. */
    while (got[0] == LOG_PART || got[1] == LOG_PART) {
        for (int i = 0; i < 2; i++) {
            if (got[i] == LOG_PART)
                got[i] = fread(parts[i], 1, LOG_PART, logs[i]);
            else
                got[i] = 0;
            if (ferror(logs[i])) {
                complain(names[i], "cannot be read");
                return false;
            }
        }
        size_t both = got[0] < got[1] ? got[0] : got[1];
        compare_part(comparison, parts[0], parts[1], both);
        comparison->left += got[0] - both + (got[1] - both);
    }
    return true;
}

static void write_comparison(const struct comparison *comparison)
{
    if (comparison->differing > LIST_MOST) {
        printf("full %llu\n", (unsigned long long)comparison->differing);
        return;
    }
    printf("leading %llu\n", (unsigned long long)(comparison->differing != 0
                                                      ? comparison->list[0]
                                                      : comparison->places));
    for (size_t i = 0; i < comparison->differing; i++) {
        printf("%llu", (unsigned long long)comparison->list[i]);
        for (size_t k = 0; k < FIELDS; k++)
            if ((comparison->fields[i] >> k & 1) != 0)
                printf(" %s", field_names[k]);
        fputs("\n", stdout);
    }
    printf("left %llu\n", (unsigned long long)comparison->left);
}

int compare_files(const char *first_name, const char *second_name)
{
    static struct comparison comparison;
    const char *const names[2] = {first_name, second_name};
    FILE *const logs[2] = {open_named(first_name), open_named(second_name)};
    bool good = true;

    for (int i = 0; i < 2; i++)
        if (logs[i] == NULL) {
            complain(names[i], "cannot be read");
            good = false;
        }
    good = good && compare_logs(&comparison, logs, names);
    close_named(logs[0]);
    close_named(logs[1]);
    if (!good)
        return 2;
    write_comparison(&comparison);
    if (fflush(stdout) != 0 || ferror(stdout)) {
        fputs("independent: the text cannot be written\n", stderr);
        return 2;
    }
    return comparison.differing != 0 || comparison.left != 0;
}
