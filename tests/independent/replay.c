/* Replays call logs, each from two fresh modules and an area of zeros.
 *
 *    independent replay FILE..    the replay text of document 01
 *    independent answers FILE..   every answer's bytes, then the whole end state
 *    independent report FILE..    one report over all logs: which host got which answers
 *
 * The program's other words, compare and image, are done in compare.c and image_files.c.
 */
#include <stdio.h>
#include <stdlib.h>

#include "compare.h"
#include "files.h"
#include "image_files.h"
#include "log.h"
#include "module.h"
#include "report.h"

enum kind { BAD = 0, CALL = 1, TICK = 2, POWER = 3, HEALTH = 4 };

/* Each word of the program: the page's text, the fuller trace, and the counts of all logs. */
enum text { REPLAY, ANSWERS, REPORT };

struct replay {
    enum text text;
    uint64_t place;
    struct cabinet cabinet;
    uint8_t area[AREA_BYTES];
    int32_t length; /* of the last call's answer */
    uint8_t answer[ANSWER_LEAST];
    uint64_t counts[COUNTS]; /* this log's; a log has fewer records than 64 bits can count */
    uint32_t report[COUNTS]; /* that of the logs before it */
};

static const char *const phase_names[] = {"idle", "receiving", "verifying", "staged", "failed"};
static const char *const fault_names[] = {"", "size", "number", "count", "version", "sum"};

/* ---- Text: each function writes at `at` and gives back where the next goes ---- */

static char *put_text(char *at, const char *text)
{
    while (*text != 0)
        *at++ = *text++;
    return at;
}

static char *put_number(char *at, uint64_t number)
{
    char digits[20];
    int count = 0;

    do {
        digits[count++] = (char)('0' + number % 10);
        number /= 10;
    } while (number != 0);
    while (count > 0)
        *at++ = digits[--count];
    return at;
}

static char *put_hex(char *at, const uint8_t *bytes, size_t length)
{
    for (size_t i = 0; i < length; i++) {
        *at++ = "0123456789abcdef"[bytes[i] >> 4];
        *at++ = "0123456789abcdef"[bytes[i] & 15];
    }
    return at;
}

/* Writes the line that ends at `end`. */
static void write_line(char *line, char *end)
{
    *end++ = '\n';
    fwrite(line, 1, (size_t)(end - line), stdout);
}

static void write_field(const char *name, uint64_t number)
{
    char line[48];

    write_line(line, put_number(put_text(line, name), number));
}

static void write_fields(const char *name, const uint16_t *numbers, size_t count)
{
    char line[64];
    char *at = put_text(line, name);

    for (size_t i = 0; i < count; i++)
        at = put_number(put_text(at, " "), numbers[i]);
    write_line(line, at);
}

static void write_bytes(const char *name, const uint8_t *bytes, size_t length)
{
    static char line[2 * AREA_BYTES + 16];

    write_line(line, put_hex(put_text(line, name), bytes, length));
}

/* ---- One log record ---- */

static enum kind kind_of(const uint8_t *record)
{
    size_t length = get16(record + LENGTH_AT);

    if (module_of(record) >= MODULES)
        return BAD;
    switch (record[KIND_AT]) {
    case CALL:
        if (host_of(record) < 1 || host_of(record) > HOSTS || length > REQUEST_MOST)
            return BAD;
        return all_zero(record + REQUEST_AT + length, REQUEST_MOST - length) ? CALL : BAD;
    case TICK: /* reaches both modules, and names none */
        return all_zero(record + 1, LOG_RECORD - 1) ? TICK : BAD;
    case POWER:
        return host_of(record) == 0 && all_zero(record + REVISION_AT, LOG_RECORD - REVISION_AT)
            ? POWER : BAD;
    case HEALTH:
        return host_of(record) == 0 && all_zero(record + REVISION_AT, SPARE_AT - REVISION_AT)
            && record[SPARE_AT] <= SPARE_MOST
            && all_zero(record + READING_END, LOG_RECORD - READING_END) ? HEALTH : BAD;
    default:
        return BAD;
    }
}

/* No R number can come: the buffers have the right sizes, a module over 1 makes a record bad, and
 * every step leaves a possible cabinet. There is no line for one, so stop if that is ever wrong. */
static int32_t no_refusal(int32_t result)
{
    if (result < 0)
        abort();
    return result;
}

/* Plays a record, and tells its kind. A call's answer is then the replay's. */
static enum kind play(struct replay *replay, const uint8_t *record)
{
    enum kind kind = kind_of(record);

    switch (kind) {
    case CALL:
        replay->length = no_refusal(
            modules_call(&replay->cabinet, replay->area, AREA_BYTES, module_of(record),
                         get16(record + REVISION_AT), get16(record + FUNCTION_AT),
                         record + REQUEST_AT, get16(record + LENGTH_AT), replay->answer,
                         sizeof replay->answer));
        break;
    case TICK:
        no_refusal(modules_tick(&replay->cabinet, replay->area, AREA_BYTES));
        break;
    case POWER:
        no_refusal(modules_power(&replay->cabinet, replay->area, AREA_BYTES, module_of(record)));
        break;
    case HEALTH:
        no_refusal(modules_reading(&replay->cabinet, replay->area, AREA_BYTES, module_of(record),
                                   record[SPARE_AT], get16(record + MEDIA_AT),
                                   get16(record + CONTROLLER_AT)));
        break;
    case BAD:
        break;
    }
    return kind;
}

static char *put_answer(const struct replay *replay, const uint8_t *record, char *at)
{
    if (replay->text == ANSWERS)
        return put_hex(at, replay->answer, (size_t)replay->length);
    if (get16(record + FUNCTION_AT) == 0)
        return put_text(at, "- - 4");
    at = put_number(at, get16(replay->answer));
    at = put_number(put_text(at, " "), get16(replay->answer + 2));
    return put_number(put_text(at, " "), (uint64_t)replay->length);
}

/* The line of a record that has been played. */
static void write_step(const struct replay *replay, const uint8_t *record, enum kind kind)
{
    char line[32 + 2 * ANSWER_LEAST];
    char *at = put_number(line, replay->place);

    switch (kind) {
    case CALL:
        at = put_answer(replay, record, put_text(at, " call "));
        break;
    case TICK:
        at = put_text(at, " tick");
        break;
    case POWER:
        at = put_text(at, " power");
        break;
    case HEALTH:
        at = put_text(at, " health");
        break;
    case BAD:
        at = put_text(at, " bad");
        break;
    }
    write_line(line, at);
}

/* Which count a record that has been played raises. */
static size_t count_of(const struct replay *replay, const uint8_t *record, enum kind kind)
{
    switch (kind) {
    case CALL:
        if (get16(record + FUNCTION_AT) == 0)
            return FUNCTION_0;
        return report_cell(host_of(record), get16(replay->answer));
    case TICK:
        return TICKS;
    case POWER:
        return POWER_CYCLES;
    case HEALTH:
        return READINGS;
    default:
        return BAD_RECORDS;
    }
}

static void step(struct replay *replay, const uint8_t *record)
{
    enum kind kind = play(replay, record);

    if (replay->text == REPORT)
        replay->counts[count_of(replay, record, kind)]++;
    else
        write_step(replay, record, kind);
    replay->place++;
}

/* ---- One log ---- */

static void begin(struct replay *replay)
{
    replay->place = 0;
    modules_fresh(&replay->cabinet);
    memset(replay->area, 0, AREA_BYTES);
    if (replay->text == REPLAY)
        fputs("record kind status ext length\n", stdout);
    if (replay->text == REPORT)
        memset(replay->counts, 0, sizeof replay->counts);
}

static void tail(struct replay *replay)
{
    char line[32];

    if (replay->text == REPORT)
        replay->counts[SHORT_TAILS]++;
    else
        write_line(line, put_text(put_number(line, replay->place), " short"));
}

static void write_module(const struct cabinet *cabinet, unsigned module)
{
    const struct device *device = &cabinet->modules[module];
    const uint16_t fault[] = {device->fault, device->fault_record};
    const uint16_t reading[] = {device->read_spare, device->read_media, device->read_controller};
    char line[24];

    write_field("module ", module);
    write_line(line, put_text(put_text(line, "phase "), phase_names[device->phase]));
    write_field("contexts ", cabinet->contexts);
    write_field("current ", device->current);
    write_field("received ", device->received);
    write_field("ticks ", device->ticks);
    write_field("running ", device->running);
    write_field("staged ", device->staged);
    write_field("enable ", device->enable);
    write_field("spare ", device->spare);
    write_field("media ", device->media);
    write_field("controller ", device->controller);
    write_field("enabled ", device->enabled);
    write_field("locked ", device->locked);
    write_field("frozen ", device->frozen);
    write_field("attempts ", device->attempts);
    write_bytes("passphrase ", device->passphrase, PASSPHRASE_BYTES);
    write_fields("fault", fault, 2);
    write_fields("reading", reading, 3);
    write_field("trips ", device->trips);
}

/* The replay's last line of a module, with the contexts that both have been given. */
static void write_end(const struct cabinet *cabinet, unsigned module)
{
    const struct device *device = &cabinet->modules[module];
    char line[48];
    char *at = put_text(put_text(line, "end "), phase_names[device->phase]);

    at = put_number(put_text(at, " "), cabinet->contexts);
    if (device->phase == FAILED) {
        at = put_text(put_text(at, " "), fault_names[device->fault]);
        at = put_number(put_text(at, " "), device->fault_record);
    }
    write_line(line, at);
}

/* What is wrong with a log that was read to its end, or NULL. */
static const char *end(struct replay *replay)
{
    switch (replay->text) {
    case REPLAY:
        for (unsigned module = 0; module < MODULES; module++)
            write_end(&replay->cabinet, module);
        break;
    case ANSWERS:
        for (unsigned module = 0; module < MODULES; module++)
            write_module(&replay->cabinet, module);
        write_bytes("area ", replay->area, AREA_BYTES);
        break;
    case REPORT:
        if (!report_add(replay->report, replay->counts))
            return "log too many";
        break;
    }
    return NULL;
}

/* What is wrong with the log, or NULL. Of a log that cannot be read to its end the text stops
 * where reading did, and the report counts nothing. */
static const char *replay_log(struct replay *replay, FILE *log)
{
    static uint8_t records[LOG_PART];
    size_t got;
    bool begun = false;

    do {
        got = fread(records, 1, sizeof records, log);
        if (ferror(log))
            return "cannot be read";
        if (!begun)
            begin(replay);
        begun = true;
        for (size_t at = 0; at + LOG_RECORD <= got; at += LOG_RECORD)
            step(replay, records + at);
    } while (got == sizeof records);
    if (got % LOG_RECORD != 0)
        tail(replay);
    return end(replay);
}

/* Whether the log was taken. */
static bool replay_file(struct replay *replay, const char *name)
{
    FILE *log = open_named(name);
    const char *wrong = log != NULL ? replay_log(replay, log) : "cannot be read";

    if (wrong != NULL)
        complain(name, wrong);
    close_named(log);
    return wrong == NULL;
}

/* ---- The program's words ---- */

/* Whether the text is a decimal number, and at most `most`. */
static bool get_number(const char *text, uint64_t most, uint64_t *number)
{
    *number = 0;
    if (*text == 0)
        return false;
    for (; *text != 0; text++) {
        if (*text < '0' || *text > '9')
            return false;
        uint64_t digit = (uint64_t)(*text - '0');
        if (*number > (most - digit) / 10)
            return false;
        *number = *number * 10 + digit;
    }
    return true;
}

static int misused(void)
{
    fputs("independent: not understood\n"
          "usage: independent replay FILE..\n"
          "       independent answers FILE..\n"
          "       independent report [--from NUMBER] FILE..\n"
          "       independent compare FILE FILE\n"
          "       independent image make VERSION FILE\n"
          "       independent image read FILE\n"
          "A FILE of - is standard input. Every count of a report begins at NUMBER, or at 0.\n",
          stderr);
    return 2;
}

static int image(int count, char **arguments)
{
    uint64_t version;

    if (count == 5 && strcmp(arguments[2], "make") == 0
        && get_number(arguments[3], 18446744073709551615u, &version))
        return image_make_file(version, arguments[4]);
    if (count == 4 && strcmp(arguments[2], "read") == 0)
        return image_read_file(arguments[3]);
    return misused();
}

static int compare(int count, char **arguments)
{
    if (count != 4 || (strcmp(arguments[2], "-") == 0 && strcmp(arguments[3], "-") == 0))
        return misused();
    return compare_files(arguments[2], arguments[3]);
}

int main(int count, char **arguments)
{
    static struct replay replay;
    uint64_t from = 0;
    int first = 2;
    int status = 0;

    if (count < 3)
        return misused();
    if (strcmp(arguments[1], "image") == 0)
        return image(count, arguments);
    if (strcmp(arguments[1], "compare") == 0)
        return compare(count, arguments);
    if (strcmp(arguments[1], "replay") == 0)
        replay.text = REPLAY;
    else if (strcmp(arguments[1], "answers") == 0)
        replay.text = ANSWERS;
    else if (strcmp(arguments[1], "report") == 0)
        replay.text = REPORT;
    else
        return misused();
    if (replay.text == REPORT && strcmp(arguments[2], "--from") == 0) {
        if (count < 5 || !get_number(arguments[3], COUNT_MOST, &from))
            return misused();
        first = 4;
    }
    report_begin(replay.report, (uint32_t)from);
    for (int i = first; i < count; i++)
        if (!replay_file(&replay, arguments[i]))
            status = 1;
    if (replay.text == REPORT)
        report_write(replay.report);
    if (fflush(stdout) != 0 || ferror(stdout)) {
        fputs("independent: the text cannot be written\n", stderr);
        return 1;
    }
    return status;
}
