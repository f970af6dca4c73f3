/*
 * Reads files of arms and the calls on each, one to a line, makes each call with the library of
 * include/saihkeb.h and prints what it gave: the lines that `oracle arms` prints for the same input
 * (`oracle arms --list` says how both are written). With the argument --bytes the whole buffer stands in each
 * line, in place of its hash. tools/compare/compare_arms.sh builds it and holds the two against each other.
 *
 * A buffer begins at an address of every alignment in turn. One of no bytes is lent as NULL in every other
 * file, else as a pointer with length 0, and so is an empty arm. Where a call changes what is beside the
 * buffer, or beside the 39 numbers that find writes, the line ends in "OUTSIDE".
 */
#include "lines.h"
#include "saihkeb.h"

#define ALIGNMENTS 8

static int in_full; /* print the bytes, not their hash */

/* The file that is open: its bytes stand among bytes that no call may change. */
static struct {
    uint8_t *memory; /* what was allocated */
    size_t before;   /* bytes of it in front of the buffer */
    struct bytes buffer;
    uint64_t place, calls;
    int is_open;
} file;

static int as_null(size_t count)
{
    return !count && file.place % 2 == 0;
}

static uint8_t *buffer(void)
{
    return as_null(file.buffer.count) ? NULL : file.buffer.at;
}

static uint64_t fnv_1a(struct bytes list)
{
    uint64_t hash = UINT64_C(0xcbf29ce484222325);
    for (size_t i = 0; i < list.count; i++)
        hash = (hash ^ list.at[i]) * UINT64_C(0x100000001b3);
    return hash;
}

static int file_guards_stand(void)
{
    const uint8_t *after = file.buffer.at + file.buffer.count;
    for (size_t i = 0; i < file.before; i++)
        if (file.memory[i] != GUARD_BYTE)
            return 0;
    for (size_t i = 0; i < GUARD; i++)
        if (after[i] != GUARD_BYTE)
            return 0;
    return 1;
}

static void print_buffer(int stand)
{
    fputs(" buffer ", stdout);
    if (!in_full)
        printf("%016" PRIx64, fnv_1a(file.buffer));
    else if (!file.buffer.count)
        putchar('-');
    else
        for (size_t i = 0; i < file.buffer.count; i++)
            printf("%02x", file.buffer.at[i]);
    puts(stand && file_guards_stand() ? "" : " OUTSIDE");
}

/* The arm that find writes, with what is beside it. */
static uint64_t find(uint8_t value, struct numbers arm)
{
    return saihkeb_arms_find(buffer(), file.buffer.count, value, arm.at);
}

/* BUFFER */
static void open_file(char **words)
{
    struct bytes given = bytes(words[1]);
    struct numbers arm = lent_numbers(SAIHKEB_ARM);
    file.place += file.is_open ? 1 : 0;
    file.is_open = 1;
    file.calls = 0;
    free(file.memory);
    file.before = GUARD + place % ALIGNMENTS;
    file.memory = (uint8_t *)memory(file.before + given.count + GUARD, 1);
    memset(file.memory, GUARD_BYTE, file.before + given.count + GUARD);
    file.buffer.at = file.memory + file.before;
    file.buffer.count = given.count;
    if (given.count)
        memcpy(file.buffer.at, given.at, given.count);
    printf("file %" PRIu64 " bytes %zu refusal %" PRIu64, file.place, given.count, find(0, arm));
    puts((!given.count || !memcmp(file.buffer.at, given.at, given.count)) && file_guards_stand()
                 && guards_stand(arm.at, arm.count, sizeof *arm.at)
             ? "" : " OUTSIDE");
    free(given.at);
    free_guarded(arm.at, sizeof *arm.at);
}

static void begin(const char *name, uint64_t refusal)
{
    printf("call %" PRIu64 ".%" PRIu64 " %s refusal %" PRIu64, file.place, file.calls++, name, refusal);
}

/* A number of 0 to 255, of a call on the file that is open. */
static uint8_t arm_number(char **words)
{
    uint64_t value = whole(words[1]);
    if (value > 255)
        wrong("no number of an arm", words[1]);
    if (!file.is_open)
        wrong("a call before the first file", words[0]);
    return (uint8_t)value;
}

/* NUMBER ARM */
static void put(char **words)
{
    uint8_t value = arm_number(words);
    struct numbers arm = numbers(words[2]);
    begin(words[0], saihkeb_arms_put(buffer(), file.buffer.count, value, as_null(arm.count) ? NULL : arm.at,
                                     arm.count));
    print_buffer(1);
    free(arm.at);
}

/* NUMBER */
static void find_arm(char **words)
{
    struct numbers arm = lent_numbers(SAIHKEB_ARM);
    begin(words[0], find(arm_number(words), arm));
    fputs(" arm ", stdout);
    print_numbers(arm);
    print_buffer(guards_stand(arm.at, arm.count, sizeof *arm.at));
    free_guarded(arm.at, sizeof *arm.at);
}

/* NUMBER */
static void take_out(char **words)
{
    begin(words[0], saihkeb_arms_take_out(buffer(), file.buffer.count, arm_number(words)));
    print_buffer(1);
}

static void compact(char **words)
{
    if (!file.is_open)
        wrong("a call before the first file", words[0]);
    begin(words[0], saihkeb_arms_compact(buffer(), file.buffer.count));
    print_buffer(1);
}

static const struct call calls[] = {
    {"file", 2, open_file},
    {"put", 3, put},
    {"find", 2, find_arm},
    {"take_out", 2, take_out},
    {"compact", 1, compact},
};

int main(int argc, char **argv)
{
    int status;
    in_full = argc == 2 && !strcmp(argv[1], "--bytes");
    status = run_lines(calls, sizeof calls / sizeof *calls);
    free(file.memory);
    return status;
}
