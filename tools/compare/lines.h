/*
 * What the programs share that make the library's calls from lines: reading a line's words, lending lists, and
 * printing these after the call, as the reference program prints them (`oracle calls --list`, `oracle arms
 * --list`).
 *
 * Every list has exactly the elements that its line says, so that a tool that watches memory sees a read
 * past the last one. What is written to has further elements on both sides, which a call must leave alone.
 */
#ifndef LINES_H
#define LINES_H

#include <inttypes.h>
#include <math.h>
#include <stdio.h>
#include <stdlib.h>
#include <string.h>
#include <sys/types.h>

#define MOST_WORDS 16
#ifndef GUARD
#define GUARD 64 /* elements on each side of a list that is written to */
#endif
#define GUARD_BYTE 0xc3

static uint64_t place; /* of the line, from 0 */

static inline void wrong(const char *what, const char *word)
{
    fprintf(stderr, "line %" PRIu64 ": %s: %.40s\n", place + 1, what, word);
    exit(2);
}

static inline void *memory(size_t elements, size_t size)
{
    void *at = calloc(elements ? elements : 1, size);
    if (!at)
        wrong("no memory", "");
    return at;
}

/* Reading a line's words. */

static inline uint64_t whole(const char *word)
{
    uint64_t value = 0;
    if (!*word)
        wrong("no whole number", word);
    for (const char *c = word; *c; c++) {
        uint64_t digit = (uint64_t)(*c - '0');
        if (*c < '0' || *c > '9' || value > (UINT64_MAX - digit) / 10)
            wrong("no whole number", word);
        value = 10 * value + digit;
    }
    return value;
}

static inline uint64_t hexadecimal(const char *word, int digits)
{
    static const char known[] = "0123456789abcdef";
    uint64_t value = 0;
    for (int i = 0; i < digits; i++) {
        const char *found = word[i] ? strchr(known, word[i]) : NULL;
        if (!found)
            wrong("no hexadecimal digits", word);
        value = value << 4 | (uint64_t)(found - known);
    }
    return value;
}

struct numbers {
    double *at;
    size_t count;
};

struct bytes {
    uint8_t *at;
    size_t count;
};

static inline double number(const char *word)
{
    double value;
    uint64_t bits = hexadecimal(word, 16);
    if (word[16])
        wrong("no number", word);
    memcpy(&value, &bits, sizeof value);
    return value;
}

static inline struct numbers numbers(const char *word)
{
    struct numbers list = {NULL, strcmp(word, "-") ? (strlen(word) + 1) / 17 : 0};
    list.at = (double *)memory(list.count, sizeof *list.at);
    for (size_t i = 0; i < list.count; i++) {
        uint64_t bits = hexadecimal(word + 17 * i, 16);
        if (word[17 * i + 16] != (i + 1 < list.count ? ',' : 0))
            wrong("no list of numbers", word);
        memcpy(list.at + i, &bits, sizeof bits);
    }
    if (!list.count && strcmp(word, "-"))
        wrong("no list of numbers", word);
    return list;
}

static inline struct bytes bytes(const char *word)
{
    struct bytes list = {NULL, strcmp(word, "-") ? strlen(word) / 2 : 0};
    if (strcmp(word, "-") && (!*word || strlen(word) % 2))
        wrong("no list of bytes", word);
    list.at = (uint8_t *)memory(list.count, 1);
    for (size_t i = 0; i < list.count; i++)
        list.at[i] = (uint8_t)hexadecimal(word + 2 * i, 2);
    return list;
}

/* Lists that are written to, and what they have before the call. */

static inline uint64_t number_before(size_t i)
{
    return UINT64_C(0xa5a5a5a500000000) + i;
}

static inline uint8_t byte_before(size_t i)
{
    return (uint8_t)(128 + i % 128);
}

static inline void *guarded(size_t count, size_t size)
{
    uint8_t *at = (uint8_t *)memory(count + 2 * GUARD, size);
    memset(at, GUARD_BYTE, (count + 2 * GUARD) * size);
    return at + GUARD * size;
}

static inline int guards_stand(const void *list, size_t count, size_t size)
{
    const uint8_t *before = (const uint8_t *)list - GUARD * size, *after = (const uint8_t *)list + count * size;
    for (size_t i = 0; i < GUARD * size; i++)
        if (before[i] != GUARD_BYTE || after[i] != GUARD_BYTE)
            return 0;
    return 1;
}

static inline void free_guarded(void *list, size_t size)
{
    free((uint8_t *)list - GUARD * size);
}

static inline struct numbers lent_numbers(size_t count)
{
    struct numbers list = {(double *)guarded(count, sizeof(double)), count};
    for (size_t i = 0; i < count; i++) {
        uint64_t bits = number_before(i);
        memcpy(list.at + i, &bits, sizeof bits);
    }
    return list;
}

static inline struct bytes lent_bytes(size_t count)
{
    struct bytes list = {(uint8_t *)guarded(count, 1), count};
    for (size_t i = 0; i < count; i++)
        list.at[i] = byte_before(i);
    return list;
}

/* Printing a list after the call: a run of elements that are as they were is a star and their number. */

static size_t kept; /* elements of the run so far */
static int begun;

static inline void comma(void)
{
    if (begun++)
        putchar(',');
}

static inline void end_run(void)
{
    if (kept) {
        comma();
        printf("*%zu", kept);
    }
    kept = 0;
}

static inline void end_list(void)
{
    end_run();
    if (!begun)
        putchar('-');
    begun = 0;
}

static inline void print_numbers(struct numbers list)
{
    for (size_t i = 0; i < list.count; i++) {
        uint64_t bits;
        memcpy(&bits, list.at + i, sizeof bits);
        if (isnan(list.at[i]))
            bits = UINT64_C(0x7ff8000000000000);
        if (bits == number_before(i)) {
            kept++;
            continue;
        }
        end_run();
        comma();
        printf("%016" PRIx64, bits);
    }
    end_list();
}

static inline void print_bytes(struct bytes list)
{
    for (size_t i = 0; i < list.count; i++) {
        if (list.at[i] == byte_before(i)) {
            kept++;
            continue;
        }
        end_run();
        comma();
        printf("%d", list.at[i]);
    }
    end_list();
}

/* Running the lines. */

struct call {
    const char *name;
    int words; /* of its line, the name among them */
    void (*run)(char **words);
};

static inline void run_line(char *line, const struct call *calls, size_t count)
{
    char *words[MOST_WORDS + 1];
    int found = 0;
    for (char *next = line; next && found <= MOST_WORDS; found++) {
        words[found] = next;
        next = strchr(next, ' ');
        if (next)
            *next++ = 0;
    }
    for (size_t i = 0; i < count; i++)
        if (!strcmp(words[0], calls[i].name)) {
            if (found != calls[i].words)
                wrong("the words are not those of this call", words[0]);
            calls[i].run(words);
            return;
        }
    wrong("no call", words[0]);
}

/* The lines of standard input. Gives the exit status. */
static inline int run_lines(const struct call *calls, size_t count)
{
    char *line = NULL;
    size_t size = 0;
    ssize_t length;
    for (; (length = getline(&line, &size, stdin)) > 0; place++) {
        if (line[length - 1] == '\n')
            line[length - 1] = 0;
        run_line(line, calls, count);
    }
    free(line);
    return ferror(stdin) || fflush(stdout) ? 1 : 0;
}

#endif
