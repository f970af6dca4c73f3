/*
 * Reads calls, one to a line, makes each with the library of include/saihkeb.h and prints what it gave: the
 * lines that `oracle calls` prints for the same input (`oracle calls --list` says how both are written).
 * tools/compare/compare_calls.sh builds it and holds the two against each other.
 *
 * An empty list is lent as NULL in six calls (the generator's families take turns), in the next six as a
 * pointer with length 0. Where a call changes what is beside a list that it was lent, the line ends in
 * "OUTSIDE".
 */
#include "lines.h"
#include "saihkeb.h"

static int as_null(size_t count)
{
    return !count && place / 6 % 2 == 0;
}

static double *pointer(struct numbers list)
{
    return as_null(list.count) ? NULL : list.at;
}

static uint8_t *byte_pointer(struct bytes list)
{
    return as_null(list.count) ? NULL : list.at;
}

/* The calls. */

static void print_solved(const char *name, uint64_t refusal, const uint64_t counts[2], struct numbers angles,
                         struct bytes flags)
{
    printf("call %" PRIu64 " %s refusal %" PRIu64 " answers %" PRIu64 " evals %" PRIu64 " angles ", place, name,
           refusal, counts[0], counts[1]);
    print_numbers(angles);
    fputs(" flags ", stdout);
    print_bytes(flags);
    puts(guards_stand(angles.at, angles.count, sizeof(double)) && guards_stand(flags.at, flags.count, 1)
             ? "" : " OUTSIDE");
    free_guarded(angles.at, sizeof(double));
    free_guarded(flags.at, 1);
}

/* FAMILY N ARM POSE LIMITS ANGLES FLAGS */
static void solve(char **words)
{
    struct numbers arm = numbers(words[3]), pose = numbers(words[4]), limits = numbers(words[5]);
    struct numbers angles = lent_numbers(whole(words[6]));
    struct bytes flags = lent_bytes(whole(words[7]));
    uint64_t counts[2] = {99, 99};
    uint64_t refusal = saihkeb_solve(whole(words[1]), whole(words[2]), pointer(arm), arm.count, pointer(pose),
                                     pose.count, pointer(limits), limits.count, pointer(angles), angles.count,
                                     byte_pointer(flags), flags.count, counts);
    print_solved(words[0], refusal, counts, angles, flags);
    free(arm.at);
    free(pose.at);
    free(limits.at);
}

/* BLOCK LIMITS ANGLES FLAGS */
static void solve_block(char **words)
{
    struct bytes block = bytes(words[1]);
    struct numbers limits = numbers(words[2]), angles = lent_numbers(whole(words[3]));
    struct bytes flags = lent_bytes(whole(words[4]));
    uint64_t counts[2] = {99, 99};
    uint64_t refusal = saihkeb_solve_block(byte_pointer(block), block.count, pointer(limits), limits.count,
                                           pointer(angles), angles.count, byte_pointer(flags), flags.count, counts);
    print_solved(words[0], refusal, counts, angles, flags);
    free(block.at);
    free(limits.at);
}

/* BLOCK */
static void limits_block(char **words)
{
    struct bytes block = bytes(words[1]);
    struct numbers limits = lent_numbers(SAIHKEB_LIMITS);
    uint64_t refusal = saihkeb_limits_block(byte_pointer(block), block.count, limits.at);
    printf("call %" PRIu64 " %s refusal %" PRIu64 " limits ", place, words[0], refusal);
    print_numbers(limits);
    puts(guards_stand(limits.at, limits.count, sizeof(double)) ? "" : " OUTSIDE");
    free(block.at);
    free_guarded(limits.at, sizeof(double));
}

/* FAMILY N ARM JOINT ANGLE POSE ANGLES FLAGS */
static void solve_track(char **words)
{
    struct numbers arm = numbers(words[3]), pose = numbers(words[6]);
    struct numbers angles = lent_numbers(whole(words[7]));
    struct bytes flags = lent_bytes(whole(words[8]));
    uint64_t counts[2] = {99, 99};
    uint64_t refusal = saihkeb_solve_track(whole(words[1]), whole(words[2]), pointer(arm), arm.count, whole(words[4]),
                                           number(words[5]), pointer(pose), pose.count, pointer(angles), angles.count,
                                           byte_pointer(flags), flags.count, counts);
    print_solved(words[0], refusal, counts, angles, flags);
    free(arm.at);
    free(pose.at);
}

/* FAMILY N ARM POSE LIMITS */
static void solve_one(char **words)
{
    struct numbers arm = numbers(words[3]), pose = numbers(words[4]), limits = numbers(words[5]);
    struct numbers angles = lent_numbers(SAIHKEB_ANGLES);
    struct bytes flag = lent_bytes(1);
    uint64_t refusal = saihkeb_solve_one(whole(words[1]), whole(words[2]), pointer(arm), arm.count, pointer(pose),
                                         pose.count, pointer(limits), limits.count, angles.at, flag.at);
    printf("call %" PRIu64 " %s refusal %" PRIu64 " angles ", place, words[0], refusal);
    print_numbers(angles);
    fputs(" flag ", stdout);
    print_bytes(flag);
    puts(guards_stand(angles.at, angles.count, sizeof(double)) && guards_stand(flag.at, flag.count, 1)
             ? "" : " OUTSIDE");
    free(arm.at);
    free(pose.at);
    free(limits.at);
    free_guarded(angles.at, sizeof(double));
    free_guarded(flag.at, 1);
}

static const struct call calls[] = {
    {"solve", 8, solve},
    {"solve_block", 5, solve_block},
    {"limits_block", 2, limits_block},
    {"solve_track", 9, solve_track},
    {"solve_one", 6, solve_one},
};

int main(void)
{
    return run_lines(calls, sizeof calls / sizeof *calls);
}
