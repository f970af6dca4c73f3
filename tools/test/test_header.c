/*
 * Tries what include/saihkeb.h says of lists, limits, refusals, one answer, seven axes, a file of arms and memory:
 * C99, and C++ as well.
 * tools/test/test_header.sh compiles it both ways and runs it. It prints what does not hold, and at the end
 * how many checks were made.
 */
#include <fenv.h>
#include <float.h>
#include <math.h>
#include <pthread.h>
#include <stdio.h>
#include <string.h>

#include "saihkeb.h"

#define ROOM 64
#define MARK 12345.0

/* The arm of examples/c, family 1, and the pose of its angles. */
static const double arm[SAIHKEB_ARM] = {
    0, 0, 1, 0, 1, 0,       0, 1, 0,     1, 0, 0,        0, 1, 0, 1, 0, 0,
    0, 0, 0, 0.32, 0, 0.78, 0, 0, 1.075, 1.1425, 0, 0.2, 0, 0, 0, 0, 0, 0, 0.2, 0, 0,
};
static const double taught[SAIHKEB_ANGLES] = {0.5, -0.3, 0.25, 0.7, -1, 1.3};

static double pose[SAIHKEB_POSE], angles[7 * ROOM];
static uint8_t flags[ROOM];
static uint64_t counts[2];
static int checks, wrong;

static void check(int holds, const char *text)
{
    checks++;
    if (!holds) {
        wrong++;
        printf("does not hold: %s\n", text);
    }
}

static void clear(void)
{
    for (int i = 0; i < 7 * ROOM; i++)
        angles[i] = MARK;
    memset(flags, 77, sizeof flags);
    counts[0] = counts[1] = 99;
}

/* Whether the lists keep every value from that answer on, with so many angles to an answer. */
static int kept_of(int from, int each)
{
    for (int i = each * from; i < 7 * ROOM; i++)
        if (angles[i] != MARK)
            return 0;
    for (int i = from; i < ROOM; i++)
        if (flags[i] != 77)
            return 0;
    return 1;
}

static int kept(int from)
{
    return kept_of(from, 6);
}

static int none(void)
{
    return counts[0] == 0 && counts[1] == 0 && kept(0);
}

static uint64_t solve(uint64_t family, uint64_t n, const double *a, const double *p)
{
    clear();
    return saihkeb_solve(family, n, a, SAIHKEB_ARM, p, SAIHKEB_POSE, NULL, 0, angles, 6 * ROOM, flags, ROOM, counts);
}

/* The pose under limits. */
static uint64_t limited(const double *limits, size_t length)
{
    clear();
    return saihkeb_solve(1, 0, arm, SAIHKEB_ARM, pose, SAIHKEB_POSE, limits, length, angles, 6 * ROOM, flags, ROOM,
                         counts);
}

static void nulls(void)
{
    clear();
    check(saihkeb_solve(1, 0, NULL, 0, NULL, 0, NULL, 0, NULL, 0, NULL, 0, counts) == 5,
          "solve: all lists NULL, 0");
    check(counts[0] == 0 && counts[1] == 0, "solve: NULL, 0: both counts 0");
    check(saihkeb_solve(1, 0, arm, SAIHKEB_ARM, NULL, 0, NULL, 0, NULL, 0, NULL, 0, counts) == 6,
          "solve: pose NULL, 0");
    check(saihkeb_solve(1, 0, arm, SAIHKEB_ARM, pose, SAIHKEB_POSE, NULL, 0, NULL, 0, NULL, 0, counts) == 9,
          "solve: no list for the answers");
    check(counts[0] == 8, "solve: NULL, 0 for both lists gives the number alone");
    check(saihkeb_solve(1, 0, arm, SAIHKEB_ARM, pose, SAIHKEB_POSE, NULL, 0, angles, 6 * ROOM, NULL, 0, counts) == 9
              && counts[0] == 8 && kept(0), "solve: flags NULL, 0");
    check(saihkeb_solve(1, 0, arm, SAIHKEB_ARM, pose, SAIHKEB_POSE, NULL, 0, NULL, 0, flags, ROOM, counts) == 9
              && counts[0] == 8 && kept(0), "solve: angles NULL, 0");
    check(saihkeb_solve(1, 0, NULL, SAIHKEB_ARM, pose, SAIHKEB_POSE, NULL, 0, angles, 6 * ROOM, flags, ROOM, counts)
              == 5 && none(), "solve: NULL is an empty list, whatever its length says");
    check(limited(NULL, 11) == 0 && counts[0] == 8, "solve: limits NULL with a length");
    clear();
    check(saihkeb_solve_block(NULL, 0, NULL, 0, NULL, 0, NULL, 0, counts) == 1 && none(), "block: all lists NULL, 0");
    check(saihkeb_solve_block(NULL, SAIHKEB_BLOCK, NULL, 0, angles, 6 * ROOM, flags, ROOM, counts) == 1 && none(),
          "block: NULL with a length");
    double out[SAIHKEB_POSE] = {MARK};
    check(saihkeb_limits_block(NULL, 0, out) == 1 && out[0] == MARK, "limits block: NULL, 0");
    check(saihkeb_limits_block(NULL, SAIHKEB_BLOCK, out) == 1 && out[0] == MARK, "limits block: NULL with a length");
    check(saihkeb_forward_kinematics(NULL, 0, NULL, 0, NULL, 0) == 5, "forward: all lists NULL, 0");
    check(saihkeb_forward_kinematics(arm, SAIHKEB_ARM, NULL, 0, NULL, 0) == 6, "forward: 6 comes before 18");
    check(saihkeb_forward_kinematics(arm, SAIHKEB_ARM, NULL, 0, out, SAIHKEB_POSE) == 18, "forward: angles NULL, 0");
    check(saihkeb_forward_kinematics(arm, SAIHKEB_ARM, taught, SAIHKEB_ANGLES, NULL, 0) == 6, "forward: pose NULL, 0");
}

static void refusals(void)
{
    double bad[SAIHKEB_ARM], off[SAIHKEB_POSE];
    memcpy(bad, arm, sizeof bad);
    memcpy(off, pose, sizeof off);
    check(solve(0, 0, arm, pose) == 4 && none(), "family 0");
    check(solve(7, 0, arm, pose) == 4 && none(), "family 7");
    check(solve(UINT64_MAX, 0, arm, pose) == 4 && none(), "a huge family");
    check(solve(1, 1, arm, pose) == 7 && none(), "family 1 with n = 1");
    check(solve(6, 0, arm, pose) == 7 && none(), "family 6 with n = 0");
    check(solve(6, 401, arm, pose) == 7 && none(), "family 6 with n = 401");
    bad[38] = NAN;
    check(solve(1, 0, bad, pose) == 8 && none(), "an arm with a NaN");
    off[11] = INFINITY;
    check(solve(1, 0, arm, off) == 8 && none(), "a pose with an infinity");
    check(solve(1, 1, bad, off) == 7 && none(), "7 comes before 8");
    clear();
    check(saihkeb_solve(1, 0, arm, 38, pose, 11, NULL, 0, angles, 6 * ROOM, flags, ROOM, counts) == 5 && none(),
          "5 before 6");
    check(saihkeb_solve(1, 0, arm, SAIHKEB_ARM, pose, 11, NULL, 0, angles, 6 * ROOM, flags, ROOM, counts) == 6
              && none(), "a pose of 11 numbers");
}

static void lists(void)
{
    check(solve(1, 0, arm, pose) == 0 && counts[0] == 8 && counts[1] == 0 && kept(8), "8 answers and no more");
    double first[18];
    memcpy(first, angles, sizeof first);
    clear();
    check(saihkeb_solve(1, 0, arm, SAIHKEB_ARM, pose, SAIHKEB_POSE, NULL, 0, angles, 23, flags, ROOM, counts) == 9,
          "room for three answers");
    check(counts[0] == 8 && kept(3) && !memcmp(first, angles, sizeof first), "the first three, and the number");
    clear();
    check(saihkeb_solve(1, 0, arm, SAIHKEB_ARM, pose, SAIHKEB_POSE, NULL, 0, angles, 6 * ROOM, flags, 3, counts) == 9
              && counts[0] == 8 && kept(3), "flags for three answers");
}

/* Limits that every angle of an answer is inside of. */
static void make_wide(double *limits)
{
    for (int i = 0; i < SAIHKEB_LIMITS; i++)
        limits[i] = i % 2 ? 4 : -4;
}

static void bad_limits(void)
{
    double limits[2 * SAIHKEB_LIMITS];
    const double bad[] = {NAN, -NAN, INFINITY, -INFINITY};
    make_wide(limits);
    make_wide(limits + SAIHKEB_LIMITS);
    for (size_t length = 1; length <= 2 * SAIHKEB_LIMITS; length++)
        if (length != SAIHKEB_LIMITS)
            check(limited(limits, length) == 10 && none(), "limits of another length");
    for (int i = 0; i < SAIHKEB_LIMITS; i++) {
        for (int j = 0; j < 4; j++) {
            limits[i] = bad[j];
            check(limited(limits, SAIHKEB_LIMITS) == 10 && none(), "a limit that is not finite");
        }
        limits[i] = i % 2 ? -4.5 : 4.5;
        check(limited(limits, SAIHKEB_LIMITS) == 10 && none(), "a low above its high");
        limits[i] = i % 2 ? -4 : 4;
        check(limited(limits, SAIHKEB_LIMITS) == 0 && counts[0] == 0 && kept(0), "a low equal to its high");
        make_wide(limits);
    }
    limits[2] = 0.0, limits[3] = -0.0;
    check(limited(limits, SAIHKEB_LIMITS) == 0, "0.0 is not above -0.0");
    clear();
    check(saihkeb_solve(9, 1, arm, 38, pose, 11, limits, 11, angles, 6 * ROOM, flags, ROOM, counts) == 10 && none(),
          "10 comes before 4, 5, 6 and 7");
    check(saihkeb_solve(9, 1, arm, 38, pose, 11, limits, 12, angles, 6 * ROOM, flags, ROOM, counts) == 4 && none(),
          "good limits leave 4 as it is");
}

static void good_limits(void)
{
    double full[48], limits[SAIHKEB_LIMITS];
    uint8_t full_flags[8];
    solve(1, 0, arm, pose);
    memcpy(full, angles, sizeof full);
    memcpy(full_flags, flags, sizeof full_flags);
    make_wide(limits);
    check(limited(limits, SAIHKEB_LIMITS) == 0 && counts[0] == 8 && kept(8) && !memcmp(full, angles, sizeof full),
          "wide limits leave every answer");
    check(limited(limits, 0) == 0 && counts[0] == 8, "a list of no limits");
    /* Both ends of a joint at an answer's own angle: what has that angle stays, in its order. */
    for (int own = 0; own < 8; own++)
        for (int joint = 0; joint < 6; joint++) {
            uint64_t stay = 0;
            int same = 1;
            make_wide(limits);
            limits[2 * joint] = limits[2 * joint + 1] = full[6 * own + joint];
            check(limited(limits, SAIHKEB_LIMITS) == 0, "an answer's own angle for both ends");
            for (int i = 0; i < 8; i++)
                if (full[6 * i + joint] == full[6 * own + joint]) {
                    same &= !memcmp(full + 6 * i, angles + 6 * stay, 6 * sizeof *full) && flags[stay] == full_flags[i];
                    stay++;
                }
            check(same && counts[0] == stay && kept((int)stay), "the answers inside, in their order");
        }
    /* Room for what stays, and for one fewer. */
    make_wide(limits);
    limits[0] = limits[1] = full[0];
    check(limited(limits, SAIHKEB_LIMITS) == 0 && counts[0] > 1 && counts[0] < 8, "some answers stay");
    uint64_t stay = counts[0];
    clear();
    check(saihkeb_solve(1, 0, arm, SAIHKEB_ARM, pose, SAIHKEB_POSE, limits, SAIHKEB_LIMITS, angles, 6 * stay, flags,
                        stay, counts) == 0 && counts[0] == stay, "answers outside the limits take no room");
    clear();
    check(saihkeb_solve(1, 0, arm, SAIHKEB_ARM, pose, SAIHKEB_POSE, limits, SAIHKEB_LIMITS, angles, 6 * stay - 1, flags,
                        stay, counts) == 9 && counts[0] == stay && kept((int)stay - 1), "9 goes by what stays");
    /* Nothing is turned: full[0] plus 2 pi is outside, full[0] itself inside. */
    limits[0] += 6.283185307179586, limits[1] += 6.283185307179586;
    check(limited(limits, SAIHKEB_LIMITS) == 0 && counts[0] == 0 && kept(0), "nothing is turned by 2 pi");
    check(saihkeb_solve(1, 0, arm, SAIHKEB_ARM, pose, SAIHKEB_POSE, limits, SAIHKEB_LIMITS, NULL, 0, NULL, 0, counts)
              == 0 && counts[0] == 0, "nothing inside: no refusal, also without room");
    solve(6, 25, arm, pose);
    uint64_t evaluations = counts[1];
    check(saihkeb_solve(6, 25, arm, SAIHKEB_ARM, pose, SAIHKEB_POSE, limits, SAIHKEB_LIMITS, angles, 6 * ROOM, flags,
                        ROOM, counts) == 0 && counts[0] == 0 && counts[1] == evaluations && evaluations >= 26,
          "the evaluations are those without limits");
}

/* One answer. What it is written to has a pattern before each call, with further elements around it. */
static double one[SAIHKEB_ANGLES + 2];
static uint8_t one_flag[3];

static void clear_one(void)
{
    for (int i = 0; i < SAIHKEB_ANGLES + 2; i++)
        one[i] = MARK;
    memset(one_flag, 77, sizeof one_flag);
}

static uint64_t solve_one(uint64_t family, uint64_t n, const double *a, size_t arm_length, const double *p,
                          size_t pose_length, const double *limits, size_t limits_length)
{
    clear_one();
    return saihkeb_solve_one(family, n, a, arm_length, p, pose_length, limits, limits_length, one + 1, one_flag + 1);
}

static int around_one(void)
{
    return one[0] == MARK && one[SAIHKEB_ANGLES + 1] == MARK && one_flag[0] == 77 && one_flag[2] == 77;
}

/* Six times +0.0, by their bits, and flag 0. */
static int zeros(void)
{
    const double zero[SAIHKEB_ANGLES] = {0};
    return !memcmp(one + 1, zero, sizeof zero) && one_flag[1] == 0 && around_one();
}

/* An arm of family 5 whose axes 5 and 6 meet as the header says: every answer of this pose is NaN. */
static void nans(void)
{
    static const double meeting[SAIHKEB_ARM] = {
        0, 0, 1,   1, 0, 0,    1, 0, 0,      1, 0, 0,   0, 0, 1,         1, 0, 0,
        0, 0, 0.2, 0.12, 0, 0, -0.03, 0, 0.5, 0, 0, 0.45, 0.07, 0.02, 0.1, 0.04, 0, 0.03, 0.08, 0, 0,
    };
    const double made[SAIHKEB_ANGLES] = {0.5, -0.35, 0.25, 0.7, -1, 1.3};
    double at[SAIHKEB_POSE], widest[SAIHKEB_LIMITS];
    for (int i = 0; i < SAIHKEB_LIMITS; i++)
        widest[i] = i % 2 ? DBL_MAX : -DBL_MAX;
    check(saihkeb_forward_kinematics(meeting, SAIHKEB_ARM, made, SAIHKEB_ANGLES, at, SAIHKEB_POSE) == 0, "a pose");
    check(solve(5, 0, meeting, at) == 0 && counts[0] > 0 && isnan(angles[0]), "answers that are NaN");
    clear();
    check(saihkeb_solve(5, 0, meeting, SAIHKEB_ARM, at, SAIHKEB_POSE, widest, SAIHKEB_LIMITS, angles, 6 * ROOM, flags,
                        ROOM, counts) == 0 && counts[0] == 0 && kept(0), "a NaN is outside the widest limits");
    check(solve_one(5, 0, meeting, SAIHKEB_ARM, at, SAIHKEB_POSE, NULL, 0) == 0 && isnan(one[1]) && around_one(),
          "one: an answer that is NaN");
    check(solve_one(5, 0, meeting, SAIHKEB_ARM, at, SAIHKEB_POSE, widest, SAIHKEB_LIMITS) == 12 && zeros(),
          "one: a NaN is outside the widest limits");
}

static void put_check(uint8_t *block)
{
    uint64_t word, sum = 0;
    for (int i = 0; i < 63; i++) {
        memcpy(&word, block + 8 * i, 8);
        sum += word;
    }
    memcpy(block + 504, &sum, 8);
}

/* An arm and its pose as a block. */
static void make_block(uint8_t *block, uint64_t head)
{
    memset(block, 0, SAIHKEB_BLOCK);
    memcpy(block, &head, 8);
    memcpy(block + 8, arm, sizeof arm);
    memcpy(block + 8 + sizeof arm, pose, sizeof pose);
    put_check(block);
}

static void make_limits_block(uint8_t *block, const double *limits)
{
    memset(block, 0, SAIHKEB_BLOCK);
    block[3] = 1;
    memcpy(block + 8, limits, SAIHKEB_LIMITS * sizeof *limits);
    put_check(block);
}

static uint64_t solve_block(const uint8_t *block, size_t length)
{
    clear();
    return saihkeb_solve_block(block, length, NULL, 0, angles, 6 * ROOM, flags, ROOM, counts);
}

static uint64_t limited_block(const uint8_t *block, size_t length, const double *limits, size_t limits_length)
{
    clear();
    return saihkeb_solve_block(block, length, limits, limits_length, angles, 6 * ROOM, flags, ROOM, counts);
}

static void blocks(void)
{
    uint8_t block[SAIHKEB_BLOCK + 1];
    block[SAIHKEB_BLOCK] = 1;
    make_block(block, 1);
    check(solve_block(block, SAIHKEB_BLOCK) == 0 && counts[0] == 8 && kept(8), "a block");
    check(solve_block(block, SAIHKEB_BLOCK + 1) == 0 && counts[0] == 8, "bytes past the 512th are not read");
    check(solve_block(block, SAIHKEB_BLOCK - 1) == 1 && none(), "a block of 511 bytes");
    block[100] ^= 1;
    check(solve_block(block, SAIHKEB_BLOCK) == 2 && none(), "a damaged block");
    make_block(block, UINT64_C(1) << 24 | 1);
    check(solve_block(block, SAIHKEB_BLOCK) == 3 && none(), "a reserved byte");
    make_block(block, 9);
    check(solve_block(block, SAIHKEB_BLOCK) == 4 && none(), "a block of family 9");
}

static void blocks_under_limits(void)
{
    uint8_t block[SAIHKEB_BLOCK];
    double limits[SAIHKEB_LIMITS], by_call[6 * ROOM];
    make_wide(limits);
    limits[1] = 0;
    limited(limits, SAIHKEB_LIMITS);
    uint64_t stay = counts[0];
    memcpy(by_call, angles, sizeof by_call);
    make_block(block, 1);
    check(limited_block(block, sizeof block, limits, SAIHKEB_LIMITS) == 0 && counts[0] == stay && stay < 8
              && !memcmp(by_call, angles, sizeof by_call), "a block under limits, as the call");
    check(limited_block(block, sizeof block, limits, 11) == 10 && none(), "a block with eleven limits");
    limits[5] = NAN;
    check(limited_block(block, sizeof block, limits, SAIHKEB_LIMITS) == 10 && none(), "a block with a NaN for a limit");
    make_block(block, 9);
    check(limited_block(block, sizeof block, limits, SAIHKEB_LIMITS) == 10 && none(), "block: 10 comes before 4");
    check(limited_block(block, 511, limits, SAIHKEB_LIMITS) == 1 && none(), "block: 1 comes before 10");
    block[511] ^= 1;
    check(limited_block(block, sizeof block, limits, SAIHKEB_LIMITS) == 2 && none(), "block: 2 comes before 10");
    make_wide(limits);
    make_limits_block(block, limits);
    check(limited_block(block, sizeof block, NULL, 0) == 3 && none(), "a limits block is no pose block");
    check(limited_block(block, sizeof block, limits, 1) == 3 && none(), "block: 3 comes before 10");
}

/* What the call leaves in twelve numbers, against what it should: those of the block, or the marks. */
static void limits_block(const uint8_t *block, size_t length, uint64_t refusal, const char *text)
{
    double was[SAIHKEB_LIMITS], out[SAIHKEB_LIMITS];
    for (int i = 0; i < SAIHKEB_LIMITS; i++)
        was[i] = out[i] = MARK + i;
    check(saihkeb_limits_block(block, length, out) == refusal, text);
    check(!memcmp(out, refusal ? (const void *)was : block + 8, sizeof out), text);
}

static void limits_blocks(void)
{
    uint8_t block[SAIHKEB_BLOCK + 1];
    const uint8_t reserved[] = {0, 1, 2, 4, 5, 6, 7};
    double limits[SAIHKEB_LIMITS];
    make_wide(limits);
    limits[4] = -0.0, limits[5] = 0.0, limits[6] = limits[7] = 1.5;
    make_limits_block(block, limits);
    block[SAIHKEB_BLOCK] = 1;
    limits_block(block, SAIHKEB_BLOCK, 0, "a limits block");
    limits_block(block, SAIHKEB_BLOCK + 1, 0, "a limits block: bytes past the 512th are not read");
    for (size_t length = 0; length < SAIHKEB_BLOCK; length++)
        limits_block(block, length, 1, "a limits block that is short");
    for (int i = 0; i < SAIHKEB_BLOCK; i++) {
        block[i] ^= 16;
        limits_block(block, SAIHKEB_BLOCK, 2, "a damaged limits block");
        block[i] ^= 16;
    }
    for (size_t i = 0; i < sizeof reserved; i++) {
        block[reserved[i]] = 1;
        put_check(block);
        limits_block(block, SAIHKEB_BLOCK, 3, "a limits block with a reserved byte in word 0");
        block[reserved[i]] = 0;
    }
    for (int i = 8 * 13; i < 8 * 63; i++) {
        block[i] = 128;
        put_check(block);
        limits_block(block, SAIHKEB_BLOCK, 3, "a limits block with a reserved byte behind the limits");
        block[i] = 0;
    }
    for (int kind = 0; kind < 256; kind++) {
        block[3] = (uint8_t)kind;
        put_check(block);
        limits_block(block, SAIHKEB_BLOCK, kind == 1 ? 0 : 3, "byte 3");
    }
    make_block(block, 1);
    limits_block(block, SAIHKEB_BLOCK, 3, "a pose block is no limits block");
    for (int i = 0; i < SAIHKEB_LIMITS; i++) {
        const double bad[] = {NAN, INFINITY, -INFINITY, i % 2 ? -5.0 : 5.0};
        for (int j = 0; j < 4; j++) {
            double was = limits[i];
            limits[i] = bad[j];
            make_limits_block(block, limits);
            limits_block(block, SAIHKEB_BLOCK, 10, "a limits block that is bad");
            block[6] = 1;
            put_check(block);
            limits_block(block, SAIHKEB_BLOCK, 3, "limits block: 3 comes before 10");
            limits[i] = was;
        }
    }
}

static void forward(void)
{
    double longer[SAIHKEB_ARM], out[SAIHKEB_POSE];
    memcpy(longer, arm, sizeof longer);
    for (int i = 0; i < 18; i++)
        longer[i] *= 3;
    check(saihkeb_forward_kinematics(longer, SAIHKEB_ARM, taught, SAIHKEB_ANGLES, out, SAIHKEB_POSE) == 0,
          "forward kinematics");
    for (int i = 0; i < SAIHKEB_POSE; i++)
        check(fabs(out[i] - pose[i]) < 1e-14, "forward kinematics takes axes at length 1");
    out[0] = MARK;
    check(saihkeb_forward_kinematics(arm, 40, taught, 5, out, 11) == 5 && out[0] == MARK, "5, 6, 18: first 5");
    check(saihkeb_forward_kinematics(arm, SAIHKEB_ARM, taught, 5, out, 11) == 6 && out[0] == MARK, "then 6");
    check(saihkeb_forward_kinematics(arm, SAIHKEB_ARM, taught, 5, out, SAIHKEB_POSE) == 18 && out[0] == MARK,
          "then 18");
}

/* Whether it is the first of the answers that stand in the lists, with its flag. */
static int is_first(void)
{
    return counts[0] > 0 && !memcmp(angles, one + 1, 6 * sizeof *one) && flags[0] == one_flag[1] && around_one();
}

/* The whole arm and pose, as both calls see them. */
static void one_as_list(uint64_t family, uint64_t n, const double *limits, size_t length)
{
    clear();
    uint64_t refusal = saihkeb_solve(family, n, arm, SAIHKEB_ARM, pose, SAIHKEB_POSE, limits, length, angles,
                                     6 * ROOM, flags, ROOM, counts);
    uint64_t got = solve_one(family, n, arm, SAIHKEB_ARM, pose, SAIHKEB_POSE, limits, length);
    check(refusal == 0 && got == (counts[0] ? 0 : 12), "one: 12 exactly if the list is empty");
    check(got ? zeros() : is_first(), "one: the first answer of the list, or zeros");
}

static void one_nulls(void)
{
    check(solve_one(1, 0, NULL, 0, NULL, 0, NULL, 0) == 5 && zeros(), "one: all lists NULL, 0");
    check(solve_one(1, 0, NULL, SAIHKEB_ARM, pose, SAIHKEB_POSE, NULL, 0) == 5 && zeros(), "one: arm NULL");
    check(solve_one(1, 0, arm, SAIHKEB_ARM, NULL, SAIHKEB_POSE, NULL, 0) == 6 && zeros(), "one: pose NULL");
    solve(1, 0, arm, pose);
    check(solve_one(1, 0, arm, SAIHKEB_ARM, pose, SAIHKEB_POSE, NULL, 0) == 0 && is_first(), "one: limits NULL, 0");
    check(solve_one(1, 0, arm, SAIHKEB_ARM, pose, SAIHKEB_POSE, NULL, 11) == 0 && is_first(),
          "one: limits NULL with a length");
    check(solve_one(1, 0, arm, SAIHKEB_ARM, pose, SAIHKEB_POSE, arm, 0) == 0 && is_first(), "one: a list of no limits");
}

static void one_bad_limits(void)
{
    const double bad[] = {NAN, -NAN, INFINITY, -INFINITY};
    double limits[2 * SAIHKEB_LIMITS];
    make_wide(limits);
    make_wide(limits + SAIHKEB_LIMITS);
    for (size_t length = 1; length <= 2 * SAIHKEB_LIMITS; length++)
        if (length != SAIHKEB_LIMITS)
            check(solve_one(1, 0, arm, SAIHKEB_ARM, pose, SAIHKEB_POSE, limits, length) == 10 && zeros(),
                  "one: limits of another length");
    for (int i = 0; i < SAIHKEB_LIMITS; i++) {
        for (int j = 0; j < 4; j++) {
            limits[i] = bad[j];
            check(solve_one(1, 0, arm, SAIHKEB_ARM, pose, SAIHKEB_POSE, limits, SAIHKEB_LIMITS) == 10 && zeros(),
                  "one: a limit that is not finite");
        }
        limits[i] = i % 2 ? -4.5 : 4.5;
        check(solve_one(1, 0, arm, SAIHKEB_ARM, pose, SAIHKEB_POSE, limits, SAIHKEB_LIMITS) == 10 && zeros(),
              "one: a low above its high");
        check(solve_one(9, 1, arm, 38, pose, 11, limits, SAIHKEB_LIMITS) == 10 && zeros(),
              "one: 10 comes before 4, 5, 6 and 7");
        make_wide(limits);
    }
}

static void one_refusals(void)
{
    const uint64_t families[] = {0, 7, 256, 257, UINT64_C(1) << 32 | 1, UINT64_MAX};
    const double bad[] = {NAN, -NAN, INFINITY, -INFINITY};
    double limits[SAIHKEB_LIMITS], longer[SAIHKEB_ARM + 1] = {0}, off[SAIHKEB_POSE + 1] = {0};
    make_wide(limits);
    memcpy(longer, arm, sizeof arm);
    memcpy(off, pose, sizeof pose);
    for (size_t i = 0; i < sizeof families / sizeof *families; i++) {
        check(solve_one(families[i], 0, arm, SAIHKEB_ARM, pose, SAIHKEB_POSE, NULL, 0) == 4 && zeros(),
              "one: a family that there is not");
        check(solve_one(families[i], 1, arm, 38, pose, 11, limits, SAIHKEB_LIMITS) == 4 && zeros(),
              "one: 4 comes before 5, 6 and 7");
    }
    for (size_t length = 0; length <= SAIHKEB_ARM + 1; length++)
        if (length != SAIHKEB_ARM)
            check(solve_one(1, 1, longer, length, pose, 11, NULL, 0) == 5 && zeros(), "one: 5 comes before 6 and 7");
    for (size_t length = 0; length <= SAIHKEB_POSE + 1; length++)
        if (length != SAIHKEB_POSE)
            check(solve_one(1, 1, arm, SAIHKEB_ARM, off, length, NULL, 0) == 6 && zeros(), "one: 6 comes before 7");
    for (int i = 0; i < SAIHKEB_ARM; i++) {
        longer[i] = bad[i % 4];
        check(solve_one(1, 0, longer, SAIHKEB_ARM, pose, SAIHKEB_POSE, NULL, 0) == 8 && zeros(),
              "one: an arm that is not finite");
        check(solve_one(1, 1, longer, SAIHKEB_ARM, pose, SAIHKEB_POSE, NULL, 0) == 7 && zeros(),
              "one: 7 comes before 8");
        longer[i] = arm[i];
    }
    /* These limits have no answer inside, so that 12 would be given were it not the last. */
    limits[0] = limits[1] = 3.9;
    for (int i = 0; i < SAIHKEB_POSE; i++) {
        off[i] = bad[i % 4];
        check(solve_one(1, 0, arm, SAIHKEB_ARM, off, SAIHKEB_POSE, limits, SAIHKEB_LIMITS) == 8 && zeros(),
              "one: 8 comes before 12");
        off[i] = pose[i];
    }
    check(solve_one(1, 1, arm, SAIHKEB_ARM, pose, SAIHKEB_POSE, limits, SAIHKEB_LIMITS) == 7 && zeros(),
          "one: 7 comes before 12");
    check(solve_one(6, 0, arm, SAIHKEB_ARM, pose, SAIHKEB_POSE, NULL, 0) == 7 && zeros(), "one: family 6 with n = 0");
    check(solve_one(6, 401, arm, SAIHKEB_ARM, pose, SAIHKEB_POSE, NULL, 0) == 7 && zeros(),
          "one: family 6 with n = 401");
}

static void one_answers(void)
{
    double full[48], limits[SAIHKEB_LIMITS];
    for (uint64_t family = 1; family <= 5; family++)
        one_as_list(family, 0, NULL, 0);
    one_as_list(6, 25, NULL, 0);
    solve(1, 0, arm, pose);
    memcpy(full, angles, sizeof full);
    make_wide(limits);
    one_as_list(1, 0, limits, SAIHKEB_LIMITS);
    /* Both ends of a joint at an answer's own angle; one step more, and nothing is inside but by another answer. */
    for (int own = 0; own < 8; own++)
        for (int joint = 0; joint < 6; joint++) {
            double at = full[6 * own + joint];
            make_wide(limits);
            limits[2 * joint] = limits[2 * joint + 1] = at;
            one_as_list(1, 0, limits, SAIHKEB_LIMITS);
            check(one[1 + joint] == at, "one: an answer's own angle for both ends");
            limits[2 * joint] = limits[2 * joint + 1] = nextafter(at, 9);
            one_as_list(1, 0, limits, SAIHKEB_LIMITS);
            one_as_list(6, 7, limits, SAIHKEB_LIMITS);
        }
    /* Each answer alone inside: it is the one that is given. */
    for (int own = 0; own < 8; own++) {
        for (int i = 0; i < SAIHKEB_LIMITS; i++)
            limits[i] = full[6 * own + i / 2];
        check(solve_one(1, 0, arm, SAIHKEB_ARM, pose, SAIHKEB_POSE, limits, SAIHKEB_LIMITS) == 0
                  && !memcmp(one + 1, full + 6 * own, 6 * sizeof *one) && around_one(), "one: the only one inside");
    }
}

/* The first answer is given where it is flagged and another is not, too. */
static void one_flagged(void)
{
    /* An arm of family 4, close to a UR3e. */
    static const double fourth[SAIHKEB_ARM] = {
        0, 0, 1,       0, 1, 0, 0, 1, 0,       0, 1, 0,      0, 0, -1,             0, 1, 0,
        0, 0, 0.15185, 0, 0, 0, 0.24355, 0, 0, 0.2132, 0, 0, 0, 0.13105, -0.08535, 0, 0, 0, 0, 0.0921, 0,
    };
    double at[SAIHKEB_POSE], made[SAIHKEB_ANGLES];
    int before_unflagged = 0;
    for (int place = 0; place < 40; place++) {
        for (int i = 0; i < SAIHKEB_ANGLES; i++)
            made[i] = 3 * sin(1 + place + 7 * i);
        saihkeb_forward_kinematics(fourth, SAIHKEB_ARM, made, SAIHKEB_ANGLES, at, SAIHKEB_POSE);
        solve(4, 0, fourth, at);
        before_unflagged += flags[0] == 1 && memchr(flags, 0, counts[0]) != NULL;
        check(solve_one(4, 0, fourth, SAIHKEB_ARM, at, SAIHKEB_POSE, NULL, 0) == 0 && is_first(),
              "one: the first answer");
    }
    check(before_unflagged > 0, "one: a flagged answer before one without a flag");
}

/* The arm and pose without limits and in wide ones: 12 with an empty list, and else its first answer. */
static void one_reach(uint64_t family, uint64_t n, const double *a, const double *p, int answers, const char *text)
{
    double limits[SAIHKEB_LIMITS];
    make_wide(limits);
    check(solve(family, n, a, p) == 0 && (counts[0] > 0) == answers, text);
    check(solve_one(family, n, a, SAIHKEB_ARM, p, SAIHKEB_POSE, NULL, 0) == (answers ? 0 : 12), text);
    check(answers ? is_first() : zeros(), text);
    check(solve_one(family, n, a, SAIHKEB_ARM, p, SAIHKEB_POSE, limits, SAIHKEB_LIMITS) == (answers ? 0 : 12), text);
    check(answers ? is_first() : zeros(), text);
}

/* 12 where the limits leave no answer, and where there is none without limits. */
static void one_empty(void)
{
    /* Arms of family 3 and 6. */
    static const double third[SAIHKEB_ARM] = {
        0, 0, 1,   0, 1, 0,    0.6, 0, 0.8,  1, 0, 0,    0, 1, 0, 1, 0, 0,
        0, 0, 0.3, 0.3, 0, 0.1, 0.1, 0.2, 0.5, 0.6, 0.1, 0.2, 0, 0, 0, 0, 0, 0, 0.2, 0, 0,
    };
    static const double sixth[SAIHKEB_ARM] = {
        0, 0, 1,     0, 1, 0, 0, 1, 0,     1, 0, 0,       0, 1, 0,         1, 0, 0,
        0, 0, 0.265, 0, 0, 0, 0, 0, 0.444, 0, 0.01, 0.11, 0.47, 0.03, 0.02, 0.101, 0.02, 0.08, 0.05, 0, 0,
    };
    double limits[SAIHKEB_LIMITS], at[SAIHKEB_POSE];
    for (int joint = 0; joint < 6; joint++) {
        make_wide(limits);
        limits[2 * joint] = limits[2 * joint + 1] = 3.9;
        check(limited(limits, SAIHKEB_LIMITS) == 0 && counts[0] == 0, "limits that exclude all");
        check(solve_one(1, 0, arm, SAIHKEB_ARM, pose, SAIHKEB_POSE, limits, SAIHKEB_LIMITS) == 12 && zeros(),
              "one: limits that exclude all");
    }
    saihkeb_forward_kinematics(third, SAIHKEB_ARM, taught, SAIHKEB_ANGLES, at, SAIHKEB_POSE);
    one_reach(3, 0, third, at, 1, "one: family 3");
    at[9] += 20;
    one_reach(3, 0, third, at, 0, "one: family 3, out of reach");
    saihkeb_forward_kinematics(sixth, SAIHKEB_ARM, taught, SAIHKEB_ANGLES, at, SAIHKEB_POSE);
    one_reach(6, 25, sixth, at, 1, "one: family 6");
    at[9] += 20;
    one_reach(6, 25, sixth, at, 0, "one: family 6, out of reach");
    /* In family 1 such a pose has answers, flagged. */
    memcpy(at, pose, sizeof at);
    at[9] += 20;
    one_reach(1, 0, arm, at, 1, "one: family 1, out of reach");
    check(one_flag[1] == 1, "one: family 1, out of reach: flagged");
}

static void ones(void)
{
    one_nulls();
    one_bad_limits();
    one_refusals();
    one_answers();
    one_flagged();
    one_empty();
}

/*
 * Seven axes. With joint j of them locked at LOCKED, this arm leaves `arm`, up to rounding: the axis and the
 * offset that are put in are along one line, and what is behind them is turned back.
 */
#define LOCKED 0.6
static double track[SAIHKEB_TRACK_ARM], there[SAIHKEB_POSE];

/* v turned about the z axis. */
static void turn(double angle, const double *v, double *out)
{
    double c = cos(angle), s = sin(angle);
    out[0] = c * v[0] - s * v[1];
    out[1] = s * v[0] + c * v[1];
    out[2] = v[2];
}

/* The pose of the whole is the one that the arm left makes at the taught angles. */
static void make_track(int joint)
{
    const double *offsets = arm + 18;
    double *h = track, *p = track + 21;
    for (int i = 0; i < 7; i++)
        if (i < joint)
            memcpy(h + 3 * i, arm + 3 * i, 3 * sizeof *h);
        else if (i > joint)
            turn(-LOCKED, arm + 3 * (i - 1), h + 3 * i);
    h[3 * joint] = h[3 * joint + 1] = 0, h[3 * joint + 2] = 1;
    for (int i = 0; i < 8; i++)
        if (i <= joint)
            memcpy(p + 3 * i, offsets + 3 * i, 3 * sizeof *p);
        else if (i > joint + 1)
            turn(-LOCKED, offsets + 3 * (i - 1), p + 3 * i);
    p[3 * joint + 2] -= 0.25;
    p[3 * joint + 3] = p[3 * joint + 4] = 0, p[3 * joint + 5] = 0.25;
    /* The rotation handed on is there's times the transpose of r, so there's is pose's times r. */
    memcpy(there, pose, sizeof there);
    for (int row = 0; row < 3; row++)
        turn(-LOCKED, pose + 3 * row, there + 3 * row);
}

static uint64_t solve_track(uint64_t family, uint64_t n, size_t arm_length, uint64_t joint, double angle,
                            size_t pose_length)
{
    clear();
    return saihkeb_solve_track(family, n, track, arm_length, joint, angle, there, pose_length, angles, 7 * ROOM, flags,
                               ROOM, counts);
}

static uint64_t locked(uint64_t joint, double angle)
{
    return solve_track(1, 0, SAIHKEB_TRACK_ARM, joint, angle, SAIHKEB_POSE);
}

/* Eight answers as sevens, which are those of the arm that is left and the locked angle, bit for bit. */
static void track_answers(int joint)
{
    double by_six[48], put[1] = {LOCKED};
    uint8_t six_flags[8];
    int same = 1, near_by = 1;
    make_track(joint);
    solve(1, 0, arm, pose);
    memcpy(by_six, angles, sizeof by_six);
    memcpy(six_flags, flags, sizeof six_flags);
    check(locked((uint64_t)joint, LOCKED) == 0 && counts[0] == 8 && counts[1] == 0 && kept_of(8, 7),
          "track: 8 answers as sevens and no more");
    for (int i = 0; i < 8; i++) {
        const double *seven = angles + 7 * i;
        same &= !memcmp(seven + joint, put, sizeof *put) && flags[i] == six_flags[i];
        for (int j = 0; j < 6; j++)
            near_by &= fabs(seven[j + (j >= joint)] - by_six[6 * i + j]) < 1e-9;
    }
    check(same, "track: the locked angle at its joint, and the flags");
    check(near_by, "track: the angles of the arm that is left");
}

static void track_rooms(int joint)
{
    double full[7 * 8];
    make_track(joint);
    locked((uint64_t)joint, LOCKED);
    memcpy(full, angles, sizeof full);
    for (size_t room = 0; room <= 60; room++) {
        size_t fit = room / 7 < 8 ? room / 7 : 8;
        clear();
        check(saihkeb_solve_track(1, 0, track, SAIHKEB_TRACK_ARM, (uint64_t)joint, LOCKED, there, SAIHKEB_POSE, angles,
                                  room, flags, ROOM, counts) == (room < 56 ? 9 : 0), "track: 9 goes by whole sevens");
        check(counts[0] == 8 && kept_of((int)fit, 7) && !memcmp(full, angles, 7 * fit * sizeof *full),
              "track: the first that fit, and the number");
    }
    for (size_t room = 0; room <= 10; room++) {
        size_t fit = room < 8 ? room : 8;
        clear();
        check(saihkeb_solve_track(1, 0, track, SAIHKEB_TRACK_ARM, (uint64_t)joint, LOCKED, there, SAIHKEB_POSE, angles,
                                  7 * ROOM, flags, room, counts) == (room < 8 ? 9 : 0) && counts[0] == 8
                  && kept_of((int)fit, 7), "track: flags for some answers");
    }
}

static void track_nulls(void)
{
    make_track(0);
    clear();
    check(saihkeb_solve_track(1, 0, NULL, 0, 0, 0, NULL, 0, NULL, 0, NULL, 0, counts) == 5 && none(),
          "track: all lists NULL, 0");
    check(saihkeb_solve_track(1, 0, NULL, SAIHKEB_TRACK_ARM, 0, 0, there, SAIHKEB_POSE, angles, 7 * ROOM, flags, ROOM,
                              counts) == 5 && none(), "track: NULL is an empty list, whatever its length says");
    check(saihkeb_solve_track(1, 0, track, SAIHKEB_TRACK_ARM, 0, 0, NULL, SAIHKEB_POSE, NULL, 0, NULL, 0, counts) == 6,
          "track: pose NULL");
    check(saihkeb_solve_track(1, 0, track, SAIHKEB_TRACK_ARM, 0, LOCKED, there, SAIHKEB_POSE, NULL, 0, NULL, 0, counts)
              == 9 && counts[0] == 8, "track: NULL, 0 for both lists gives the number alone");
    clear();
    check(saihkeb_solve_track(1, 0, track, SAIHKEB_TRACK_ARM, 0, LOCKED, there, SAIHKEB_POSE, angles, 7 * ROOM, NULL,
                              ROOM, counts) == 9 && counts[0] == 8 && kept(0), "track: flags NULL");
    check(saihkeb_solve_track(1, 0, track, SAIHKEB_TRACK_ARM, 0, LOCKED, there, SAIHKEB_POSE, NULL, 7 * ROOM, flags,
                              ROOM, counts) == 9 && counts[0] == 8 && kept(0), "track: angles NULL");
}

static void track_refusals(void)
{
    const uint64_t no_joint[] = {7, 8, 255, 256, UINT64_C(1) << 32, UINT64_C(1) << 63, UINT64_MAX};
    const double bad[] = {NAN, -NAN, INFINITY, -INFINITY};
    const double good[] = {0, -0.0, 1e-310, -7, 1e9, -DBL_MAX, DBL_MAX};
    make_track(0);
    check(solve_track(0, 0, 44, 7, NAN, 11) == 4 && none(), "track: 4 comes first");
    check(solve_track(7, 0, 45, 0, LOCKED, 12) == 4 && none(), "track: family 7");
    for (size_t length = 0; length < SAIHKEB_TRACK_ARM; length++)
        check(solve_track(1, 1, length, 7, NAN, 11) == 5 && none(), "track: an arm that is short, and 5 before 6");
    for (size_t length = 0; length < SAIHKEB_POSE; length++)
        check(solve_track(1, 1, 45, 7, NAN, length) == 6 && none(), "track: a pose that is short, and 6 before 11");
    double longer[SAIHKEB_TRACK_ARM + 1] = {0};
    memcpy(longer, track, sizeof track);
    clear();
    check(saihkeb_solve_track(1, 0, longer, 46, 0, LOCKED, there, 12, angles, 7 * ROOM, flags, ROOM, counts) == 5
              && none(), "track: an arm of 46 numbers");
    check(saihkeb_solve_track(1, 0, track, 45, 0, LOCKED, longer, 13, angles, 7 * ROOM, flags, ROOM, counts) == 6
              && none(), "track: a pose of 13 numbers");
    check(saihkeb_solve_track(1, 0, arm, SAIHKEB_ARM, 0, LOCKED, there, 12, angles, 7 * ROOM, flags, ROOM, counts) == 5
              && none(), "track: an arm of 39 numbers");
    for (size_t i = 0; i < sizeof no_joint / sizeof *no_joint; i++)
        check(locked(no_joint[i], LOCKED) == 11 && none(), "track: a joint above 6");
    for (uint64_t joint = 0; joint < 7; joint++) {
        for (int i = 0; i < 4; i++)
            check(locked(joint, bad[i]) == 11 && none(), "track: an angle that is not finite");
        for (size_t i = 0; i < sizeof good / sizeof *good; i++)
            check(locked(joint, good[i]) == 0 && counts[0] <= 8, "track: any other angle");
    }
    check(solve_track(1, 1, 45, 7, LOCKED, 12) == 11 && none(), "track: 11 comes before 7");
    check(solve_track(1, 1, 45, 6, LOCKED, 12) == 7 && none(), "track: family 1 with n = 1");
    check(solve_track(6, 0, 45, 6, LOCKED, 12) == 7 && none(), "track: family 6 with n = 0");
    check(solve_track(6, 401, 45, 6, LOCKED, 12) == 7 && none(), "track: family 6 with n = 401");
    for (int i = 0; i < SAIHKEB_TRACK_ARM; i++) {
        double was = track[i];
        track[i] = bad[i % 4];
        check(locked(0, LOCKED) == 8 && none(), "track: an arm that is not finite");
        check(solve_track(1, 1, 45, 6, LOCKED, 12) == 7 && none(), "track: 7 comes before 8");
        check(locked(0, NAN) == 11 && none(), "track: 11 comes before 8");
        track[i] = was;
    }
    for (int i = 0; i < SAIHKEB_POSE; i++) {
        double was = there[i];
        there[i] = bad[i % 4];
        check(locked(6, LOCKED) == 8 && none(), "track: a pose that is not finite");
        there[i] = was;
    }
}

/* What locking makes of numbers that are finite. */
static void track_handed_on(int joint)
{
    const double tiny[] = {0, 1e-310, 1e-163};
    double *axis = track + 3 * joint;
    make_track(joint);
    for (int i = 0; i < 3; i++) {
        axis[0] = axis[1] = axis[2] = tiny[i];
        check(locked((uint64_t)joint, LOCKED) == 8 && none(), "track: a locked axis of no length");
        check(locked((uint64_t)joint, 0) == 8 && none(), "track: a locked axis of no length, not turned");
    }
    for (double size = 1e-150; size < 1e151; size *= 1e10) {
        make_track(joint);
        axis[2] = size;
        check(locked((uint64_t)joint, LOCKED) == 0 && counts[0] == 8 && flags[0] == 0,
              "track: a locked axis of any length");
    }
    /* As if the joint stood at zero, but for the angle that comes back. */
    double unturned[7];
    make_track(joint);
    check(locked((uint64_t)joint, 0) == 0 && counts[0] > 0, "track: locked at zero");
    memcpy(unturned, angles, sizeof unturned);
    unturned[joint] = LOCKED;
    axis[2] = 1e155;
    check(locked((uint64_t)joint, LOCKED) == 0 && counts[0] > 0, "track: a locked axis of a huge length");
    for (int i = 0; i < 7; i++)
        check(fabs(angles[i] - unturned[i]) < 1e-9, "track: a locked axis of a huge length turns nothing");
    make_track(joint);
    track[21 + 3 * joint] = DBL_MAX, track[21 + 3 * joint + 3] = DBL_MAX;
    check(locked((uint64_t)joint, LOCKED) == 8 && none(), "track: an offset that overflows");
    make_track(joint);
    there[0] = there[1] = DBL_MAX;
    check(locked((uint64_t)joint, -LOCKED) == 8 && none(), "track: a rotation that overflows");
    make_track(joint);
    there[9] = DBL_MAX;
    check(locked((uint64_t)joint, LOCKED) == 0, "track: the place is handed on as it is");
    if (joint < 6) {
        make_track(joint);
        track[3 * joint + 3] = DBL_MAX, track[3 * joint + 4] = -DBL_MAX;
        check(locked((uint64_t)joint, LOCKED) == 8 && none(), "track: an axis that overflows");
        make_track(joint);
        track[21 + 21] = DBL_MAX, track[21 + 22] = -DBL_MAX;
        check(locked((uint64_t)joint, LOCKED) == 8 && none(), "track: the last offset overflows");
    }
    make_track(joint);
    check(solve_track(6, 25, 45, (uint64_t)joint, LOCKED, 12) % 9 == 0 && counts[1] >= 26
              && counts[1] <= 25 + 1 + 3128 * 25, "track: a search");
}

static void tracks(void)
{
    track_nulls();
    track_refusals();
    for (int joint = 0; joint < 7; joint++) {
        track_answers(joint);
        track_rooms(joint);
        track_handed_on(joint);
    }
}

/*
 * A file of arms. The buffer stands at an odd address among bytes that no call may change, and after each call it is
 * held against `want`.
 */
#define BLOCKS 256
#define AROUND 32
static uint8_t lent[AROUND + 1 + BLOCKS * SAIHKEB_BLOCK + AROUND], want[BLOCKS * SAIHKEB_BLOCK];
static uint8_t *const file = lent + AROUND + 1;
static double found[SAIHKEB_ARM + 2];

/* An arm for each number. */
static void make_arm(int number, double *out)
{
    for (int i = 0; i < SAIHKEB_ARM; i++)
        out[i] = arm[i] + number * (i % 5 - 2) * 0.125;
    out[number % SAIHKEB_ARM] = -0.0;
}

static void make_arm_block(uint8_t *block, int number)
{
    double of[SAIHKEB_ARM];
    memset(block, 0, SAIHKEB_BLOCK);
    if (!number)
        return;
    make_arm(number, of);
    block[0] = (uint8_t)number;
    memcpy(block + 8, of, sizeof of);
    put_check(block);
}

/* Blocks by their numbers, 0 for an empty one. */
static void make_file(const int *numbers, int count)
{
    memset(lent, 0xc3, sizeof lent);
    memset(want, 0, sizeof want);
    for (int i = 0; i < count; i++)
        make_arm_block(want + SAIHKEB_BLOCK * i, numbers[i]);
    memcpy(file, want, sizeof want);
}

/* Whether the buffer is what is wanted, and nothing around it has changed. */
static int as_wanted(void)
{
    for (int i = 0; i < AROUND; i++)
        if (lent[i] != 0xc3 || file[sizeof want + (size_t)i] != 0xc3)
            return 0;
    return !memcmp(file, want, sizeof want);
}

static uint64_t put(size_t length, int number)
{
    double of[SAIHKEB_ARM];
    make_arm(number ? number : 99, of);
    return saihkeb_arms_put(file, length, (uint8_t)number, of, SAIHKEB_ARM);
}

static uint64_t find(size_t length, int number)
{
    for (int i = 0; i < SAIHKEB_ARM + 2; i++)
        found[i] = MARK;
    return saihkeb_arms_find(file, length, (uint8_t)number, found + 1);
}

/* What find wrote: the arm of a number, or with 0 39 times +0.0, by their bits. */
static int found_arm(int number)
{
    double of[SAIHKEB_ARM] = {0};
    if (number)
        make_arm(number, of);
    return !memcmp(found + 1, of, sizeof of) && found[0] == MARK && found[SAIHKEB_ARM + 1] == MARK;
}

/* Every call gives this refusal, whatever it is handed, and changes no byte. */
static void all_refuse(size_t length, uint64_t refusal, const char *text)
{
    const int numbers[] = {0, 1, 7, 255};
    memcpy(file, want, sizeof want);
    for (int i = 0; i < 4; i++) {
        check(put(length, numbers[i]) == refusal && as_wanted(), text);
        check(saihkeb_arms_put(file, length, (uint8_t)numbers[i], NULL, 0) == refusal && as_wanted(), text);
        check(find(length, numbers[i]) == refusal && found_arm(0) && as_wanted(), text);
        check(saihkeb_arms_take_out(file, length, (uint8_t)numbers[i]) == refusal && as_wanted(), text);
    }
    check(saihkeb_arms_compact(file, length) == refusal && as_wanted(), text);
}

static void arms_nulls(void)
{
    double bad[SAIHKEB_ARM] = {NAN};
    const size_t lengths[] = {0, 1, SAIHKEB_BLOCK, 4 * SAIHKEB_BLOCK};
    for (int i = 0; i < 4; i++) {
        check(saihkeb_arms_put(NULL, lengths[i], 7, NULL, SAIHKEB_ARM) == 5, "arms: put into NULL: 5 first");
        check(saihkeb_arms_put(NULL, lengths[i], 0, bad, SAIHKEB_ARM) == 8, "arms: put into NULL: then 8");
        check(saihkeb_arms_put(NULL, lengths[i], 0, arm, SAIHKEB_ARM) == 13, "arms: put into NULL: then 13");
        check(saihkeb_arms_put(NULL, lengths[i], 7, arm, SAIHKEB_ARM) == 15, "arms: put into NULL: no room");
        for (int j = 0; j < SAIHKEB_ARM + 2; j++)
            found[j] = MARK;
        check(saihkeb_arms_find(NULL, lengths[i], 7, found + 1) == 14 && found_arm(0), "arms: find in NULL");
        check(saihkeb_arms_take_out(NULL, lengths[i], 7) == 14, "arms: take out of NULL");
        check(saihkeb_arms_compact(NULL, lengths[i]) == 0, "arms: compact NULL");
    }
    make_file(NULL, 0);
    check(put(0, 7) == 15 && find(0, 7) == 14 && saihkeb_arms_compact(file, 0) == 0 && as_wanted(),
          "arms: a buffer of no bytes");
    check(saihkeb_arms_put(file, SAIHKEB_BLOCK, 7, NULL, SAIHKEB_ARM) == 5 && as_wanted(), "arms: an arm that is NULL");
}

/* Lengths: a multiple of 512 is valid, any other refused, zero bytes or not. */
static void arms_lengths(void)
{
    const int numbers[] = {7, 0, 8, 0};
    for (size_t length = 0; length <= 3 * SAIHKEB_BLOCK; length++) {
        uint64_t whole = length % SAIHKEB_BLOCK == 0;
        make_file(NULL, 0);
        check(find(length, 0) == (whole ? 14 : 1) && found_arm(0), "arms: zero bytes of any length");
        check(saihkeb_arms_compact(file, length) == (whole ? 0 : 1) && as_wanted(), "arms: zero bytes compacted");
        make_file(numbers, 4);
        check(find(length, 0) == (whole ? 14 : 1), "arms: a buffer cut anywhere");
        check(find(length, 8) == (whole ? length == 3 * SAIHKEB_BLOCK ? 0 : 14 : 1), "arms: a find past the cut");
    }
    make_file(numbers, 4);
    all_refuse(2 * SAIHKEB_BLOCK + 1, 1, "arms: 1, a short last block");
}

/* Each fault, alone and with others, and in which block. */
static void arms_faults(void)
{
    const int numbers[] = {7, 0, 8, 9};
    const double bad[] = {NAN, -NAN, INFINITY, -INFINITY};
    const size_t length = 4 * SAIHKEB_BLOCK;
    uint8_t *third = want + 2 * SAIHKEB_BLOCK, *last = want + 3 * SAIHKEB_BLOCK;
    for (size_t at = 0; at < length; at++) {
        make_file(numbers, 4);
        file[at] ^= 0x10;
        check(find(length, 7) == 2 && found_arm(0), "arms: a bit that is off is 2");
    }
    for (int at = 0; at < SAIHKEB_BLOCK - 8; at++) {
        int reserved = (at >= 1 && at < 8) || at >= 8 * 40;
        if (!reserved)
            continue;
        make_file(numbers, 4);
        third[at] = 1;
        put_check(third);
        memcpy(file, want, sizeof want);
        check(find(length, 7) == 3 && found_arm(0) && as_wanted(), "arms: a reserved byte is 3");
    }
    for (int i = 0; i < SAIHKEB_ARM; i++) {
        make_file(numbers, 4);
        memcpy(third + 8 + 8 * i, bad + i % 4, 8);
        put_check(third);
        memcpy(file, want, sizeof want);
        check(find(length, 7) == 8 && found_arm(0) && as_wanted(), "arms: a held arm that is not finite is 8");
    }
    make_file(numbers, 4);
    last[0] = 7;
    put_check(last);
    all_refuse(length, 13, "arms: 13, a number that an earlier block has");
    all_refuse(length + 1, 13, "arms: an earlier block's 13 comes before 1");
    make_file(numbers, 4);
    third[0] = 0;
    put_check(third);
    all_refuse(length, 13, "arms: 13, a block that is not empty and has number 0");
    memcpy(third + 8, bad, 8);
    put_check(third);
    all_refuse(length, 8, "arms: in a block 8 comes before 13");
    third[7] = 1;
    put_check(third);
    all_refuse(length, 3, "arms: in a block 3 comes before 8");
    third[100] ^= 1;
    all_refuse(length, 2, "arms: in a block 2 comes before 3");
    last[0] = 0;
    put_check(last);
    all_refuse(length, 2, "arms: the first block with a fault decides");
    make_block(want, 1);
    all_refuse(length, 3, "arms: a pose block is 3");
    for (uint64_t family = 1; family <= 7; family++) {
        make_block(file, family);
        memset(file + 8 + sizeof arm, 0, sizeof pose);
        put_check(file);
        check(solve_block(file, SAIHKEB_BLOCK) == (family < 6 ? 0 : family == 6 ? 7 : 4), "a pose block of zeros");
        check(find(SAIHKEB_BLOCK, (int)family) == 0 && !memcmp(found + 1, arm, sizeof arm),
              "arms: a pose block of zeros passes for an arm block");
    }
    double limits[SAIHKEB_LIMITS];
    make_wide(limits);
    make_limits_block(want, limits);
    all_refuse(length, 3, "arms: a limits block is 3");
}

static void arms_put(void)
{
    const int numbers[] = {7, 0, 8, 0};
    double bad[SAIHKEB_ARM], longer[SAIHKEB_ARM + 6] = {0};
    const size_t length = 4 * SAIHKEB_BLOCK;
    make_file(numbers, 4);
    for (size_t of = 0; of <= SAIHKEB_ARM + 6; of++)
        if (of != SAIHKEB_ARM)
            check(saihkeb_arms_put(file, length, 0, longer, of) == 5 && as_wanted(), "arms: 5, an arm of another length");
    for (int i = 0; i < SAIHKEB_ARM; i++) {
        make_arm(9, bad);
        bad[i] = i % 3 ? INFINITY : NAN;
        check(saihkeb_arms_put(file, length, 0, bad, SAIHKEB_ARM) == 8 && as_wanted(), "arms: 8 comes before 13");
        check(saihkeb_arms_put(file, length, 7, bad, SAIHKEB_ARM) == 8 && as_wanted(), "arms: 8, an arm not finite");
    }
    check(put(length, 0) == 13 && as_wanted(), "arms: 13, put of number 0");
    check(put(length, 7) == 13 && put(length, 8) == 13 && as_wanted(), "arms: 13, put of a number held");
    check(put(length, 200) == 0, "arms: put");
    make_arm_block(want + SAIHKEB_BLOCK, 200);
    check(as_wanted(), "arms: put goes into the first empty block, and changes no other byte");
    check(put(length, 255) == 0, "arms: put into the last block");
    make_arm_block(want + 3 * SAIHKEB_BLOCK, 255);
    check(as_wanted(), "arms: the last block");
    check(put(length, 8) == 13 && put(length, 0) == 13 && as_wanted(), "arms: 13 comes before 15");
    check(put(length, 9) == 15 && as_wanted(), "arms: 15, no block is empty");
    check(put(length - SAIHKEB_BLOCK, 255) == 15 && as_wanted(), "arms: bytes past the length are not read");
}

static void arms_find_and_take_out(void)
{
    const int numbers[] = {0, 7, 255, 0, 8};
    const size_t length = 5 * SAIHKEB_BLOCK;
    make_file(numbers, 5);
    for (int number = 0; number < 256; number++) {
        int held = number == 7 || number == 8 || number == 255;
        check(find(length, number) == (held ? 0 : 14) && found_arm(held ? number : 0) && as_wanted(),
              "arms: find gives the arm bit for bit, or zeros");
        if (!held)
            check(saihkeb_arms_take_out(file, length, (uint8_t)number) == 14 && as_wanted(),
                  "arms: 14, take out of a number not held");
    }
    check(saihkeb_arms_take_out(file, length, 255) == 0, "arms: take out");
    memset(want + 2 * SAIHKEB_BLOCK, 0, SAIHKEB_BLOCK);
    check(as_wanted(), "arms: its block becomes zero, and no other byte changes");
    check(saihkeb_arms_take_out(file, length, 255) == 14 && find(length, 255) == 14 && as_wanted(), "arms: then 14");
    check(saihkeb_arms_compact(file, length) == 0, "arms: compact");
    make_arm_block(want, 7);
    make_arm_block(want + SAIHKEB_BLOCK, 8);
    memset(want + 2 * SAIHKEB_BLOCK, 0, 3 * SAIHKEB_BLOCK);
    check(as_wanted(), "arms: compact moves the arms to the front and makes the rest zero");
    check(find(length, 7) == 0 && found_arm(7) && find(length, 8) == 0 && found_arm(8), "arms: and changes no find");
    check(saihkeb_arms_compact(file, length) == 0 && as_wanted(), "arms: a second compact changes nothing");
}

/* All 255 numbers in one buffer. */
static void arms_many(void)
{
    const size_t length = sizeof want;
    make_file(NULL, 0);
    for (int number = 255; number > 0; number--) {
        check(put(length, number) == 0, "arms: 255 puts");
        make_arm_block(want + (255 - number) * SAIHKEB_BLOCK, number);
    }
    check(as_wanted(), "arms: 255 arms, one behind the other");
    for (int number = 0; number < 256; number++)
        check(put(length, number) == 13 && as_wanted(), "arms: then every put is 13, though a block is empty");
    for (int number = 1; number < 256; number += 2) {
        check(saihkeb_arms_take_out(file, length, (uint8_t)number) == 0, "arms: every other one taken out");
        check(find(length, number + 1) == (number < 255 ? 0 : 14) && found_arm(number < 255 ? number + 1 : 0),
              "arms: the others are found");
    }
    check(saihkeb_arms_compact(file, length) == 0, "arms: 127 arms compacted");
    memset(want, 0, sizeof want);
    for (int i = 0; i < 127; i++)
        make_arm_block(want + i * SAIHKEB_BLOCK, 254 - 2 * i);
    check(as_wanted(), "arms: 127 arms at the front, in their order");
}

static void arms(void)
{
    arms_nulls();
    arms_lengths();
    arms_faults();
    arms_put();
    arms_find_and_take_out();
    arms_many();
}

/* The answers of another rounding are others. */
static void rounding(void)
{
    double before[48];
    solve(1, 0, arm, pose);
    memcpy(before, angles, sizeof before);
    fesetround(FE_UPWARD);
    solve(1, 0, arm, pose);
    fesetround(FE_TONEAREST);
    check(memcmp(before, angles, sizeof before) != 0, "rounded upward, the bits are others");
    solve(1, 0, arm, pose);
    check(memcmp(before, angles, sizeof before) == 0, "rounded to nearest, they are the same each time");
}

static void *every_family(void *unused)
{
    for (uint64_t family = 1; family <= 6; family++) {
        check(solve(family, family == 6 ? 400 : 0, arm, pose) % 9 == 0, "a solve in a thread with 256 KB");
        check(solve_one(family, family == 6 ? 400 : 0, arm, SAIHKEB_ARM, pose, SAIHKEB_POSE, NULL, 0) % 12 == 0,
              "one: a solve in a thread with 256 KB");
        check(solve_track(family, family == 6 ? 400 : 0, 45, 6, LOCKED, 12) % 9 == 0,
              "track: a solve in a thread with 256 KB");
    }
    return unused;
}

static void thread(void)
{
    pthread_t it;
    pthread_attr_t with;
    pthread_attr_init(&with);
    check(pthread_attr_setstacksize(&with, 256 * 1024) == 0, "a stack of 256 KB");
    check(pthread_create(&it, &with, every_family, NULL) == 0, "a thread");
    pthread_join(it, NULL);
}

int main(void)
{
    check(saihkeb_forward_kinematics(arm, SAIHKEB_ARM, taught, SAIHKEB_ANGLES, pose, SAIHKEB_POSE) == 0, "the pose");
    nulls();
    refusals();
    lists();
    bad_limits();
    good_limits();
    nans();
    blocks();
    blocks_under_limits();
    limits_blocks();
    forward();
    ones();
    tracks();
    arms();
    rounding();
    thread();
    printf("%d checks, %d wrong\n", checks, wrong);
    return wrong != 0;
}
