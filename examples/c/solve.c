/*
 * Solves a pose and prints the angles of each answer in degrees.
 *
 *   solve          the pose below, in degrees
 *   solve inside   the same, with the answers inside the joint limits below alone
 *   solve one      the first answer inside these limits
 *   solve block    that pose as a block of 512 bytes, which the program ik reads too
 *   solve limits   these limits as a limits block
 *   solve lines    blocks from standard input, limits blocks among them, and the program's lines for each
 */
#include <inttypes.h>
#include <math.h>
#include <stdio.h>
#include <string.h>

#include "saihkeb.h"

#define DEGREE (3.14159265358979323846 / 180)
#define ROOM 1024 /* answers that there is room for */
#define NEAR 1e-6 /* in metres, and in an entry of the rotation */
#define LIMITS_HEAD (UINT64_C(1) << 24) /* word 0 of a limits block: byte 3 is 1 */

/* A large arm with a spherical wrist, in metres: family 1. */
#define FAMILY 1
static const double arm[SAIHKEB_ARM] = {
    0, 0, 1,      0, 1, 0,     0, 1, 0,      1, 0, 0,        0, 1, 0,  1, 0, 0,
    0, 0, 0,      0.32, 0, 0.78, 0, 0, 1.075, 1.1425, 0, 0.2, 0, 0, 0,  0, 0, 0,  0.2, 0, 0,
};
/* The joint angles that make the pose, in degrees. */
static const double taught[SAIHKEB_ANGLES] = {30, -20, 15, 40, -60, 75};
/* The stops of each joint, low then high, in degrees. The last joint has none: no angle is beyond 180. */
static const double stops[SAIHKEB_LIMITS] = {-170, 170, -65, 85, -120, 70, -150, 150, -120, 120, -200, 200};

static double angles[6 * ROOM];
static uint8_t flags[ROOM];

static int refused(uint64_t refusal)
{
    fprintf(stderr, "refusal %" PRIu64 "\n", refusal);
    return 1;
}

static void radians(const double *degrees, int count, double *out)
{
    for (int i = 0; i < count; i++)
        out[i] = degrees[i] * DEGREE;
}

/* The pose of the taught angles. */
static uint64_t find_pose(double pose[SAIHKEB_POSE])
{
    double q[SAIHKEB_ANGLES];
    radians(taught, SAIHKEB_ANGLES, q);
    return saihkeb_forward_kinematics(arm, SAIHKEB_ARM, q, SAIHKEB_ANGLES, pose, SAIHKEB_POSE);
}

/* Whether the arm makes the pose with these angles. The flag does not say it, and a NaN fails here. */
static int makes(const double q[SAIHKEB_ANGLES], const double pose[SAIHKEB_POSE])
{
    double at[SAIHKEB_POSE];
    if (saihkeb_forward_kinematics(arm, SAIHKEB_ARM, q, SAIHKEB_ANGLES, at, SAIHKEB_POSE))
        return 0;
    for (int i = 0; i < SAIHKEB_POSE; i++)
        if (!(fabs(at[i] - pose[i]) <= NEAR))
            return 0;
    return 1;
}

static void print_answer(const double q[SAIHKEB_ANGLES], uint8_t flag, const double pose[SAIHKEB_POSE])
{
    for (unsigned j = 0; j < 6; j++)
        printf("%10.4f", q[j] / DEGREE);
    fputs(flag ? "  least squares" : "", stdout);
    puts(makes(q, pose) ? "" : "  misses the pose");
}

/* One answer, and no list. Refused, 12 being none inside the limits, q is six zeros: no answer. */
static int print_one(const double pose[SAIHKEB_POSE], const double *limits, size_t limits_len)
{
    double q[SAIHKEB_ANGLES];
    uint8_t flag[1];
    uint64_t refusal = saihkeb_solve_one(FAMILY, 0, arm, SAIHKEB_ARM, pose, SAIHKEB_POSE, limits, limits_len, q, flag);
    if (refusal)
        return refused(refusal);
    print_answer(q, flag[0], pose);
    return 0;
}

/* The limits are twelve numbers, or NULL, 0. */
static int print_degrees(const double pose[SAIHKEB_POSE], const double *limits, size_t limits_len)
{
    uint64_t counts[2];
    uint64_t refusal = saihkeb_solve(FAMILY, 0, arm, SAIHKEB_ARM, pose, SAIHKEB_POSE, limits, limits_len,
                                     angles, 6 * ROOM, flags, ROOM, counts);
    if (refusal)
        return refused(refusal);
    for (uint64_t i = 0; i < counts[0]; i++)
        print_answer(angles + 6 * i, flags[i], pose);
    return 0;
}

static void put_word(uint8_t *block, int word, uint64_t value)
{
    for (int i = 0; i < 8; i++)
        block[8 * word + i] = (uint8_t)(value >> 8 * i);
}

static uint64_t bits(double x)
{
    uint64_t value;
    if (isnan(x))
        return 0x7ff8000000000000;
    memcpy(&value, &x, sizeof value);
    return value;
}

/* The block whose first words are these, with its check. */
static int write_block(const uint64_t *words, int count)
{
    uint8_t block[SAIHKEB_BLOCK] = {0};
    uint64_t check = 0;
    for (int i = 0; i < count; i++) {
        put_word(block, i, words[i]);
        check += words[i];
    }
    put_word(block, 63, check);
    return fwrite(block, sizeof block, 1, stdout) != 1;
}

static int write_pose_block(const double pose[SAIHKEB_POSE])
{
    uint64_t words[1 + SAIHKEB_ARM + SAIHKEB_POSE] = {FAMILY};
    for (int i = 0; i < SAIHKEB_ARM; i++)
        words[1 + i] = bits(arm[i]);
    for (int i = 0; i < SAIHKEB_POSE; i++)
        words[1 + SAIHKEB_ARM + i] = bits(pose[i]);
    return write_block(words, 1 + SAIHKEB_ARM + SAIHKEB_POSE);
}

static int write_limits_block(const double limits[SAIHKEB_LIMITS])
{
    uint64_t words[1 + SAIHKEB_LIMITS] = {LIMITS_HEAD};
    for (int i = 0; i < SAIHKEB_LIMITS; i++)
        words[1 + i] = bits(limits[i]);
    return write_block(words, 1 + SAIHKEB_LIMITS);
}

static void print_lines(uint64_t place, uint64_t refusal, const uint64_t counts[2])
{
    printf("block %" PRIu64 " refusal %" PRIu64 " answers %" PRIu64 " evals %" PRIu64 "\n",
           place, refusal, counts[0], counts[1]);
    for (uint64_t i = 0; i < counts[0] && i < ROOM; i++) {
        for (unsigned j = 0; j < 6; j++)
            printf("%016" PRIx64 " ", bits(angles[6 * i + j]));
        printf("%d\n", flags[i]);
    }
}

/* As the program does: a limits block that is accepted holds until the next one, has no line and takes no place. */
static int lines(void)
{
    uint8_t block[SAIHKEB_BLOCK];
    double limits[SAIHKEB_LIMITS] = {0};
    size_t length, limits_len = 0;
    uint64_t place = 0;
    while ((length = fread(block, 1, sizeof block, stdin)) > 0) {
        uint64_t refusal, counts[2] = {0, 0};
        if (length == sizeof block && block[3] == 1) {
            refusal = saihkeb_limits_block(block, length, limits);
            if (!refusal) {
                limits_len = SAIHKEB_LIMITS;
                continue;
            }
        } else {
            refusal = saihkeb_solve_block(block, length, limits, limits_len, angles, 6 * ROOM, flags, ROOM, counts);
        }
        print_lines(place++, refusal, counts);
    }
    return 0;
}

int main(int count, char **words)
{
    const char *what = count > 1 ? words[1] : "";
    double pose[SAIHKEB_POSE], limits[SAIHKEB_LIMITS];
    if (!strcmp(what, "lines"))
        return lines();
    radians(stops, SAIHKEB_LIMITS, limits);
    if (!strcmp(what, "limits"))
        return write_limits_block(limits);
    uint64_t refusal = find_pose(pose);
    if (refusal)
        return refused(refusal);
    if (!strcmp(what, "block"))
        return write_pose_block(pose);
    if (!strcmp(what, "inside"))
        return print_degrees(pose, limits, SAIHKEB_LIMITS);
    if (!strcmp(what, "one"))
        return print_one(pose, limits, SAIHKEB_LIMITS);
    return print_degrees(pose, NULL, 0);
}
