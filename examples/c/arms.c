/*
 * Keeps two arms in a file of arms, a static buffer of four blocks, finds one of them by its number and solves a
 * pose with it: prints the angles of each answer in degrees, as solve.c does for the same arm.
 *
 *   arms        that
 *   arms file   the buffer itself, which tools/arms.py lists and changes
 */
#include <inttypes.h>
#include <math.h>
#include <stdio.h>
#include <string.h>

#include "saihkeb.h"

#define DEGREE (3.14159265358979323846 / 180)
#define ROOM 8    /* answers that there is room for: no family but 6 has more */
#define NEAR 1e-6 /* in metres, and in an entry of the rotation */
#define BLOCKS 4  /* arms that there is room for */

/* The file keeps an arm and its number, and not the family: that is kept here. Lengths in metres. */
static const struct {
    uint8_t number;
    uint64_t family;
    double arm[SAIHKEB_ARM];
} site[] = {
    {12, 1, /* close to a Puma 560 */
     {0, 0, 1,      0, 1, 0,      0, 1, 0,           0, 0, 1,            0, 1, 0, 0, 0, 1,
      0, 0, 0.6718, 0, 0.2435, 0, 0.4318, -0.0934, 0, -0.0203, 0, 0.4331, 0, 0, 0, 0, 0, 0, 0, 0, 0.0563}},
    {7, 1, /* the large arm of solve.c */
     {0, 0, 1, 0, 1, 0,       0, 1, 0,     1, 0, 0,        0, 1, 0, 1, 0, 0,
      0, 0, 0, 0.32, 0, 0.78, 0, 0, 1.075, 1.1425, 0, 0.2, 0, 0, 0, 0, 0, 0, 0.2, 0, 0}},
};
#define SITE (sizeof site / sizeof *site)
#define WANTED 7

/* The joint angles that make the pose, in degrees. */
static const double taught[SAIHKEB_ANGLES] = {30, -20, 15, 40, -60, 75};

/* Zero bytes are an empty file of arms. */
static uint8_t file[BLOCKS * SAIHKEB_BLOCK];

static int refused(const char *what, uint64_t refusal)
{
    fprintf(stderr, "%s: refusal %" PRIu64 "\n", what, refusal);
    return 1;
}

/* Whether the arm makes the pose with these angles. The flag does not say it, and a NaN fails here. */
static int makes(const double arm[SAIHKEB_ARM], const double q[SAIHKEB_ANGLES], const double pose[SAIHKEB_POSE])
{
    double at[SAIHKEB_POSE];
    if (saihkeb_forward_kinematics(arm, SAIHKEB_ARM, q, SAIHKEB_ANGLES, at, SAIHKEB_POSE))
        return 0;
    for (int i = 0; i < SAIHKEB_POSE; i++)
        if (!(fabs(at[i] - pose[i]) <= NEAR))
            return 0;
    return 1;
}

static int print_answers(uint64_t family, const double arm[SAIHKEB_ARM])
{
    double q[SAIHKEB_ANGLES], pose[SAIHKEB_POSE], angles[6 * ROOM];
    uint8_t flags[ROOM];
    uint64_t counts[2];
    for (int i = 0; i < SAIHKEB_ANGLES; i++)
        q[i] = taught[i] * DEGREE;
    saihkeb_forward_kinematics(arm, SAIHKEB_ARM, q, SAIHKEB_ANGLES, pose, SAIHKEB_POSE);
    uint64_t refusal = saihkeb_solve(family, 0, arm, SAIHKEB_ARM, pose, SAIHKEB_POSE, NULL, 0, angles, 6 * ROOM, flags,
                                     ROOM, counts);
    if (refusal)
        return refused("solve", refusal);
    for (uint64_t i = 0; i < counts[0]; i++) {
        for (unsigned j = 0; j < 6; j++)
            printf("%10.4f", angles[6 * i + j] / DEGREE);
        fputs(flags[i] ? "  least squares" : "", stdout);
        puts(makes(arm, angles + 6 * i, pose) ? "" : "  misses the pose");
    }
    return 0;
}

int main(int count, char **words)
{
    double arm[SAIHKEB_ARM];
    uint64_t refusal, family = 0;
    for (size_t i = 0; i < SITE; i++) {
        refusal = saihkeb_arms_put(file, sizeof file, site[i].number, site[i].arm, SAIHKEB_ARM);
        if (refusal)
            return refused("put", refusal);
        if (site[i].number == WANTED)
            family = site[i].family;
    }
    if (count > 1 && !strcmp(words[1], "file"))
        return fwrite(file, sizeof file, 1, stdout) != 1;
    /* 14 is for a number that is not held, and then arm is 39 zeros: look at the refusal first. */
    refusal = saihkeb_arms_find(file, sizeof file, WANTED, arm);
    if (refusal)
        return refused("find", refusal);
    return print_answers(family, arm);
}
