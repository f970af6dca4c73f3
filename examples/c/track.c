/*
 * The arm of solve.c on a turntable: seven axes. Locks the turntable at an angle, solves a pose, and prints the
 * seven angles of each answer in degrees, the turntable's first, and whether the arm makes the pose with them.
 */
#include <inttypes.h>
#include <math.h>
#include <stdio.h>

#include "saihkeb.h"

#define DEGREE (3.14159265358979323846 / 180)
#define ROOM 8    /* answers that there is room for: no family but 6 has more */
#define NEAR 1e-6 /* in metres, and in an entry of the rotation */

/*
 * The turntable's axis stands upright in the base, and the arm stands on it 1.5 m from that axis. Behind it are the
 * axes and offsets of the six-axis arm, of family 1; so the arm that is left where the turntable is locked is of
 * family 1 too, at every angle.
 */
#define FAMILY 1
#define TURNTABLE 0 /* the first joint */
static const double arm[SAIHKEB_TRACK_ARM] = {
    0, 0, 1,
    0, 0, 1,    0, 1, 0,     0, 1, 0,        1, 0, 0,     0, 1, 0,        1, 0, 0,
    0, 0, 0.35,
    1.5, 0, 0.2, 0.32, 0, 0.78, 0, 0, 1.075, 1.1425, 0, 0.2, 0, 0, 0,     0, 0, 0,     0.2, 0, 0,
};
/* The angles that make the pose, in degrees. The turntable is locked at the first of them. */
static const double taught[SAIHKEB_TRACK_ANGLES] = {50, 30, -20, 15, 40, -60, 75};

/* v turned by an angle about an axis of length 1. */
static void turn(const double axis[3], double angle, const double v[3], double out[3])
{
    double c = cos(angle), s = sin(angle), along = axis[0] * v[0] + axis[1] * v[1] + axis[2] * v[2];
    for (int i = 0; i < 3; i++) {
        int j = (i + 1) % 3, k = (i + 2) % 3;
        out[i] = c * v[i] + s * (axis[j] * v[k] - axis[k] * v[j]) + (1 - c) * along * axis[i];
    }
}

/* Where the arm takes what stands at v behind its last joint, turned only or turned and moved by the offsets. */
static void carry(const double q[SAIHKEB_TRACK_ANGLES], const double v[3], int moved, double out[3])
{
    double at[3] = {v[0], v[1], v[2]};
    for (int joint = SAIHKEB_TRACK_ANGLES - 1; joint >= 0; joint--) {
        const double *axis = arm + 3 * joint, *offset = arm + 3 * (SAIHKEB_TRACK_ANGLES + joint);
        turn(axis, q[joint], at, out);
        for (int i = 0; i < 3; i++)
            at[i] = out[i] += moved ? offset[i] : 0;
    }
}

/* Forward kinematics of the seven axes: the rotation by rows, then the place. */
static void find_pose(const double q[SAIHKEB_TRACK_ANGLES], double pose[SAIHKEB_POSE])
{
    for (int column = 0; column < 3; column++) {
        double v[3] = {column == 0, column == 1, column == 2}, turned[3];
        carry(q, v, 0, turned);
        for (int row = 0; row < 3; row++)
            pose[3 * row + column] = turned[row];
    }
    carry(q, arm + 3 * (2 * SAIHKEB_TRACK_ANGLES), 1, pose + 9); /* the last offset: the tool */
}

/* Whether the arm makes the pose with these angles. The flag does not say it, and a NaN fails here. */
static int makes(const double q[SAIHKEB_TRACK_ANGLES], const double pose[SAIHKEB_POSE])
{
    double at[SAIHKEB_POSE];
    find_pose(q, at);
    for (int i = 0; i < SAIHKEB_POSE; i++)
        if (!(fabs(at[i] - pose[i]) <= NEAR))
            return 0;
    return 1;
}

int main(void)
{
    double q[SAIHKEB_TRACK_ANGLES], pose[SAIHKEB_POSE], angles[SAIHKEB_TRACK_ANGLES * ROOM];
    uint8_t flags[ROOM];
    uint64_t counts[2];
    for (int i = 0; i < SAIHKEB_TRACK_ANGLES; i++)
        q[i] = taught[i] * DEGREE;
    find_pose(q, pose);
    uint64_t refusal = saihkeb_solve_track(FAMILY, 0, arm, SAIHKEB_TRACK_ARM, TURNTABLE, q[TURNTABLE],
                                           pose, SAIHKEB_POSE, angles, SAIHKEB_TRACK_ANGLES * ROOM, flags, ROOM,
                                           counts);
    if (refusal) {
        fprintf(stderr, "refusal %" PRIu64 "\n", refusal);
        return 1;
    }
    for (uint64_t i = 0; i < counts[0]; i++) {
        const double *answer = angles + SAIHKEB_TRACK_ANGLES * i;
        for (int j = 0; j < SAIHKEB_TRACK_ANGLES; j++)
            printf("%10.4f", answer[j] / DEGREE);
        fputs(flags[i] ? "  least squares" : "", stdout);
        puts(makes(answer, pose) ? "  makes the pose" : "  misses the pose");
    }
    return 0;
}
