/*
 * The most stack that a call uses: each block of standard input is solved in a thread whose stack
 * was filled with a pattern, and what is left of the pattern is counted: once without limits, once
 * with limits that every answer but a NaN is inside of, once for one answer inside these, and once as an arm of
 * seven axes whose first joint is locked. What a thread uses that solves nothing is taken off. Prints, for each
 * family, the number of blocks and the most bytes, of the first two, of the third and of the fourth; then those of
 * forward kinematics, and of the calls on a file of 255 arms.
 */
#define _GNU_SOURCE
#include <pthread.h>
#include <stdint.h>
#include <stdio.h>
#include <stdlib.h>
#include <string.h>
#include <sys/mman.h>

#include "saihkeb.h"

#define STACK (8u << 20)
#define PATTERN 0xa5
#define ROOM 1024

static double angles[7 * ROOM];
static uint8_t flags[ROOM];
static uint64_t counts[2];
static uint8_t block[SAIHKEB_BLOCK];
static double pose[SAIHKEB_POSE];

static void *nothing(void *argument)
{
    return argument;
}

static const double wide[SAIHKEB_LIMITS] = {-4, 4, -4, 4, -4, 4, -4, 4, -4, 4, -4, 4};

static void *solve(void *argument)
{
    saihkeb_solve_block(block, sizeof block, NULL, 0, angles, 6 * ROOM, flags, ROOM, counts);
    return argument;
}

static void *solve_limited(void *argument)
{
    saihkeb_solve_block(block, sizeof block, wide, SAIHKEB_LIMITS, angles, 6 * ROOM, flags, ROOM, counts);
    return argument;
}

static void *solve_one(void *argument)
{
    double arm[SAIHKEB_ARM];
    memcpy(arm, block + 8, sizeof arm);
    memcpy(pose, block + 8 + 8 * SAIHKEB_ARM, sizeof pose);
    saihkeb_solve_one(block[0], block[1] | (uint64_t)block[2] << 8, arm, SAIHKEB_ARM, pose, SAIHKEB_POSE, wide,
                      SAIHKEB_LIMITS, angles, flags);
    return argument;
}

static void *solve_track(void *argument)
{
    double arm[SAIHKEB_TRACK_ARM] = {0, 0, 1};
    memcpy(arm + 3, block + 8, 18 * sizeof *arm);
    memcpy(arm + 24, block + 8 + 8 * 18, 21 * sizeof *arm);
    memcpy(pose, block + 8 + 8 * SAIHKEB_ARM, sizeof pose);
    saihkeb_solve_track(block[0], block[1] | (uint64_t)block[2] << 8, arm, SAIHKEB_TRACK_ARM, 0, 0.5, pose,
                        SAIHKEB_POSE, angles, 7 * ROOM, flags, ROOM, counts);
    return argument;
}

static void *forward(void *argument)
{
    double arm[SAIHKEB_ARM];
    memcpy(arm, block + 8, sizeof arm);
    saihkeb_forward_kinematics(arm, SAIHKEB_ARM, angles, SAIHKEB_ANGLES, pose, SAIHKEB_POSE);
    return argument;
}

/* Every call on a file of arms: puts to fill it, a find, taking out every other arm, compacting. */
static void *file_of_arms(void *argument)
{
    static uint8_t file[256 * SAIHKEB_BLOCK];
    static double arm[SAIHKEB_ARM];
    for (int number = 1; number < 256; number++)
        saihkeb_arms_put(file, sizeof file, (uint8_t)number, arm, SAIHKEB_ARM);
    saihkeb_arms_find(file, sizeof file, 255, arm);
    for (int number = 1; number < 256; number += 2)
        saihkeb_arms_take_out(file, sizeof file, (uint8_t)number);
    saihkeb_arms_compact(file, sizeof file);
    return argument;
}

/* The bytes of the stack that the thread changed. */
static size_t used(void *(*run)(void *))
{
    static uint8_t *stack;
    pthread_attr_t attributes;
    pthread_t thread;
    size_t left = 0;
    if (!stack)
        stack = mmap(NULL, STACK, PROT_READ | PROT_WRITE, MAP_PRIVATE | MAP_ANONYMOUS, -1, 0);
    if (stack == MAP_FAILED)
        exit(1);
    memset(stack, PATTERN, STACK);
    pthread_attr_init(&attributes);
    if (pthread_attr_setstack(&attributes, stack, STACK) || pthread_create(&thread, &attributes, run, NULL))
        exit(1);
    pthread_join(thread, NULL);
    while (left < STACK && stack[left] == PATTERN)
        left++;
    return STACK - left;
}

int main(void)
{
    size_t most[256] = {0}, most_one[256] = {0}, most_track[256] = {0}, blocks[256] = {0}, most_forward = 0;
    size_t least = used(nothing);
    while (fread(block, 1, sizeof block, stdin) == sizeof block) {
        size_t here = used(solve) - least, limited = used(solve_limited) - least;
        blocks[block[0]]++;
        if (here > most[block[0]])
            most[block[0]] = here;
        if (limited > most[block[0]])
            most[block[0]] = limited;
        here = used(solve_one) - least;
        if (here > most_one[block[0]])
            most_one[block[0]] = here;
        here = used(solve_track) - least;
        if (here > most_track[block[0]])
            most_track[block[0]] = here;
        here = used(forward) - least;
        if (here > most_forward)
            most_forward = here;
    }
    for (int family = 1; family <= 6; family++)
        printf("family %d: %zu blocks, at most %zu bytes; for one answer %zu; with seven axes %zu\n", family,
               blocks[family], most[family], most_one[family], most_track[family]);
    printf("forward kinematics: at most %zu bytes\n", most_forward);
    printf("a file of arms: at most %zu bytes\n", used(file_of_arms) - least);
    return 0;
}
