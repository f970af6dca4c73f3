/*
 * Saihkeb: joint solvers for six-axis arms, and for seven-axis ones with one joint locked; forward
 * kinematics; and a file of arms.
 *
 * Link it:  tools/example_c.sh builds target/staticlib/libsaihkeb.a and links an example with it:
 *               cc -I include solve.c target/staticlib/libsaihkeb.a -lm
 * The library is code for x86-64 (System V calling convention). C99 or later, or C++11 or later.
 *
 * UNITS
 *   Angles are radians. Lengths (the offsets of the arm, the place of the pose) may have any unit,
 *   the same for both; the tolerances of 1e-6 in the solver are in that unit.
 *
 * ARM, POSE AND ANSWER
 *   arm     39 numbers: six axes h1 to h6, then seven offsets p0 to p6, three numbers (x, y, z) each.
 *           p0 leads from the base to joint 1, p1 from joint 1 to joint 2, p6 from joint 6 to the tool.
 *           EACH AXIS HAS LENGTH 1. That is not tested: a rotation is taken about the axis at length 1,
 *           but the equations for the angles take the axis as it is. With an axis of another length
 *           the refusal is 0 and no answer without a flag makes the pose, and each family has axes where
 *           such answers come (h2 = (0, 2, 0) in examples/c: 8 answers, flag 0, 0.23 to 0.33 m off).
 *           Only h1 in family 6, and an axis that is not read (below), may have any length.
 *   pose    12 numbers: the rotation by rows (nine), then the place (three). The rows have length 1,
 *           are at right angles and right-handed. That is not tested: where it is off by more than
 *           1e-6 nearly every answer has flag 1, but a mirror image gives answers without a flag that
 *           miss the pose. Give the entries with seven decimals or more.
 *   answer  six angles, joint 1 first, in the angle list, and one byte in the flag list.
 *           Flag 1: some step had no exact solution, and its nearest one was taken (least squares).
 *             As a rule the tool misses the pose. But where an elbow is exactly straight, rounding
 *             decides, and a flagged answer may be exact.
 *           Flag 0: each step had its solution, as far as lengths tell, within 1e-6. THAT DOES NOT MEAN
 *             THAT THE POSE IS REACHED: where axes 4 and 6 are parallel (q5 = 0 on many arms), q4 and
 *             q6 come from rounding errors, and an answer may make the place and be turned by any
 *             angle; in families 1 to 3 a quarter to a third of the poses exactly there have such
 *             answers.
 *           An angle may be NaN, in an answer with flag 0 too: in families 2, 4 and 5 where an elbow is
 *             exactly straight or folded, and in family 5 for the arms named below.
 *           So before you move: no angle is NaN, and saihkeb_forward_kinematics at the angles gives the
 *           pose that was asked for, within the tolerance of your machine.
 *   A list, empty or not, may lack answers that the arm has, with refusal 0. Under limits (below) it is
 *   empty, too, where every answer is outside: call without limits for their number.
 *   README.md, "What to know before you rely on a list", and docs/DIFFERENCES.md have the figures.
 *
 * FAMILIES, and what an arm of each has
 *   1  h3 = h2 or h3 = -h2; p4 = p5 = 0                                  at most 8 answers
 *   2  p1 = p4 = p5 = 0                                                  at most 8
 *   3  p4 = p5 = 0; axes 1 and 2 do not meet, nor axes 2 and 3           at most 8
 *   4  h2 = h3 = h4; p5 = 0                                              at most 8
 *   5  h2 = h3 = h4; h2, h5, h6 not in one plane if axes 5 and 6 meet    at most 8
 *   6  h2 = h3; h2, h4, h5 not in one plane if axes 4 and 5 meet;        at most 44 * n
 *      a search with n samples
 *   Not parallel are, in families 1 to 4, axes 1 and 2, 4 and 5, 5 and 6, in family 3 also 2 and 3; in
 *   family 5 axes 1 and 2, 4 and 5; in family 6 axes 3 and 4.
 *   None of it is tested. Where it fails the refusal is 0 as well, and
 *   (tools/measure/claims.py shows each):
 *   - Families 1 to 3 never read p4 and p5, and family 2 never reads p1: they solve the arm that has
 *     zero there, and each answer without a flag misses the place by the length of what was left out.
 *   - Families 4 and 5 never read h3 and h4, and family 6 never reads h3: they take h2. Where h3 = -h2,
 *     every answer without a flag misses, by up to several lengths of a link and 180 degrees. Write
 *     such an arm with h3 = h2, and turn the sign of q3.
 *   - Family 1 with h3 not parallel to h2, and family 4 with p5 not zero: every answer has flag 1.
 *   - Axes parallel that must not be: the angles that made a pose are never in its list, which often is
 *     empty; family 2 with axes 1 and 2 parallel gives answers without a flag that miss the place.
 *   - Family 3 with axes 1 and 2, or 2 and 3, that meet: a fifth to a half of the poses lack answers.
 *   - Family 5 where axes 5 and 6 meet and h2, h5, h6 lie in one plane: every answer is NaN, or the list
 *     is empty. Family 6 where axes 4 and 5 meet and h2, h4, h5 lie in one plane: the list is empty
 *     for every pose. Where h6 (h5) is turned out of that plane by just 90 degrees, some poses lack
 *     answers, and in family 6 all do if axes 5 and 6 meet as well. The same arm, written with the
 *     zero of joint 5 (family 6: joint 4) moved, is solved: README.md, "What to know before you rely
 *     on a list", says how.
 *
 * LIMITS
 *   Joint limits are twelve numbers in radians, low then high, joint by joint (low 1, high 1, low 2, ..
 *   high 6), or none: NULL, 0. An answer is inside where low <= q and q <= high for each of its six
 *   angles. An end is inside, a NaN is outside, a low may equal its high, and -0.0 equals 0.0. The answers
 *   outside leave the list; the others stay as they are and in their order. So with limits no answer has
 *   a NaN. Without limits a list is that of the published solver, which knows none.
 *   They are compared with the angles as they stand: NOTHING IS TURNED BY 2 PI. An angle that is not NaN
 *   is from -PI to PI, both ends among them, PI being the f64 nearest to pi (3.141592653589793); only q1
 *   of family 6, which a search finds, may lie some last places beyond (3.1415926535897944 is the farthest
 *   in tools/measure/claims.py angles). So
 *   - a joint without stops gets -4 and 4, and not -PI and PI;
 *   - a high above PI brings no answer from the other side: under limits of 2 and 4 an answer at -3 leaves
 *     the list, though a joint at -3 stands where it stands at 2 pi - 3 = 3.28. Solve for such a joint a
 *     second time, with 2 pi taken from its two limits, and add 2 pi to its angle in each answer. For a
 *     low below -PI it is the other way round.
 *
 * ONE ANSWER
 *   saihkeb_solve_one gives a single answer, six angles and a flag, where one will do: no list, no count and no
 *   room to make. It is THE FIRST of the answers that saihkeb_solve gives with the same limits: lent the
 *   same numbers, every controller gives the same answer. Two poses whose numbers differ in a last place may
 *   have first answers that are far apart: on the arms tried for 10 to 20 of 100 poses in family 6, in the
 *   others for none from random angles and for 1 to 7 of 100 from whole 15 degrees.
 *   THE FIRST NEED NOT BE THE BEST: it may have flag 1 where another has flag 0, on the arms tried, without
 *   limits, for half of the poses in family 6, for 10 to 23 of 100 in families 4 and 5, and in families 1 to
 *   3 for hardly one from random angles and for 1 to 6 of 100 from whole 15 degrees. Without limits it may
 *   have a NaN where another has none; with limits it has no NaN. So the check above is due here as well,
 *   and where it fails, saihkeb_solve has the other answers.
 *   Refusal 12 is given exactly where that list is empty and nothing else is refused. It does not say whether
 *   the limits removed every answer or there was none (call again without limits), nor that the arm can't
 *   reach the pose, as an empty list does not. And a pose out of reach is 12 as a rule in families 3 and 6
 *   alone: in the others it mostly has answers, flagged, and the first of these is given with refusal 0.
 *   A REFUSAL WRITES ZEROS: the six angles become +0.0 and the flag 0, with every refusal, where the calls
 *   with lists leave these as they were. Six zeros are a position of the arm, too: look at the refusal first.
 *
 * SEVEN AXES
 *   saihkeb_solve_track solves an arm of seven axes, one of whose joints is locked: a six-axis arm on a
 *   turntable, or an arm with a joint to spare. It solves the six-axis arm that is left and puts the locked
 *   angle back in its place. Every joint turns. A carriage that travels is none of them: add its way to
 *   p0, and call saihkeb_solve.
 *   arm     45 numbers: seven axes h1 to h7, then eight offsets p0 to p7, three numbers (x, y, z) each.
 *           p0 leads from the base to the first joint, p7 from the last joint to the tool.
 *   joint   the joint to lock, COUNTED FROM 0: 0 is the joint of axis h1, 6 that of h7.
 *   angle   where it is locked, in radians: any finite number.
 *   pose    12 numbers as above, of the tool of the whole arm.
 *   answer  seven angles in the angle list, that of h1 first, and one byte in the flag list. The angle at
 *           place `joint` is `angle`, with the bits that it was given; the other six are those of the arm
 *           that is left. Flags and NaN are as above.
 *   Limits do not apply here: hold the seven angles against your stops yourself.
 *   The arm that is left, with r the rotation of the locked joint (axis h(joint + 1), by angle):
 *     axes      those before the locked one as they are, those behind it turned by r
 *     offsets   p0 to p(joint - 1) as they are; then p(joint) + r p(joint + 1); those behind it turned by r
 *     pose      the rotation times the transpose of r; the place as it is
 *   So joint 0 leaves the axes r h2 .. r h7 and the offsets p0 + r p1, r p2 .. r p7, and joint 6 the axes
 *   h1 .. h6 and the offsets p0 .. p5, p6 + r p7.
 *   THE FAMILY IS THAT OF THE ARM THAT IS LEFT, and what "FAMILIES" says holds of its axes and offsets, as
 *   they are numbered there. Joints 0 and 6 leave an arm of the same family at every angle: joint 0 turns
 *   all axes alike, and joint 6 changes the last offset alone. Any other joint turns one part of the arm
 *   against the other: what a family asks of axes on both sides of it, or of the offset
 *   p(joint) + r p(joint + 1), may hold at some angles alone, or at none.
 *   EACH AXIS HAS LENGTH 1, THE LOCKED ONE TOO. That is not tested. For the six axes that are left the
 *   length matters as it does in an arm of 39 numbers. The locked one serves r alone, and is taken at
 *   length 1 where its own is from 1e-150 to 1e150; one of no length, or below 1e-162, makes NaN, and 8 is
 *   given; one with a number of 1e155 or more turns nothing, so that the answers miss the pose.
 *   Refusal 8 is given, too, where the arm and the pose are finite and a number of the arm that is left, or
 *   of the rotation handed on, overflows.
 *   Before you move: the check is the one above, with seven axes. examples/c/track.c has it.
 *
 * A FILE OF ARMS
 *   The arms of a site in one buffer that you lend: blocks of 512 bytes, one behind the other, each an arm with
 *   its number, or empty. Put an arm in, find it by its number, take it out, and compact the buffer.
 *   The buffer is plain bytes at any address, the same on every machine: what you write to a file as it is, and
 *   read back (tools/arms.py makes, lists and changes such files). Zero bytes are an empty buffer, if their
 *   number is a multiple of 512: static memory, or memset. There is room for one arm a block.
 *   block   64 little-endian 64-bit words: word 0 has the number, 1 to 255, in byte 0; words 1 to 39 are the
 *           arm; word 63 is the check, the sum of words 0 to 62 modulo 2^64; every other byte is zero. An
 *           all-zero block is empty. No two arms have the same number. THE FAMILY AND n ARE NOT KEPT: keep
 *           them elsewhere, by the number. An arm block is no pose block, but nothing in its bytes says so:
 *           numbered 1 to 5 it passes for a pose of zeros in saihkeb_solve_block, and such a pose block
 *           passes for an arm block here. A pose block with another pose is 3, and so is a limits block.
 *   EVERY CALL JUDGES THE WHOLE BUFFER FIRST, block by block from the front, and the first block that has a
 *   fault decides. In a block the first that applies is given:
 *     1   it is the last one and has fewer than 512 bytes, zero or not
 *     2   its check is wrong
 *     3   a byte is not zero that must be: 1 to 7 of word 0, or one of words 40 to 62
 *     8   a number of its arm is infinite or NaN
 *    13   it is not empty and has the number 0, or that of an earlier block
 *   Only then come the refusals of the call itself: 5, 8, 13 and 15 of put, 14 of find and of take out.
 *   A number that a call is handed may be any of 0 to 255. FIND OF NUMBER 0 GIVES 14 EXACTLY WHERE THE BUFFER
 *   IS VALID, and else its refusal: that tells whether bytes read from somewhere are a file of arms, and
 *   whether 8 or 13 of a put was about the buffer or about what was put.
 *   A REFUSAL CHANGES NO BYTE. A buffer of no bytes, NULL, 0 too, is valid, holds nothing and has no room.
 *   What find gives and which puts are refused depends on the arms held alone, and not on the blocks that
 *   they are in: any calls on a valid buffer give what they would on a plain list of numbered arms.
 *   Each number of an arm comes back with the bits that it was put with.
 *   Each call reads the whole buffer, so that its time grows with the number of blocks. Calls that change a
 *   buffer must not run beside other calls on it.
 *
 * LISTS
 *   A list is a pointer and the number of its elements (not bytes). It may have any length, and
 *   each call judges the lengths. A null pointer is an empty list, whatever its length says. Else the
 *   pointer must be aligned for its type and lead to that many elements. What a call writes to must
 *   not overlap anything else that the same call is lent. counts, the twelve numbers that
 *   saihkeb_limits_block writes, the six angles and the flag of saihkeb_solve_one, and the 39 numbers that
 *   saihkeb_arms_find writes are never null. Every number may have any bits.
 *
 * REFUSALS, the first that applies in this order: 10 comes before 4, 11 before 7, and 12 last. Those of a
 * file of arms are first the buffer's, block by block (above).
 *    0  none
 *    1  the block has fewer than 512 bytes                                        block calls, file of arms
 *    2  word 63 of the block is not the sum of words 0 to 62 modulo 2^64          block calls, file of arms
 *    3  a byte of the block that must be zero is not, or it is of the other kind  block calls, file of arms
 *   10  the limits are neither twelve numbers nor none, or one of them is infinite or NaN, or a low is
 *       above its high
 *    4  the family is not 1 to 6
 *    5  the arm is not 39 numbers; with seven axes, not 45
 *    6  the pose is not 12 numbers
 *   11  the locked joint is above 6, or its angle is infinite or NaN                seven axes
 *    7  n is not 0 for families 1 to 5, or not 1 to 400 for family 6
 *    8  a number of the arm or the pose is infinite or NaN; with seven axes also one of the arm that is
 *       left or of the rotation handed on
 *    9  there are more answers inside the limits than the angle list has whole sixes, or than the flag
 *       list has bytes; with seven axes, more answers than whole sevens or bytes   calls with lists
 *   12  there is no answer, or with limits none that is inside                      one answer
 *   13  the number is 0, or held already; in the buffer, by an earlier block        file of arms
 *   14  no arm of this number is held                                              file of arms: find, take out
 *   15  no block is empty                                                          file of arms: put
 *   18  the angles are not 6 numbers                                               forward kinematics
 *
 * MEMORY AND TIME
 *   A solve, for one answer too, takes up to 190 KB of stack, in every family: give the thread at least
 *   256 KB (many systems give a thread 128 KB or less, and an overflow is not caught here). A call on a file
 *   of arms takes less than 1 KB. Measured, not proved: tools/measure/memory.sh. No heap, no file, no global data: a call uses its arguments and the
 *   stack alone, so calls in several threads do not meet, each with lists of its own. Every call ends, on
 *   every input: family 6 evaluates its error at most n + 1 + 3128 * n times. One answer takes the time of
 *   the whole list: in family 6 the search is made to its end. The floating-point unit has to round to
 *   nearest and to keep subnormals, as it does where nobody changed it.
 *
 * The results are bit for bit those of the definitions in crates/ (specs/), for any input, but for the
 * bits of a NaN: a number is NaN where the definition's is, and which of the NaNs is open. That is
 * proved; the contracts are in crates/saihkeb/src/lib.rt. It says that the answers are those of the
 * published method, not that the method finds all or reaches the pose.
 */
#ifndef SAIHKEB_H
#define SAIHKEB_H

#include <stddef.h>
#include <stdint.h>

#ifdef __cplusplus
extern "C" {
#endif

#define SAIHKEB_ARM 39
#define SAIHKEB_POSE 12
#define SAIHKEB_ANGLES 6
#define SAIHKEB_LIMITS 12
#define SAIHKEB_TRACK_ARM 45
#define SAIHKEB_TRACK_ANGLES 7
#define SAIHKEB_BLOCK 512

/*
 * What the library exports. These ask that no pointer is null, also where the length is 0; from C
 * call the functions below, which take NULL.
 */
uint64_t saihkeb_solve_lent(uint64_t family, uint64_t n,
                            const double *arm, size_t arm_len,
                            const double *pose, size_t pose_len,
                            const double *limits, size_t limits_len,
                            double *angles, size_t angles_len,
                            uint8_t *flags, size_t flags_len,
                            uint64_t counts[2]);
uint64_t saihkeb_solve_block_lent(const uint8_t *block, size_t block_len,
                                  const double *limits, size_t limits_len,
                                  double *angles, size_t angles_len,
                                  uint8_t *flags, size_t flags_len,
                                  uint64_t counts[2]);
uint64_t saihkeb_limits_block_lent(const uint8_t *block, size_t block_len,
                                   double limits[SAIHKEB_LIMITS]);
uint64_t saihkeb_solve_one_lent(uint64_t family, uint64_t n,
                                const double *arm, size_t arm_len,
                                const double *pose, size_t pose_len,
                                const double *limits, size_t limits_len,
                                double angles[SAIHKEB_ANGLES], uint8_t flag[1]);
uint64_t saihkeb_solve_track_lent(uint64_t family, uint64_t n,
                                  const double *arm, size_t arm_len,
                                  uint64_t joint, double angle,
                                  const double *pose, size_t pose_len,
                                  double *angles, size_t angles_len,
                                  uint8_t *flags, size_t flags_len,
                                  uint64_t counts[2]);
uint64_t saihkeb_forward_kinematics_lent(const double *arm, size_t arm_len,
                                         const double *angles, size_t angles_len,
                                         double *pose, size_t pose_len);
uint64_t saihkeb_arms_put_lent(uint8_t *buffer, size_t buffer_len, uint8_t number,
                               const double *arm, size_t arm_len);
uint64_t saihkeb_arms_find_lent(const uint8_t *buffer, size_t buffer_len, uint8_t number,
                                double arm[SAIHKEB_ARM]);
uint64_t saihkeb_arms_take_out_lent(uint8_t *buffer, size_t buffer_len, uint8_t number);
uint64_t saihkeb_arms_compact_lent(uint8_t *buffer, size_t buffer_len);

/*
 * Solves a pose. Gives the refusal. limits is twelve numbers, or NULL, 0 for none.
 *
 * counts[0] becomes the number of answers inside the limits (without limits, of all), counts[1] the
 * number of evaluations of the search error (0 but for family 6), which limits do not change. Both are
 * always written.
 *
 * Refusals 4 to 8 and 10: both counts are 0, and the two lists keep every value.
 * Refusal 0: the answers stand in the lists, answer i from angles[6 * i] on and in flags[i].
 * Refusal 9: counts[0] is the full number all the same, and the first answers that fit both lists
 * are written. So a call with room for fewer answers gives the first ones, and the number to make
 * room for; with NULL, 0 for both lists it gives the number alone. Answers outside the limits take no
 * room.
 * Elements past the last answer written keep their values, always.
 */
static inline uint64_t saihkeb_solve(uint64_t family, uint64_t n,
                                     const double *arm, size_t arm_len,
                                     const double *pose, size_t pose_len,
                                     const double *limits, size_t limits_len,
                                     double *angles, size_t angles_len,
                                     uint8_t *flags, size_t flags_len,
                                     uint64_t counts[2])
{
    double no_arm = 0, no_pose = 0, no_limit = 0, no_angle = 0;
    uint8_t no_flag = 0;
    return saihkeb_solve_lent(family, n,
                              arm ? arm : &no_arm, arm ? arm_len : 0,
                              pose ? pose : &no_pose, pose ? pose_len : 0,
                              limits ? limits : &no_limit, limits ? limits_len : 0,
                              angles ? angles : &no_angle, angles ? angles_len : 0,
                              flags ? flags : &no_flag, flags ? flags_len : 0, counts);
}

/*
 * The same for a pose block of 512 bytes: 64 little-endian 64-bit words. Word 0 has the family in byte
 * 0 and n in bytes 1 and 2, and byte 3 is 0; words 1 to 39 are the arm, 40 to 51 the pose, 63 is the
 * check; the rest is reserved and zero. Bytes past the 512th are not read. Refusals 1 to 3 come first
 * and are as 4 to 8: both counts 0, and nothing written to the lists. A limits block is 3 here.
 */
static inline uint64_t saihkeb_solve_block(const uint8_t *block, size_t block_len,
                                           const double *limits, size_t limits_len,
                                           double *angles, size_t angles_len,
                                           uint8_t *flags, size_t flags_len,
                                           uint64_t counts[2])
{
    double no_limit = 0, no_angle = 0;
    uint8_t no_block = 0, no_flag = 0;
    return saihkeb_solve_block_lent(block ? block : &no_block, block ? block_len : 0,
                                    limits ? limits : &no_limit, limits ? limits_len : 0,
                                    angles ? angles : &no_angle, angles ? angles_len : 0,
                                    flags ? flags : &no_flag, flags ? flags_len : 0, counts);
}

/*
 * The numbers of a limits block of 512 bytes, for every call that takes limits: byte 3 of word 0 is 1, words 1 to
 * 12 are low then high, joint by joint, 63 is the check; the other bytes of word 0 and words 13 to 62 are
 * zero. Bytes past the 512th are not read. Gives 0 and writes the twelve numbers, bit for bit; or 1, 2, 3
 * or 10, in this order, and leaves all twelve as they were. A pose block is 3 here.
 */
static inline uint64_t saihkeb_limits_block(const uint8_t *block, size_t block_len,
                                            double limits[SAIHKEB_LIMITS])
{
    uint8_t no_block = 0;
    return saihkeb_limits_block_lent(block ? block : &no_block, block ? block_len : 0, limits);
}

/*
 * Solves a pose and gives the first answer of its list ("ONE ANSWER" above). Gives the refusal: 10, 4, 5, 6, 7,
 * 8 or 12, the first that applies in this order, or 0. 9 is never given: no list is lent. limits is twelve numbers,
 * or NULL, 0 for none.
 *
 * Refusal 0: the six angles are the first answer that saihkeb_solve gives with the same limits, and flag[0] is
 * its flag.
 * Any other: the six angles are +0.0 and flag[0] is 0.
 * All six and the flag are always written.
 */
static inline uint64_t saihkeb_solve_one(uint64_t family, uint64_t n,
                                         const double *arm, size_t arm_len,
                                         const double *pose, size_t pose_len,
                                         const double *limits, size_t limits_len,
                                         double angles[SAIHKEB_ANGLES], uint8_t flag[1])
{
    double no_arm = 0, no_pose = 0, no_limit = 0;
    return saihkeb_solve_one_lent(family, n,
                                  arm ? arm : &no_arm, arm ? arm_len : 0,
                                  pose ? pose : &no_pose, pose ? pose_len : 0,
                                  limits ? limits : &no_limit, limits ? limits_len : 0, angles, flag);
}

/*
 * Solves a pose of a seven-axis arm with one joint locked ("SEVEN AXES" above). Gives the refusal: 4, 5, 6,
 * 11, 7, 8 or 9, the first that applies in this order, or 0. joint is counted from 0.
 *
 * counts[0] becomes the number of answers, counts[1] the number of evaluations of the search error (0 but
 * for family 6, and at most n + 1 + 3128 * n as in a solve). Both are always written.
 *
 * Refusals 4 to 8 and 11: both counts are 0, and the two lists keep every value.
 * Refusal 0: the answers stand in the lists, answer i from angles[7 * i] on and in flags[i].
 * Refusal 9: counts[0] is the full number all the same, and the first answers that fit both lists are
 * written; with NULL, 0 for both lists it gives the number alone.
 * Elements past the last answer written keep their values, always.
 */
static inline uint64_t saihkeb_solve_track(uint64_t family, uint64_t n,
                                           const double *arm, size_t arm_len,
                                           uint64_t joint, double angle,
                                           const double *pose, size_t pose_len,
                                           double *angles, size_t angles_len,
                                           uint8_t *flags, size_t flags_len,
                                           uint64_t counts[2])
{
    double no_arm = 0, no_pose = 0, no_angle = 0;
    uint8_t no_flag = 0;
    return saihkeb_solve_track_lent(family, n,
                                    arm ? arm : &no_arm, arm ? arm_len : 0, joint, angle,
                                    pose ? pose : &no_pose, pose ? pose_len : 0,
                                    angles ? angles : &no_angle, angles ? angles_len : 0,
                                    flags ? flags : &no_flag, flags ? flags_len : 0, counts);
}

/*
 * The pose that an arm has at six angles. Gives 0 and writes the 12 numbers of the pose; or 5, 6 or
 * 18, in this order, where a list has not 39, 12 or 6 elements, and writes nothing. The numbers
 * themselves are never refused. Axes may have any length but 0 here: they are taken at length 1.
 */
static inline uint64_t saihkeb_forward_kinematics(const double *arm, size_t arm_len,
                                                  const double *angles, size_t angles_len,
                                                  double *pose, size_t pose_len)
{
    double no_arm = 0, no_angle = 0, no_pose = 0;
    return saihkeb_forward_kinematics_lent(arm ? arm : &no_arm, arm ? arm_len : 0,
                                           angles ? angles : &no_angle, angles ? angles_len : 0,
                                           pose ? pose : &no_pose, pose ? pose_len : 0);
}

/*
 * Puts an arm into the first empty block of a file of arms ("A FILE OF ARMS" above). Gives the refusal: 1, 2, 3,
 * 8 or 13 of the buffer, then 5 (the arm is not 39 numbers), 8 (one of them is infinite or NaN), 13 (the number
 * is 0, or held already) or 15 (no block is empty), the first that applies in this order, or 0. To replace an
 * arm, take it out first.
 *
 * Refusal 0: that block is the arm's, and no other byte changes. Any other: no byte changes.
 */
static inline uint64_t saihkeb_arms_put(uint8_t *buffer, size_t buffer_len, uint8_t number,
                                        const double *arm, size_t arm_len)
{
    uint8_t no_block = 0;
    double no_arm = 0;
    return saihkeb_arms_put_lent(buffer ? buffer : &no_block, buffer ? buffer_len : 0, number,
                                 arm ? arm : &no_arm, arm ? arm_len : 0);
}

/*
 * Finds an arm by its number. Gives the refusal: 1, 2, 3, 8 or 13 of the buffer, then 14 (no arm of this number
 * is held, as with number 0), or 0. All 39 numbers are always written: the arm, or with a refusal +0.0. The
 * buffer is only read.
 */
static inline uint64_t saihkeb_arms_find(const uint8_t *buffer, size_t buffer_len, uint8_t number,
                                         double arm[SAIHKEB_ARM])
{
    uint8_t no_block = 0;
    return saihkeb_arms_find_lent(buffer ? buffer : &no_block, buffer ? buffer_len : 0, number, arm);
}

/*
 * Takes an arm out: its block becomes 512 zero bytes, and no other byte changes. Gives the refusal: 1, 2, 3, 8
 * or 13 of the buffer, then 14 (no arm of this number is held, as with number 0), or 0. With a refusal no byte
 * changes.
 */
static inline uint64_t saihkeb_arms_take_out(uint8_t *buffer, size_t buffer_len, uint8_t number)
{
    uint8_t no_block = 0;
    return saihkeb_arms_take_out_lent(buffer ? buffer : &no_block, buffer ? buffer_len : 0, number);
}

/*
 * Moves the arms held to the front, in their order, and makes every block behind them zero. No find changes by
 * it. Gives the refusal: 1, 2, 3, 8 or 13 of the buffer, or 0. With a refusal no byte changes.
 */
static inline uint64_t saihkeb_arms_compact(uint8_t *buffer, size_t buffer_len)
{
    uint8_t no_block = 0;
    return saihkeb_arms_compact_lent(buffer ? buffer : &no_block, buffer ? buffer_len : 0);
}

#ifdef __cplusplus
}
#endif

#endif
