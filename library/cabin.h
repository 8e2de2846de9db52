/* The cabin program's routines for C, C++ and whatever calls C, on x86-64 Linux. Link with libcabin.a and nothing else.
 *
 * Units: metres, centiseconds (cs) and what follows from them: a velocity is in m/cs, mu in m^3/cs^2. A vector is three
 * doubles x, y, z; a state is six, a position and then a velocity.
 *
 * Every function returns a refusal's number, and 0 for an answer. Arrays are lent as a pointer and the count of their
 * elements (not of bytes); a longer array than is asked for will do. What is `const` is only read. What is not is written on
 * an answer alone, in its first places: refused, every byte of it is as it was (but for the room of cabin_take_next, which is
 * the reader's own). No function keeps a pointer, allocates, prints, or reads anything but what it is handed, so that any
 * number of threads may call them at once.
 *
 * It is yours to see to it that a pointer points to as many elements as its count says, and that no array that is written
 * overlaps another array of the same call. A pointer whose count is 0 may be null.
 *
 * Refusals, each with the number that it has everywhere in the program (docs/pages/ has a page for each routine):
 *    1  a number is infinite or not a number; the root also: below 0
 *    2  mu is not in 2^28 <= mu < 2^36
 *    3  a position component of 2^29 or more in size, or a length not in 2^18 <= r < 2^29
 *    4  a velocity component over 2^7 in size
 *    5  a time over 2^28 in size; a transfer's also: not over 0
 *    6  a derived number is out of its range
 *    7  the time is too long          8  the time is too short
 *    9  the result is out of range   10  the angle is too small, or no angle
 *   11  a record is cut short    12  its length is wrong    13  its kind is unknown
 *   14  a field that is not allowed, or a case that there is not: a judgement, a way round, a body
 *   15  a lent array is too short
 *   16  an elevation over 3,599     17  an axis that is no unit vector     18  the line meets no point so far out
 *   19  a straight fall     20  a vehicle that is not set     21  two vehicles about two bodies
 *   22  a radius not in 0 < r < 2^29, or fractions not in 0..1 in order     23  no such version     24  already 64
 *   30  no settings     25  T3 less than 60,000 behind T2
 *   26  no orbit at that height     27  no such speed     28  the pericentre is too low
 */
#ifndef CABIN_H
#define CABIN_H

#include <stddef.h>
#include <stdint.h>

#ifdef __cplusplus
extern "C" {
#endif

/* Refusal numbers that a caller may want to name. */
enum { CABIN_ANSWERED = 0, CABIN_TOO_LONG = 7, CABIN_TOO_SHORT = 8, CABIN_NO_ROOM = 15 };

/* ---- root and series */

/* The square root, the nearest double; a zero gives itself. Writes 1 double. Refusals: 1, 15.
 *     double root;
 *     if (cabin_root(2.0, &root, 1) == 0) printf("%.17g\n", root);          1.4142135623730951 */
uint32_t cabin_root(double x, double *out, size_t out_count);

/* The series c and s at xi, in -50..40. Each writes 1 double. Refusals: 1, 6, 15.
 *     double c;
 *     cabin_c(0.0, &c, 1);                                                  c is 0.5 */
uint32_t cabin_c(double xi, double *out, size_t out_count);
uint32_t cabin_s(double xi, double *out, size_t out_count);

/* ---- trials */

/* How a trial was judged: its time is at or below the one asked for, or above it; or it has no time, being too fast or too
 * slow. A time goes with low and high alone. */
enum { CABIN_LOW = 0, CABIN_HIGH = 1, CABIN_UNDER = 2, CABIN_OVER = 3 };

/* Trial number k between lo and hi, judged low or under and high or over, for the time asked for. Writes 2 whole numbers:
 * 1 and the point to try; or the first alone, 0, where hi - lo is 1 and none is left. Refusals: 1, 6, 14, 15.
 *     int64_t whole[2];
 *     cabin_trial(4.0, 0, 8, CABIN_LOW, 0.0, CABIN_HIGH, 16.0, 1, whole, 2);    whole is 1, 2 */
uint32_t cabin_trial(double asked, int64_t lo, int64_t hi, uint64_t lo_judged, double lo_time, uint64_t hi_judged,
                     double hi_time, uint64_t k, int64_t *whole, size_t whole_count);

/* ---- orbits */

/* How near the time of the answer is to the time asked for: within 2^-20 of it, within 2^-10, or not. */
enum { CABIN_CLOSED = 0, CABIN_FAIR = 1, CABIN_ROUGH = 2 };

/* A state t cs later, or earlier where t is below 0. Writes 8 doubles: the state, the time that was met (whole turns taken
 * off) and how much it lacks; and 4 whole numbers: the grid point, the count of trials, whole turns, the grade.
 * Refusals: 1 to 7, 9, 15, 19.
 *     double from[6] = { 4194304, 0, 0, 0, 32, 0 }, out[8];
 *     int64_t whole[4];
 *     cabin_advance(4294967296.0, from, 6, 64.0, out, 8, whole, 4);         whole[0] is 2^20, out[7] is 0 */
uint32_t cabin_advance(double mu, const double *state, size_t state_count, double t, double *out, size_t out_count,
                       int64_t *whole, size_t whole_count);

/* The way round of a transfer; CABIN_NORMAL takes a unit vector, and goes round it. */
enum { CABIN_SHORT_WAY = 0, CABIN_LONG_WAY = 1, CABIN_NORMAL = 2 };

/* The velocity at the first position that leads to the second in t cs, t over 0. The normal is read for CABIN_NORMAL alone,
 * else NULL, 0 will do. Writes 5 doubles: the velocity, the time that was met and how much it lacks; and 3 whole numbers: the
 * grid point, the count of trials, the grade. Refusals: 1 to 10 but 4, 14, 15.
 *     double a[3] = { 4194304, 0, 0 }, b[3] = { 0, 4194304, 0 }, out[5];
 *     int64_t whole[3];
 *     cabin_transfer_velocity(4294967296.0, a, 3, b, 3, CABIN_SHORT_WAY, NULL, 0, 200000.0, out, 5, whole, 3); */
uint32_t cabin_transfer_velocity(double mu, const double *first, size_t first_count, const double *second,
                                 size_t second_count, uint64_t way, const double *normal, size_t normal_count, double t,
                                 double *out, size_t out_count, int64_t *whole, size_t whole_count);

/* The same two solves with a limit on the count of trials, going on where a run was stopped.
 *
 * `from` is a stopped run, 5 whole numbers: lo, its judgement, hi, its judgement, the count of trials made; `times` are 2
 * doubles, the times of the two judgements, each looked at for CABIN_LOW and CABIN_HIGH alone. With from_count 0 the trials
 * begin at the start, and NULL, 0 will do for both. The limit is on the whole count; UINT64_MAX is none.
 *
 * A run that the limit stops is an answer with a case of its own, so that it can be gone on with. Writes 1 whole number, the
 * case, and then:
 *     CABIN_FOUND: the numbers and whole numbers of cabin_advance or cabin_transfer_velocity;
 *     CABIN_NOT_FINISHED: the 5 whole numbers of the stopped run, and 2 doubles, its times, +0 for a judgement that has none.
 * What is written may not overlap what is read: copy a run before it is handed in again.
 * Refusals: those of the solve; 6 also for a run that trials of this solve cannot have been stopped at; 14 also for a
 * judgement over CABIN_OVER; 15 also for a run of 1 to 4 whole numbers, or with fewer than 2 times.
 *     double from[6] = { 4194304, 0, 0, 0, 32, 0 }, out[8], times[2];
 *     int64_t whole[6], run[5];
 *     size_t runs = 0;
 *     for (uint64_t limit = 4; cabin_advance_within(4294967296.0, from, 6, 64.0, times, 2, run, runs, limit, out, 8, whole, 6) == 0
 *                              && whole[0] == CABIN_NOT_FINISHED; limit += 4) {
 *         memcpy(run, whole + 1, sizeof run), memcpy(times, out, sizeof times);
 *         runs = 5;
 *     } */
enum { CABIN_FOUND = 0, CABIN_NOT_FINISHED = 1 };

uint32_t cabin_advance_within(double mu, const double *state, size_t state_count, double t, const double *times,
                              size_t times_count, const int64_t *from, size_t from_count, uint64_t limit, double *out,
                              size_t out_count, int64_t *whole, size_t whole_count);
uint32_t cabin_transfer_velocity_within(double mu, const double *first, size_t first_count, const double *second,
                                        size_t second_count, uint64_t way, const double *normal, size_t normal_count, double t,
                                        const double *times, size_t times_count, const int64_t *from, size_t from_count,
                                        uint64_t limit, double *out, size_t out_count, int64_t *whole, size_t whole_count);

/* The same with the grade by the two fractions of version k of settings (below, `used`). Refusals: also 23 no such version,
 * 30 the used part is no settings; these two come ahead of the solve's own. */
uint32_t cabin_advance_by(const uint8_t *used, size_t used_count, uint64_t k, double mu, const double *state,
                          size_t state_count, double t, const double *times, size_t times_count, const int64_t *from,
                          size_t from_count, uint64_t limit, double *out, size_t out_count, int64_t *whole,
                          size_t whole_count);
uint32_t cabin_transfer_velocity_by(const uint8_t *used, size_t used_count, uint64_t k, double mu, const double *first,
                                    size_t first_count, const double *second, size_t second_count, uint64_t way,
                                    const double *normal, size_t normal_count, double t, const double *times,
                                    size_t times_count, const int64_t *from, size_t from_count, uint64_t limit, double *out,
                                    size_t out_count, int64_t *whole, size_t whole_count);

/* The time from a state to the end of an angle, given by its sine and cosine. Writes 1 double. Refusals: 1 to 4, 6 to 8, 10,
 * 15, 19.
 *     double from[6] = { 4194304, 0, 0, 0, 32, 0 }, time;
 *     cabin_transfer_time(4294967296.0, from, 6, 1.0, 0.0, &time, 1);       a quarter turn */
uint32_t cabin_transfer_time(double mu, const double *state, size_t state_count, double sine, double cosine, double *out,
                             size_t out_count);

/* The apsides of a state's orbit. An orbit is closed, with a near and a far distance, or open, with a near one alone. */
enum { CABIN_CLOSED_ORBIT = 0, CABIN_OPEN_ORBIT = 1 };

/* Writes 1 whole number, the case; and 2 doubles, near and far, of which far stays as it was where the orbit is open.
 * Refusals: 1 to 4, 6, 15, 19.
 *     double at[6] = { 4194304, 0, 0, 0, 32, 0 }, out[2];
 *     int64_t which;
 *     cabin_apsides(4294967296.0, at, 6, out, 2, &which, 1);                a circle: both are 4194304 */
uint32_t cabin_apsides(double mu, const double *state, size_t state_count, double *out, size_t out_count, int64_t *whole,
                       size_t whole_count);

/* The constant-height burn at t2 of the active vehicle, whose state is of the time ta, under the passive one, whose state is
 * of tp; t3 is the time of the next manoeuvre, and times are whole cs. The body is 0 for the earth and 1 for the moon, with
 * its surface radius. Writes 1 whole number, the case of the orbit after the burn; and 5 doubles: the change of velocity, near
 * and far, of which far stays as it was where the orbit is open. Refusals: all up to 10, 14, 15, 19, 22, 25 to 28. */
uint32_t cabin_constant_height(uint64_t body, double radius, double mu, const double *active, size_t active_count,
                               int64_t ta, const double *passive, size_t passive_count, int64_t tp, int64_t t2, int64_t t3,
                               double *out, size_t out_count, int64_t *whole, size_t whole_count);

/* ---- the sight line */

/* The direction of the elevation thumbwheel, e tenths of a degree, e up to 3,599. Writes 2 doubles: sine, cosine.
 * Refusals: 15, 16.
 *     double way[2];
 *     cabin_wheel(900, way, 2);                                             straight up: 1, 0 */
uint32_t cabin_wheel(uint64_t e, double *out, size_t out_count);

/* Where the line from the active vehicle at elevation e, in the plane of two unit vectors, is as far out as the passive
 * vehicle. Writes 8 doubles: the larger k, the smaller k, the point at the larger, the point at the smaller.
 * Refusals: 1, 3, 15 to 18.
 *     double a[3] = { 4194304, 0, 0 }, p[3] = { 4194304, 65536, 0 }, h[3] = { 0, 1, 0 }, u[3] = { 1, 0, 0 }, out[8];
 *     cabin_sight(a, 3, p, 3, 266, h, 3, u, 3, out, 8); */
uint32_t cabin_sight(const double *active, size_t active_count, const double *passive, size_t passive_count, uint64_t e,
                     const double *horizontal, size_t horizontal_count, const double *vertical, size_t vertical_count,
                     double *out, size_t out_count);

/* ---- session records */

/* A record's kind; 0 says that a session has ended. */
enum { CABIN_END = 0, CABIN_STATE = 1, CABIN_BURN = 2, CABIN_MARK = 3, CABIN_OFFSET = 4, CABIN_WAITS = 5 };

/* The record of a session, of at most 65,536 bytes, at a place; the session's local offset there is in minutes. Begin at
 * place 0 with offset 0, and go on with what is handed out. Writes up to 6 whole numbers and 6 doubles:
 *     CABIN_END alone, at the end;
 *     CABIN_OFFSET, the place behind it, the new offset;
 *     the kind, the place behind it, the offset, the vehicle (0 or 1), the body (0 earth, 1 moon; 0 but for a state), the
 *     time in cs; and the numbers: a state, or a change of velocity, or range and range rate.
 * Refusals: 11 cut short, 12 length wrong (a session over 65,536 bytes too), 13 kind unknown, 14 field not allowed, 15. The
 * record that is refused stands at the place that was asked for, but that 12 of a session that is too long has no place.
 *     int64_t whole[6] = { 0 };
 *     double numbers[6];
 *     size_t at = 0;
 *     int16_t offset = 0;
 *     while (cabin_read(session, size, at, offset, numbers, 6, whole, 6) == 0 && whole[0] != CABIN_END)
 *         at = (size_t)whole[1], offset = (int16_t)whole[2]; */
uint32_t cabin_read(const uint8_t *session, size_t session_count, size_t at, int16_t offset, double *out, size_t out_count,
                    int64_t *whole, size_t whole_count);

/* The same of a session that comes in parts, as over a serial line: the next record that ends in a part, from a place of the
 * part on. The reader is yours to keep: the place in the session of the record that is not whole yet, the offset there, and how
 * many of its bytes are kept at the front of a room of 62 bytes; at first 0, 0, 0. Writes up to 7 whole numbers and 6 doubles:
 *     CABIN_WAITS, how many bytes are kept, the place, the offset: the part is used up, hand over the next;
 *     CABIN_OFFSET, the place behind it in the part, the place in the session, the new offset;
 *     the kind, the place behind it in the part, the place in the session, the offset, and as cabin_read; nothing is kept then.
 * Refusals: as cabin_read; 14 also for a reader that no call handed out, 15 also for a room under 62 bytes and behind 2^63 - 1
 * bytes of a session. A refusal is of the record at the reader's place, and is the end; the room alone may be changed by it.
 * Where no part is to come, a reader with bytes kept has met a record cut short, 11. */
uint32_t cabin_take_next(size_t at, int16_t offset, size_t kept, uint8_t *room, size_t room_count, const uint8_t *part,
                         size_t part_count, size_t from, double *out, size_t out_count, int64_t *whole, size_t whole_count);

/* Writes a record at a place of a buffer, behind those that are there: 6 numbers of a state, 3 of a burn, 2 of a mark; the body
 * is read for a state alone. Writes 1 whole number, the place behind it; all other bytes of the buffer stay. Refusals: 13; 14
 * vehicle, body, time (over 2^53 in size) or number not allowed; 15, also where the record does not fit the buffer or the
 * 65,536 bytes of a session.
 *     double mark[2] = { 1000.0, -0.5 };
 *     cabin_write(buffer, sizeof buffer, at, CABIN_MARK, 0, 0, 64, mark, 2, &next, 1); */
uint32_t cabin_write(uint8_t *buffer, size_t buffer_count, size_t at, uint64_t kind, uint8_t vehicle, uint8_t body,
                     int64_t time, const double *numbers, size_t numbers_count, int64_t *whole, size_t whole_count);

/* Writes the record that sets the local offset, which is a session's first, so at place 0. Likewise; refusals 14, 15. */
uint32_t cabin_write_offset(uint8_t *buffer, size_t buffer_count, size_t at, int16_t minutes, int64_t *whole,
                            size_t whole_count);

/* The listing's lines, each at the front of a line buffer of at least 40 bytes, the rest of which stays: the heading, a record's
 * (its day and cs by a clock that is offset minutes ahead), a refusal's. Each writes 1 whole number, the line's length with its
 * newline; there is no 0 behind it. Refusals: 13 (a record's), 15.
 *     uint8_t line[40];
 *     int64_t length;
 *     cabin_record_line(CABIN_BURN, 1, 64, 0, line, sizeof line, &length, 1);      0 64 1 burn */
uint32_t cabin_heading(uint8_t *line, size_t line_count, int64_t *whole, size_t whole_count);
uint32_t cabin_record_line(uint64_t kind, uint8_t vehicle, int64_t time, int16_t offset, uint8_t *line, size_t line_count,
                           int64_t *whole, size_t whole_count);
uint32_t cabin_refused_line(uint8_t number, uint64_t place, uint8_t *line, size_t line_count, int64_t *whole,
                            size_t whole_count);

/* ---- a session flown again */

/* What a record came to: a state was set, a burn was done, a mark is off. */
enum { CABIN_SET = 0, CABIN_DONE = 1, CABIN_OFF = 2 };

/* One record of a session, flown again on two vehicles, about the earth and the moon with these mu. The vehicles are yours to
 * keep, at first all 0; they are read, and on an answer written:
 *     held, 7 whole numbers: what the record came to, which is not read; then for vehicle 0 and for vehicle 1 whether it is
 *     set (1 or 0), its body (0 earth, 1 moon) and the time of its state in cs;
 *     states, 13 doubles: the state of vehicle 0, that of vehicle 1, and by how much a mark is off, computed range less
 *     recorded range, which is not read, and is written for a mark alone.
 * A vehicle that is not set is written as 0. The record is as cabin_read hands it out: 6 numbers of a state, 3 of a burn, 2 of a
 * mark; the body is read for a state alone. Refusals: 13 the kind; 14 a vehicle or a body over 1, or neither set nor not; 15;
 * 20 a vehicle that is not set; 21 two bodies; 5 too far from the state's time; those of cabin_advance; 4 after a burn. A
 * refused record changes neither vehicle.
 *     double states[13] = { 0 }, state[6] = { 4194304, 0, 0, 0, 32, 0 };
 *     int64_t held[7] = { 0 };
 *     cabin_replay_step(4294967296.0, 490277800.0, CABIN_STATE, 0, 0, 64, state, 6, states, 13, held, 7);     held[1] is 1 */
uint32_t cabin_replay_step(double mu_earth, double mu_moon, uint64_t kind, uint8_t vehicle, uint8_t body, int64_t time,
                           const double *numbers, size_t numbers_count, double *states, size_t states_count, int64_t *held,
                           size_t held_count);

/* ---- the desk, in text */

/* The desk's answer to a request: a line as at ./cabin desk, without its newline, with `why` in front where it is asked why a
 * solve refuses (docs/pages/README.md has the requests). `used` are settings, NULL, 0 for none. The answer's line is
 * put at the front of a buffer of at least 512 bytes, the rest of which stays; there is no 0 behind it. Writes 1 whole number,
 * the line's length with its newline, which is 0 where the line asks nothing. A request that cannot be read, or is refused, is
 * answered by a line that says so. Refusals: 15.
 *     uint8_t answer[512];
 *     int64_t length;
 *     cabin_ask(NULL, 0, (const uint8_t *)"root 2", 6, answer, sizeof answer, &length, 1); */
uint32_t cabin_ask(const uint8_t *used, size_t used_count, const uint8_t *line, size_t line_count, uint8_t *answer,
                   size_t answer_count, int64_t *whole, size_t whole_count);

/* ---- settings: versions 1, 2, 3 on, of 44 bytes each, at most 64, one behind the other in a buffer; `used` is what they take */

/* Version k of the used part. Writes 4 doubles: mu, the radius, the two fractions of the grades; and 1 whole number, the body.
 * Refusals: 15, 23 no such version, 30 the used part is no settings. */
uint32_t cabin_look_up(const uint8_t *used, size_t used_count, uint64_t k, double *out, size_t out_count, int64_t *whole,
                       size_t whole_count);

/* Stores a version behind the used part of a buffer, or a copy of version k. Writes 2 whole numbers: the new version's number,
 * and the bytes then used. Every other byte of the buffer stays. Refusals: 1, 2, 14 body, 22 fractions or radius (of a new one);
 * 15, also where the buffer has no room; 23 (of a copy), 24 already 64, 30.
 *     uint8_t buffer[64 * 44];
 *     int64_t stored[2];
 *     cabin_store(buffer, sizeof buffer, 0, 0, 39860120000.0, 6378166.0, 0x1p-20, 0x1p-10, stored, 2);     stored is 1, 44 */
uint32_t cabin_store(uint8_t *buffer, size_t buffer_count, size_t used, uint64_t body, double mu, double radius, double closed,
                     double fair, int64_t *whole, size_t whole_count);
uint32_t cabin_go_back(uint8_t *buffer, size_t buffer_count, size_t used, uint64_t k, int64_t *whole, size_t whole_count);

#ifdef __cplusplus
}
#endif

#endif
