#!/usr/bin/env python3
"""sabotage: slips made in a copy of the second program, one at a time, and how many answers change.

  tools/sabotage.py [WORD]   the slips whose name has WORD in it, or all

Prints the tables of docs/TESTS.md; ends with 1 if a slip changes none."""
import functools
import pathlib
import random
import shutil
import subprocess
import sys
import tempfile

sys.path.insert(0, str(pathlib.Path(__file__).parent))
import grades
import records
import replay
import settings

ROOT = pathlib.Path(__file__).resolve().parent.parent
ROOM = ROOT / "target" / "sabotage"

REQUESTS = [
    ("a wrong divisor of c", "series.c", "{ 12, 30, 56, 90, 132,", "{ 12, 30, 56, 90, 134,"),
    ("a wrong divisor of s", "series.c", "210, 272, 342 }", "210, 272, 340 }"),
    ("divisors walked from first to last", "series.c", "for (int k = 8; k-- > 0;)", "for (int k = 0; k < 8; k++)"),
    ("`<` for `≤` at ξ = −50", "series.c", "return xi_least <= xi && xi", "return xi_least < xi && xi"),
    ("`<` for `≤` at ξ = 40", "series.c", "xi <= xi_most;", "xi < xi_most;"),
    ("squares added in another order", "vector.h", "return a.x * b.x + a.y * b.y + a.z * b.z;", "return a.z * b.z + a.y * b.y + a.x * b.x;"),
    ("the time's sum in another order", "solve.c", "return (c1 * (z * at.c) + x * (c2 * (z * at.s) + r1)) / root_mu;", "return (x * (r1 + c2 * (z * at.s)) + c1 * z * at.c) / root_mu;"),
    ("row 2: `<` for `≤` at mu = 2^28", "tests.c", "mu >= 0x1p28", "mu > 0x1p28"),
    ("row 2: `≤` for `<` at mu = 2^36", "tests.c", "mu < 0x1p36", "mu <= 0x1p36"),
    ("row 3: `<` for `≤` at r = 2^18", "tests.c", "r_length >= 0x1p18", "r_length > 0x1p18"),
    ("row 3: `≤` for `<` at r = 2^29", "tests.c", "    under(f, 3, name, r, 0x1p29, \"under 2^29 in size\");\n    must(f, r_length >= 0x1p18, 3, name[3], r_length, \"at least 2^18\");\n    must(f, r_length < 0x1p29", "    at_most(f, 3, name, r, 0x1p29, \"under 2^29 in size\");\n    must(f, r_length >= 0x1p18, 3, name[3], r_length, \"at least 2^18\");\n    must(f, r_length <= 0x1p29"),
    ("row 4: `<` for `≤` at 2^7", "tests.c", "at_most(f, 4, of_v", "under(f, 4, of_v"),
    ("row 5: `<` for `≤` at 2^28", "iterator.c", "return -0x1p28 <= t && t <= 0x1p28;", "return -0x1p28 <= t && t < 0x1p28;"),
    ("row 5: a transfer time of 0 let in", "lambert.c", "must(f, time > 0, 5", "must(f, time >= 0, 5"),
    ("row 6: `≤` for `<` at c1 = 2^17", "kepler.c", "fabs(k->c1) < 0x1p17", "fabs(k->c1) <= 0x1p17"),
    ("row 6: `≤` for `<` at c2 = 2^6", "kepler.c", "fabs(k->c2) < 0x1p6", "fabs(k->c2) <= 0x1p6"),
    ("row 6: `≤` for `<` at r1/r2 = 2^7", "lambert.c", "l.ratio < 0x1p7", "l.ratio <= 0x1p7"),
    ("row 6: `<` for `≤` at sinθ/(1−cosθ) = 2^5", "transfer.c", "fabs(turn) <= 0x1p5", "fabs(turn) < 0x1p5"),
    ("row 6: `<` for `≤` at cot γ = 2^5", "theta.c", "fabs(cot) <= 0x1p5", "fabs(cot) < 0x1p5"),
    ("row 6: `<` for `≤` at p_N = 2^4, Time-Theta", "theta.c", "p_n <= 16, 6", "p_n < 16, 6"),
    ("row 6: `<` for `≤` at p_N = 2^4, apsides", "apsides.c", "p_n <= 16, 6", "p_n < 16, 6"),
    ("row 6: `≤` for `<` at e = 2^3", "apsides.c", "must(f, e < 0x1p3", "must(f, e <= 0x1p3"),
    ("row 10: `<` for `≤` at 2^-10", "lambert.c", "sine >= 0x1p-10", "sine > 0x1p-10"),
    ("row 10: `<` for `≤` at 2^-40", "theta.c", "fabs(off) <= 0x1p-40", "fabs(off) < 0x1p-40"),
    ("row 10: `<` for `≤` at 2^-20", "theta.c", "1 - cosine >= 0x1p-20", "1 - cosine > 0x1p-20"),
    ("row 9: `<` for `≤` at 2^7", "tests.c", "at_most(f, 9, of_v", "under(f, 9, of_v"),
    ("row 9: `≤` for `<` at 2^29", "tests.c", "under(f, 9, of_r", "at_most(f, 9, of_r"),
    ("`≤` for `<` at far = 2^29", "apsides.c", "far < 0x1p29;", "far <= 0x1p29;"),
    ("the velocity not negated again", "kepler.c", "found.v = time < 0 ? negated(to.v) : to.v;", "found.v = to.v;"),
    ("odd and even trials swapped", "iterator.c", "if (number % 2 == 1 &&", "if (number % 2 == 0 &&"),
    ("an end's old time kept", "iterator.c", "            b.below = j;\n", "            b.below = carries_time(b.below) ? b.below : j;\n"),
    ("over as high", "solve.c", "(judgement){ f->number == 8 ? UNDER : OVER, 0 }", "(judgement){ f->number == 8 ? UNDER : HIGH, 0x1p28 }"),
    ("the trial's 6: ends off the grid let in", "iterator.c", "-limit <= lo && lo < hi && hi <= limit", "lo < hi"),
    ("the trial's 6: a time out of range let in", "iterator.c", "return time_in_range(j.time) &&", "return"),
    ("the trial's 6: a lo that is high or over let in", "iterator.c", "(below.as == LOW || below.as == UNDER) &&", ""),
    ("the trial's 6: a time against its judgement let in", "iterator.c", "(j.as == LOW ? j.time <= asked : j.time > asked)", "true"),
    ("`<` for `≤` in a judgement", "solve.c", "return (judgement){ t <= asked ? LOW : HIGH", "return (judgement){ t < asked ? LOW : HIGH"),
    ("W replaced four times", "transfer.c", "for (int k = 0; k < 5 &&", "for (int k = 0; k < 4 &&"),
    ("step 2: `<` for `≤` at p = 2^4", "lambert.c", "must(f, p <= 16", "must(f, p < 16"),
    ("step 6: `≤` for `<` at x = 2^17", "transfer.c", "must(f, x < 0x1p17", "must(f, x <= 0x1p17"),
    ("T-02: ξ up to 39.46875", "series.h", "xi_most = 40;", "xi_most = 39.46875;"),
    ("T-02: the quotient rounded, not cut", "kepler.c", "(uint64_t)(k->size / period)", "(uint64_t)(k->size / period + 0.5)"),
    ("T-02: one turn left on", "kepler.c", "k->rest = k->size - (double)k->turns * period;", "k->rest = k->turns ? k->size - (double)(k->turns - 1) * period : k->size;"),
    ("T-02: a rest below 0 kept", "kepler.c", "if (k->rest < 0)", "if (0)"),
    ("T-02: the period's product in another order", "kepler.c", "* a * sqrt(a) / k->root_mu", "* (a * sqrt(a)) / k->root_mu"),
    ("T-02: the grade taken from the rest", "kepler.c", "&on), k.rest, k.size,", "&on), k.rest, k.rest,"),
    ("T-02: err taken from the size", "kepler.c", "&on), k.rest, k.size,", "&on), k.size, k.size,"),
    ("T-02: the trials take the size", "kepler.c", "trials_made(&g, k.rest,", "trials_made(&g, k.size,"),
    ("T-04: a root cut and not rounded", "series.c", "return (number){ .value = sqrt(x) };", "double r = sqrt(x);\n    return (number){ .value = fma(r, r, -x) > 0 ? nextafter(r, 0) : r };"),
    ("T-06: the advance's first end without a time", "kepler.c", "{ LOW, 0 }, { OVER, 0 }", "{ UNDER, 0 }, { OVER, 0 }"),
    ("T-09: `<` for `≤` at p_N = 2^-20", "solve.c", "p_n >= 0x1p-20", "p_n > 0x1p-20"),
    ("T-09: Kepler without it", "kepler.c", "    fall_test(f, p_n_of(mu, from));\n", ""),
    ("T-09: Time-Theta without it", "theta.c", "    fall_test(f, p_n);\n", ""),
    ("T-09: Periapo without it", "apsides.c", "    fall_test(f, p_n);\n", ""),
    ("T-09: 19 ahead of 6 in Kepler", "kepler.c", "    derived_tests(f, &k);\n", "    fall_test(f, p_n_of(mu, from));\n    derived_tests(f, &k);\n"),
    ("T-09: 19 ahead of 6 in Time-Theta", "theta.c", "    must(f, fabs(c2)", "    fall_test(f, p_n);\n    must(f, fabs(c2)"),
    ("T-09: 19 ahead of 6 in Periapo", "apsides.c", "    must(f, fabs(c2)", "    fall_test(f, p_n);\n    must(f, fabs(c2)"),
    ("T-05: entries cut, not to nearest", "wheel.c", " + (rest > half);", ";"),
    ("T-05: E = 3,600 let in", "wheel.c", "if (e >= TURN)", "if (e > TURN)"),
    ("T-05: the cosine from the wrong quarter", "wheel.c", "e < 2700 ? e + 900 : e - 2700", "e < 900 ? 900 - e : e - 900"),
    ("T-05: 18 for a radicand of 0", "sight.c", "!(radicand < 0)", "radicand > 0"),
    ("T-05: the smaller k first", "sight.c", "larger = -b + root, smaller = -b - root", "larger = -b - root, smaller = -b + root"),
    ("T-05: the radicand's sum in another order", "sight.c", "b * b - (dot(active, active) - dot(passive, passive))", "b * b - dot(active, active) + dot(passive, passive)"),
    ("T-05: 17: `<` for `≤` at 2^-40", "sight.c", "fabs(length(a) - 1) <= 0x1p-40", "fabs(length(a) - 1) < 0x1p-40"),
    ("T-05: 17 ahead of 16", "sight.c", "    must(f, wheel_refused == 0, wheel_refused", "    unit_test(f, of_h[3], h);\n    must(f, wheel_refused == 0, wheel_refused"),
    ("T-05: the vertical not tested", "sight.c", "    unit_test(f, of_u[3], u);\n", ""),
    ("T-13: sinθ from the length", "lambert.c", "l->sine = dot(u1_u2, normal);", "l->sine = length(u1_u2);"),
    ("T-13: the normal's length not tested", "lambert.c", '    must(f, fabs(off) <= 0x1p-40, 10, of_n[3], length(normal), "1 within 2^-40");\n', "    (void)off;\n"),
    ("T-13: `<` for `≤` at 2^-40", "lambert.c", "fabs(off) <= 0x1p-40", "fabs(off) < 0x1p-40"),
    ("T-13: `<` for `≤` at 1−cosθ = 2^-20", "lambert.c", "1 - l->cosine >= 0x1p-20", "1 - l->cosine > 0x1p-20"),
    ("T-13: row 1 without the normal", "lambert.c", "        must_be_finite_vector(f, of_n, way.normal);\n", "        ;\n"),
    ("T-13: a sine of 0 counted as negative", "lambert.c", "l->sine >= 0 ? 8 : 7", "l->sine > 0 ? 8 : 7"),
    ("T-13: the cross product's normal used", "lambert.c", "    l->normal = normal;\n", "    l->normal = over(u1_u2, length(u1_u2));\n"),
    ("7 ahead of 8", "solve.c", "    if (!carries_time(b.below))", "    if (!carries_time(b.above))\n        return (solution){ .refused = 7 };\n    if (!carries_time(b.below))"),
    ("T-14: one trial more than the limit", "iterator.c", "b.count < limit", "b.count <= limit"),
    ("T-14: carried trials not counted", "going_on.c", "asked, on->limit, g", "asked, on->limit < UINT64_MAX / 2 ? on->limit + on->from.count : on->limit, g"),
    ("T-14: 29 behind 8", "solve.c", "    if (b.hi - b.lo > 1)\n        return (solution){ .refused = 29, .at = b };\n    if (!carries_time(b.below))\n        return (solution){ .refused = 8, .at = b };\n", "    if (!carries_time(b.below))\n        return (solution){ .refused = 8, .at = b };\n    if (b.hi - b.lo > 1)\n        return (solution){ .refused = 29, .at = b };\n"),
    ("T-14: −0 taken for the low time 0", "going_on.c", "bits_of(a.time) == bits_of(b.time)", "a.time == b.time"),
    ("T-14: the grid's own end judged by a trial", "going_on.c", "n == g->ends.hi ? g->ends.above : ", ""),
    ("T-14: ends over the grid let in", "going_on.c", "return g->ends.lo <= n && n <= g->ends.hi;", "return g->ends.lo <= n;"),
    ("T-14: ends under the grid let in", "going_on.c", "return g->ends.lo <= n && n <= g->ends.hi;", "return n <= g->ends.hi;"),
    ("T-14: lo not judged afresh", "going_on.c", "    must_be_judged(f, \"lo\", b->lo, b->below, judged_afresh(g, b->lo));\n", ""),
    ("T-14: hi not judged afresh", "going_on.c", "    must_be_judged(f, \"hi\", b->hi, b->above, judged_afresh(g, b->hi));\n", ""),
    ("T-14: a lo that is high let in", "going_on.c", "b->below.as == LOW || b->below.as == UNDER", "true"),
    ("T-14: a hi that is low let in", "going_on.c", "b->above.as == HIGH || b->above.as == OVER", "true"),
    ("T-14: `<` for `≤` at 2b", "going_on.c", "b->count <= g->most", "b->count < g->most"),
    ("T-14: a transfer's 2b for an advance", "kepler.c", "judge_advance, k, 74", "judge_advance, k, 52"),
    ("T-14: 19 ahead of a continuation's 6", "kepler.c", "    continuation_tests(f, &g, on);\n", "    fall_test(f, p_n_of(mu, from));\n    continuation_tests(f, &g, on);\n"),
    ("T-14: row 1 without the carried times", "kepler.c", "    continuation_times(f, on);\n", "    (void)on;\n"),
    ("T-14: row 1 of a transfer without the carried times", "lambert.c", "    continuation_times(f, on);\n", "    (void)on;\n"),
    ("T-14: the trial's number begins anew", "going_on.c", "on->continued ? on->from : g->ends", "on->continued ? (bracket){ on->from.lo, on->from.hi, on->from.below, on->from.above, 0 } : g->ends"),
    ("T-12: `≤` for `<` at 157,420 m", "cdh.c", "orbit.near - radius > (body", "orbit.near - radius >= (body"),
    ("T-12: the moon's limit for the earth", "cdh.c", "body == 0 ? 157420 : 10668", "body == 2 ? 157420 : 10668"),
    ("T-12: t3 − t2 of 59,999 let in", "cdh.c", "t2 >= 60000", "t2 >= 59999"),
    ("T-12: t3 − t2 wraps", "cdh.c", "(wide)t3 - t2 >=", "(int64_t)((uint64_t)t3 - (uint64_t)t2) >="),
    ("T-12: 25 ahead of 22", "cdh.c", "    radius_test(f, radius);\n    must(f, (wide)t3 - t2 >= 60000, 25, \"t3-t2\", (double)t3 - (double)t2, \"at least 60000\");\n", "    must(f, (wide)t3 - t2 >= 60000, 25, \"t3-t2\", (double)t3 - (double)t2, \"at least 60000\");\n    radius_test(f, radius);\n"),
    ("T-12: 22 ahead of 14", "cdh.c", "    body_test(f, body);\n    radius_test(f, radius);\n", "    radius_test(f, radius);\n    body_test(f, body);\n"),
    ("T-12: `≤` for `<` at a difference of 2^28", "cdh.c", "difference > 1 << 28", "difference >= 1 << 28"),
    ("T-12: 5 left to Kepler", "cdh.c", "        return 5;\n", "        {}\n"),
    ("T-12: the passive vehicle advanced first", "cdh.c", "    if (!number)\n        number = at_t2(mu, &active, t2, &a);\n    if (!number)\n        number = at_t2(mu, &passive, t2, &p);\n", "    if (!number)\n        number = at_t2(mu, &passive, t2, &p);\n    if (!number)\n        number = at_t2(mu, &active, t2, &a);\n"),
    ("T-12: the active position not projected", "cdh.c", "unit(minus(a.r, times(d, n)))", "unit(minus(a.r, times(0 * d, n)))"),
    ("T-12: the sine's sign turned", "cdh.c", "sine = dot(cross(u_p, u_a), n)", "sine = dot(cross(u_a, u_p), n)"),
    ("T-12: aA without the difference of the radii", "cdh.c", "a_a = a_p + (r_a - r_c)", "a_a = a_p + 0 * (r_a - r_c)"),
    ("T-12: aA's sum in another order", "cdh.c", "a_a = a_p + (r_a - r_c)", "a_a = a_p + r_a - r_c"),
    ("T-12: 26 without aA", "cdh.c", " && a_a > 0))", "))"),
    ("T-12: vA by aP/aA alone", "cdh.c", "v_a = v_p * s * sqrt(s)", "v_a = v_p * s"),
    ("T-12: vA's product in another order", "cdh.c", "v_a = v_p * s * sqrt(s)", "v_a = v_p * (s * sqrt(s))"),
    ("T-12: 27 not given", "cdh.c", "        return 27;\n", "        radicand = 0;\n"),
    ("T-12: the burn in the passive plane", "cdh.c", "vector m = unit(cross(a.r, a.v))", "vector m = unit(cross(c.r, c.v))"),
    ("T-12: the direction of travel turned", "cdh.c", "times(sqrt(radicand), cross(m, w))", "times(sqrt(radicand), cross(w, m))"),
    ("T-12: the new velocity for the change", "cdh.c", "minus(after, a.v), orbit", "after, orbit"),
    ("T-12: the apsides ahead of the burn", "cdh.c", "apsides(mu, (state){ a.r, after })", "apsides(mu, a)"),
    ("T-12: 28 not given", "cdh.c", "        return refused(28);\n", "        radius = 0;\n"),
    ("T-07: the last failing test of a row told", "tests.h", "    if (f->number == 0 && !holds)\n", "    if (!holds && (f->number == 0 || f->number == number))\n"),
    ("T-07: mu's upper limit named for its lower", "tests.c", "2, \"mu\", mu, \"at least 2^28\"", "2, \"mu\", mu, \"under 2^36\""),
    ("T-07: a length's upper limit named for its lower", "tests.c", "name[3], r_length, \"at least 2^18\"", "name[3], r_length, \"under 2^29\""),
    ("T-07: ξ's upper limit named for its lower", "solve.c", "xi, \"at least -50\"", "xi, \"at most 40\""),
    ("T-07: the length tested ahead of the components", "tests.c", "    under(f, 3, name, r, 0x1p29, \"under 2^29 in size\");\n    must(f, r_length >= 0x1p18, 3, name[3], r_length, \"at least 2^18\");\n    must(f, r_length < 0x1p29, 3, name[3], r_length, \"under 2^29\");\n", "    must(f, r_length >= 0x1p18, 3, name[3], r_length, \"at least 2^18\");\n    must(f, r_length < 0x1p29, 3, name[3], r_length, \"under 2^29\");\n    under(f, 3, name, r, 0x1p29, \"under 2^29 in size\");\n"),
    ("T-07: c2 tested ahead of c1", "kepler.c", "    must(f, fabs(k->c1) <", "    must(f, fabs(k->c2) < 0x1p6, 6, \"c2\", k->c2, \"under 2^6 in size\");\n    must(f, fabs(k->c1) <"),
    ("T-07: the turn tested ahead of r1/r2", "lambert.c", "    must(f, l.ratio <", "    turn_test(f, l.transfer.turn);\n    must(f, l.ratio <"),
    ("T-07: cot tested ahead of c2", "theta.c", "    must(f, fabs(c2) <", "    must(f, fabs(cot) <= 0x1p5, 6, \"cot\", cot, \"at most 2^5 in size\");\n    must(f, fabs(c2) <"),
    ("T-07: the turn tested ahead of p in Time-Theta", "theta.c", "    must(f, p_n <= 16", "    turn_test(f, way.turn);\n    must(f, p_n <= 16"),
    ("T-07: e tested ahead of p", "apsides.c", "    must(f, p_n <= 16", "    must(f, e < 0x1p3, 6, \"e\", e, \"under 2^3\");\n    must(f, p_n <= 16"),
    ("T-07: the run's times tested ahead of the time", "kepler.c", "    must_be_finite(f, \"t\", time);\n", "    continuation_times(f, on);\n    must_be_finite(f, \"t\", time);\n"),
    ("T-07: the normal tested ahead of the time", "lambert.c", "    must_be_finite(f, \"t\", time);\n", "    if (way.as == NORMAL_GIVEN)\n        must_be_finite_vector(f, of_n, way.normal);\n    must_be_finite(f, \"t\", time);\n"),
    ("T-07: the run's times tested ahead of the normal", "lambert.c", "    must_be_finite(f, \"t\", time);\n", "    must_be_finite(f, \"t\", time);\n    continuation_times(f, on);\n"),
    ("T-07: the velocity shown negated back in time", "kepler.c", "    input_tests(f, mu, from, time, on);\n", "    input_tests(f, mu, ahead_of(from, time), time, on);\n"),
    ("T-07: c1 shown with the velocity as typed", "kepler.c", "    derived_tests(f, &k);\n", "    advance typed = advance_of(mu, from, time);\n    derived_tests(f, &typed);\n"),
    ("T-07: 9 shown with the velocity as handed out", "kepler.c", "    result_tests(f, to);\n", "    result_tests(f, (state){ to.r, time < 0 ? negated(to.v) : to.v });\n"),
    ("T-07: 9's velocity tested ahead of its position", "kepler.c", "    position_result(f, to.r);\n    velocity_result(f, to.v);\n", "    velocity_result(f, to.v);\n    position_result(f, to.r);\n"),
    ("T-07: success told for 9", "why.c", "    if (f->number)\n        say_failure(p, f);\n    else if (a->refused == 29) {", "    if (f->number == 9)\n        say_solved(p, &a->at);\n    else if (f->number)\n        say_failure(p, f);\n    else if (a->refused == 29) {"),
    ("T-07: the lower neighbour's stop told for 7", "why.c", "a->refused == 8 ? a->at.lo : a->at.hi", "a->at.lo"),
    ("T-07: the upper neighbour's stop told for 8", "why.c", "a->refused == 8 ? a->at.lo : a->at.hi", "a->at.hi"),
    ("T-07: the grid's end told for a stop", "why.c", "    if (stop->number)\n", "    if (stop->number == 8)\n"),
    ("T-07: a stop told at the end of an advance's grid", "kepler.c", "    if (n != g.ends.lo && n != g.ends.hi)\n", "    if (n != g.ends.lo || n != g.ends.hi)\n"),
    ("T-07: a stop told at the ends of a transfer's grid", "lambert.c", "    if (n != g.ends.lo && n != g.ends.hi)\n", "    if (n != g.ends.lo || n != g.ends.hi)\n"),
    ("T-07: step 4 left to step 5", "transfer.c", "    must(f, !(alpha_n <= 0 && w <= 0), 7, \"W\", w, \"over 0\");\n", ""),
    ("T-07: a negative radicand left to W", "transfer.c", "        must(f, radicand >= 0, 7, \"radicand\", radicand, \"at least 0\");\n", ""),
    ("T-07: x tested behind ξ", "transfer.c", "    must(f, x < 0x1p17, 7, \"x\", x, \"under 2^17\");\n    xi_tests(f, 8, xi);\n", "    xi_tests(f, 8, xi);\n    must(f, x < 0x1p17, 7, \"x\", x, \"under 2^17\");\n"),
    ("T-07: x_N shown for x", "transfer.c", "7, \"x\", x, \"under", "7, \"x\", x_n, \"under"),
    ("T-07: `<` for `≤` at a trial's ξ = −50", "solve.c", "!(xi < xi_least)", "xi > xi_least"),
    ("T-07: the normal's length shown less 1", "lambert.c", "of_n[3], length(normal),", "of_n[3], off,"),
    ("T-07: the circle's fault shown in size", "theta.c", "\"cos2+sin2-1\", off,", "\"cos2+sin2-1\", fabs(off),"),
    ("T-07: p shown 2^22 times as large", "solve.c", "19, \"p\", p_n,", "19, \"p\", p_n * 0x1p22,"),
    ("T-07: the stated judgement told for the fresh one", "going_on.c", ".afresh = afresh }", ".afresh = stated }"),
    ("T-07: hi's place tested ahead of lo's", "going_on.c", "    place_must(f, on_grid(g, b->lo), \"lo\", b->lo, \"on the grid\");\n    place_must(f, on_grid(g, b->hi), \"hi\", b->hi, \"on the grid\");\n", "    place_must(f, on_grid(g, b->hi), \"hi\", b->hi, \"on the grid\");\n    place_must(f, on_grid(g, b->lo), \"lo\", b->lo, \"on the grid\");\n"),
    ("T-07: the ends' order tested ahead of the grid", "going_on.c", "    place_must(f, on_grid(g, b->lo), \"lo\"", "    place_must(f, b->lo < b->hi, \"lo\", b->lo, \"under hi\");\n    place_must(f, on_grid(g, b->lo), \"lo\""),
    ("T-07: lo's side tested ahead of hi's judgement", "going_on.c", "    must_be_judged(f, \"hi\"", "    place_must(f, b->below.as == LOW || b->below.as == UNDER, \"lo\", b->lo, \"low or under\");\n    must_be_judged(f, \"hi\""),
    ("T-07: the count tested ahead of the ends", "going_on.c", "    end_tests(f, g, b);\n", "    count_must(f, b->count <= g->most, b->count, g->most == 74 ? \"at most 74\" : \"at most 52\");\n    end_tests(f, g, b);\n"),
    ("T-07: a transfer's 2b told for an advance's", "going_on.c", "g->most == 74 ? \"at most 74\" : \"at most 52\"", "\"at most 52\""),
    ("T-07: a count told as a signed number", "why.c", "        say(p, \"%s %\" PRIu64 \" must be %s\", f->name, f->tally, f->limit);\n", "        say(p, \"%s %\" PRId64 \" must be %s\", f->name, f->place, f->limit);\n"),
    ("T-07: no number shown as large", "pen.c", "isnan(x) ? \"nan\" : \"large\"", "\"large\""),
    ("T-07: no number shown with its own bits", "pen.c", "isnan(x) ? 0x7FF8000000000000 : bits_of(x)", "bits_of(x)"),
    ("T-07: the neighbours' times exchanged", "why.c", "    say_bits(p, b->below.time);\n    say(p, \" \");\n    say_bits(p, b->above.time);\n", "    say_bits(p, b->above.time);\n    say(p, \" \");\n    say_bits(p, b->below.time);\n"),
    ("T-07: the version not looked at", "why.c", "    int refused = take_fractions(kept, &on);\n", "    int refused = 0 * take_fractions(kept, &on);\n"),
    ("T-07: the limit not looked at", "why.c", "    int refused = take_fractions(kept, &on);\n", "    int refused = take_fractions(kept, &on);\n    on.limit = UINT64_MAX;\n"),
    ("T-07: `why` in front of any routine", "desk.c", " || (out->why && !is_solve(out->routine)))", ")"),
    ("T-07: words counted from the routine's name", "desk.c", "        name = next_word(&from);\n", "        name = next_word(&from), from.number--;\n"),
]


SESSIONS = [
    ("days cut towards zero", "listing.c", "(local_time){ local / DAY - (local % DAY < 0),", "(local_time){ local / DAY,"),
    ("a session of 65,537 bytes let in", "session.c", "if (size > SESSION_MAX)", "if (size > SESSION_MAX + 1)"),
    ("the end not told from a cut", "session.c", "return (reading){ .end = true, .place = from };", "return refused(11, from);"),
    ("under 5 bytes left for under 4", "session.c", "if (left < 4)", "if (left < 5)"),
    ("a length under 4 not tested first", "session.c", "if (length < 4)", "if (0)"),
    ("the length tested before the kind", "session.c", "    if (r.kind < STATE", "    if (length != 62 && length != 38 && length != 30 && length != 8)\n        return refused(12, from);\n    if (r.kind < STATE"),
    ("11 before the kind's 12", "session.c", "    if (length != length_of(r.kind))", "    if (left < length)\n        return refused(11, from);\n    if (length != length_of(r.kind))"),
    ("14 before 11", "session.c", "    if (left < length)", "    if (left > 4 && r.kind != OFFSET && at[4] > 1)\n        return refused(14, from);\n    if (left < length)"),
    ("vehicle 2 let in", "session.c", "r->vehicle > 1", "r->vehicle > 2"),
    ("a burn's byte not tested", "session.c", '[BURN] = { "burn", 38, 3, 0 }', '[BURN] = { "burn", 38, 3, 255 }'),
    ("infinite numbers let in", "session.c", "if (!isfinite(r->numbers[k]))", "if (isnan(r->numbers[k]))"),
    ("T-03: the offset subtracted", "listing.c", "time + MINUTE", "time - MINUTE"),
    ("T-03: the offset read unsigned", "session.c", "r->offset = (int16_t)", "r->offset = (uint16_t)"),
    ("T-03: the offset forgotten behind the first record", "session.c", "offset ? r.offset : from.offset", "offset ? r.offset : 0"),
    ("T-03: `<` for `≤` at 840", "session.c", "offset <= OFFSET_MAX", "offset < OFFSET_MAX"),
    ("T-03: `<` for `≤` at −840", "session.c", "return -OFFSET_MAX <= offset", "return -OFFSET_MAX < offset"),
    ("T-03: kind 4 let in later", "session.c", "return first && offset_allowed", "return (first || 1) && offset_allowed"),
    ("T-03: the two zero bytes not tested", "session.c", " && little_endian(at + 6, 2) == 0", ""),
    ("T-03: a late kind 4 is 13", "session.c", "r.kind > OFFSET)", "r.kind > (from.byte == 0 ? OFFSET : MARK))"),
    ("T-03: a late kind 4 refused ahead of its length", "session.c", "    if (length != length_of(r.kind))", "    if (r.kind == OFFSET && from.byte > 0)\n        return refused(14, from);\n    if (length != length_of(r.kind))"),
    ("T-03: `<` for `≤` at a time of 2^53", "session.c", "r->time > time_max", "r->time >= time_max"),
    ("T-03: `<` for `≤` at a time of −2^53", "session.c", "r->time < -time_max", "r->time <= -time_max"),
    ("T-03: no limit on times", "session.c", "    if (r->time < -time_max || r->time > time_max)\n        return false;\n", ""),
]


TEXTS = [
    ("T-01: a record that is two bytes too long let in", "session.c", "end - used < length_of(r->kind)", "end - used + 2 < length_of(r->kind)"),
    ("T-01: a record that just fits refused", "session.c", "end - used < length_of(r->kind)", "end - used <= length_of(r->kind)"),
    ("T-01: 15 ahead of 14", "session.c", "    if (!allowed(r, used == 0))\n        return (writing){ 14, used };\n    if (used > end || end - used < length_of(r->kind))\n        return (writing){ 15, used };\n", "    if (used > end || end - used < length_of(r->kind))\n        return (writing){ 15, used };\n    if (!allowed(r, used == 0))\n        return (writing){ 14, used };\n"),
    ("T-01: a late offset let in", "session.c", "r->kind == OFFSET ? first && offset_allowed", "r->kind == OFFSET ? (first || 1) && offset_allowed"),
    ("T-01: an offset of any size let in", "session.c", "first && offset_allowed(r->offset) : fields", "first && offset_allowed((int16_t)r->offset) : fields"),
    ("T-01: a vehicle cut to a byte", "text.c", "return read_count(w, letter == 'v' ? &r->vehicle : &r->byte);", "bool read = read_count(w, letter == 'v' ? &r->vehicle : &r->byte);\n    r->vehicle &= 255;\n    return read;"),
    ("T-01: a body cut to a byte", "text.c", "return read_count(w, letter == 'v' ? &r->vehicle : &r->byte);", "bool read = read_count(w, letter == 'v' ? &r->vehicle : &r->byte);\n    r->byte &= 255;\n    return read;"),
    ("T-01: the record's time over 2^53 written", "session.c", "    if (r->time < -time_max || r->time > time_max)\n        return false;\n", ""),
    ("T-01: lines counted without comments", "records.c", "        number++;\n", "        number += length > 0 && line[0] != '#';\n"),
    ("T-01: a surplus word let in", "text.c", "return next_word(&from).length == 0 ? READ : from.number;", "return READ;"),
    ("T-01: what stood there goes when a line is refused", "records.c", 'fprintf(stderr, "line %ld: %s\\n", number, word);', 'fprintf(stderr, "line %ld: %s\\n", number, word), remove(name);'),
    ("T-01: the records ahead of a refused line written", "records.c", 'fprintf(stderr, "line %ld: %s\\n", number, word);', 'fprintf(stderr, "line %ld: %s\\n", number, word), appear(name, session, used, replace);'),
    ("T-01: body and vehicle exchanged", "text.c", '[STATE] = "ivbnnnnnn"', '[STATE] = "ibvnnnnnn"'),
    ("T-01: the day without the offset", "text.c", "local_of(r->time, offset)", "local_of(r->time, 0 * offset)"),
]


WATCHED = [
    ("T-08: 12 and 13 told with the fifth byte", "session.c", "        if (read.refused == 11)\n            continue;", "        if (read.refused == 11 || (read.refused && s->kept == 4))\n            continue;"),
    ("T-08: the place counted from the part", "session.c", "        s->at = read.place;\n        s->kept = 0;", "        s->at = (place){ *taken, read.place.offset };\n        s->kept = 0;"),
    ("T-08: the offset forgotten", "session.c", "        s->at = read.place;\n        s->kept = 0;", "        s->at = (place){ read.place.byte, 0 };\n        s->kept = 0;"),
    ("T-08: an unfinished record taken for the end", "session.c", "s->kept ? refused(11, s->at) : (reading)", "s->kept > 61 ? refused(11, s->at) : (reading)"),
    ("T-08: the limit of 65,536 bytes kept", "session.c", "(uint64_t)INT64_MAX - (s->at.byte + s->kept)", "(uint64_t)SESSION_MAX - (s->at.byte + s->kept)"),
    ("T-08: each part read by itself", "session.c", "    while (*taken < size) {\n", "    s->kept = *taken == 0 ? 0 : s->kept;\n    while (*taken < size) {\n"),
    ("T-08: 11 told while the input is open", "records.c", "    } while (!read.used_up && !read.refused);\n", "    } while (!read.used_up && !read.refused);\n    if (s->kept && s->kept < 4)\n        read = end_parts(s), say_line(&read);\n"),
    ("T-08: lines kept back", "records.c", "    } while (!read.used_up && !read.refused);\n    fflush(stdout);\n", "    } while (!read.used_up && !read.refused);\n"),
]


SETTINGS = [
    ("T-11: a part of a version let in", "settings.c", "s->used % VERSION_LENGTH != 0 || ", ""),
    ("T-11: versions in any order let in", "settings.c", "little_endian(at + 4, 4) == number", "(number > 0 || little_endian(at + 4, 4) == number)"),
    ("T-11: the number's low bytes alone looked at", "settings.c", "little_endian(at + 4, 4) == number", "little_endian(at + 4, 1) == number"),
    ("T-11: the three zero bytes not tested", "settings.c", "\n           && little_endian(at + 4, 4) == number && little_endian(at + 9, 3) == 0", "\n           && little_endian(at + 4, 4) == number"),
    ("T-11: the kind not tested", "settings.c", " && little_endian(at + 2, 2) == VERSION_KIND", ""),
    ("T-11: the length not tested", "settings.c", "little_endian(at, 2) == VERSION_LENGTH && ", ""),
    ("T-11: stored fields not tested", "settings.c", "    return f.number == 0 && little", "    return little"),
    ("T-11: the fair fraction may be over 1", "settings.c", "0 <= v->fair && v->fair <= 1", "0 <= v->fair"),
    ("T-11: `<` for `≤` of the fractions", "settings.c", "v->closed <= v->fair", "v->closed < v->fair"),
    ("T-11: a radius of 0 let in", "tests.c", "0 < radius && radius", "0 <= radius && radius"),
    ("T-11: a radius of 2^29 let in", "tests.c", "radius < 0x1p29", "radius <= 0x1p29"),
    ("T-11: 14 ahead of 22", "settings.c", "    must(f, 0 <= v->closed", "    body_test(f, v->body);\n    must(f, 0 <= v->closed"),
    ("T-11: 2 ahead of 1", "settings.c", "    must_be_finite(f, \"mu\", v->mu);\n", "    mu_row(f, v->mu);\n    must_be_finite(f, \"mu\", v->mu);\n"),
    ("T-11: 24 ahead of the version's own tests", "settings.c", "    version_tests(&f, v);\n    return f.number", "    if (last.number == VERSIONS_MAX)\n        return refused(24);\n    version_tests(&f, v);\n    return f.number"),
    ("T-11: the version's own tests ahead of 30", "settings.c", "    if (last.refused)\n        return last;\n    version_tests(&f, v);\n", "    version_tests(&f, v);\n    if (last.refused && !f.number)\n        return last;\n"),
    ("T-11: 24 ahead of 23", "settings.c", "    return old.refused ? old : put_behind", "    if (latest(s).number == VERSIONS_MAX)\n        return refused(24);\n    return old.refused ? old : put_behind"),
    ("T-11: version 0 let in", "settings.c", "if (number < 1 || number > last.number)", "if (number > last.number)"),
    ("T-11: going back gives the old number", "settings.c", "put_behind(s, size, latest(s).number, &old.version)", "put_behind(s, size, number - 1, &old.version)"),
    ("T-11: the body stored as 0", "settings.c", "put_little_endian(at + 8, 4, v->body)", "put_little_endian(at + 8, 4, v->body & 0)"),
]


GRADES = [
    ("T-11: the fractions exchanged", "settings.c", "(fractions){ named.version.closed, named.version.fair }", "(fractions){ named.version.fair, named.version.closed }"),
    ("T-11: the version's fractions not taken", "settings.c", "        on->grades = (fractions){ named.version.closed, named.version.fair };\n", "        on->version = 0;\n"),
    ("T-11: the version named not looked at", "settings.c", "    if (!on->versioned)\n", "    if (1)\n"),
    ("T-11: the settings looked at where no version is named", "settings.c", "        return 0;\n    versioned named", "        return latest(s).refused;\n    versioned named"),
    ("T-11: the fractions kept for the next solve", "settings.c", "    if (!on->versioned)\n        return 0;\n    versioned named = version_of(s, on->version);\n", "    static uint64_t last;\n    last = on->versioned ? on->version : last;\n    if (!on->versioned && !last)\n        return 0;\n    versioned named = version_of(s, last);\n"),
    ("T-11: 23 ahead of 30", "settings.c", "    versioned last = latest(s);\n    if (last.refused)\n        return last;\n    if (number < 1 ||", "    versioned last = latest(s);\n    if (number < 1 || number > s->used / VERSION_LENGTH)\n        return refused(23);\n    if (last.refused)\n        return last;\n    if (number < 1 ||"),
    ("T-11: an advance's own refusals ahead of 23", "desk.c", "    return refused ? (solution){ .refused = refused } : advance_state(w[0].number, state_at(w + 1), w[7].number, on);\n", "    solution own = advance_state(w[0].number, state_at(w + 1), w[7].number, on);\n    return refused && !own.refused ? (solution){ .refused = refused } : own;\n"),
    ("T-11: a transfer's own refusals ahead of 23", "desk.c", "    return refused ? (solution){ .refused = refused }\n                   : transfer_velocity(w[0].number, vector_at(w + 1), vector_at(w + 4), w[7].number, w[8].way, on);\n", "    solution own = transfer_velocity(w[0].number, vector_at(w + 1), vector_at(w + 4), w[7].number, w[8].way, on);\n    return refused && !own.refused ? (solution){ .refused = refused } : own;\n"),
    ("T-11: the limits are fractions of the rest", "kepler.c", "&on), k.rest, k.size,", "&on), k.rest, k.rest,"),
    ("T-11: `<` for `≤` at the closed limit", "solve.c", "err <= size * grades.closed", "err < size * grades.closed"),
    ("T-11: `<` for `≤` at the fair limit", "solve.c", "err <= size * grades.fair", "err < size * grades.fair"),
    ("T-11: err over the size for the product", "solve.c", "err <= size * grades.closed ?", "err / size <= grades.closed ?"),
    ("T-11: versions counted from 0", "settings.c", "version_of(s, on->version)", "version_of(s, on->version + 1)"),
    ("T-11: the version's number cut to four bytes", "settings.c", "version_of(s, on->version)", "version_of(s, (uint32_t)on->version)"),
    ("T-11: the latest version for any", "settings.c", "version_of(s, on->version)", "version_of(s, on->version ? latest(s).number : 0)"),
    ("T-11: the version's mu", "desk.c", "advance_state(w[0].number,", "advance_state(on.versioned ? version_of(kept, on.version).version.mu : w[0].number,"),
    ("T-11: `version` read ahead of `limit`", "desk.c", "    if (next_is(from, \"limit\") && !read_count(next_word(from), &out->limit))\n        return false;\n    out->versioned = next_is(from, \"version\");\n    return !out->versioned || read_count(next_word(from), &out->version);\n", "    out->versioned = next_is(from, \"version\");\n    if (out->versioned && !read_count(next_word(from), &out->version))\n        return false;\n    return !next_is(from, \"limit\") || read_count(next_word(from), &out->limit);\n"),
    ("T-11: the settings must be there", "main.c", "!settings_if_any(file, &kept)", "!settings_of(file, &kept)"),
    ("T-11: settings that cannot be read have no version", "main.c", "        return 2;\n    for (long", "        kept.used = 0;\n    for (long"),
]


FLIGHTS = [
    ("T-10: 20 for the mark's own vehicle alone", "replay.c", "!v[0].set || !v[1].set", "!v[r->vehicle].set"),
    ("T-10: 21 not given", "replay.c", "v[0].body != v[1].body", "false"),
    ("T-10: 21 ahead of 20", "replay.c", "    if (!v[0].set || !v[1].set)\n        return 20;\n    if (v[0].body != v[1].body)\n        return 21;\n", "    if (v[0].body != v[1].body)\n        return 21;\n    if (!v[0].set || !v[1].set)\n        return 20;\n"),
    ("T-10: `≤` for `<` at a difference of 2^28", "replay.c", "difference > longest", "difference >= longest"),
    ("T-10: 5 left to Kepler", "replay.c", "    return difference < -longest || difference > longest;", "    return difference > longest && difference < longest;"),
    ("T-10: vehicle 1 advanced before 0", "replay.c", "    int refused = advanced(m, &v[0], r->time, &after[0]);\n    if (!refused)\n        refused = advanced(m, &v[1], r->time, &after[1]);\n", "    int refused = advanced(m, &v[1], r->time, &after[1]);\n    if (!refused)\n        refused = advanced(m, &v[0], r->time, &after[0]);\n"),
    ("T-10: a refused mark changes vehicle 0", "replay.c", "    if (!refused)\n        refused = advanced(m, &v[1], r->time, &after[1]);\n", "    if (!refused)\n        v[0] = after[0], refused = advanced(m, &v[1], r->time, &after[1]);\n"),
    ("T-10: a refused burn changes its vehicle", "replay.c", "    velocity_row(&f, after.at.v);\n    if (f.number)\n        return f.number;\n    *v = after;\n", "    velocity_row(&f, after.at.v);\n    *v = after;\n    if (f.number)\n        return f.number;\n"),
    ("T-10: 4 not given", "replay.c", "    velocity_row(&f, after.at.v);\n", ""),
    ("T-10: the burn's change taken off", "replay.c", "after.at.v = plus(after.at.v,", "after.at.v = minus(after.at.v,"),
    ("T-10: recorded less computed", "replay.c", "length(minus(after[0].at.r, after[1].at.r)) - r->numbers[0]", "r->numbers[0] - length(minus(after[0].at.r, after[1].at.r))"),
    ("T-10: no advance for a difference of 0", "replay.c", "    *to = (vehicle){ true, v->body, time, { a.r, a.v } };\n", "    *to = (vehicle){ true, v->body, time, { a.r, a.v } };\n    if (time == v->time)\n        return *to = *v, 0;\n"),
    ("T-10: a mark leaves the vehicles where they were", "replay.c", "    v[0] = after[0];\n    v[1] = after[1];\n", ""),
    ("T-10: the earth's mu for both", "replay.c", "m->mu[v->body]", "m->mu[0]"),
    ("T-10: the body of the first state kept", "replay.c", "(vehicle){ true, r->byte, r->time", "(vehicle){ true, m->vehicles[r->vehicle].set ? m->vehicles[r->vehicle].body : r->byte, r->time"),
    ("T-10: the settings' 14 ahead of 23", "replays.c", "        wrong_body |= v.version.body != (uint64_t)body;\n", "        wrong_body |= v.version.body != (uint64_t)body;\n        if (wrong_body)\n            return 14;\n"),
    ("T-10: a refusal of the reader ends with 0", "replays.c", "    return refused != 0;\n", "    return refused > 1000;\n"),
]


def built(source):
    out = ROOM / "bin"
    subprocess.run(["make", "-s", "-C", source, "OPT=-O1", f"OUT={out}"], check=True)
    return out / "second"


def output(*words, **how):
    return subprocess.run(words, capture_output=True, **how).stdout


def requests(program):
    """What the desk answers to 100,000 fresh requests."""
    path = ROOM / "requests"
    if not path.exists():
        path.write_bytes(output(program, "requests", "1", "100000"))
    return output(program, "desk", input=path.read_bytes()).split(b"\n")


def sessions(program):
    """The listings of 1,000 fresh sessions."""
    folder = ROOM / "sessions"
    if not folder.exists():
        folder.mkdir()
        output(program, "sessions", "1", "1000", folder)
    return [output(program, "list", path) for path in sorted(folder.iterdir())]


def texts(program):
    """600 sessions as text, and what becomes of 600 texts."""
    folders = [ROOM / "shown", ROOM / "texts"]
    for folder, made in zip(folders, ("sessions", "texts")):
        if not folder.exists():
            folder.mkdir()
            output(program, made, "1", "600", folder)
    return [output(program, "show", path) for path in sorted(folders[0].iterdir())] + [written(program, path) for path in sorted(folders[1].iterdir())]


def watched(program):
    """What `watch` writes of 100 sessions in parts, or None behind the third with a line that did not come in a second."""
    folder, dice = ROOM / "watched", random.Random(1)
    if not folder.exists():
        folder.mkdir()
        output(program, "sessions", "1", "100", folder)
    records.PATIENCE = 1
    answers = []
    for path in sorted(folder.iterdir()):
        pieces = records.parts(path.read_bytes(), dice)
        late = sum(answer is None or answer[2] for answer in answers)
        answers.append(records.watched(str(program), pieces) if late < 3 else None)
    return answers


def stored(program):
    """What becomes of some 70 files of settings."""
    return [outcome for sequence in settings.sequences(40, 1) for outcome in settings.outcomes(str(program), sequence, ROOM)]


def graded(program):
    """What the desk answers to some 1,000 solves by each of 12 files of settings."""
    lines, words = solves_by_files(program)
    return [answer for word in words for answer in grades.asked(str(program), word, lines)]


@functools.cache
def solves_by_files(program):
    room = ROOM / "graded"
    room.mkdir()
    lines, files = grades.made(str(program), 1000, 1)
    return lines, list(grades.in_room(room, files))


def flown(program):
    """What 150 sessions flown again give."""
    with tempfile.TemporaryDirectory() as room:
        return [replay.run(str(program), "replay", path, *words) for path, words in replay.flights(str(program), 100, 1, pathlib.Path(room))]


def written(program, text):
    path = ROOM / "written"
    path.write_bytes(b"what stood there")
    ran = subprocess.run([program, "write", "--replace", path], input=text.read_bytes(), capture_output=True)
    return ran.returncode, ran.stderr, path.exists() and path.read_bytes()


def changed(source, file, old, new, answers, right):
    """How many answers a slip changes."""
    text = (source / file).read_text()
    assert text.count(old) == 1, (file, old, text.count(old))
    (source / file).write_text(text.replace(old, new))
    wrong = sum(b is not None and a != b for a, b in zip(right, answers(built(source)), strict=True))
    (source / file).write_text(text)
    return wrong


def main():
    word = sys.argv[1] if len(sys.argv) > 1 else ""
    shutil.rmtree(ROOM, ignore_errors=True)
    source = ROOM / "second"
    shutil.copytree(ROOT / "second", source)
    unseen = 0
    for slips, answers, heading in ((REQUESTS, requests, "answers that change"), (SESSIONS, sessions, "listings that change"), (TEXTS, texts, "texts that change"), (WATCHED, watched, "sessions in parts that change"), (SETTINGS, stored, "commands about settings that change"), (GRADES, graded, "answers by files of settings that change"), (FLIGHTS, flown, "sessions flown again that change")):
        slips = [slip for slip in slips if word in slip[0]]
        right = answers(built(source)) if slips else []
        print(f"\n| slip | {heading} |\n|---|---|")
        for name, *slip in slips:
            wrong = changed(source, *slip, answers, right)
            unseen += wrong == 0
            print(f"| {name} | {wrong} |", flush=True)
    return 1 if unseen else 0


sys.exit(main())
