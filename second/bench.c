/* Fixed series of solves and a checksum of their answers; README.md has them in words. A bare run folds the inputs and
   solves nothing: what it takes is the series' own time. */
#include "programs.h"

#include "conic.h"
#include "random.h"
#include "real.h"
#include "session.h"

enum { SEED = 1 };

static uint64_t checksum;

static void fold(uint64_t bits)
{
    checksum = (checksum ^ bits) * 0x100000001B3;
}

static void fold_number(number a)
{
    fold(a.refused ? (uint64_t)a.refused : bits_of(a.value));
}

static void fold_vector(vector a)
{
    fold(bits_of(a.x));
    fold(bits_of(a.y));
    fold(bits_of(a.z));
}

static void fold_solution(const solution *a, bool orbit)
{
    if (a->refused) {
        fold((uint64_t)a->refused);
        return;
    }
    fold((uint64_t)a->n);
    fold(a->count);
    fold(a->grade);
    fold(bits_of(a->time));
    fold(bits_of(a->err));
    if (orbit)
        fold_vector(a->r);
    fold_vector(a->v);
}

static vector vector_between(series64 *from, double a, double b)
{
    vector v;
    v.x = between(from, a, b);
    v.y = between(from, a, b);
    v.z = between(from, a, b);
    return v;
}

static double a_mu(series64 *from)
{
    return between(from, 0x1p31, 0x1p33);
}

static vector a_position(series64 *from)
{
    return vector_between(from, -0x1p23, 0x1p23);
}

static vector a_velocity(series64 *from)
{
    return vector_between(from, -20, 20);
}

/* The root without the instruction: the steps of crates/root in C, to tell the two languages apart from the two ways.
   The curve 2^31/√m in pieces of 1/128, from m = 1/4 on: in the lower half of a word the height, less half of the most
   that the chord is over it, in the upper half the fall to the next piece. */
static const uint64_t line[128] = { [32] =
    0x3E89BBFFFFD1D0A, 0x3BC21FBFC14B738, 0x392DB70F858C5D0, 0x36C77E7F4C61643, 0x348B0FBF159C620, 0x32748ACEE113945,
    0x308082FEAEA1180, 0x2EABEEBE7E2275C, 0x2CF41A6E4F783EF, 0x2B569D0E2285B80, 0x29D14E5DF7308DE, 0x28623F2DCD60951,
    0x2707B1EDA4FF911, 0x25C014FD7DF9027, 0x2489FD4D5839FB4, 0x2364220D33B0F82, 0x224D58ED104DBE7, 0x2144925CEE013DC,
    0x2048D71CCCBD74D, 0x1F59452CAC7559B, 0x1E750DFC8D1CC43, 0x1D9B745C6EA85A7, 0x1CCBCA7C510D800, 0x1C0570AC344245D,
    0x1B47D3DC183D5CA, 0x1A926C7BFCF6083, 0x19E4BD4BE264139, 0x193E529BC87FC72, 0x189EC12BAF41DF0, 0x1805A59B96A3824,
    0x1772A3BB7E9E3B8, 0x16E565BB672BF18, 0x165D9BCB5046E0C, 0x15DAFBBB39E9956, 0x155D400B240EE5E, 0x14E4283B0EB1EE3,
    0x146F77AAF9CE0AA, 0x13FEF5DAE55ED44, 0x13926DCAD1601C8, 0x1329ADDABDCDE9C, 0x12C4876AAAA4742, 0x1262CEDA97E0225,
    0x12045AEA857D869, 0x11A9050A73795C7, 0x1150A8CA61D085F, 0x10FB23EA5080099, 0x10A8561A3F85102, 0x105820CA2EDCE2B,
    0x100A672A1E84E8D, 0xFBF0E1A0E7AA6E, 0xF75FBB9FEBBBC8, 0xF2F17D9EF45E2F, 0xEEA4B49E016EBF, 0xEA78029D12CC02,
    0xE66A1E9C2855E2, 0xE279CB9B41ED94, 0xDEA5DF9A5F7587, 0xDAED409980D154, 0xD74EDF98A5E5B0, 0xD3C9BC97CE985D,
    0xD05CE396FAD01F, 0xCD076C962A74AB, 0xC9C87A955D6EA1, 0xC69F3A9493A77C, 0xC38AE493CD098A, 0xC08AB793097FE3,
    0xBD9DFC9248F65E, 0xBAC406918B5989, 0xB7FC2D90D096A0, 0xB545D190189B86, 0xB2A05A8F6356BF, 0xB00B368EB0B765,
    0xAD85DA8E00AD27, 0xAB0FC08D53283D, 0xA8A8678CA81965, 0xA64F568BFF71DF, 0xA404158B592363, 0xA1C6358AB52020,
    0x9F954A8A135AB7, 0x9D70EB8973C632, 0x9B58B588D65606, 0x994C48883AFE0B, 0x974B4787A1B278, 0x95555C870A67DF,
    0x936A2F8675132D, 0x91897185E1A9A2, 0x8FB2D1855020D1, 0x8DE60484C06E9B, 0x8C22C28432892D, 0x8A68C483A666FD,
    0x88B7C7831BFEC6, 0x870F8982934789, 0x856FCB820C3887, 0x83D8528186C93E, 0x8248E18102F16B, 0x80C1428080A905,
};

/* The whole root of a·2^54, a bit at a time. */
static uint64_t by_digits(uint64_t a)
{
    uint64_t rest = a, rem = 0, s = 0;
    for (int i = 0; i < 54; i++) {
        rem = rem * 4 + (rest >> 52);
        rest = (rest & 0xFFFFFFFFFFFFF) * 4;
        s *= 2;
        if (s * 2 + 1 <= rem) {
            rem -= s * 2 + 1;
            s++;
        }
    }
    return s;
}

/* The whole number nearest to √(a·2^52). */
static uint64_t nearest_root(uint64_t a)
{
    uint64_t top = a >> 22, piece = line[top >> 25];
    uint64_t g = (uint32_t)(piece - ((piece >> 32) * (top & 0x1FFFFFF) >> 25));
    uint64_t u = top * g >> 32, w = (0xC000000000000000 - u * g) >> 32;
    uint64_t r = g * w >> 32, s = u * w >> 32;
    uint64_t e = a * 64 - s * s, t = (uint64_t)(uint32_t)e * r >> 38;
    uint64_t d = (e << 22) - s * t, v = (d << 24) - t * t, q = (s << 23) + t, over = q * 3 - v;
    if ((e >> 32) + (d >> 32) + (v >> 55) + (over >> 55) == 0)
        return q < v ? q + 1 : q;
    return (by_digits(a) + 1) / 2;
}

/* Not laid out at its one call: the Rattle root, which all formulas share, is called too. */
__attribute__((noinline)) static double square_root_by_steps(double x)
{
    if (x != x)
        return x;
    uint64_t b = bits_of(x), sig = (b & 0xFFFFFFFFFFFFF) | 0x10000000000000, p = (b >> 52) + 1023;
    if (b - 0x10000000000000 >= 0x7FE0000000000000) {
        if (b == 0 || b == 0x8000000000000000 || b == 0x7FF0000000000000)
            return x;
        if (b > 0x7FF0000000000000)
            return NAN;
        int c = __builtin_clzll(b) - 11;
        sig = b << c;
        p = 1024 - (uint64_t)c;
    }
    return of_bits(((p / 2 - 1) << 52) + nearest_root(sig << p % 2));
}

static number root_by_steps(double x)
{
    double r = square_root_by_steps(x);
    return r < INFINITY ? (number){ .value = r } : (number){ .refused = 1 };
}

/* A NaN's bits are any, so a bare run folds 0 for one. */
static void bench_root(series64 *from, bool bare, bool by_steps)
{
    uint64_t b = next(from) & 0x7FFFFFFFFFFFFFFF;
    if (bare)
        fold(b > 0x7FF0000000000000 ? 0 : b);
    else
        fold_number(by_steps ? root_by_steps(of_bits(b)) : root(of_bits(b)));
}

static void bench_advance(series64 *from, bool bare)
{
    double mu = a_mu(from);
    state s;
    s.r = a_position(from);
    s.v = a_velocity(from);
    double t = between(from, -0x1p19, 0x1p19);
    if (bare) {
        fold(bits_of(mu));
        fold(bits_of(t));
        fold_vector(s.r);
        fold_vector(s.v);
        return;
    }
    solution a = kepler(mu, s, t);
    fold_solution(&a, true);
}

static void bench_lambert(series64 *from, bool bare)
{
    double mu = a_mu(from);
    vector r1 = a_position(from), r2 = a_position(from);
    double t = between(from, 0x1p14, 0x1p20);
    bool long_way = next(from) & 1;
    if (bare) {
        fold(bits_of(mu));
        fold(bits_of(t));
        fold(long_way);
        fold_vector(r1);
        fold_vector(r2);
        return;
    }
    solution a = lambert(mu, r1, r2, t, long_way);
    fold_solution(&a, false);
}

static void bench_theta(series64 *from, bool bare)
{
    double mu = a_mu(from);
    state s;
    s.r = a_position(from);
    s.v = a_velocity(from);
    double h = between(from, -4, 4), all = 1 + h * h, sine = (h + h) / all, cosine = (1 - h * h) / all;
    if (bare)
        fold(bits_of(mu + (s.r.x + s.v.x) + (s.r.y + s.v.y) + (s.r.z + s.v.z) + sine + cosine));
    else
        fold_number(time_theta(mu, s, sine, cosine));
}

/* Records, one behind the other, until the next does not fit. */
static size_t a_session(series64 *from, uint8_t session[SESSION_MAX])
{
    for (size_t size = 0;;) {
        uint64_t u = next(from);
        record r = { .kind = 1 + (int)(u % 3), .vehicle = u >> 8 & 1 };
        if (size + length_of(r.kind) > SESSION_MAX)
            return size;
        r.byte = r.kind == STATE ? u >> 9 & 1 : 0;
        r.time = (int64_t)(next(from) % 17280000000) - 8640000000;
        for (int k = 0; k < numbers_of(r.kind); k++)
            r.numbers[k] = between(from, -0x1p23, 0x1p23);
        size += write_record(session + size, &r);
    }
}

static void fold_bytes(const void *bytes, size_t count)
{
    for (size_t k = 0; k < count; k++)
        fold(((const uint8_t *)bytes)[k]);
}

static void bench_list(series64 *from, bool bare, uint64_t count)
{
    static uint8_t session[SESSION_MAX];
    static char text[LISTING_MAX];
    size_t size = a_session(from, session), length = 0;
    if (bare) {
        for (uint64_t k = 0; k < count; k++)
            fold(size);
        fold_bytes(session, size);
        return;
    }
    for (uint64_t k = 0; k < count; k++) {
        length = listing(session, size, text).length;
        fold(length);
    }
    fold_bytes(text, length);
}

enum which { ROOT, ROOT_BY_STEPS, ADVANCE, LAMBERT, THETA, LIST };

static const struct { const char *name; uint64_t count; } benches[] = {
    [ROOT] = { "root", 10000000 },
    [ROOT_BY_STEPS] = { "root-by-steps", 10000000 },
    [ADVANCE] = { "advance", 100000 },
    [LAMBERT] = { "lambert", 50000 },
    [THETA] = { "theta", 500000 },
    [LIST] = { "list", 1000 },
};

static void run(enum which bench, bool bare, uint64_t count)
{
    series64 from = { SEED };
    if (bench == LIST) {
        bench_list(&from, bare, count);
        return;
    }
    for (; count > 0; count--)
        switch (bench) {
        case ROOT: bench_root(&from, bare, false); break;
        case ROOT_BY_STEPS: bench_root(&from, bare, true); break;
        case ADVANCE: bench_advance(&from, bare); break;
        case LAMBERT: bench_lambert(&from, bare); break;
        default: bench_theta(&from, bare);
        }
}

/* NAME alone, or with -inputs behind it for a bare run. */
static bool is_named(const char *word, const char *name, bool *bare)
{
    size_t n = strlen(name);
    *bare = strncmp(word, name, n) == 0 && strcmp(word + n, "-inputs") == 0;
    return *bare || strcmp(word, name) == 0;
}

bool bench(const char *name, uint64_t count, uint64_t *sum)
{
    checksum = 0xCBF29CE484222325;
    for (size_t b = 0; b < sizeof benches / sizeof *benches; b++) {
        bool bare;
        if (is_named(name, benches[b].name, &bare)) {
            run((enum which)b, bare, count ? count : benches[b].count);
            *sum = checksum;
            return true;
        }
    }
    return false;
}
