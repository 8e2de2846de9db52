/* A small rendezvous about the earth, flown through the library: the active vehicle is 18 km below the passive one and
 * behind it, burns towards where that will be, coasts, and burns again to stay beside it.
 *
 *     ./cabin library .
 *     cc -I. examples/rendezvous.c libcabin.a -o rendezvous && ./rendezvous
 */
#include "cabin.h"

#include <stdio.h>
#include <stdlib.h>

static const double mu = 39860120000.0;  /* the earth's, in m^3/cs^2 */
static const double coast = 180000.0;    /* half an hour, in cs */

/* Ends the program where something is refused. */
static void must(const char *what, uint32_t refused)
{
    if (refused) {
        printf("%s: refused %u\n", what, (unsigned)refused);
        exit(1);
    }
}

static double root(double x)
{
    double y;
    must("root", cabin_root(x, &y, 1));
    return y;
}

static double distance(const double *a, const double *b)
{
    double x = a[0] - b[0], y = a[1] - b[1], z = a[2] - b[2];
    return root(x * x + y * y + z * z);
}

/* A circular orbit of this radius, at the angle whose sine and cosine the thumbwheel gives. */
static void circle(double radius, uint64_t tenths, double state[6])
{
    double way[2], speed = root(mu / radius);
    must("wheel", cabin_wheel(tenths, way, 2));
    state[0] = radius * way[1];
    state[1] = radius * way[0];
    state[2] = 0;
    state[3] = -speed * way[0];
    state[4] = speed * way[1];
    state[5] = 0;
}

static void say_apsides(const char *name, const double state[6])
{
    double out[2];
    int64_t which;
    must("apsides", cabin_apsides(mu, state, 6, out, 2, &which, 1));
    if (which == CABIN_CLOSED_ORBIT)
        printf("%s: near %.3f far %.3f m\n", name, out[0], out[1]);
    else
        printf("%s: open, near %.3f m\n", name, out[0]);
}

int main(void)
{
    static const double middle[6] = { 0, 0, 0, 0, 0, 0 };
    double active[6], passive[6], later[8], velocity[5], there[8];
    int64_t whole[4];
    circle(6545000.0, 0, active);
    circle(6563000.0, 20, passive);
    say_apsides("active", active);
    say_apsides("passive", passive);
    printf("apart: %.3f m\n", distance(active, passive));

    must("advance", cabin_advance(mu, passive, 6, coast, later, 8, whole, 4));
    printf("passive after the coast: %.3f %.3f %.3f m, grade %d\n", later[0], later[1], later[2], (int)whole[3]);

    must("transfer", cabin_transfer_velocity(mu, active, 3, later, 3, CABIN_SHORT_WAY, NULL, 0, coast, velocity, 5, whole, 3));
    printf("first burn: %.6f m/cs, %d trials\n", distance(velocity, active + 3), (int)whole[1]);
    active[3] = velocity[0];
    active[4] = velocity[1];
    active[5] = velocity[2];
    say_apsides("active on its way", active);

    must("advance", cabin_advance(mu, active, 6, coast, there, 8, whole, 4));
    printf("apart after the coast: %.3f m\n", distance(there, later));
    printf("second burn: %.6f m/cs\n", distance(there + 3, later + 3));

    /* An orbit that is refused: what is lent for the answer is as it was. */
    there[0] = 1;
    printf("from the middle of the earth: refused %u", (unsigned)cabin_advance(mu, middle, 6, coast, there, 8, whole, 4));
    printf(", and the first number is still %.0f\n", there[0]);
    return 0;
}
