/* N-body: 64 bodies in a plane that attract each other, two steps of time. Each thread has bodies, and sums the pulls of
 * all others on each, in their order. Fixed point. */

#include "fixed.h"
#include "kernel.h"

#define BODIES 64
#define STEPS 2

struct body {
    fixed x, y, mass;
    fixed speed_x, speed_y;
    char rest[LINE_BYTES - 5 * sizeof(fixed)];
};

static struct body bodies[BODIES] __attribute__((aligned(LINE_BYTES)));

/* Adds to a body's speed what all bodies pull in one step; the square is softened, so that a body can be among them. */
static void pull(struct body *body) {
    fixed x = 0, y = 0;
    for (unsigned i = 0; i < BODIES; i++) {
        fixed to_x = bodies[i].x - body->x, to_y = bodies[i].y - body->y;
        fixed square = times(to_x, to_x) + times(to_y, to_y) + ONE;
        fixed strength = over(bodies[i].mass, square);
        x += times(strength, to_x);
        y += times(strength, to_y);
    }
    body->speed_x += x;
    body->speed_y += y;
}

static void work(unsigned thread) {
    unsigned begin = share_begin(thread, BODIES), end = share_begin(thread + 1, BODIES);
    for (unsigned i = begin; i < end; i++) {
        bodies[i].x = (fixed)(drawn(3 * i) % 200) * (ONE / 8);
        bodies[i].y = (fixed)(drawn(3 * i + 1) % 200) * (ONE / 8);
        bodies[i].mass = (fixed)(1 + drawn(3 * i + 2) % 9) * ONE;
    }
    wait_for_all();
    for (unsigned step = 0; step < STEPS; step++) {
        for (unsigned i = begin; i < end; i++)
            pull(&bodies[i]);
        wait_for_all();
        for (unsigned i = begin; i < end; i++) {
            bodies[i].x += bodies[i].speed_x >> 8;
            bodies[i].y += bodies[i].speed_y >> 8;
        }
        wait_for_all();
    }
    unsigned long sum = 0;
    for (unsigned i = begin; i < end; i++)
        sum += checked(i, (unsigned long)(bodies[i].x + 7 * bodies[i].y));
    tell(thread, sum);
}

int main(int words, char **word) {
    run_on_threads(words, word, work);
    printf("nbody %d checksum %lu\n", BODIES, all_told());
    return 0;
}
