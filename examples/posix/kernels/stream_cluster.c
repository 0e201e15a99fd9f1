/* Stream clustering: 192 points, a chunk of a stream, get centres by local search (O'Callaghan and others,
 * "Streaming-data algorithms for high-quality clustering", 2002), as a program of PARSEC does it: a point that is drawn
 * becomes a centre where that makes less of the sum of all distances and of a price for each centre. Each thread has
 * points, and tells what they would gain. */

#include "kernel.h"

#define POINTS 192
#define DIMENSIONS 4
#define CANDIDATES 24
#define PRICE 3000

struct gain {
    long open;            /* gained by points that would go to the candidate */
    long closed[POINTS];  /* lost by the other points of a centre, if it closes */
};

static int points[POINTS][DIMENSIONS] __attribute__((aligned(LINE_BYTES)));
static unsigned centre_of[POINTS] __attribute__((aligned(LINE_BYTES)));
static long distance_of[POINTS] __attribute__((aligned(LINE_BYTES)));
static unsigned centres[POINTS], centre_count; /* the open ones */
static unsigned candidate;
static int is_opened, is_closed[POINTS];
static struct gain gains[MOST_THREADS] __attribute__((aligned(LINE_BYTES)));

/* The points lie in some heaps. */
static int coordinate(unsigned point, unsigned dimension) {
    return (int)(point % 6 * 20 * (dimension + 1) % 100 + drawn(point * DIMENSIONS + dimension) % 12);
}

static long distance(unsigned a, unsigned b) {
    long sum = 0;
    for (unsigned i = 0; i < DIMENSIONS; i++) {
        long difference = points[a][i] - points[b][i];
        sum += difference * difference;
    }
    return sum;
}

/* What the thread's points would gain, were the candidate a centre. */
static void find_gain(unsigned thread) {
    struct gain *gain = &gains[thread];
    gain->open = 0;
    for (unsigned i = 0; i < centre_count; i++)
        gain->closed[centres[i]] = 0;
    for (unsigned i = share_begin(thread, POINTS); i < share_begin(thread + 1, POINTS); i++) {
        long more = distance(i, candidate) - distance_of[i];
        if (more < 0)
            gain->open -= more;
        else
            gain->closed[centre_of[i]] += more;
    }
}

/* One thread adds the gains, and decides: a centre closes where that saves more than its points lose. */
static void decide(void) {
    long gain = -PRICE;
    for (unsigned thread = 0; thread < thread_count; thread++)
        gain += gains[thread].open;
    for (unsigned i = 0; i < centre_count; i++) {
        long loss = 0;
        for (unsigned thread = 0; thread < thread_count; thread++)
            loss += gains[thread].closed[centres[i]];
        is_closed[centres[i]] = loss < PRICE;
        gain += loss < PRICE ? PRICE - loss : 0;
    }
    is_opened = gain > 0 && centre_of[candidate] != candidate;
}

/* The thread's points move to the new centre. */
static void move_points(unsigned thread) {
    for (unsigned i = share_begin(thread, POINTS); i < share_begin(thread + 1, POINTS); i++) {
        long other = distance(i, candidate);
        if (other < distance_of[i] || is_closed[centre_of[i]]) {
            centre_of[i] = candidate;
            distance_of[i] = other;
        }
    }
}

static void count_centres(void) {
    unsigned kept = 0;
    for (unsigned i = 0; i < centre_count; i++)
        if (!is_closed[centres[i]])
            centres[kept++] = centres[i];
    centres[kept++] = candidate;
    centre_count = kept;
}

static void work(unsigned thread) {
    unsigned begin = share_begin(thread, POINTS), end = share_begin(thread + 1, POINTS);
    for (unsigned i = begin; i < end; i++)
        for (unsigned j = 0; j < DIMENSIONS; j++)
            points[i][j] = coordinate(i, j);
    wait_for_all();
    for (unsigned i = begin; i < end; i++)
        distance_of[i] = distance(i, 0);
    for (unsigned i = 0; i < CANDIDATES; i++) {
        if (thread == 0)
            candidate = drawn(1000 + i) % POINTS;
        wait_for_all();
        find_gain(thread);
        wait_for_all();
        if (thread == 0)
            decide();
        wait_for_all();
        if (is_opened)
            move_points(thread);
        wait_for_all();
        if (is_opened && thread == 0)
            count_centres();
    }
    unsigned long sum = 0;
    for (unsigned i = begin; i < end; i++)
        sum += (unsigned long)distance_of[i];
    tell(thread, sum);
}

int main(int words, char **word) {
    centre_count = 1; /* point 0 */
    run_on_threads(words, word, work);
    printf("stream_cluster %d centres %u distances %lu\n", POINTS, centre_count, all_told());
    return 0;
}
