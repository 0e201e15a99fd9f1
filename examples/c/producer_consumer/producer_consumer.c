/* Two producers hand numbers to two consumers through a queue of four places, which a mutex and two condition
 * variables guard. The consumers add them up, and see that each producer's numbers come in their order. */

#include "print.h"
#include "tilesim.h"

enum { PRODUCERS = 2, CONSUMERS = 2, PLACES = 4, EACH = 50 };

/* An item: who made it and which number it is, 1 to EACH; number 0 tells a consumer to stop. */
struct item {
    unsigned producer, number;
};

struct queue {
    struct mutex mutex;
    struct condition has_place, has_item;
    unsigned first, count;
    struct item items[PLACES];
};

static struct queue queue;
static _Atomic unsigned next_producer;
static _Atomic unsigned long taken, sum, out_of_order;

static void put(struct item item) {
    mutex_lock(&queue.mutex);
    while (queue.count == PLACES)
        condition_wait(&queue.has_place, &queue.mutex);
    queue.items[(queue.first + queue.count++) % PLACES] = item;
    condition_signal(&queue.has_item);
    mutex_unlock(&queue.mutex);
}

static struct item take(void) {
    mutex_lock(&queue.mutex);
    while (queue.count == 0)
        condition_wait(&queue.has_item, &queue.mutex);
    struct item item = queue.items[queue.first];
    queue.first = (queue.first + 1) % PLACES;
    queue.count--;
    condition_signal(&queue.has_place);
    mutex_unlock(&queue.mutex);
    return item;
}

static long produce(void *unused) {
    (void)unused;
    unsigned producer = atomic_fetch_add(&next_producer, 1);
    for (unsigned number = 1; number <= EACH; number++)
        put((struct item){producer, number});
    put((struct item){producer, 0});
    return 0;
}

static long consume(void *unused) {
    (void)unused;
    unsigned last[PRODUCERS] = {0};
    for (struct item item; (item = take()).number != 0;) {
        if (item.number <= last[item.producer])
            atomic_fetch_add(&out_of_order, 1);
        last[item.producer] = item.number;
        atomic_fetch_add(&taken, 1);
        atomic_fetch_add(&sum, item.number);
    }
    return 0;
}

int main(void) {
    struct thread producers[PRODUCERS], consumers[CONSUMERS - 1];
    if (threads_start(producers, PRODUCERS, produce, NULL) < PRODUCERS)
        return 1;
    if (threads_start(consumers, CONSUMERS - 1, consume, NULL) < CONSUMERS - 1)
        return 1;
    consume(NULL);
    threads_join(producers, PRODUCERS);
    threads_join(consumers, CONSUMERS - 1);
    print_count("taken", taken);
    print_count("sum", sum);
    print_count("out of order", out_of_order);
    return 0;
}
