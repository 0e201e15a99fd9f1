/* The four functions that a C compiler may call without being asked to, for copies and clears of structs and
 * arrays. KEEP_LOOP stops it from making a call of the function itself out of the function's loop. */

#include <stddef.h>
#include <stdint.h>

#define KEEP_LOOP() __asm__ volatile("" : : : "memory")

static void copy_upwards(char *to, const char *from, size_t count) {
    for (size_t i = 0; i < count; i++) {
        to[i] = from[i];
        KEEP_LOOP();
    }
}

static void copy_downwards(char *to, const char *from, size_t count) {
    while (count--) {
        to[count] = from[count];
        KEEP_LOOP();
    }
}

void *memcpy(void *restrict to, const void *restrict from, size_t count) {
    copy_upwards(to, from, count);
    return to;
}

void *memmove(void *to, const void *from, size_t count) {
    if ((uintptr_t)to <= (uintptr_t)from)
        copy_upwards(to, from, count);
    else
        copy_downwards(to, from, count);
    return to;
}

void *memset(void *to, int byte, size_t count) {
    char *target = to;
    while (count--) {
        *target++ = (char)byte;
        KEEP_LOOP();
    }
    return to;
}

int memcmp(const void *left, const void *right, size_t count) {
    const unsigned char *a = left, *b = right;
    for (size_t i = 0; i < count; i++)
        if (a[i] != b[i])
            return a[i] - b[i];
    return 0;
}
