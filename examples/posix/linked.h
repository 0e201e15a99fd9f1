/* What tilecc writes into each image: the words of the command line, the files that can be opened, and two numbers. */

#ifndef LINKED_H
#define LINKED_H

#include <stddef.h>

/* A file that was linked in. The one that is called "-" is the standard input. */
struct linked_file {
    const char *name;
    const unsigned char *bytes;
    size_t size;
};

extern char *linked_words[]; /* the last is NULL */
extern const int linked_word_count;
extern const struct linked_file linked_files[];
extern const size_t linked_file_count;
extern const long linked_threads;     /* what sysconf(_SC_NPROCESSORS_ONLN) answers */
extern const size_t linked_stack_bytes; /* the setting stack_bytes of the runs */

/* Outputs what this thread has printed without a newline behind it. */
void output_flush(void);

/* The first thread's descriptor is set up (pthread.c). */
void threads_begin(void);

#endif
