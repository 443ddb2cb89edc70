/* What the parts of the player share: a script that is being played. */
#ifndef PLAY_H
#define PLAY_H
#include "histar.h"
#include <inttypes.h>
#include <stdio.h>
#include <stdlib.h>

enum { LINES = 65536, NAMES = 4096 };
enum { NO_THREAD = 42 };

/* What a name stands for: an object or a category; and who knows it: who bound it, and all from a phase on. */
struct name {
    char text[17], worker[17];
    int is_category;
    uint64_t value;
    unsigned phase;
};

/* What a line answered: a word with numbers, objects, labels or bytes, as its reply has them. */
struct line {
    unsigned number, phase;
    char bound[17], worker[17], *call;
    char unbound[17];
    uint32_t refusal;
    char word[12];
    size_t len;
    uint8_t bytes[64];
    histar_category category;
    histar_object objects[17];
    uint64_t numbers[4];
    uint32_t object_count, number_count;
    int has_category, has_mapping;
    histar_mapping mapping;
    histar_label labels[3];
    uint32_t label_count;
};

/* The kernel, the names that are bound, and the lines, in the order of the script. */
extern histar k;
extern struct name names[NAMES];
extern size_t name_count;
extern struct line lines[LINES];
extern size_t line_count;

/* The line that is played, and the rest of its words. */
extern struct line *now;
extern char *rest;

/* main.c */
void faulty(const char *what);
void copy_name(char to[17], const char *text);
const struct name *name_of(const char *text, const char *worker, unsigned phase);

/* words.c: the words of the line that is played, from left to right. A name that is not known is noted in the line. */
char *word(void);
histar_object object(void);
uint64_t number(void);
histar_entry entry(void);
histar_label label(void);
size_t bytes(uint8_t *to);
uint32_t set(const char *letters);

/* calls.c: makes the call of the line that is played, as a thread. */
void plays(histar_object thread);

/* printing.c */
void print_label(const histar_label *it);
void print_all(void);

/* tables.c: prints what the kernel keeps, as a dump has it. */
void print_tables(void);

#endif
