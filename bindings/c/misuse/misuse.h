/* What the files of the table of misuse share. */
#ifndef MISUSE_H
#define MISUSE_H

#ifndef _GNU_SOURCE
#define _GNU_SOURCE
#endif
#include "histar.h"
#include <stdio.h>
#include <stdlib.h>
#include <sys/wait.h>
#include <unistd.h>

/* What a program does wrong, and how that is refused. The table ends where nothing is named. */
struct row {
    const char *what;
    uint32_t refusal;
    uint32_t (*misuses)(void);
};
extern const struct row LEFT[], FORKED[];

/* A kernel with a log and a secret, one that is closed, and a seat whose list has a log. */
extern histar k, closed, seat;
extern histar_object secret;

void must(uint32_t refusal);
histar_entry in_root(histar_object object);
uint32_t is_called(histar *kernel);

#endif
