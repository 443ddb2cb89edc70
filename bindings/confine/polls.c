/* What the broker waits for in a round: each asker takes a place, and looks there once the round has come. */
#define _GNU_SOURCE
#include "confine.h"
#include <stdlib.h>

static struct pollfd *places;
static int count, room;

void begin_round(void) { count = 0; }

int await(int file, short events)
{
    if (file < 0) return -1;
    if (count == room) {
        struct pollfd *more = realloc(places, (size_t)(room + 256) * sizeof *places);
        if (!more) return -1;
        places = more;
        room += 256;
    }
    places[count] = (struct pollfd){file, events, 0};
    return count++;
}

bool wait_round(int milliseconds) { return poll(places, (nfds_t)count, milliseconds) >= 0; }

short came(int place) { return place < 0 ? 0 : places[place].revents; }

short came_now(int file, short events)
{
    struct pollfd one = {file, events, 0};
    return file >= 0 && poll(&one, 1, 0) > 0 ? one.revents : 0;
}
