/* confine-run: asks, within confine, for the start of a program at a label. */
#define _GNU_SOURCE
#include "confine.h"
#include <errno.h>
#include <fcntl.h>
#include <stdlib.h>
#include <string.h>
#include <sys/socket.h>
#include <time.h>
#include <unistd.h>

static const char USAGE[] =
    "confine-run LABEL [--at-most LABEL] -- PROGRAM ARGUMENT..\n"
    "\n"
    "Starts a program within confine in a world of its own, at a label: the categories that it may know, as in\n"
    "health,money=2; none for a program that may know no secret yet. A secret's category is named as its folder.\n"
    "With --at-most its label never rises above that one, nor does that of what it starts.\n"
    "What it prints is handed on where the reader may have it. It ends with the program's status, or at once with 0\n"
    "where that may not be known. 2: wrong words; 69: refused.\n";

enum { MOST_ASKED = 128 << 10 };

static char asked[MOST_ASKED];
static size_t length;

static void add(const char *text)
{
    size_t count = strlen(text) + 1;
    if (count > sizeof asked - length) {
        fputs("confine-run: the words and the environment are too long\n", stderr);
        exit(ENDS_USAGE);
    }
    memcpy(asked + length, text, count);
    length += count;
}

/* Sends what is asked for, with the standard streams. */
static bool send_asked(int socket)
{
    int streams[3] = {0, 1, 2};
    struct iovec part = {asked, length};
    union { char room[CMSG_SPACE(sizeof streams)]; struct cmsghdr aligned; } control;
    struct msghdr message = {.msg_iov = &part, .msg_iovlen = 1, .msg_control = control.room, .msg_controllen = sizeof control.room};
    struct cmsghdr *head = CMSG_FIRSTHDR(&message);
    head->cmsg_level = SOL_SOCKET;
    head->cmsg_type = SCM_RIGHTS;
    head->cmsg_len = CMSG_LEN(sizeof streams);
    memcpy(CMSG_DATA(head), streams, sizeof streams);
    return sendmsg(socket, &message, MSG_NOSIGNAL) == (ssize_t)length;
}

int ask_run(int count, char **words)
{
    char folder[PATH_MAX], number[16], told[256];
    static const struct timespec A_WHILE = {0, 10000000};
    const char *line;
    ssize_t got;
    int socket;
    bool is_bounded = count > 4 && !strcmp(words[2], "--at-most");
    int begin = is_bounded ? 5 : 3;
    if (count <= begin || strcmp(words[begin - 1], "--") || (is_bounded && !*words[3])) return fputs(USAGE, stderr), ENDS_USAGE;
    while ((socket = open(RUN, O_RDWR | O_CLOEXEC)) < 0 && errno == EAGAIN) nanosleep(&A_WHILE, NULL);
    if (socket < 0) fail(ENDS_UNABLE, RUN);
    snprintf(number, sizeof number, "%d", count - begin);
    add(words[1]);
    add(is_bounded ? words[3] : "");
    add(getcwd(folder, sizeof folder) ? folder : "/");
    add(number);
    for (int i = begin; i < count; i++) add(words[i]);
    for (char **it = environ; *it; it++) add(*it);
    if (!send_asked(socket)) fail(ENDS_UNABLE, RUN);
    close(0), close(1);
    if ((got = read(socket, told, sizeof told - 1)) <= 0) return ENDS_FAULT;
    told[got] = 0;
    if ((line = strchr(told, ' '))) fprintf(stderr, "confine-run:%s\n", line);
    return (int)strtol(told, NULL, 10);
}
