/* Descriptors: those that go through a socket, and what one leads to. */
#define _GNU_SOURCE
#include "confine.h"
#include <fcntl.h>
#include <string.h>
#include <sys/resource.h>
#include <sys/socket.h>
#include <sys/stat.h>
#include <sys/uio.h>
#include <unistd.h>

bool send_descriptor(int socket, int descriptor)
{
    char byte = 'd';
    struct iovec part = {&byte, 1};
    union { char room[CMSG_SPACE(sizeof(int))]; struct cmsghdr aligned; } control;
    struct msghdr message = {.msg_iov = &part, .msg_iovlen = 1, .msg_control = control.room, .msg_controllen = sizeof control.room};
    struct cmsghdr *head = CMSG_FIRSTHDR(&message);
    head->cmsg_level = SOL_SOCKET;
    head->cmsg_type = SCM_RIGHTS;
    head->cmsg_len = CMSG_LEN(sizeof descriptor);
    memcpy(CMSG_DATA(head), &descriptor, sizeof descriptor);
    return sendmsg(socket, &message, MSG_NOSIGNAL) == 1;
}

int receive_descriptor(int socket)
{
    char byte;
    int descriptor = -1;
    struct iovec part = {&byte, 1};
    union { char room[CMSG_SPACE(sizeof(int))]; struct cmsghdr aligned; } control;
    struct msghdr message = {.msg_iov = &part, .msg_iovlen = 1, .msg_control = control.room, .msg_controllen = sizeof control.room};
    struct cmsghdr *head;
    if (recvmsg(socket, &message, MSG_CMSG_CLOEXEC) != 1 || byte != 'd') return -1;
    head = CMSG_FIRSTHDR(&message);
    if (head && head->cmsg_type == SCM_RIGHTS) memcpy(&descriptor, CMSG_DATA(head), sizeof descriptor);
    return descriptor;
}

int pin(int file)
{
    char link[64];
    snprintf(link, sizeof link, "/proc/self/fd/%d", file);
    return open(link, O_PATH | O_CLOEXEC);
}

bool is_same(int one, int other)
{
    struct stat first, second;
    return one >= 0 && other >= 0 && !fstat(one, &first) && !fstat(other, &second) && first.st_dev == second.st_dev && first.st_ino == second.st_ino;
}

static struct rlimit before;

void raise_files(void)
{
    struct rlimit most;
    if (getrlimit(RLIMIT_NOFILE, &before)) return;
    most = (struct rlimit){before.rlim_max, before.rlim_max};
    setrlimit(RLIMIT_NOFILE, &most);
}

void lower_files(void)
{
    if (before.rlim_max) setrlimit(RLIMIT_NOFILE, &before);
}
