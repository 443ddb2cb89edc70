/* What is relayed between a program and what is outside, a gate, or another program. No read and no write of the broker waits. */
#define _GNU_SOURCE
#include "confine.h"
#include <errno.h>
#include <fcntl.h>
#include <stdlib.h>
#include <string.h>
#include <sys/socket.h>
#include <sys/stat.h>
#include <unistd.h>

/* How much is taken at once; how much may wait for a reader whose pace the writer may know, and for another. */
enum { PIECE = 65536, MOST_KNOWN = 1 << 20, MOST_WAITING = 64 << 20, MOST_BEFORE = 64 };

struct stream no_stream(void) { return (struct stream){.from = -1, .to = -1, .from_place = -1, .to_place = -1, .gate = -1}; }

static void close_end(int *end)
{
    if (*end >= 0) close(*end);
    *end = -1;
}

int unblocked(int file, int access)
{
    struct stat found;
    char link[64];
    int flags = fcntl(file, F_GETFL), made;
    errno = EBADF;
    if (flags < 0 || flags & O_PATH || fstat(file, &found)) return -1;
    if ((flags & O_ACCMODE) != O_RDWR && (flags & O_ACCMODE) != access) return -1;
    snprintf(link, sizeof link, "/proc/self/fd/%d", file);
    if (S_ISFIFO(found.st_mode)) return open(link, access | O_NONBLOCK | O_CLOEXEC);
    if (S_ISCHR(found.st_mode) && (made = open(link, access | O_NONBLOCK | O_NOCTTY | O_CLOEXEC)) >= 0) return made;
    if (S_ISREG(found.st_mode) && access == O_RDONLY && (made = open(link, access | O_CLOEXEC)) >= 0) {
        if (lseek(made, lseek(file, 0, SEEK_CUR), SEEK_SET) >= 0) return made;
        close(made);
    }
    errno = EINVAL;
    return S_ISREG(found.st_mode) || S_ISCHR(found.st_mode) || S_ISSOCK(found.st_mode) ? fcntl(file, F_DUPFD_CLOEXEC, 3) : -1;
}

/* Whether what is read of it is used up by nobody else, so that nobody sees how much is. */
static bool is_file(int file)
{
    struct stat found;
    return !fstat(file, &found) && (S_ISREG(found.st_mode) || (S_ISCHR(found.st_mode) && !isatty(file)));
}

static ssize_t get(int file, void *text)
{
    ssize_t count = recv(file, text, PIECE, MSG_DONTWAIT);
    return count < 0 && errno == ENOTSOCK ? read(file, text, PIECE) : count;
}

static ssize_t put(int file, const void *text, size_t length)
{
    ssize_t count = send(file, text, length, MSG_DONTWAIT | MSG_NOSIGNAL);
    return count < 0 && errno == ENOTSOCK ? write(file, text, length < PIECE ? length : PIECE) : count;
}

/* Whether the writer may write now, and the reader read what was written. */
static bool may_write(const struct stream *stream)
{
    if (stream->kind == ANSWERED) return passes_gate(stream->plan, &stream->given, stream->gate, stream->forth);
    if (!stream->writer) return true;
    switch (stream->kind) {
    case PRINTED: return stream->writer->prints;
    case TO_GATE: return passes_gate(stream->plan, &stream->writer->levels, stream->gate, stream->forth);
    case BETWEEN: return writes_between(stream->writer, stream->forth);
    default: return true;
    }
}

static bool may_read(const struct stream *stream)
{
    return (stream->kind != BETWEEN && stream->kind != ANSWERED) || reads_between(stream->reader, stream->forth);
}

/* Whether the writer may know what the reader does: how fast it takes, and that it takes no more. That is a write of the reader's. */
static bool may_know(const struct stream *stream)
{
    if (stream->kind == TYPED) return stream->reader->prints;
    return stream->kind != BETWEEN || !stream->writer || (writes_between(stream->reader, stream->back) && reads_between(stream->writer, stream->back));
}

/* (The end is a write too: one that is refused is not seen before confine ends.) */
void end_if_empty(struct stream *stream)
{
    if ((stream->from < 0 || stream->is_cut) && stream->begin == stream->count && !stream->is_stuck) close_end(&stream->to);
}

/* Room for one piece more; false where there is none. */
static bool has_room(struct stream *stream)
{
    char *text;
    if (stream->begin == stream->count) stream->begin = stream->count = 0;
    if (stream->size - stream->count >= PIECE) return true;
    if (stream->size >= MOST_WAITING || !(text = realloc(stream->text, stream->size * 2 + PIECE))) return false;
    stream->text = text;
    stream->size = stream->size * 2 + PIECE;
    return true;
}

void take(struct stream *stream)
{
    static char lost[PIECE];
    bool is_kept = (stream->to >= 0 || stream->is_held) && has_room(stream);
    ssize_t count = get(stream->from, is_kept ? stream->text + stream->count : lost);
    if (count < 0 && (errno == EINTR || errno == EAGAIN)) return;
    if (count <= 0) {
        close_end(&stream->from);
        stream->is_stuck = !stream->is_cut && stream->kind == BETWEEN && !may_write(stream);
        end_if_empty(stream);
        return;
    }
    if (stream->is_errors && stream->writer) note_errors(stream->plan, stream->writer, is_kept ? stream->text + stream->count : lost, (size_t)count);
    if (is_kept && !stream->is_cut && may_write(stream)) stream->count += (size_t)count;
    else stream->is_dropped = true;
    end_if_empty(stream);
}

void take_before(struct stream *stream)
{
    for (int i = 0; i < MOST_BEFORE && came_now(stream->from, POLLIN) & (POLLIN | POLLHUP); i++) take(stream);
}

void end_reader(struct stream *stream)
{
    close_end(&stream->to);
    stream->begin = stream->count = 0;
    if (stream->from >= 0 && !stream->is_held && may_know(stream)) close_end(&stream->from);
}

void give(struct stream *stream)
{
    ssize_t count;
    if (stream->to < 0 || stream->begin == stream->count) return;
    if (!may_read(stream)) {
        settle(stream);
        return;
    }
    count = put(stream->to, stream->text + stream->begin, stream->count - stream->begin);
    if (count > 0) stream->begin += (size_t)count;
    else if (errno != EAGAIN && errno != EINTR) {
        stream->is_lost = errno != EPIPE && errno != ECONNRESET;
        stream->is_dropped = stream->is_dropped || !may_know(stream);
        end_reader(stream);
    }
    end_if_empty(stream);
}

/* Whether the writer is to wait. Who may not know what the reader does never waits for it. */
static bool waits(const struct stream *stream)
{
    size_t waiting = stream->count - stream->begin;
    if (is_file(stream->from)) return waiting || (stream->to < 0 && !stream->is_held);
    if (stream->to < 0) return false;
    if (stream->kind == TYPED) return waiting;
    return waiting >= MOST_KNOWN && may_know(stream);
}

void await_stream(struct stream *stream)
{
    bool gives = stream->begin < stream->count && !stream->is_held;
    stream->from_place = stream->from >= 0 && !waits(stream) ? await(stream->from, POLLIN) : -1;
    stream->to_place = gives ? await(stream->to, POLLOUT) : -1;
}

bool serve_stream(struct stream *stream)
{
    bool is_taken = came(stream->from_place) && stream->from >= 0;
    if (is_taken) take(stream);
    if (came(stream->to_place)) give(stream);
    return is_taken;
}

void hold(struct stream *stream)
{
    stream->is_held = true;
    close_end(&stream->to);
}

void settle(struct stream *stream)
{
    if (stream->kind != BETWEEN || stream->is_held || !stream->reader) return;
    if (!may_read(stream)) hold(stream);
    else if (!may_write(stream)) {
        stream->is_cut = true;
        give(stream);
        end_if_empty(stream);
    }
}

void drop_stream(struct stream *stream)
{
    close_end(&stream->from);
    close_end(&stream->to);
    free(stream->text);
    *stream = no_stream();
}
