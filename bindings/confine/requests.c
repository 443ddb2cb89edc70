/* What a program asks for that starts another: a label, a folder, words, an environment, and three descriptors. */
#define _GNU_SOURCE
#include "confine.h"
#include <stdlib.h>
#include <string.h>
#include <sys/socket.h>
#include <unistd.h>

enum { MOST_ASKED = 128 << 10, MOST_TEXTS = 4096, FIRST_WORD = 4 };

/* The descriptors that came with a message; false where there are not three. Whatever came is taken, so that none is left open. */
static bool take_files(struct msghdr *message, int *files)
{
    int came[STREAMS + 1]; /* (the room for three has room for a fourth) */
    size_t count = 0;
    for (struct cmsghdr *head = CMSG_FIRSTHDR(message); head; head = CMSG_NXTHDR(message, head))
        if (head->cmsg_level == SOL_SOCKET && head->cmsg_type == SCM_RIGHTS) {
            count = (head->cmsg_len - CMSG_LEN(0)) / sizeof(int);
            if (count > STREAMS + 1) count = STREAMS + 1;
            memcpy(came, CMSG_DATA(head), count * sizeof(int));
        }
    if (count == STREAMS) memcpy(files, came, STREAMS * sizeof(int));
    else
        for (size_t i = 0; i < count; i++) close(came[i]);
    return count == STREAMS;
}

/* Splits what came: a label, the highest one, the folder, how many words, the words, and the environment. */
static bool split(struct request *request, size_t length)
{
    int at = 0;
    long count;
    request->bytes[length] = 0;
    for (char *it = request->bytes; it < request->bytes + length && at < MOST_TEXTS; it += strlen(it) + 1) request->texts[at++] = it;
    request->texts[at] = NULL;
    count = at > FIRST_WORD ? strtol(request->texts[FIRST_WORD - 1], NULL, 10) : 0;
    if (count < 1 || count > at - FIRST_WORD) return false;
    memcpy(request->words, request->texts + FIRST_WORD, (size_t)count * sizeof *request->words);
    request->words[count] = NULL;
    request->label = request->texts[0];
    request->most = request->texts[1];
    request->begun = (struct begun){request->words, request->texts + FIRST_WORD + count, request->texts[2], true};
    return true;
}

/* Room for a request of so many bytes and texts. */
static struct request *new_request(const char *bytes, size_t length)
{
    size_t texts = 2;
    struct request *request;
    for (size_t i = 0; i < length; i++) texts += !bytes[i];
    if (!(request = calloc(1, sizeof *request))) return NULL;
    request->bytes = malloc(length + 1);
    request->texts = calloc(2 * texts + 2, sizeof *request->texts);
    if (!request->bytes || !request->texts) {
        free(request->bytes), free(request->texts), free(request);
        return NULL;
    }
    request->words = request->texts + texts + 1;
    memcpy(request->bytes, bytes, length);
    return request;
}

struct request *read_request(int socket)
{
    static char bytes[MOST_ASKED];
    union { char room[CMSG_SPACE(STREAMS * sizeof(int))]; struct cmsghdr aligned; } control;
    struct iovec part = {bytes, MOST_ASKED};
    struct msghdr message = {.msg_iov = &part, .msg_iovlen = 1, .msg_control = control.room, .msg_controllen = sizeof control.room};
    ssize_t length = recvmsg(socket, &message, MSG_CMSG_CLOEXEC | MSG_DONTWAIT);
    int files[STREAMS];
    struct request *request;
    bool has_files = length >= 0 && take_files(&message, files);
    if (length > 0 && has_files && (request = new_request(bytes, (size_t)length))) {
        memcpy(request->files, files, sizeof files);
        if (split(request, (size_t)length)) return request;
        drop_request(request);
        return NULL;
    }
    for (int i = 0; i < STREAMS && has_files; i++) close(files[i]);
    return NULL;
}

void drop_request(struct request *request)
{
    if (!request) return;
    for (int i = 0; i < STREAMS; i++)
        if (request->files[i] >= 0) close(request->files[i]);
    free(request->bytes);
    free(request->texts);
    free(request);
}

/* The category of this name, or of the folder that ends with it; -1 where there is none. */
static int category_of(const struct plan *plan, const char *name, size_t length)
{
    for (int i = 0; i < plan->category_count; i++) {
        const char *last = strrchr(plan->categories[i].name, '/');
        if (strlen(plan->categories[i].name) == length && !strncmp(plan->categories[i].name, name, length)) return i;
        if (last && strlen(last + 1) == length && !strncmp(last + 1, name, length)) return i;
    }
    return -1;
}

bool read_label(const struct plan *plan, const char *text, struct levels *levels)
{
    memset(levels->in, 1, sizeof levels->in);
    if (!strcmp(text, "none")) return true;
    while (*text) {
        size_t length = strcspn(text, ",="), level = 3;
        int category = category_of(plan, text, length);
        text += length;
        if (category < 0) return false;
        if (*text == '=') {
            if (text[1] < '0' || text[1] > '3') return false;
            level = (size_t)(text[1] - '0');
            text += 2;
        }
        if (*text == ',') text++;
        else if (*text) return false;
        levels->in[category] = (uint8_t)level;
    }
    return true;
}
