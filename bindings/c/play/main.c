/* Plays a script by the functions of histar.h and prints what ./histar run prints of it. Lines are played one after
 * another, so what a script asks must not hang on the schedule of its workers. A test: a faulty script ends it with 2.
 *
 * play SCRIPT [--pages N] [--device L] [--next-id N] [--next-category N] [--tables yes] [--dump FILE]
 *
 * With `--tables yes` the tables of what the kernel keeps follow, as a dump has them. With `--dump FILE` calls are kept, and their
 * dump is written to a file. The lines of a batch are calls like others, so a dump has no batch. */
#include "play.h"

histar k;
struct name names[NAMES];
size_t name_count;
struct line lines[LINES];
size_t line_count;

/* The line that is played, and the rest of its words. */
struct line *now;
char *rest;

void faulty(const char *what)
{
    fprintf(stderr, "play: %s\n", what);
    exit(2);
}

/* A name is at most 16 letters. */
void copy_name(char to[17], const char *text)
{
    size_t len = strlen(text);
    if (len > 16) faulty("a name is too long");
    memcpy(to, text, len + 1);
}

const struct name *name_of(const char *text, const char *worker, unsigned phase)
{
    for (size_t i = 0; i < name_count; i++)
        if (!strcmp(names[i].text, text) && (!strcmp(names[i].worker, worker) || names[i].phase <= phase))
            return &names[i];
    return NULL;
}

/* Who has a seat, and who was turned away in this phase, as their workers' names. */
static char seated[NAMES][17], away[NAMES][17];
static size_t seated_count, away_count;

static int stands_in(char list[][17], size_t count, const char *text)
{
    for (size_t i = 0; i < count; i++)
        if (!strcmp(list[i], text)) return 1;
    return 0;
}

static void opens_seats(unsigned phase)
{
    away_count = 0;
    for (size_t i = 0; i < line_count; i++) {
        const char *worker = lines[i].worker;
        const struct name *name = name_of(worker, "", phase);
        histar_self self;
        if (lines[i].phase != phase || !name || name->is_category) continue;
        if (stands_in(seated, seated_count, worker) || stands_in(away, away_count, worker)) continue;
        if (histar_self_get(&k, histar_object_of(name->value), &self) == HISTAR_HALTED) copy_name(away[away_count++], worker);
        else copy_name(seated[seated_count++], worker);
    }
}

static void binds(const char *text, const char *worker, unsigned phase, int is_category, uint64_t value)
{
    struct name *name = &names[name_count++];
    copy_name(name->text, text);
    copy_name(name->worker, worker);
    name->phase = phase;
    name->is_category = is_category;
    name->value = value;
}

static void plays_line(struct line *line)
{
    const struct name *worker = name_of(line->worker, "", line->phase);
    now = line;
    if (!worker || worker->is_category) copy_name(line->unbound, line->worker);
    else if (stands_in(away, away_count, line->worker)) line->refusal = NO_THREAD;
    else plays(histar_object_of(worker->value));
    if (!line->bound[0] || line->unbound[0] || line->refusal) return;
    binds(line->bound, line->worker, line->phase + 1, line->has_category, line->has_category ? line->category.number : line->objects[0].id);
}

static void read_script(const char *path)
{
    static char text[4200];
    unsigned number = 0, phase = 0;
    FILE *file = fopen(path, "r");
    if (!file) faulty("the script can't be read");
    while (fgets(text, sizeof text, file)) {
        struct line *line = &lines[line_count];
        char *call, *bound;
        number++;
        text[strcspn(text, "\n")] = 0;
        if (!strcmp(text, "--")) {
            phase++;
            continue;
        }
        if (!(call = strchr(text, ':'))) faulty("a line without a call");
        *call++ = 0;
        if (*call == '+') call++;
        bound = strstr(text, " = ");
        if (bound) *bound = 0;
        line->number = number;
        line->phase = phase;
        if (bound) copy_name(line->bound, text);
        copy_name(line->worker, bound ? bound + 3 : text);
        line->call = strdup(call + 1);
        line_count++;
    }
    fclose(file);
}

/* Writes the dump of the log to a file: how long it is is asked first. */
static void writes_dump(const char *path)
{
    size_t len = 0, written = 0;
    char *text;
    FILE *file = fopen(path, "w");
    if (!file || histar_dump(&k, NULL, 0, &len) != HISTAR_BOUNDS) faulty("no dump");
    text = malloc(len);
    if (!text || histar_dump(&k, text, len - 1, &written) != HISTAR_BOUNDS || written != len) faulty("a dump in too little room");
    if (histar_dump(&k, text, len, &written) || written != len) faulty("a dump in its room");
    if (fwrite(text, 1, len, file) != len || fclose(file)) faulty("the dump is not written");
    free(text);
}

int main(int count, char **given)
{
    uint64_t pages = 64, device = 1, next_id = 4, next_category = 1;
    uint32_t refusal;
    int with_tables = 0;
    const char *dump = NULL;
    if (count < 2) faulty("play SCRIPT [--pages N] [--device L] [--next-id N] [--next-category N] [--tables yes] [--dump FILE]");
    for (int i = 2; i + 1 < count; i += 2) {
        uint64_t n = strtoull(given[i + 1], NULL, 10);
        if (!strcmp(given[i], "--pages")) pages = n;
        if (!strcmp(given[i], "--device")) device = n;
        if (!strcmp(given[i], "--next-id")) next_id = n;
        if (!strcmp(given[i], "--next-category")) next_category = n;
        if (!strcmp(given[i], "--tables")) with_tables = 1;
        if (!strcmp(given[i], "--dump")) dump = given[i + 1];
    }
    read_script(given[1]);
    if ((refusal = histar_open_with(&k, pages, device, next_id, next_category))) faulty(histar_refusal_name(refusal));
    if (dump && histar_log_on(&k, UINT64_MAX, HISTAR_LOG_ALL)) faulty("the log does not begin");
    binds("root", "", 0, 0, HISTAR_ROOT.id);
    binds("boot", "", 0, 0, HISTAR_BOOT.id);
    binds("dev", "", 0, 0, HISTAR_DEVICE.id);
    for (size_t i = 0; i < line_count; i++) {
        if (i == 0 || lines[i].phase != lines[i - 1].phase) opens_seats(lines[i].phase);
        plays_line(&lines[i]);
    }
    print_all();
    if (with_tables) print_tables();
    if (dump) writes_dump(dump);
    histar_close(&k);
    for (size_t i = 0; i < line_count; i++) free(lines[i].call);
    return 0;
}
