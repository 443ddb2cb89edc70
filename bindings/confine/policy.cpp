/* Policy files, in TOML. The parser takes no text whose brackets don't close each other, or that nests deep: it would end confine, or
 * use its stack up. So that is looked at first. */
#include "confine.h"
#include <algorithm>
#include <cerrno>
#include <cstring>
#include <exception>
#include <filesystem>
#include <fstream>
#include <initializer_list>
#include <string>
#include <string_view>
#define TOML_EXCEPTIONS 1
#define TOML_ASSERT(expression) ((expression) ? void() : refuse("a policy that can't be read"))
#include <toml++/toml.h>

namespace {

/* What a policy is read from and added to. */
struct Reading {
    const char *file;
    plan *into;
};

/* Where something stands in the file. */
std::string place_of(const Reading &reading, const toml::node &node)
{
    return std::string(reading.file) + ":" + std::to_string(node.source().begin.line);
}

ENDS void fault(const Reading &reading, const toml::node &node, const std::string &what)
{
    refuse("%s: %s", place_of(reading, node).c_str(), what.c_str());
}

/* A table has these keys and no others. */
void has_only(const Reading &reading, const toml::table &table, std::initializer_list<std::string_view> keys)
{
    for (const auto &[key, value] : table) {
        bool is_known = false;
        for (std::string_view it : keys) is_known = is_known || it == key.str();
        if (!is_known) fault(reading, value, "no word of a policy: " + std::string(key.str()));
    }
}

std::string text_of(const Reading &reading, const toml::node &node)
{
    auto text = node.value<std::string>();
    if (!text || text->empty() || text->size() >= PATH_MAX || text->find('\0') != std::string::npos) fault(reading, node, "a text is wanted");
    return *text;
}

/* The text that a table has to have under a key. */
std::string text_in(const Reading &reading, const toml::table &table, std::string_view key)
{
    const toml::node *node = table.get(key);
    if (!node) fault(reading, table, std::string(key) + " is wanted");
    return text_of(reading, *node);
}

/* A path as the file names it: from the file's own folder on. */
std::string path_in(const Reading &reading, const toml::table &table, std::string_view key)
{
    std::filesystem::path path = text_in(reading, table, key);
    return path.is_absolute() ? path.string() : (std::filesystem::path(reading.file).parent_path() / path).string();
}

const toml::array &array_of(const Reading &reading, const toml::node &node)
{
    const toml::array *array = node.as_array();
    if (!array) fault(reading, node, "a list is wanted");
    return *array;
}

const toml::table &table_of(const Reading &reading, const toml::node &node)
{
    const toml::table *table = node.as_table();
    if (!table) fault(reading, node, "a table is wanted");
    return *table;
}

/* Calls this for each item under a key, if it is there. */
template <typename Take>
void each(const Reading &reading, const toml::table &table, std::string_view key, Take take)
{
    const toml::node *node = table.get(key);
    if (!node) return;
    for (const toml::node &it : array_of(reading, *node)) take(it);
}

/* A category that the file has named, by its place. */
int category_of(const Reading &reading, const toml::node &node, std::string_view name)
{
    for (int i = 0; i < reading.into->category_count; i++)
        if (name == reading.into->categories[i].name) return i;
    fault(reading, node, "no category: " + std::string(name));
}

/* (A text has a letter.) */
bool is_name(const std::string &text)
{
    if (text.size() > MOST_NAME) return false;
    for (char it : text)
        if (!(it >= 'a' && it <= 'z') && !(it >= '0' && it <= '9') && it != '-' && it != '_') return false;
    return true;
}

std::string name_of(const Reading &reading, const toml::node &node)
{
    std::string name = text_of(reading, node);
    if (!is_name(name)) fault(reading, node, "a name has up to 31 of a to z, 0 to 9, - and _");
    return name;
}

void take_category(const Reading &reading, const toml::node &node)
{
    std::string name = name_of(reading, node);
    for (int i = 0; i < reading.into->category_count; i++)
        if (name == reading.into->categories[i].name) fault(reading, node, "named twice: " + name);
    if (name == "none") fault(reading, node, "none is the label of no category");
    add_category(reading.into, name.c_str());
}

/* The levels that a table has under a key, of which the lowest is told. */
void take_levels(const Reading &reading, const toml::table &table, std::string_view key, int lowest, levels &levels)
{
    const toml::node *node = table.get(key);
    if (!node) return;
    for (const auto &[name, value] : table_of(reading, *node)) {
        const auto *level = value.as_integer();
        if (!level || level->get() < lowest || level->get() > 3) fault(reading, value, "a level is from " + std::to_string(lowest) + " to 3");
        levels.in[category_of(reading, value, name.str())] = static_cast<uint8_t>(level->get());
    }
}

void take_read(const Reading &reading, const toml::node &node)
{
    const toml::table &table = table_of(reading, node);
    has_only(reading, table, {"folder", "label"});
    secret *secret = add_secret(reading.into, place_of(reading, node).c_str(), path_in(reading, table, "folder").c_str());
    take_levels(reading, table, "label", 0, secret->levels);
}

void take_write(const Reading &reading, const toml::node &node)
{
    const toml::table &table = table_of(reading, node);
    has_only(reading, table, {"file", "label"});
    report *report = add_report(reading.into, place_of(reading, node).c_str(), path_in(reading, table, "file").c_str());
    take_levels(reading, table, "label", 0, report->levels);
}

/* Errors that are shown need no file. */
void take_faults(const Reading &reading, const toml::node &node)
{
    const toml::table &table = table_of(reading, node);
    has_only(reading, table, {"file", "label"});
    report *faults = add_faults(reading.into, place_of(reading, node).c_str(), path_in(reading, table, "file").c_str());
    take_levels(reading, table, "label", 0, faults->levels);
    for (int i = 0; i < reading.into->category_count; i++)
        if (faults->levels.in[i] > 1) return;
    fault(reading, node, "a label above 1 is wanted: other errors are shown");
}

void take_program(const Reading &reading, const toml::table &policy)
{
    const toml::node *node = policy.get("program");
    if (!node) return;
    const toml::table &table = table_of(reading, *node);
    has_only(reading, table, {"label", "clearance"});
    take_levels(reading, table, "label", 1, reading.into->born);
    take_levels(reading, table, "clearance", 1, reading.into->clearance);
}

/* The report that a gate writes, which stands in the file before. */
int report_of(const Reading &reading, const toml::table &table)
{
    char real[PATH_MAX];
    if (!table.get("file")) return SHOWN;
    if (realpath(path_in(reading, table, "file").c_str(), real))
        for (int i = 0; i < reading.into->report_count; i++)
            if (!std::strcmp(real, reading.into->reports[i].path)) return i;
    fault(reading, *table.get("file"), "no file of [[write]]");
}

/* Whether a gate's output goes back to who writes to it, and so to no file. */
bool answers(const Reading &reading, const toml::table &table)
{
    const toml::node *node = table.get("answers");
    if (node && !node->is_boolean()) fault(reading, *node, "true or false is wanted");
    bool does = node && node->as_boolean()->get();
    if (does && table.get("file")) fault(reading, *node, "a gate answers or writes a file");
    return does;
}

void take_gate(const Reading &reading, const toml::node &node)
{
    const toml::table &table = table_of(reading, node);
    has_only(reading, table, {"name", "program", "owns", "file", "answers"});
    if (!table.get("name")) fault(reading, node, "name is wanted");
    std::string name = name_of(reading, *table.get("name"));
    if (GATES "/" + name == RUN) fault(reading, node, "confine has a gate of its own named " + name);
    gate *gate = add_gate(reading.into, name.c_str());
    each(reading, table, "program", [&](const toml::node &it) {
        if (gate->word_count == MOST_WORDS) fault(reading, it, "at most 16 words");
        std::strcpy(gate->words[gate->word_count++], text_of(reading, it).c_str());
    });
    if (!gate->word_count) fault(reading, node, "program is wanted");
    each(reading, table, "owns", [&](const toml::node &it) { gate->owns[category_of(reading, it, text_of(reading, it))] = true; });
    gate->report = report_of(reading, table);
    gate->answers = answers(reading, table);
}

/* How large a policy is, how deep its brackets nest, and how many dots a key has. */
constexpr std::size_t MOST_BYTES = 64 << 10, MOST_DEEP = 8;
constexpr int MOST_DOTS = 4;

/* A text that is looked at before it is parsed. */
class Look {
  public:
    Look(const char *file, const std::string &text) : file(file), text(text) {}

    /* Ends with a line where brackets don't close each other, nest too deep, or a key has too many dots. */
    void whole()
    {
        for (at = 0; at < text.size(); at++) {
            char it = text[at];
            if (it == '\n') line++;
            if (it == '#') at = std::min(text.find('\n', at), text.size()) - 1;
            else if (it == '"' || it == '\'') pass_text(it);
            else if (it == '[' || it == '{') open(it);
            else if (it == ']' || it == '}') close(it);
            dots = it == '.' ? dots + 1 : std::strchr("\n=,[]{}", it) ? 0 : dots;
            if (dots > MOST_DOTS) wrong("a key has too many dots");
        }
        if (!opened.empty()) wrong("a bracket is not closed");
    }

  private:
    ENDS void wrong(const char *what) { refuse("%s:%u: %s", file, line, what); }

    /* Goes to the end of a text, which stands on one line. */
    void pass_text(char quote)
    {
        if (text.compare(at, 3, std::string(3, quote)) == 0) wrong("a text stands on one line");
        for (at++; at < text.size() && text[at] != quote && text[at] != '\n'; at++)
            if (text[at] == '\\' && quote == '"') at++;
        if (at >= text.size() || text[at] != quote) wrong("a text is not closed");
    }

    void open(char bracket)
    {
        if (opened.size() == MOST_DEEP) wrong("brackets nest too deep");
        opened += bracket == '[' ? ']' : '}';
    }

    void close(char bracket)
    {
        if (opened.empty() || opened.back() != bracket) wrong("brackets don't close each other");
        opened.pop_back();
    }

    const char *file;
    const std::string &text;
    std::string opened; /* what has to close, the last first */
    std::size_t at = 0;
    unsigned line = 1;
    int dots = 0;
};

std::string text_of_file(const char *path)
{
    std::ifstream file(path, std::ios::binary);
    std::string text(MOST_BYTES + 1, 0);
    if (!file) refuse("%s: %s", path, std::strerror(errno));
    file.read(text.data(), static_cast<std::streamsize>(text.size()));
    if (file.bad() || std::filesystem::is_directory(path)) refuse("%s: it can't be read", path);
    text.resize(static_cast<std::size_t>(file.gcount()));
    if (text.size() > MOST_BYTES) refuse("%s: a policy has at most %zu bytes", path, MOST_BYTES);
    return text;
}

void take_all(const Reading &reading, const toml::table &policy)
{
    has_only(reading, policy, {"categories", "read", "write", "faults", "public", "program", "gate"});
    each(reading, policy, "categories", [&](const toml::node &it) { take_category(reading, it); });
    each(reading, policy, "read", [&](const toml::node &it) { take_read(reading, it); });
    each(reading, policy, "write", [&](const toml::node &it) { take_write(reading, it); });
    each(reading, policy, "faults", [&](const toml::node &it) { take_faults(reading, it); });
    each(reading, policy, "public", [&](const toml::node &it) {
        std::filesystem::path path = text_of(reading, it);
        if (!path.is_absolute()) path = std::filesystem::path(reading.file).parent_path() / path;
        add_open(reading.into, place_of(reading, it).c_str(), path.c_str());
    });
    take_program(reading, policy);
    each(reading, policy, "gate", [&](const toml::node &it) { take_gate(reading, it); });
}

}

void read_policy(const char *path, struct plan *plan)
{
    const std::string text = text_of_file(path);
    Look(path, text).whole();
    try {
        take_all(Reading{path, plan}, toml::parse(text, std::string_view(path)));
    } catch (const toml::parse_error &error) {
        refuse("%s:%u: %s", path, static_cast<unsigned>(error.source().begin.line), std::string(error.description()).c_str());
    } catch (const std::exception &) {
        refuse("%s: it can't be read as a policy", path);
    }
}
