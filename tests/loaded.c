/* Opens the shared library by dlopen, as a program in another language does, and makes each call once.
 * The one argument is the library's path. Says nothing and ends with status 0 exactly if every answer is as expected.
 * It stands in for tests/loaded.py, with the same calls, where no Python can load a library for x86-64. */
#include "halyardfig.h"

#include <dlfcn.h>
#include <stdbool.h>
#include <stdio.h>
#include <string.h>

#define LENT(array) array, sizeof(array) / sizeof(array)[0]
#define TEXT(literal) (const uint8_t *)(literal), sizeof(literal) - 1
#define REFUSED(number, place) (((uint64_t)(number) << 32) | (uint64_t)(place))

/* The calls as the header declares them, found by name in the library that was opened. */
static struct {
    __typeof__(halyardfig_read) *read;
    __typeof__(halyardfig_print) *print, *print_long;
    __typeof__(halyardfig_compose) *compose;
    __typeof__(halyardfig_compose_lean) *compose_lean;
    __typeof__(halyardfig_run) *run;
    __typeof__(halyardfig_follow) *follow;
    __typeof__(halyardfig_extract) *extract;
    __typeof__(halyardfig_read_xml) *read_xml;
    __typeof__(halyardfig_write_xml) *write_xml;
    __typeof__(halyardfig_height) *height;
    __typeof__(halyardfig_paths) *paths;
    __typeof__(halyardfig_scratch) *scratch;
    __typeof__(halyardfig_is_cut) *is_cut;
    __typeof__(halyardfig_for_role) *for_role;
} calls;

enum { NODES = 7, KEPT = 4, ITEMS = HALYARDFIG_QUERY_ITEMS };

static int wrong;

static void expect(const char *what, bool holds)
{
    if (!holds) {
        wrong++;
        printf("loaded.c: %s is not as expected\n", what);
    }
}

static void answers(const char *what, uint64_t answer, uint64_t expected)
{
    if (answer != expected) {
        wrong++;
        printf("loaded.c: %s: %#llx, wanted %#llx\n", what, (unsigned long long)answer, (unsigned long long)expected);
    }
}

static bool find(void *library, const char *name, void *call)
{
    void *found = dlsym(library, name);
    memcpy(call, &found, sizeof found);
    if (found == NULL)
        printf("loaded.c: %s is not there\n", name);
    return found != NULL;
}

static bool find_all(void *library)
{
    return find(library, "halyardfig_read", &calls.read) && find(library, "halyardfig_print", &calls.print) &&
           find(library, "halyardfig_print_long", &calls.print_long) &&
           find(library, "halyardfig_compose", &calls.compose) &&
           find(library, "halyardfig_compose_lean", &calls.compose_lean) &&
           find(library, "halyardfig_run", &calls.run) &&
           find(library, "halyardfig_follow", &calls.follow) && find(library, "halyardfig_extract", &calls.extract) &&
           find(library, "halyardfig_read_xml", &calls.read_xml) &&
           find(library, "halyardfig_write_xml", &calls.write_xml) &&
           find(library, "halyardfig_height", &calls.height) && find(library, "halyardfig_paths", &calls.paths) &&
           find(library, "halyardfig_scratch", &calls.scratch) && find(library, "halyardfig_is_cut", &calls.is_cut) &&
           find(library, "halyardfig_for_role", &calls.for_role);
}

static void call_all(void)
{
    static const char xml[] = "<a><b><c>text</c></b><b><d/></b></a>", names[] = "a\nb\nc\nd\n";
    static const uint16_t wanted_parent[NODES] = {0, 0, 1, 2, 3, 1, 5}, wanted_kind[NODES] = {0, 2, 3, 4, 1, 3, 5};
    static const uint16_t cut_parent[KEPT] = {0, 0, 1, 2}, cut_kind[KEPT] = {0, 2, 3, 5};
    static const uint16_t numbers[KEPT] = {0, 1, 5, 6}, others[KEPT] = {0, 1, 2, 6};
    static const uint8_t given[NODES] = {1, 1, 1, 1, 1, 1, 1}, wanted_marks[NODES] = {1, 1, 0, 0, 0, 1, 1};
    static const char wanted_file[] = "<a><b><d></d></b></a>";
    static uint16_t parent[NODES], kind[NODES], begin[NODES], end[NODES], kept_parent[KEPT], kept_kind[KEPT];
    static const char views[] = "/a/b/c\n/a/b/d\n";
    static const halyardfig_role roles[] = {{1}, {2}};
    static uint32_t outer[ITEMS], inner[ITEMS], both[ITEMS], asked[ITEMS], untouched[8];
    static uint8_t marks[NODES], followed[NODES], scratch[126];
    static uint8_t text[HALYARDFIG_TEXT_BYTES], file[sizeof xml];

    answers("read_xml", calls.read_xml(TEXT(xml), TEXT(names), LENT(parent), LENT(kind), LENT(begin), LENT(end)), NODES);
    expect("parent", memcmp(parent, wanted_parent, sizeof parent) == 0);
    expect("kind", memcmp(kind, wanted_kind, sizeof kind) == 0);

    uint64_t o = calls.read(TEXT("/a[not(b/c)]"), HALYARDFIG_XPATH_1, TEXT(names), LENT(outer));
    uint64_t i = calls.read(TEXT("/a/b/d"), HALYARDFIG_XPATH_1, TEXT(names), LENT(inner));
    expect("read", halyardfig_refused(o) == 0 && halyardfig_refused(i) == 0);
    answers("height of the outer query", calls.height(outer, o), 3);
    answers("height of the inner query", calls.height(inner, i), 1);
    answers("paths of the outer query", calls.paths(outer, o), 1);
    answers("paths of the inner query", calls.paths(inner, i), 1);
    answers("scratch", calls.scratch(NODES, 3, 1, 1, 1), sizeof scratch);

    uint64_t fewer = calls.compose_lean(outer, o, inner, i, LENT(both));
    uint64_t size = calls.compose(outer, o, inner, i, LENT(both));
    expect("compose_lean", fewer < size);
    expect("compose", halyardfig_refused(size) == 0);
    answers("for_role", calls.for_role(TEXT(views), TEXT(names), LENT(roles), 1, TEXT("/a[not(b/c)]"), LENT(asked)), size);
    expect("items of for_role", memcmp(asked, both, sizeof asked) == 0);
    answers("no such role", calls.for_role(TEXT(views), TEXT(names), LENT(roles), 2, TEXT("/"), LENT(untouched)),
            REFUSED(15, 2));
    uint64_t printed = calls.print(both, size, TEXT(names), LENT(text));
    expect("print", memcmp(text, "/a[", 3) == 0);
    answers("print with no room", calls.print(both, size, TEXT(names), text, 0), REFUSED(10, printed));
    printed = calls.print_long(both, size, TEXT(names), LENT(text));
    expect("print_long", memcmp(text, "/child::a[", 10) == 0);
    answers("print_long with no room", calls.print_long(both, size, TEXT(names), text, 0), REFUSED(10, printed));

    answers("run", calls.run(both, size, LENT(parent), LENT(kind), LENT(given), LENT(marks), LENT(scratch)), KEPT);
    expect("marks", memcmp(marks, wanted_marks, sizeof marks) == 0);
    answers("follow", calls.follow(both, size, LENT(parent), LENT(kind), LENT(given), LENT(followed)), KEPT);
    expect("marks of follow", memcmp(followed, wanted_marks, sizeof followed) == 0);

    answers("write_xml",
            calls.write_xml(TEXT(xml), TEXT(names), LENT(parent), LENT(kind), LENT(begin), LENT(end), LENT(marks),
                            LENT(file)),
            strlen(wanted_file));
    expect("file", memcmp(file, wanted_file, strlen(wanted_file)) == 0);

    answers("extract", calls.extract(LENT(parent), LENT(kind), LENT(marks), LENT(kept_parent), LENT(kept_kind)), KEPT);
    expect("extracted parent", memcmp(kept_parent, cut_parent, sizeof kept_parent) == 0);
    expect("extracted kind", memcmp(kept_kind, cut_kind, sizeof kept_kind) == 0);
    answers("is_cut", calls.is_cut(LENT(parent), LENT(kind), LENT(cut_parent), LENT(cut_kind), LENT(numbers)), 1);
    answers("is_cut, no", calls.is_cut(LENT(parent), LENT(kind), LENT(cut_parent), LENT(cut_kind), LENT(others)), 0);

    answers("another version", calls.read(TEXT("/a"), 3, TEXT(names), LENT(untouched)), REFUSED(1, 0));
    answers("a name that the list lacks", calls.read(TEXT("/e"), HALYARDFIG_XPATH_1, TEXT(names), LENT(untouched)),
            REFUSED(5, 1));
    answers("text that ends too early",
            calls.read_xml(TEXT("<a"), TEXT(names), LENT(parent), LENT(kind), LENT(begin), LENT(end)), REFUSED(11, 2));
    for (size_t k = 0; k < sizeof untouched / sizeof *untouched; k++)
        expect("memory of refused calls", untouched[k] == 0);
    expect("memory of a refused read_xml", memcmp(kind, wanted_kind, sizeof kind) == 0);
}

int main(int count, char **arguments)
{
    void *library = count == 2 ? dlopen(arguments[1], RTLD_NOW | RTLD_LOCAL) : NULL;
    if (library == NULL) {
        printf("loaded.c: %s\n", count == 2 ? dlerror() : "the one argument is the library");
        return 2;
    }
    if (find_all(library))
        call_all();
    else
        wrong++;
    return wrong != 0;
}
