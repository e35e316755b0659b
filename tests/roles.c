/* Roles: samples, refusals at their edges and in their order, the largest unions, the model on random, damaged and
   large lendings; and what is promised of a role's answer, tried at random. */
#include "halyardfig.h"
#include "offering.h"
#include "paper.h"
#include "twin.h"

#include <string.h>

enum { SCRATCH_ROOM = 1 << 20, VIEW_ROOM = TEXT_ROOM / HALYARDFIG_VIEWS - 1, ROLE_ROOM = HALYARDFIG_ROLES + 1 };

/* What is lent to one call. */
struct asking {
    const uint8_t *views;
    size_t views_length;
    const uint8_t *names;
    size_t names_length;
    const halyardfig_role *roles;
    size_t role_count;
    uint32_t role;
    const uint8_t *text;
    size_t text_length;
    size_t room;
};

#define TEXT_OF(literal) (const uint8_t *)(literal), sizeof(literal) - 1

/* The names a to d, three roles of which the second is asked for, and the query `/`. */
static const halyardfig_role second_of_three[] = {{0}, {1}, {0x80000000}};
static const struct asking usual = {TEXT_OF("/a\n"), TEXT_OF("a\nb\nc\nd\n"), second_of_three, 3, 1, TEXT_OF("/"),
                                    ITEM_ROOM};

static struct asking with_views(const void *views, size_t length)
{
    struct asking asking = usual;
    asking.views = views;
    asking.views_length = length;
    return asking;
}

static struct asking with_text(struct asking asking, const void *text, size_t length)
{
    asking.text = text;
    asking.text_length = length;
    return asking;
}

/* The one role of this mask. */
static struct asking with_mask(struct asking asking, uint32_t mask)
{
    static halyardfig_role one;
    one.views = mask;
    asking.roles = &one;
    asking.role_count = 1;
    asking.role = 0;
    return asking;
}

static uint64_t ask(const struct asking *asking, uint32_t *out)
{
    return halyardfig_for_role(asking->views, asking->views_length, asking->names, asking->names_length, asking->roles,
                               asking->role_count, asking->role, asking->text, asking->text_length, out, asking->room);
}

/* Makes the call on guarded memory; only the items that it answers may be written, and none by a refused call. */
static void role_is(const char *what, struct asking asking, uint64_t expected)
{
    asking.views = offer(asking.views, asking.views_length);
    asking.names = offer(asking.names, asking.names_length);
    asking.roles = offer(asking.roles, asking.role_count * sizeof *asking.roles);
    asking.text = offer(asking.text, asking.text_length);
    uint32_t *out = offer(NULL, asking.room * sizeof *out);
    uint64_t answer = ask(&asking, out);
    size_t wrote = halyardfig_value(answer) < asking.room ? halyardfig_value(answer) : asking.room;
    judge_offered(what, answer, expected, (size_t[]){0, 0, 0, 0, wrote * sizeof *out});
}

/* The call composes the query with this union, item by item. */
static void union_is(const char *what, struct asking asking, const char *united)
{
    static uint32_t outer[ITEM_ROOM], inner[ITEM_ROOM], wanted[ITEM_ROOM], got[ITEM_ROOM];
    uint64_t o = halyardfig_read(asking.text, asking.text_length, 1, asking.names, asking.names_length, outer,
                                 ITEM_ROOM);
    uint64_t i = halyardfig_read((const uint8_t *)united, strlen(united), 1, asking.names, asking.names_length, inner,
                                 ITEM_ROOM);
    uint64_t expected = halyardfig_compose(outer, o, inner, i, wanted, ITEM_ROOM);
    uint64_t answer = ask(&asking, got);
    tally(halyardfig_refused(answer) == 0 && answer == expected && memcmp(got, wanted, answer * sizeof *got) == 0,
          "%s: answer %u with %u, expected %u with %u", what, halyardfig_refused(answer), halyardfig_place(answer),
          halyardfig_refused(expected), halyardfig_place(expected));
    role_is(what, asking, expected);
}

/* The items of a composition, by the formula: outer with w items, t guarded steps and m paths; inner with w and k. */
static size_t composed_size(size_t outer, size_t guards, size_t paths, size_t inner, size_t inner_paths)
{
    size_t selected = inner + 5 * inner_paths - 1;
    return outer + guards * (5 + 2 * selected) + paths * (3 + selected);
}

/* The table of docs/SCOPE.md's samples. */
static const struct table seven = {
    .parent = {0, 0, 1, 2, 3, 1, 5}, .kind = {0, 2, 3, 4, 1, 3, 5}, .marks = {1, 1, 1, 1, 1, 1, 1}, .nodes = 7};

/* Runs items on a table; false where that is refused. */
static bool run_items(const uint32_t *items, size_t count, const struct table *on, const uint8_t *given, uint8_t *marks)
{
    static uint8_t scratch[SCRATCH_ROOM];
    uint64_t answer = halyardfig_run(items, count, on->parent, on->nodes, on->kind, on->nodes, given, on->nodes, marks,
                                     on->nodes, scratch, sizeof scratch);
    return halyardfig_refused(answer) == 0;
}

/* The example of docs/ROLES.md. */
static const char three_views[] = "/a/b/c\n/a/b/d\n//text()\n";

static void samples(void)
{
    static const struct {
        const char *what;
        uint32_t role;
        const char *text;
        unsigned items;
        uint8_t marks[7];
    } rows[] = {
        {"role 0 asks /", 0, "/", 12, {1, 1, 1, 1, 1, 0, 0}},
        {"role 1 asks /", 1, "/", 20, {1, 1, 1, 1, 1, 1, 1}},
        {"role 2 asks /", 2, "/", 29, {1, 1, 1, 1, 1, 1, 1}},
        {"role 0 asks for a without d", 0, "/a[not(b/d)]", 80, {1, 1, 1, 1, 1, 0, 0}},
        {"role 1 asks for a without d", 1, "/a[not(b/d)]", 136, {0, 0, 0, 0, 0, 0, 0}},
        {"role 1 asks for c", 1, "//c", 96, {1, 1, 1, 1, 1, 0, 0}},
        {"role 0 asks for d", 0, "//d", 56, {0, 0, 0, 0, 0, 0, 0}},
    };
    static const halyardfig_role roles[] = {{1}, {6}, {7}};
    static uint32_t items[ITEM_ROOM];
    struct asking asking = with_views(TEXT_OF(three_views));
    asking.roles = roles;
    for (size_t i = 0; i < sizeof rows / sizeof rows[0]; i++) {
        uint8_t marks[7];
        asking.role = rows[i].role;
        asking = with_text(asking, rows[i].text, strlen(rows[i].text));
        role_is(rows[i].what, asking, rows[i].items);
        uint64_t count = ask(&asking, items);
        tally(run_items(items, count, &seven, seven.marks, marks) && memcmp(marks, rows[i].marks, sizeof marks) == 0,
              "%s: other nodes are kept", rows[i].what);
    }
}

/* The union has the views of the mask, no others, in view number order. */
static void unions(void)
{
    static const char *const united[] = {"",         "/a/b/c",          "/a/b/d",          "/a/b/c|/a/b/d",
                                         "//text()", "/a/b/c|//text()", "/a/b/d|//text()", "/a/b/c|/a/b/d|//text()"};
    struct asking asking = with_views(TEXT_OF(three_views));
    for (uint32_t mask = 1; mask < 8; mask++) {
        union_is("views in view number order", with_mask(asking, mask), united[mask]);
        union_is("a query of two paths", with_mask(with_text(asking, "//b[c]|/a/*", 11), mask), united[mask]);
    }
    union_is("views of several paths", with_mask(with_views(TEXT_OF("/b|/a\n/\n/d|/c|/b\n")), 5), "/b|/a|/d|/c|/b");
    union_is("one view twice", with_mask(with_views(TEXT_OF("/a\n/a\n")), 3), "/a|/a");
    union_is("white space around views", with_mask(with_views(TEXT_OF(" /a \t\n\t/ b\r\n")), 3), "/a|/b");
    union_is("white space in a query", with_text(usual, TEXT_OF("\n/\r\na \n")), "/a");
}

/* Each length at its limit. */
static void longest(void)
{
    static uint8_t views[TEXT_ROOM + 1], text[TEXT_ROOM + 1], names[LIST_ROOM + 1];
    size_t one = composed_size(1, 0, 1, 2, 1);
    memset(views, ' ', sizeof views);
    memset(text, ' ', sizeof text);
    views[0] = text[0] = '/';
    views[1] = 'a';
    views[TEXT_ROOM - 1] = '\n';
    role_is("the longest views", with_views(views, TEXT_ROOM), one);
    role_is("the longest query", with_text(usual, text, TEXT_ROOM), one);
    role_is("a query too long", with_text(usual, text, TEXT_ROOM + 1), REFUSED(1, 0));
    views[TEXT_ROOM] = '\n';
    role_is("views too long", with_views(views, TEXT_ROOM + 1), REFUSED(1, 0));
    views[TEXT_ROOM - 1] = ' ';
    role_is("one view too long", with_views(views, TEXT_ROOM + 1), REFUSED(1, 0));
    role_is("the longest views without LF", with_views(views, TEXT_ROOM), REFUSED(1, 0));
    /* The name a, and names that fill the list. */
    for (size_t i = 0; i < LIST_ROOM; i++)
        names[i] = i % 64 == 63 ? '\n' : i % 64 == 0 ? 'a' + (i / 64) % 26 : i % 64 == 1 ? 'a' + i / 64 / 26 : 'x';
    names[1] = '\n';
    names[2] = 'y';
    names[LIST_ROOM] = 'z';
    struct asking asking = usual;
    asking.names = names;
    asking.names_length = LIST_ROOM;
    role_is("the longest list", asking, one);
    asking.names_length = LIST_ROOM + 1;
    role_is("a list too long", asking, REFUSED(1, 0));
}

/* As many views and roles as there may be, and one more; none. */
static void most_views_and_roles(void)
{
    static uint8_t views[3 * (HALYARDFIG_VIEWS + 1)];
    static char united[sizeof views];
    static halyardfig_role roles[ROLE_ROOM];
    for (size_t v = 0; v <= HALYARDFIG_VIEWS; v++) {
        memcpy(views + 3 * v, (const char[]){'/', (char)('a' + v % 4), '\n'}, 3);
        memcpy(united + 3 * v, (const char[]){'/', (char)('a' + v % 4), '|'}, 3);
    }
    united[3 * HALYARDFIG_VIEWS - 1] = 0;
    struct asking most = with_views(views, 3 * HALYARDFIG_VIEWS), more = with_views(views, sizeof views);
    union_is("the most views, all of them named", with_mask(most, UINT32_MAX), united);
    union_is("the last of the most views", with_mask(most, UINT32_C(1) << 31), "/d");
    role_is("a view too many", with_mask(more, 1), REFUSED(1, 0));
    more.views_length -= 1;
    role_is("a view too many, without LF", with_mask(more, 1), REFUSED(1, 0));
    for (unsigned blank = 0; blank < 2; blank++) {
        memset(views, '\n', sizeof views);
        role_is(blank ? "the most blank lines" : "too many blank lines",
                with_mask(with_views(views, HALYARDFIG_VIEWS + !blank), 1), blank ? REFUSED(17, 0) : REFUSED(1, 0));
    }
    for (size_t i = 0; i < ROLE_ROOM; i++)
        roles[i].views = 0;
    roles[HALYARDFIG_ROLES - 1].views = 1;
    struct asking asking = usual;
    asking.roles = roles;
    asking.role_count = HALYARDFIG_ROLES;
    asking.role = HALYARDFIG_ROLES - 1;
    role_is("the last of the most roles", asking, composed_size(1, 0, 1, 2, 1));
    asking.role = 0;
    role_is("the first of the most roles, with no view", asking, REFUSED(16, 0));
    asking.role = HALYARDFIG_ROLES;
    role_is("one past the most roles", asking, REFUSED(15, HALYARDFIG_ROLES));
    asking.role_count = ROLE_ROOM;
    asking.role = HALYARDFIG_ROLES - 1;
    role_is("a role too many", asking, REFUSED(1, 0));
}

/* Lines 15 and 16 at the role's number, whatever other roles name. */
static void roles_looked_up(void)
{
    static const uint32_t numbers[] = {3, 4, 15, 16, 17, 255, 256, 65535, 65536, 0x7fffffff, 0x80000000, UINT32_MAX};
    struct asking asking = usual;
    role_is("the second role, the others bad", asking, composed_size(1, 0, 1, 2, 1));
    asking.role = 0;
    role_is("a role with no view", asking, REFUSED(16, 0));
    asking.role = 2;
    role_is("a role with the last view of all", asking, REFUSED(16, 2));
    for (size_t i = 0; i < sizeof numbers / sizeof numbers[0]; i++) {
        asking.role = numbers[i];
        role_is("no such role", asking, REFUSED(15, numbers[i]));
    }
    asking.role_count = 0;
    asking.role = 0;
    role_is("no roles", asking, REFUSED(15, 0));
    for (unsigned bit = 0; bit < 32; bit++) {
        uint32_t mask = UINT32_C(1) << bit;
        uint64_t given = bit < 3 ? composed_size(1, 0, 1, bit < 2 ? 4 : 3, 1) : REFUSED(16, 0);
        role_is("each bit alone", with_mask(with_views(TEXT_OF(three_views)), mask), given);
        role_is("each bit with the first", with_mask(with_views(TEXT_OF(three_views)), mask | 1),
                bit == 0 ? given : bit < 3 ? composed_size(1, 0, 1, bit < 2 ? 8 : 7, 2) : REFUSED(16, 0));
        role_is("each bit, and no views", with_mask(with_views(TEXT_OF("")), mask), REFUSED(16, 0));
    }
    role_is("no bit", with_mask(with_views(TEXT_OF(three_views)), 0), REFUSED(16, 0));
    role_is("no bit, and no views", with_mask(with_views(TEXT_OF("")), 0), REFUSED(16, 0));
}

/* What is a view, and which is the first that can't be read. */
static void views_judged(void)
{
    static const struct {
        const char *views;
        uint64_t expected;
    } rows[] = {
        {"\n", REFUSED(17, 0)},
        {"/a\n\n", REFUSED(17, 1)},
        {"\n/a\n", REFUSED(17, 0)},
        {"/a\n \n/b\n", REFUSED(17, 1)},
        {"/a\n\r\n/b\n", REFUSED(17, 1)},
        {"/a", REFUSED(1, 0)},
        {"/a\n/b", REFUSED(1, 0)},
        {"/a\n ", REFUSED(1, 0)},
        {" ", REFUSED(1, 0)},
        {"/a\n/b\n/e\n", REFUSED(17, 2)},
        {"/a\n/e\n/b\n/f\n", REFUSED(17, 1)},
        {"/a\nb\n", REFUSED(17, 1)},
        {"/a\n/a[b\n", REFUSED(17, 1)},
        {"/a\n/a|\n/b\n", REFUSED(17, 1)},
        {"/a\n/.[b]\n", REFUSED(17, 1)},
        {"/a\n/a union /b\n", REFUSED(17, 1)},
        {"/a\n/../.[b]\n", REFUSED(17, 1)},
        {"/a\r/b\n", 11},
    };
    for (size_t i = 0; i < sizeof rows / sizeof rows[0]; i++)
        role_is(rows[i].views, with_views(rows[i].views, strlen(rows[i].views)), rows[i].expected);
    role_is("a zero byte in a view", with_views("/a\0\n", 4), REFUSED(17, 0));
    role_is("a zero byte between views", with_views("/a\n\0\n", 5), REFUSED(17, 1));
}

static void queries_judged(void)
{
    static const struct {
        const char *text;
        uint64_t expected;
    } rows[] = {
        {"", REFUSED(3, 0)},          {" \n", REFUSED(3, 2)},       {"a", REFUSED(3, 0)},
        {"/a[", REFUSED(3, 3)},       {"/a\n/b|", REFUSED(3, 6)},   {"/a|", REFUSED(3, 3)},
        {"/.[b]", REFUSED(3, 2)},     {"/e", REFUSED(5, 1)},        {"/a/b[e]/f", REFUSED(5, 5)},
        {"/a union /b", REFUSED(3, 3)}, {"/a\n|\n/b[e", REFUSED(3, 9)},
    };
    for (size_t i = 0; i < sizeof rows / sizeof rows[0]; i++)
        role_is(rows[i].text, with_text(usual, rows[i].text, strlen(rows[i].text)), rows[i].expected);
    struct asking asking = usual;
    asking.room = 0;
    role_is("no room", asking, REFUSED(10, 10));
    asking.room = 9;
    role_is("an item too little", asking, REFUSED(10, 10));
    asking.room = 10;
    role_is("just enough room", asking, 10);
}

/* A text that grows. */
static struct {
    uint8_t bytes[TEXT_ROOM + 1];
    size_t length;
} long_text, long_views;

static void add_times(const char *part, size_t times)
{
    size_t length = strlen(part);
    for (; times > 0 && long_text.length + length <= TEXT_ROOM; times--) {
        memcpy(long_text.bytes + long_text.length, part, length);
        long_text.length += length;
    }
}

static void start_text(const char *part)
{
    long_text.length = 0;
    add_times(part, 1);
}

/* A line of so many paths `/`, which is as many items. */
static void add_roots(size_t items)
{
    uint8_t *bytes = long_views.bytes + long_views.length;
    for (size_t i = 0; i < items; i++) {
        bytes[2 * i] = '/';
        bytes[2 * i + 1] = i + 1 < items ? '|' : '\n';
    }
    long_views.length += 2 * items;
}

/* So many views that are alike, and a last one: the union has so many items and paths. */
static struct asking roots_of(size_t views, size_t each, size_t last)
{
    long_views.length = 0;
    for (size_t v = 0; v < views; v++)
        add_roots(each);
    add_roots(last);
    return with_mask(with_views(long_views.bytes, long_views.length),
                     (uint32_t)((UINT64_C(1) << (views + 1)) - 1));
}

/* One view of one path with so many items. */
static struct asking path_of(size_t items)
{
    start_text("");
    add_times("/a", items - 1);
    add_times("\n", 1);
    return with_mask(with_views(long_text.bytes, long_text.length), 1);
}

/* Unions at the limit, and one item more; the largest that there is. */
static void largest_unions(void)
{
    size_t all_roots = composed_size(1, 0, 1, ITEM_ROOM, ITEM_ROOM);
    role_is("4,096 items in one view", roots_of(0, 0, ITEM_ROOM), REFUSED(10, all_roots));
    role_is("4,097 items in one view", roots_of(0, 0, ITEM_ROOM + 1), REFUSED(17, 0));
    role_is("4,096 items in two views", roots_of(1, 2048, 2048), REFUSED(10, all_roots));
    role_is("4,097 items in two views", roots_of(1, 2048, 2049), REFUSED(10, 4097));
    role_is("4,097 items, the first of them alone", roots_of(1, 1, ITEM_ROOM), REFUSED(10, 4097));
    role_is("4,097 items, the last of them alone", roots_of(1, ITEM_ROOM, 1), REFUSED(10, 4097));
    role_is("4,096 items in 32 views", roots_of(31, 128, 128), REFUSED(10, all_roots));
    role_is("4,097 items in 32 views", roots_of(31, 128, 129), REFUSED(10, 4097));
    struct asking no_room = roots_of(31, 128, 129);
    no_room.room = 0;
    role_is("4,097 items in 32 views, no room", no_room, REFUSED(10, 4097));
    role_is("8,192 items in two views", roots_of(1, ITEM_ROOM, ITEM_ROOM), REFUSED(10, 8192));
    role_is("8,193 items in three views", roots_of(2, ITEM_ROOM, 1), REFUSED(10, 8193));
    role_is("as many items as views can have", roots_of(15, 1024, 1024), REFUSED(10, 16384));
    struct asking some = roots_of(15, 1024, 1024);
    role_is("the items of half of these views", with_mask(some, 0x5555), REFUSED(10, 8192));
    role_is("the items of four of these views", with_mask(some, 0x1248), REFUSED(10, all_roots));
    role_is("the items of one of these views", with_mask(some, 0x8000),
            REFUSED(10, composed_size(1, 0, 1, 1024, 1024)));
    role_is("a path of 4,088 items", path_of(4088), 4096);
    role_is("a path of 4,089 items", path_of(4089), REFUSED(10, 4097));
    role_is("a path of 4,096 items", path_of(4096), REFUSED(10, 4104));
    role_is("a path of 4,097 items", path_of(4097), REFUSED(17, 0));
    struct asking long_path = path_of(4088);
    long_path.room = 4095;
    role_is("a path of 4,088 items, a room of 4,095", long_path, REFUSED(10, 4096));
}

/* The query at its limits: 64 brackets and one more, 4,096 items and one more. */
static void largest_queries(void)
{
    size_t view = 2;
    for (unsigned more = 0; more < 2; more++) {
        start_text("/");
        add_times("|/", ITEM_ROOM - 1 + more);
        role_is(more ? "a query of 4,097 items" : "a query of 4,096 items",
                with_text(usual, long_text.bytes, long_text.length),
                REFUSED(10, more ? 4097 : composed_size(ITEM_ROOM, 0, ITEM_ROOM, view, 1)));
        start_text("/a[");
        add_times("(", HALYARDFIG_NESTING - 1 + more);
        add_times("a", 1);
        add_times(")", HALYARDFIG_NESTING - 1 + more);
        add_times("]", 1);
        role_is(more ? "65 brackets in a query" : "64 brackets in a query, which mean nothing",
                with_text(usual, long_text.bytes, long_text.length),
                more ? REFUSED(4, 2 + HALYARDFIG_NESTING) : composed_size(4, 2, 1, view, 1));
        start_text("/a[");
        add_times("not(", 59 + more);
        add_times("a", 1);
        add_times(")", 59 + more);
        add_times("]", 1);
        role_is(more ? "a query nested 61 deep" : "a query nested 60 deep",
                with_text(usual, long_text.bytes, long_text.length),
                more ? REFUSED(9, 65) : composed_size(2 + 59 + 2, 2, 1, view, 1));
    }
    start_text("/a]");
    add_times("[", 70);
    role_is("a bad token before a bad bracket", with_text(usual, long_text.bytes, long_text.length), REFUSED(3, 2));
    start_text("/e[");
    add_times("(", 70);
    role_is("a bad bracket before a bad token", with_text(usual, long_text.bytes, long_text.length), REFUSED(4, 66));
}

/* A view's nesting counts: the deepest of the role's views, and no other's. */
static void deepest_views(void)
{
    start_text("/a\n/a[");
    add_times("not(", 62);
    add_times("a", 1);
    add_times(")", 62);
    add_times("]\n", 1);
    struct asking asking = with_views(long_text.bytes, long_text.length);
    role_is("a deep view that the role does not name", with_mask(asking, 1), 10);
    role_is("a deep view alone", with_mask(asking, 2), REFUSED(9, 65));
    role_is("a deep view and another", with_mask(asking, 3), REFUSED(9, 65));
}

/* Faults that a call may have, in the order in which they are judged. */
enum fault {
    LONG_VIEWS,
    LONG_LIST,
    LONG_TEXT,
    MANY_VIEWS,
    MANY_ROLES,
    NO_LF,
    BAD_LIST,
    NO_ROLE,
    NO_VIEW,
    NOT_GIVEN,
    UNREAD,
    UNREAD_LATER,
    BAD_TOKEN,
    BAD_BRACKET,
    BAD_NAME,
    LONG_QUERY,
    LONG_UNION,
    DEEP,
    SHORT,
    FAULTS
};

static bool has(uint32_t faults, enum fault fault)
{
    return (faults >> fault & 1) == 1;
}

static void add_view(const char *view)
{
    size_t length = strlen(view);
    memcpy(long_views.bytes + long_views.length, view, length);
    long_views.length += length;
    long_views.bytes[long_views.length++] = '\n';
}

/* The role's views are the first and the third. */
static void faulty_views(uint32_t faults)
{
    long_views.length = 0;
    if (has(faults, LONG_UNION))
        add_roots(2048);
    else
        add_view("/a");
    add_view(has(faults, UNREAD) ? "/a[" : "/b");
    if (has(faults, LONG_UNION))
        add_roots(2049);
    else
        add_view("//b");
    add_view(has(faults, UNREAD_LATER) ? "b" : "/a/b");
    for (size_t v = 4; has(faults, MANY_VIEWS) && v <= HALYARDFIG_VIEWS; v++)
        add_view("/");
    if (has(faults, LONG_VIEWS)) {
        memset(long_views.bytes + long_views.length - 1, ' ', sizeof long_views.bytes - long_views.length + 1);
        long_views.length = sizeof long_views.bytes;
        long_views.bytes[long_views.length - 1] = '\n';
    }
    if (has(faults, NO_LF))
        long_views.bytes[--long_views.length] = 0;
}

/* Places of the faults in the query's text. */
static size_t token_place, bracket_place, name_place;

static void faulty_text(uint32_t faults)
{
    start_text("/a");
    if (has(faults, BAD_NAME)) {
        add_times("|/zz", 1);
        name_place = long_text.length - 2;
    }
    if (has(faults, LONG_QUERY))
        add_times("|/", ITEM_ROOM);
    if (has(faults, DEEP)) {
        add_times("|/a[", 1);
        add_times("not(", 60);
        add_times("a", 1);
        add_times(")", 60);
        add_times("]", 1);
    }
    if (has(faults, BAD_TOKEN)) {
        add_times("|/a]", 1);
        token_place = long_text.length - 1;
    }
    if (has(faults, BAD_BRACKET)) {
        add_times("|/a[", 1);
        add_times("(", HALYARDFIG_NESTING);
        bracket_place = long_text.length - 1;
    }
    if (has(faults, LONG_TEXT)) {
        memset(long_text.bytes + long_text.length, ' ', sizeof long_text.bytes - long_text.length);
        long_text.length = sizeof long_text.bytes;
    }
}

static struct asking faulty(uint32_t faults)
{
    static halyardfig_role roles[ROLE_ROOM];
    static uint8_t names[LIST_ROOM + 1];
    faulty_views(faults);
    faulty_text(faults);
    memset(names, 'x', sizeof names);
    memcpy(names, has(faults, BAD_LIST) ? "a\nb\n1\n" : "a\nb\nc\n", 6);
    for (size_t i = 0; i < ROLE_ROOM; i++)
        roles[i].views = i % 2 == 0 ? 0 : UINT32_MAX;
    roles[1].views = has(faults, NOT_GIVEN) ? 0x15 : has(faults, NO_VIEW) ? 0 : 5;
    size_t count = has(faults, MANY_ROLES) ? ROLE_ROOM : 3;
    return (struct asking){long_views.bytes,
                           long_views.length,
                           names,
                           has(faults, LONG_LIST) ? sizeof names : 6,
                           roles,
                           count,
                           has(faults, NO_ROLE) ? (uint32_t)count : 1,
                           long_text.bytes,
                           long_text.length,
                           has(faults, SHORT) ? 0 : ITEM_ROOM};
}

/* What is answered for the first of the faults. */
static uint64_t judged(uint32_t faults)
{
    const uint64_t answers[FAULTS] = {
        [LONG_VIEWS] = REFUSED(1, 0),
        [LONG_LIST] = REFUSED(1, 0),
        [LONG_TEXT] = REFUSED(1, 0),
        [MANY_VIEWS] = REFUSED(1, 0),
        [MANY_ROLES] = REFUSED(1, 0),
        [NO_LF] = REFUSED(1, 0),
        [BAD_LIST] = REFUSED(2, 4),
        [NO_ROLE] = REFUSED(15, 3),
        [NO_VIEW] = REFUSED(16, 1),
        [NOT_GIVEN] = REFUSED(16, 1),
        [UNREAD] = REFUSED(17, 1),
        [UNREAD_LATER] = REFUSED(17, 3),
        [BAD_TOKEN] = REFUSED(3, token_place),
        [BAD_BRACKET] = REFUSED(4, bracket_place),
        [BAD_NAME] = REFUSED(5, name_place),
        [LONG_QUERY] = REFUSED(10, 2 + ITEM_ROOM + (has(faults, DEEP) ? 64 : 0)),
        [LONG_UNION] = REFUSED(10, 4097),
        [DEEP] = REFUSED(9, 65),
        [SHORT] = REFUSED(10, composed_size(2, 1, 1, 5, 2)),
    };
    for (unsigned fault = 0; fault < FAULTS; fault++)
        if (has(faults, fault))
            return answers[fault];
    return composed_size(2, 1, 1, 5, 2);
}

static unsigned count_of(uint32_t faults)
{
    unsigned count = 0;
    for (; faults != 0; faults &= faults - 1)
        count++;
    return count;
}

/* No fault, each alone, each pair and each three of them. */
static void order_of_refusals(void)
{
    for (uint32_t faults = 0; faults < UINT32_C(1) << FAULTS; faults++) {
        if (count_of(faults) > 3)
            continue;
        struct asking asking = faulty(faults);
        char what[32] = "faults ";
        for (unsigned i = 0; i < 5; i++)
            what[7 + i] = "0123456789abcdef"[faults >> (16 - 4 * i) & 15];
        role_is(what, asking, judged(faults));
    }
}

/* Random lendings. */

struct line {
    uint8_t bytes[VIEW_ROOM];
    size_t length;
};

static struct {
    struct line line[HALYARDFIG_VIEWS];
    size_t count;
} views;

static struct list list;
static struct text views_text, text;
static struct query query;
static struct table table;
static halyardfig_role roles[ROLE_ROOM];
static struct asking asking;

/* The text of a query by version 1, on one line. */
static void make_line(struct dice *dice, struct line *line, struct bounds bounds)
{
    static struct query made;
    static struct text written;
    do {
        make_query(dice, &made, bounds);
        if (chance(dice, 30))
            mix_axes(dice, &made);
        make_text(dice, &written, &made, &list, HALYARDFIG_XPATH_1);
    } while (written.length > VIEW_ROOM);
    for (size_t i = 0; i < written.length; i++)
        line->bytes[i] = written.bytes[i] == '\n' ? ' ' : written.bytes[i];
    line->length = written.length;
}

static struct bounds any_bounds(struct dice *dice)
{
    return (struct bounds){between(dice, 1, 8), (unsigned)below(dice, 3), 2, list.count};
}

/* The views' text, of the lines as they are. */
static void write_views(void)
{
    clear_text(&views_text);
    for (size_t v = 0; v < views.count; v++) {
        for (size_t i = 0; i < views.line[v].length; i++)
            put_byte(&views_text, views.line[v].bytes[i]);
        put_byte(&views_text, '\n');
    }
    asking.views = views_text.bytes;
    asking.views_length = views_text.length;
}

static void make_lines(struct dice *dice, size_t count)
{
    views.count = count;
    for (size_t v = 0; v < count; v++)
        make_line(dice, &views.line[v], any_bounds(dice));
    write_views();
}

/* Some of so many views, not none where there are any. */
static uint32_t some_of(struct dice *dice, size_t count)
{
    uint32_t all = (uint32_t)((UINT64_C(1) << count) - 1), mask = 0;
    if (count == 0)
        return 0;
    while (mask == 0)
        mask = (uint32_t)roll(dice) & (count > 6 ? (uint32_t)roll(dice) : UINT32_MAX) & all;
    return mask;
}

static void make_roles(struct dice *dice)
{
    asking.role_count = chance(dice, 80) ? between(dice, 1, 4) : between(dice, 1, HALYARDFIG_ROLES);
    for (size_t i = 0; i < asking.role_count; i++)
        roles[i].views = chance(dice, 95) ? some_of(dice, views.count) : (uint32_t)roll(dice);
    asking.roles = roles;
    asking.role = (uint32_t)below(dice, asking.role_count);
}

static void make_asked(struct dice *dice)
{
    make_query(dice, &query, any_bounds(dice));
    if (chance(dice, 30))
        mix_axes(dice, &query);
    make_text(dice, &text, &query, &list, HALYARDFIG_XPATH_1);
    asking.text = text.bytes;
    asking.text_length = text.length;
    asking.room = ITEM_ROOM;
}

static void make_asking(struct dice *dice)
{
    make_list(dice, &list, (unsigned)between(dice, 1, 4));
    asking.names = list.bytes;
    asking.names_length = list.length;
    make_lines(dice, chance(dice, 90) ? between(dice, 1, 5) : between(dice, 0, HALYARDFIG_VIEWS));
    make_roles(dice);
    make_asked(dice);
}

static bool same_as_model(struct dice *dice, size_t room)
{
    return twin_for_role(dice, asking.views, asking.views_length, asking.names, asking.names_length, asking.roles,
                         asking.role_count, asking.role, asking.text, asking.text_length, room);
}

/* Good lendings, with enough room, just enough and too little. */
static bool good_as_model(struct dice *dice)
{
    make_asking(dice);
    if (!same_as_model(dice, ITEM_ROOM))
        return false;
    if (halyardfig_refused(twin_answer) != 0)
        return true;
    size_t size = halyardfig_value(twin_answer);
    return same_as_model(dice, size) && same_as_model(dice, size - 1) && same_as_model(dice, below(dice, size)) &&
           same_as_model(dice, size + below(dice, 20));
}

/* A little of one or two of the things lent is changed. */
static bool damaged_as_model(struct dice *dice)
{
    make_asking(dice);
    for (size_t times = between(dice, 1, 2); times > 0; times--)
        switch (below(dice, 5)) {
        case 0:
            damage_text(dice, &views_text);
            break;
        case 1:
            damage_text(dice, &text);
            break;
        case 2:
            damage_list(dice, &list);
            break;
        case 3:
            roles[asking.role % ROLE_ROOM].views ^= UINT32_C(1) << below(dice, chance(dice, 70) ? views.count + 1 : 32);
            break;
        default:
            asking.role = chance(dice, 80) ? (uint32_t)below(dice, asking.role_count + 2) : (uint32_t)roll(dice);
        }
    asking.views_length = views_text.length;
    asking.text_length = text.length;
    asking.names_length = list.length;
    return same_as_model(dice, chance(dice, 80) ? ITEM_ROOM : below(dice, 200));
}

/* Long or deep views and queries, near the limits of items and nesting. */
static bool large_as_model(struct dice *dice)
{
    static struct query made;
    static struct text written;
    make_list(dice, &list, 2);
    asking.names = list.bytes;
    asking.names_length = list.length;
    clear_text(&views_text);
    size_t count = between(dice, 1, 3);
    for (size_t v = 0; v < count; v++) {
        do {
            if (chance(dice, 50))
                make_deep_query(dice, &made, (unsigned)between(dice, 0, HALYARDFIG_NESTING), 2);
            else
                make_long_query(dice, &made, between(dice, 10, chance(dice, 50) ? 300 : 1500), 2);
            make_text(dice, &written, &made, &list, HALYARDFIG_XPATH_1);
        } while (written.length > TEXT_ROOM / 3 - 1);
        for (size_t i = 0; i < written.length; i++)
            put_byte(&views_text, written.bytes[i] == '\n' ? ' ' : written.bytes[i]);
        put_byte(&views_text, '\n');
    }
    asking.views = views_text.bytes;
    asking.views_length = views_text.length;
    views.count = count;
    make_roles(dice);
    make_asked(dice);
    if (chance(dice, 40)) {
        make_deep_query(dice, &query, (unsigned)between(dice, 0, HALYARDFIG_NESTING), 2);
        make_text(dice, &text, &query, &list, HALYARDFIG_XPATH_1);
        asking.text_length = text.length;
    }
    return same_as_model(dice, ITEM_ROOM);
}

/* Any bytes and numbers, mostly close to something good; the same answer twice. */
static bool anything_as_model(struct dice *dice)
{
    static const char soup[] = "///..|[](*)aab\n\n\n ::not";
    make_asking(dice);
    if (chance(dice, 60)) {
        views_text.length = below(dice, chance(dice, 90) ? 40 : TEXT_ROOM + 1);
        for (size_t i = 0; i < views_text.length; i++)
            views_text.bytes[i] = chance(dice, 95) ? (uint8_t)soup[below(dice, sizeof soup - 1)] : (uint8_t)roll(dice);
        if (views_text.length > 0 && chance(dice, 90))
            views_text.bytes[views_text.length - 1] = '\n';
    }
    if (chance(dice, 30))
        make_token_soup(dice, &text, below(dice, 12));
    if (chance(dice, 10))
        scatter(dice, list.bytes, list.length);
    asking.role_count = below(dice, ROLE_ROOM + 1);
    scatter(dice, roles, sizeof roles);
    for (size_t i = 0; i < asking.role_count; i++)
        roles[i].views = chance(dice, 80) ? roles[i].views & 7 : roles[i].views;
    asking.role = chance(dice, 90) ? (uint32_t)below(dice, asking.role_count + 1) : (uint32_t)roll(dice);
    asking.views_length = views_text.length;
    asking.text_length = text.length;
    size_t room = chance(dice, 50) ? ITEM_ROOM : below(dice, 100);
    if (!same_as_model(dice, room))
        return false;
    uint64_t first = twin_answer;
    if (!same_as_model(dice, room) || twin_answer != first)
        return complain("for_role answers otherwise the second time");
    return halyardfig_refused(first) <= HALYARDFIG_REFUSED_VIEW || complain("for_role gives an answer out of range");
}

/* What is promised of a role's answer. */

static bool show_asking(void)
{
    show_text("views", asking.views, asking.views_length);
    show_text("names", asking.names, asking.names_length);
    show_text("text", asking.text, asking.text_length);
    return complain("role %u of %zu, mask %#x", (unsigned)asking.role, asking.role_count,
                    (unsigned)roles[asking.role].views);
}

/* Changes, adds and takes away views that a mask does not name, and all roles but one; a view that the mask names is
   given afterwards where it was given before. */
static void change_unused(struct dice *dice)
{
    uint32_t mask = roles[asking.role].views;
    size_t least = 0, most = HALYARDFIG_VIEWS;
    for (size_t v = 0; v < views.count; v++)
        if ((mask >> v & 1) == 1)
            least = v + 1;
    for (size_t v = HALYARDFIG_VIEWS; v > views.count; v--)
        if ((mask >> (v - 1) & 1) == 1)
            most = v - 1;
    size_t before = views.count;
    if (chance(dice, 80) && most > least + 3)
        most = least + 3;
    views.count = chance(dice, 30) ? least : between(dice, least, most);
    for (size_t v = 0; v < views.count; v++)
        if ((mask >> v & 1) == 0 && (v >= before || chance(dice, 80)))
            make_line(dice, &views.line[v], any_bounds(dice));
    write_views();
    asking.role_count = between(dice, asking.role + 1, HALYARDFIG_ROLES);
    for (size_t i = 0; i < asking.role_count; i++)
        if (i != asking.role)
            roles[i].views = (uint32_t)roll(dice);
}

static bool others_change_nothing(struct dice *dice)
{
    static uint32_t before[ITEM_ROOM], after[ITEM_ROOM];
    make_asking(dice);
    if (chance(dice, 20))
        damage_text(dice, &text);
    asking.text_length = text.length;
    asking.room = chance(dice, 80) ? ITEM_ROOM : below(dice, 300);
    scatter(dice, before, sizeof before);
    memcpy(after, before, sizeof after);
    uint64_t first = ask(&asking, before);
    change_unused(dice);
    uint64_t second = ask(&asking, after);
    if (first == second && memcmp(before, after, sizeof before) == 0)
        return true;
    complain("views or roles that are not used change the answer: %u with %u, then %u with %u",
             halyardfig_refused(first), halyardfig_place(first), halyardfig_refused(second), halyardfig_place(second));
    return show_asking();
}

static uint64_t ask_with(uint32_t mask, uint32_t *out)
{
    roles[asking.role].views = mask;
    return ask(&asking, out);
}

/* Makes two accepted calls for `/`, the second for a mask with every view of the first's. */
static void make_masks(struct dice *dice, uint32_t *few, uint64_t *fewer, uint32_t *many, uint64_t *more)
{
    do {
        make_asking(dice);
        asking = with_text(asking, "/", 1);
        uint32_t mask = some_of(dice, views.count);
        *fewer = ask_with(mask, few);
        *more = ask_with(mask | some_of(dice, views.count), many);
    } while (halyardfig_refused(*fewer) != 0 || halyardfig_refused(*more) != 0);
}

/* A role with every view of another sees at least as much where the query is `/`. */
static bool more_views_show_more(struct dice *dice)
{
    static uint32_t few[ITEM_ROOM], many[ITEM_ROOM];
    static uint8_t seen[NODE_ROOM], seen_more[NODE_ROOM];
    bool telling = false;
    for (unsigned throws = 0; throws < 4 && !telling; throws++) {
        uint64_t fewer, more;
        make_masks(dice, few, &fewer, many, &more);
        make_table(dice, &table, between(dice, 1, 50), list.count);
        make_marks(dice, &table, (unsigned)between(dice, 70, 100));
        if (!run_items(few, fewer, &table, table.marks, seen) || !run_items(many, more, &table, table.marks, seen_more))
            return complain("a good run is refused");
        telling = memcmp(seen, seen_more, table.nodes) != 0;
        for (size_t i = 0; i < table.nodes; i++)
            if (seen[i] > seen_more[i]) {
                complain("a role with more views does not see node %zu", i);
                return show_asking();
            }
    }
    return true;
}

/* What the union of the role's views keeps: each view is run by itself, and what one of them keeps is kept. */
static bool run_views(const struct table *on, uint8_t *kept)
{
    static uint8_t by_one[NODE_ROOM];
    static uint32_t items[ITEM_ROOM];
    memset(kept, 0, on->nodes);
    for (size_t v = 0; v < views.count; v++) {
        if ((roles[asking.role].views >> v & 1) == 0)
            continue;
        uint64_t count = halyardfig_read(views.line[v].bytes, views.line[v].length, 1, asking.names,
                                         asking.names_length, items, ITEM_ROOM);
        if (!run_items(items, count, on, on->marks, by_one))
            return complain("a good view can't be run");
        for (size_t i = 0; i < on->nodes; i++)
            kept[i] |= by_one[i];
    }
    return true;
}

/* Makes an accepted call; its items are written. */
static uint64_t make_accepted(struct dice *dice, uint32_t *items)
{
    uint64_t count;
    do {
        make_asking(dice);
        count = ask(&asking, items);
    } while (halyardfig_refused(count) != 0);
    return count;
}

/* Are some of the given marks kept, and not all? */
static bool keeps_some(const uint8_t *marks)
{
    return memchr(marks, 1, table.nodes) != NULL && memcmp(marks, table.marks, table.nodes) != 0;
}

/* The answer keeps what the query keeps inside what one of the views keeps. */
static bool union_is_exact(struct dice *dice)
{
    static uint32_t items[ITEM_ROOM], asked[ITEM_ROOM];
    static uint8_t at_once[NODE_ROOM], seen[NODE_ROOM], in_turn[NODE_ROOM];
    bool telling = false;
    for (unsigned throws = 0; throws < 4 && !telling; throws++) {
        uint64_t count = make_accepted(dice, items);
        uint64_t own = halyardfig_read(asking.text, asking.text_length, 1, asking.names, asking.names_length, asked,
                                       ITEM_ROOM);
        make_table(dice, &table, between(dice, 1, 50), list.count);
        make_marks(dice, &table, (unsigned)between(dice, 70, 100));
        if (!run_views(&table, seen) || !run_items(asked, own, &table, seen, in_turn) ||
            !run_items(items, count, &table, table.marks, at_once))
            return complain("a good run is refused");
        telling = keeps_some(in_turn);
        if (memcmp(at_once, in_turn, table.nodes) != 0) {
            complain("the answer keeps other nodes than the query inside what one of the views keeps");
            show_words("parent", table.parent, table.nodes);
            show_words("kind", table.kind, table.nodes);
            return show_asking();
        }
    }
    return true;
}

static bool extract_from(const struct table *from, const uint8_t *marks, struct table *to)
{
    uint64_t answer = halyardfig_extract(from->parent, from->nodes, from->kind, from->nodes, marks, from->nodes,
                                         to->parent, NODE_ROOM, to->kind, NODE_ROOM);
    to->nodes = halyardfig_value(answer);
    return halyardfig_refused(answer) == 0;
}

static bool same_tables(const struct table *one, const struct table *two)
{
    return one->nodes == two->nodes && memcmp(one->parent, two->parent, one->nodes * sizeof(uint16_t)) == 0 &&
           memcmp(one->kind, two->kind, one->nodes * sizeof(uint16_t)) == 0;
}

/* Another document: some leaves that no view shows are gone, others have another name. */
static void change_hidden(struct dice *dice, const uint8_t *kept, struct table *to)
{
    static uint16_t number[NODE_ROOM];
    to->nodes = 0;
    for (size_t i = 0; i < table.nodes; i++) {
        bool leaf = i + 1 == table.nodes || table.parent[i + 1] != i, hidden = kept[i] == 0 && i != 0;
        if (hidden && leaf && chance(dice, 50))
            continue;
        bool renamed = hidden && table.kind[i] >= HALYARDFIG_KIND_ELEMENT && chance(dice, 40);
        number[i] = (uint16_t)to->nodes;
        to->parent[to->nodes] = number[table.parent[i]];
        to->kind[to->nodes] = renamed ? (uint16_t)(HALYARDFIG_KIND_ELEMENT + below(dice, list.count)) : table.kind[i];
        to->marks[to->nodes++] = 1;
    }
}

/* Two documents of which the role's views show the same give the same, whatever is asked. */
static bool role_keeps_secrets(struct dice *dice)
{
    static struct table other, seen_one, seen_two;
    static uint32_t items[ITEM_ROOM];
    static uint8_t one[NODE_ROOM], two[NODE_ROOM];
    uint64_t count;
    do {
        count = make_accepted(dice, items);
        make_table(dice, &table, between(dice, 2, 40), list.count);
        if (!run_views(&table, one))
            return false;
        change_hidden(dice, one, &other);
        if (!run_views(&other, two) || !extract_from(&table, one, &seen_one) || !extract_from(&other, two, &seen_two))
            return complain("a good run is refused");
    } while (seen_one.nodes == 0 || !same_tables(&seen_one, &seen_two) || same_tables(&table, &other));
    if (!run_items(items, count, &table, table.marks, one) || !run_items(items, count, &other, other.marks, two) ||
        !extract_from(&table, one, &seen_one) || !extract_from(&other, two, &seen_two))
        return complain("a good run is refused");
    if (same_tables(&seen_one, &seen_two))
        return true;
    complain("the answer shows what no view of the role shows");
    return show_asking();
}

int main(void)
{
    group_start("roles");
    samples();
    unions();
    longest();
    most_views_and_roles();
    roles_looked_up();
    views_judged();
    queries_judged();
    largest_unions();
    largest_queries();
    deepest_views();
    order_of_refusals();
    try_cases("good lendings", 6000, good_as_model);
    try_cases("damaged lendings", 8000, damaged_as_model);
    try_cases("large lendings", 1500, large_as_model);
    try_cases("any lendings", 8000, anything_as_model);
    try_cases("independence", 4000, others_change_nothing);
    try_cases("monotony", 3000, more_views_show_more);
    try_cases("the union is exact", 3000, union_is_exact);
    try_cases("the union keeps secrets", 2000, role_keeps_secrets);
    return group_end();
}
