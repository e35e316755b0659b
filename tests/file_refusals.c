/* Writing XML back: samples, joins of `]` and `>`, every refusal at its edges and in its order, with what it may and
   may not write; files at the limits. */
#include "file_making.h"
#include "halyardfig.h"
#include "offering.h"

#include <stdio.h>
#include <string.h>

enum {
    TABLE = HALYARDFIG_REFUSED_TABLE,
    MARKS = HALYARDFIG_REFUSED_MARKS,
    ROOM = HALYARDFIG_REFUSED_ROOM,
    NO_ELEMENT = HALYARDFIG_REFUSED_NO_ELEMENT,
    OTHER_COLUMNS = HALYARDFIG_REFUSED_COLUMNS
};
enum { PADDED_BYTES = TEXT_ROOM + 8, SAMPLE_ROOM = 100, MARKS_LENGTH = COLUMNS };

static struct file file;
static uint8_t written[FILE_ROOM];

/* The lengths of what is lent; the marks come behind the columns. */
struct lengths {
    size_t text, names, nodes[COLUMNS + 1], room;
};

static struct lengths all_of_it(size_t room)
{
    size_t n = file.table.nodes;
    return (struct lengths){file.xml.text.length, file.list.length, {n, n, n, n, n}, room};
}

/* Offers so many bytes of a piece, with zeros behind those that it has. */
static const void *offer_part(const void *from, size_t has, size_t bytes)
{
    static uint8_t padded[PADDED_BYTES];
    size_t copied = has < bytes ? has : bytes;
    memcpy(padded, from, copied);
    memset(padded + copied, 0, bytes - copied);
    return offer(padded, bytes);
}

/* Makes the call on guarded memory. */
static void call_is(const char *what, struct lengths lengths, uint64_t expected)
{
    const uint8_t *text = offer_part(file.xml.text.bytes, TEXT_ROOM, lengths.text);
    const uint8_t *names = offer_part(file.list.bytes, LIST_ROOM, lengths.names);
    const uint16_t *in[COLUMNS];
    for (unsigned i = 0; i < COLUMNS; i++)
        in[i] = offer_part(lent_column(&file, i), sizeof file.table.parent, lengths.nodes[i] * sizeof *in[i]);
    const uint8_t *marks = offer_part(file.table.marks, NODE_ROOM, lengths.nodes[MARKS_LENGTH]);
    uint8_t *out = offer(NULL, lengths.room);
    uint64_t answer = halyardfig_write_xml(text, lengths.text, names, lengths.names, in[0], lengths.nodes[0], in[1],
                                           lengths.nodes[1], in[2], lengths.nodes[2], in[3], lengths.nodes[3], marks,
                                           lengths.nodes[MARKS_LENGTH], out, lengths.room);
    size_t value = halyardfig_refused(answer) == 0 ? halyardfig_value(answer) : 0;
    judge_offered(what, answer, expected, (size_t[]){0, 0, 0, 0, 0, 0, 0, value});
    memcpy(written, out, value < sizeof written ? value : sizeof written);
}

static void answer_all(const char *what, size_t room, uint64_t expected)
{
    call_is(what, all_of_it(room), expected);
}

/* All of it is lent, and this is written: with just enough room, with more, and not with a byte less. */
static void file_is(const char *what, const char *expected)
{
    size_t length = strlen(expected);
    for (size_t room = length - 1; room <= length + 1; room++) {
        memset(written, 0, sizeof written);
        answer_all(what, room, room < length ? REFUSED(ROOM, length) : length);
        tally(memcmp(written, expected, room < length ? 0 : length) == 0, "%s: written is %.*s, expected %s", what,
              (int)length, (const char *)written, expected);
    }
}

static void mark(const char *marks)
{
    for (size_t i = 0; i < file.table.nodes; i++)
        file.table.marks[i] = (uint8_t)(marks[i] - '0');
}

/* Starts with a text and marks, a digit a node. */
static void start(const char *text, const char *marks)
{
    bool read = start_file(&file, "a b", text);
    tally(read && file.table.nodes == strlen(marks), "%s has other nodes than %s", text, marks);
    mark(marks);
}

/* Samples. */

struct sample {
    const char *text, *marks, *written;
};

static const struct sample samples[] = {
    {"<a/>", "11", "<a></a>"},
    {"<a></a>", "11", "<a></a>"},
    {"<a />", "11", "<a></a>"},
    {"<a\t\r\n></a \n>", "11", "<a></a>"},
    {"\n<a/>\r\n", "11", "<a></a>"},
    {"<?xml version='1.0' encoding='utf-8'?><a/>", "11", "<a></a>"},
    {"<?xml version='1.0'?>\n <a ><b\t/> </a\n>\n", "1111", "<a><b></b> </a>"},
    {"<a>x<b/>y</a>", "11111", "<a>x<b></b>y</a>"},
    {"<a>x<b/>y</a>", "11000", "<a></a>"},
    {"<a>x<b/>y</a>", "11100", "<a>x</a>"},
    {"<a>x<b/>y</a>", "11010", "<a><b></b></a>"},
    {"<a>x<b/>y</a>", "11001", "<a>y</a>"},
    {"<a>x<b/>y</a>", "11101", "<a>xy</a>"},
    {"<a>x<b/>y</a>", "11011", "<a><b></b>y</a>"},
    {"<a> \t\r\n</a>", "111", "<a> \t\r\n</a>"},
    {"<a><b>x</b></a>", "1100", "<a></a>"},
    {"<a><b>x</b></a>", "1110", "<a><b></b></a>"},
    {"<a><b ><a />x</b >y<b>z</b></a>", "11111111", "<a><b><a></a>x</b>y<b>z</b></a>"},
    {"<a><b ><a />x</b >y<b>z</b></a>", "11101100", "<a><b>x</b>y</a>"},
    {"<a><b ><a />x</b >y<b>z</b></a>", "11000111", "<a>y<b>z</b></a>"},
    {"<a><b ><a />x</b >y<b>z</b></a>", "11100010", "<a><b></b><b></b></a>"},
    {"<a><b><a><b/></a></b></a>", "11111", "<a><b><a><b></b></a></b></a>"},
    {"<a><b><a><b/></a></b></a>", "11110", "<a><b><a></a></b></a>"},
    {"<a>&lt;&gt;&amp;&apos;&quot;</a>", "111", "<a>&lt;&gt;&amp;&apos;&quot;</a>"},
    {"<a>\"'/\x7F>-->;#</a>", "111", "<a>\"'/\x7F>-->;#</a>"},
    {"<a>\xC3\xA9\xEF\xBF\xBD\xF4\x8F\xBF\xBF</a>", "111", "<a>\xC3\xA9\xEF\xBF\xBD\xF4\x8F\xBF\xBF</a>"},
    {"<a>\r<b/>\n</a>", "11101", "<a>\r\n</a>"},
    {"<a>&lt;<b/>;&amp;</a>", "11101", "<a>&lt;;&amp;</a>"},
};

/* Where `]` and `>` meet, and where a tag or another character stands between them. */
static const struct sample join_samples[] = {
    {"<a>]]<b/>></a>", "11101", "<a>]]&gt;</a>"},
    {"<a>]]<b/>></a>", "11111", "<a>]]<b></b>></a>"},
    {"<a>]]<b/>></a>", "11001", "<a>></a>"},
    {"<a>]]<b/>></a>", "11100", "<a>]]</a>"},
    {"<a>]<b/>]></a>", "11101", "<a>]]&gt;</a>"},
    {"<a>]<b/>]></a>", "11111", "<a>]<b></b>]></a>"},
    {"<a>]<b/>]></a>", "11001", "<a>]></a>"},
    {"<a>]]<b/>]></a>", "11101", "<a>]]]&gt;</a>"},
    {"<a>]]]<b/>></a>", "11101", "<a>]]]&gt;</a>"},
    {"<a>]<b/>]<b/>></a>", "1110101", "<a>]]&gt;</a>"},
    {"<a>]<b/>]<b/>></a>", "1111101", "<a>]<b></b>]></a>"},
    {"<a>]<b/>]<b/>></a>", "1110111", "<a>]]<b></b>></a>"},
    {"<a>]<b/>x<b/>]<b/>></a>", "111000101", "<a>]]&gt;</a>"},
    {"<a>]<b/>x<b/>]<b/>></a>", "111010101", "<a>]x]></a>"},
    {"<a>]]<b/>>></a>", "11101", "<a>]]&gt;></a>"},
    {"<a>]]<b/>><b/>></a>", "1110101", "<a>]]&gt;></a>"},
    {"<a>]]<b/>>]]<b/>></a>", "1110101", "<a>]]&gt;]]&gt;</a>"},
    {"<a>]]<b/>x></a>", "11101", "<a>]]x></a>"},
    {"<a>]]x<b/>></a>", "11101", "<a>]]x></a>"},
    {"<a>]]\xC3\xA9<b/>></a>", "11101", "<a>]]\xC3\xA9></a>"},
    {"<a>]];<b/>></a>", "11101", "<a>]];></a>"},
    {"<a>]] <b/>></a>", "11101", "<a>]] ></a>"},
    {"<a>] ]<b/>></a>", "11101", "<a>] ]></a>"},
    {"<a>]]&gt;</a>", "111", "<a>]]&gt;</a>"},
    {"<a>]]&gt;<b/>></a>", "11101", "<a>]]&gt;></a>"},
    {"<a>]]&gt;]<b/>></a>", "11101", "<a>]]&gt;]></a>"},
    {"<a>]]&gt;]]<b/>></a>", "11101", "<a>]]&gt;]]&gt;</a>"},
    {"<a>]]<b/>&gt;<b/>></a>", "1110101", "<a>]]&gt;></a>"},
    {"<a>]<b/>]&gt;<b/>></a>", "1110101", "<a>]]&gt;></a>"},
    {"<a>&amp;]]<b/>></a>", "11101", "<a>&amp;]]&gt;</a>"},
    {"<a>&lt;]<b/>]></a>", "11101", "<a>&lt;]]&gt;</a>"},
    {"<a>]&amp;]<b/>></a>", "11101", "<a>]&amp;]></a>"},
    {"<a>]]&amp;<b/>></a>", "11101", "<a>]]&amp;></a>"},
    {"<a>><b/>]]<b/>></a>", "1110101", "<a>>]]&gt;</a>"},
    {"<a>]]<b>x</b>></a>", "111001", "<a>]]&gt;</a>"},
    {"<a>]]<b>x</b>></a>", "111101", "<a>]]<b></b>></a>"},
    {"<a>]]<b>></b></a>", "11111", "<a>]]<b>></b></a>"},
    {"<a><b>]]</b>></a>", "11111", "<a><b>]]</b>></a>"},
    {"<a><b>]<a/>]</b>></a>", "1111011", "<a><b>]]</b>></a>"},
    {"<a><b>]<a/>]></b></a>", "111101", "<a><b>]]&gt;</b></a>"},
    {"<a>]<b>]]<a/></b>]<b/>></a>", "111000101", "<a>]]&gt;</a>"},
};

static void samples_are(const struct sample *rows, size_t count)
{
    for (size_t i = 0; i < count; i++) {
        start(rows[i].text, rows[i].marks);
        file_is(rows[i].text, rows[i].written);
    }
}

static void other_names(void)
{
    static const char names[] = "nnnnnnnnnnnnnnnnnnnnnnnnnnnnnnnnnnnnnnnnnnnnnnnnnnnnnnnnnnnnnnnn a a.b-c_1 _ ab";
    tally(start_file(&file, names, "<a.b-c_1 ><_/><ab>x</ab><a/></a.b-c_1>"),
          "names of every kind of byte are not read");
    file_is("names of every kind of byte", "<a.b-c_1><_></_><ab>x</ab><a></a></a.b-c_1>");
    tally(start_file(&file, names, "<nnnnnnnnnnnnnnnnnnnnnnnnnnnnnnnnnnnnnnnnnnnnnnnnnnnnnnnnnnnnnnnn />"),
          "the longest name is not read");
    file_is("the longest name", "<nnnnnnnnnnnnnnnnnnnnnnnnnnnnnnnnnnnnnnnnnnnnnnnnnnnnnnnnnnnnnnnn></"
                                "nnnnnnnnnnnnnnnnnnnnnnnnnnnnnnnnnnnnnnnnnnnnnnnnnnnnnnnnnnnnnnnn>");
    list_of(&file.list, "");
    for (unsigned v = 0; v < HALYARDFIG_NAMES; v++) {
        char name[8];
        snprintf(name, sizeof name, "n%u\n", v);
        memcpy(file.list.bytes + file.list.length, name, strlen(name));
        file.list.length += strlen(name);
    }
    clear_text(&file.xml.text);
    put_word(&file.xml.text, "<n255><n0/><n25/><n2/></n255>");
    tally(read_text(&file), "the last name of all is not read");
    file_is("the last name of all", "<n255><n0></n0><n25></n25><n2></n2></n255>");
}

/* What is lent. */

static const char short_text[] = "<a>x<b/>y</a>";
enum { SHORT_WRITTEN = sizeof "<a>x<b></b>y</a>" - 1, SHORT_NODES = 5 };

static void start_short(void)
{
    start(short_text, "11111");
}

static void lengths_are_checked(void)
{
    start_short();
    for (unsigned i = 0; i <= COLUMNS; i++)
        for (size_t odd = 0; odd < 2 * SHORT_NODES; odd++) {
            struct lengths lengths = all_of_it(SAMPLE_ROOM);
            lengths.nodes[i] = odd;
            call_is("one column of another length", lengths, odd == SHORT_NODES ? SHORT_WRITTEN : REFUSED(1, 0));
        }
    struct lengths lengths = all_of_it(SAMPLE_ROOM);
    lengths.text = TEXT_ROOM + 1;
    call_is("text too long", lengths, REFUSED(1, 0));
    lengths.text = TEXT_ROOM;
    call_is("longest text, another", lengths, REFUSED(OTHER_COLUMNS, 0));
    lengths = all_of_it(SAMPLE_ROOM);
    lengths.names = LIST_ROOM + 1;
    call_is("list too long", lengths, REFUSED(1, 0));
    lengths.names = LIST_ROOM;
    memset(file.list.bytes, 'n', LIST_ROOM);
    call_is("longest list", lengths, REFUSED(2, 0));
    start_short();
    lengths = (struct lengths){0, 0, {0, 0, 0, 0, 0}, 0};
    call_is("nothing lent", lengths, REFUSED(TABLE, 0));
    for (unsigned i = 0; i <= COLUMNS; i++)
        lengths.nodes[i] = NODE_ROOM + 1;
    call_is("too many nodes", lengths, REFUSED(1, 0));
}

static void lists_are_checked(void)
{
    static const struct {
        const char *names;
        unsigned number, place;
    } lists[] = {
        {"1\n", 2, 0},
        {"a\nb", 2, 2},
        {"a\n\nb\n", 2, 2},
        {"a\nb\na\n", 2, 4},
        {"a\r\nb\n", 2, 0},
        {"a\nb\n\xC3\xA9\n", 2, 4},
        {"", OTHER_COLUMNS, 0},
        {"a\n", OTHER_COLUMNS, 0},
        {"b\n", OTHER_COLUMNS, 0},
        {"b\na\n", OTHER_COLUMNS, 0},
        {"a\nc\nb\n", OTHER_COLUMNS, 0},
        {"a\nbb\n", OTHER_COLUMNS, 0},
        {"a\nb\nc\n", 0, SHORT_WRITTEN},
    };
    for (size_t i = 0; i < sizeof lists / sizeof lists[0]; i++) {
        start_short();
        file.list.length = strlen(lists[i].names);
        memcpy(file.list.bytes, lists[i].names, file.list.length);
        answer_all(lists[i].names, SAMPLE_ROOM, REFUSED(lists[i].number, lists[i].place));
    }
}

static void tables_are_checked(void)
{
    static const struct {
        const char *what;
        unsigned node, parent, kind, place;
    } bad[] = {
        {"root with a parent", 0, 1, 0, 0}, {"root of kind 1", 0, 0, 1, 0}, {"second root", 3, 1, 0, 3},
        {"kind too large", 3, 1, 258, 3},   {"a later parent", 3, 4, 3, 3}, {"parent outside", 4, 5, 1, 4},
        {"child of text", 3, 2, 3, 3},      {"its own parent", 3, 3, 3, 3}, {"no ancestor", 4, 2, 1, 4},
    };
    for (size_t i = 0; i < sizeof bad / sizeof bad[0]; i++) {
        start_short();
        file.table.parent[bad[i].node] = (uint16_t)bad[i].parent;
        file.table.kind[bad[i].node] = (uint16_t)bad[i].kind;
        answer_all(bad[i].what, SAMPLE_ROOM, REFUSED(TABLE, bad[i].place));
    }
}

static void marks_are_checked(void)
{
    static const struct {
        const char *marks;
        unsigned number, place;
    } rows[] = {
        {"21111", MARKS, 0}, {"12111", MARKS, 1}, {"11112", MARKS, 4},      {"01111", MARKS, 1},
        {"10111", MARKS, 2}, {"00001", MARKS, 4}, {"00020", MARKS, 3},      {"10001", MARKS, 4},
        {"11119", MARKS, 4}, {"01000", MARKS, 1}, {"00000", NO_ELEMENT, 0}, {"10000", NO_ELEMENT, 0},
    };
    for (size_t i = 0; i < sizeof rows / sizeof rows[0]; i++) {
        start_short();
        mark(rows[i].marks);
        answer_all(rows[i].marks, SAMPLE_ROOM, REFUSED(rows[i].number, rows[i].place));
    }
    start_short();
    file.table.marks[1] = 255;
    answer_all("a mark of 255", SAMPLE_ROOM, REFUSED(MARKS, 1));
}

/* Columns that are none of an XML text: 13 asks for the kinds of the marked nodes and comes before 14. */
static void no_element(void)
{
    static const struct {
        size_t nodes;
        uint16_t parent[3], kind[3];
        const char *marks;
        unsigned number;
    } rows[] = {
        {1, {0}, {0}, "1", NO_ELEMENT},
        {1, {0}, {0}, "0", NO_ELEMENT},
        {2, {0, 0}, {0, 1}, "11", NO_ELEMENT},
        {2, {0, 0}, {0, 1}, "10", NO_ELEMENT},
        {2, {0, 0}, {0, 2}, "10", NO_ELEMENT},
        {2, {0, 0}, {0, 2}, "11", OTHER_COLUMNS},
        {2, {0, 0}, {0, 257}, "11", OTHER_COLUMNS},
        {2, {0, 0}, {0, 257}, "10", NO_ELEMENT},
        {3, {0, 0, 0}, {0, 1, 2}, "110", NO_ELEMENT},
        {3, {0, 0, 0}, {0, 1, 2}, "101", OTHER_COLUMNS},
        {3, {0, 0, 0}, {0, 2, 1}, "101", NO_ELEMENT},
        {3, {0, 0, 1}, {0, 2, 1}, "110", OTHER_COLUMNS},
    };
    for (size_t i = 0; i < sizeof rows / sizeof rows[0]; i++) {
        start_short();
        file.table.nodes = rows[i].nodes;
        memcpy(file.table.parent, rows[i].parent, sizeof rows[i].parent);
        memcpy(file.table.kind, rows[i].kind, sizeof rows[i].kind);
        mark(rows[i].marks);
        answer_all("columns of no text", SAMPLE_ROOM, REFUSED(rows[i].number, 0));
    }
}

/* Other texts with the columns of the short one. */
static void other_texts(void)
{
    static const char *const texts[] = {
        "",
        "<a>x<b/>y</a",
        "<a>x<b/>y</a>x",
        "<a>x<b/>y",
        "<!-- --><a/>",
        "<a>x<b/>&</a>",
        "<a>x<e/>y</a>",
        "<e>x<b/>y</e>",
        "<a>x<a/>y</a>",
        "<b>x<b/>y</b>",
        "<a>x<b/>yz</a>",
        "<a>x<b/></a>",
        "<a><b/>y</a>",
        "<a><b/>xy</a>",
        " <a>x<b/>y</a>",
        "<a>x<b/>y</a> ",
        "<a >x<b/>y</a>",
        "<a>x<b />y</a>",
        "<a>x<b></b>y</a>",
        "<a>x<b/>y</a >",
        "<a>xy<b/></a>",
        "<a>x<b>y</b></a>",
        "<a>x<b/>y<b/></a>",
        "<a>]]></a>",
        "<a x='y'/>",
        "<a>&#65;</a>",
        "<a/>",
        "<a>xxxxxxxxx</a>",
        "<a>\xFF<b/>y</a>",
    };
    for (size_t i = 0; i < sizeof texts / sizeof texts[0]; i++) {
        start_short();
        clear_text(&file.xml.text);
        put_word(&file.xml.text, texts[i]);
        answer_all(texts[i], SAMPLE_ROOM, REFUSED(OTHER_COLUMNS, 0));
        mark("10000");
        answer_all(texts[i], SAMPLE_ROOM, REFUSED(NO_ELEMENT, 0));
    }
    start_short();
    clear_text(&file.xml.text);
    put_word(&file.xml.text, "<a>]<b/>></a>");
    file_is("other bytes at the same places", "<a>]<b></b>></a>");
    start_short();
    struct lengths fewer = all_of_it(SAMPLE_ROOM);
    for (unsigned i = 0; i <= COLUMNS; i++)
        fewer.nodes[i] = SHORT_NODES - 1;
    call_is("a node fewer than the text has", fewer, REFUSED(OTHER_COLUMNS, 0));
    for (unsigned i = 0; i < COLUMNS; i++)
        lent_column(&file, i)[SHORT_NODES] = lent_column(&file, i)[SHORT_NODES - 1];
    file.table.nodes++;
    answer_all("a node more than the text has", SAMPLE_ROOM, REFUSED(OTHER_COLUMNS, 0));
}

/* Every number of every column one less and one more. For each node stands what comes then: a digit is the node of 7,
   a letter the node of 8 from `a` for 0 on, `=` is 13 and `!` is 14. */
static void columns_by_one(void)
{
    static const struct {
        const char *text, *marks, *less[COLUMNS], *more[COLUMNS];
    } rows[] = {
        {"<a>x<b/>y</a>", "11111", {"0134!", "022!4", "!!!!!", "!!!!!"}, {"01234", "0!!!!", "!!!!!", "!!!!!"}},
        {"<a>x<b/>y</a>", "10000", {"0134=", "022=4", "=====", "====="}, {"01234", "0====", "=====", "====="}},
        {"<a><b>x</b>y</a>", "11001", {"014!!", "02!34", "!!!!!", "!!!!!"}, {"0123e", "0!!!!", "!!!!!", "!!!!!"}},
        {"<a><b>x</b>y</a>", "11111", {"014!!", "02!34", "!!!!!", "!!!!!"}, {"0123!", "0!!!!", "!!!!!", "!!!!!"}},
    };
    for (size_t r = 0; r < sizeof rows / sizeof rows[0]; r++)
        for (unsigned c = 0; c < COLUMNS; c++)
            for (size_t i = 0; i < 2 * strlen(rows[r].marks); i++) {
                bool more = i % 2 == 1;
                char answer = (more ? rows[r].more : rows[r].less)[c][i / 2], what[100];
                start(rows[r].text, rows[r].marks);
                uint16_t *number = &lent_column(&file, c)[i / 2];
                *number = (uint16_t)(more ? *number + 1 : *number - 1);
                snprintf(what, sizeof what, "%s, column %u, node %zu, one %s", rows[r].text, c, i / 2,
                         more ? "more" : "less");
                answer_all(what, SAMPLE_ROOM,
                           answer == '!'   ? REFUSED(OTHER_COLUMNS, 0)
                           : answer == '=' ? REFUSED(NO_ELEMENT, 0)
                           : answer >= 'a' ? REFUSED(MARKS, answer - 'a')
                                           : REFUSED(TABLE, answer - '0'));
            }
}

/* The order. */

enum fault { LENGTH_FAULT, NAMES_FAULT, TABLE_FAULT, MARKS_FAULT, ELEMENT_FAULT, COLUMNS_FAULT, ROOM_FAULT, FAULTS };

/* The room is one short or none. */
static void put_fault(enum fault fault, struct lengths *lengths, bool no_room)
{
    switch (fault) {
    case LENGTH_FAULT:
        lengths->nodes[MARKS_LENGTH]++;
        return;
    case NAMES_FAULT:
        lengths->names--;
        return;
    case TABLE_FAULT:
        file.table.kind[SHORT_NODES - 1] = HALYARDFIG_KIND_ROOT;
        return;
    case MARKS_FAULT:
        file.table.marks[SHORT_NODES - 1] = 2;
        return;
    case ELEMENT_FAULT:
        mark("10000");
        return;
    case COLUMNS_FAULT:
        file.xml.column[END_COLUMN][0]++;
        return;
    default:
        lengths->room = no_room ? 0 : SHORT_WRITTEN - 1;
    }
}

/* Every set of faults is refused for the first of them. */
static void order(void)
{
    static const uint64_t refusals[FAULTS] = {REFUSED(1, 0),
                                              REFUSED(2, 2),
                                              REFUSED(TABLE, SHORT_NODES - 1),
                                              REFUSED(MARKS, SHORT_NODES - 1),
                                              REFUSED(NO_ELEMENT, 0),
                                              REFUSED(OTHER_COLUMNS, 0),
                                              REFUSED(ROOM, SHORT_WRITTEN)};
    for (unsigned i = 0; i < 2u << FAULTS; i++) {
        unsigned set = i / 2;
        uint64_t expected = SHORT_WRITTEN;
        char what[50];
        start_short();
        struct lengths lengths = all_of_it(SAMPLE_ROOM);
        for (unsigned fault = FAULTS; fault-- > 0;)
            if ((set >> fault & 1) == 1) {
                put_fault((enum fault)fault, &lengths, i % 2 == 1);
                expected = refusals[fault];
            }
        snprintf(what, sizeof what, "the faults of the set %u", set);
        call_is(what, lengths, expected);
    }
}

/* Room and size. */

static void rooms(void)
{
    start_short();
    for (size_t room = 0; room <= 2 * SHORT_WRITTEN; room++)
        answer_all("every room", room, room < SHORT_WRITTEN ? REFUSED(ROOM, SHORT_WRITTEN) : SHORT_WRITTEN);
    answer_all("much room", 1 << 20, SHORT_WRITTEN);
    start("<a>]]<b/>></a>", "11101");
    for (size_t room = 0; room <= 20; room++)
        answer_all("every room, escaped", room, room < 13 ? REFUSED(ROOM, 13) : 13);
}

/* A start, a part so many times, an end, and so many bytes written, in room one short, exact, and one more; the nodes
   whose numbers leave this rest are not marked. */
struct large {
    const char *what, *names, *start, *part, *end;
    size_t times, turns, removed, written;
};

static void large_is(const struct large *large)
{
    list_of(&file.list, large->names);
    clear_text(&file.xml.text);
    put_word(&file.xml.text, large->start);
    for (size_t i = 0; i < large->times; i++)
        put_word(&file.xml.text, large->part);
    put_word(&file.xml.text, large->end);
    tally(!file.xml.text.overflowed && read_text(&file), "%s is not read", large->what);
    for (size_t i = 2; i < file.table.nodes; i++)
        file.table.marks[i] = large->turns == 0 || i % large->turns != large->removed;
    for (size_t room = large->written - 1; room <= large->written + 1; room++)
        answer_all(large->what, room, room < large->written ? REFUSED(ROOM, large->written) : large->written);
}

static void large_files(void)
{
#define LONGEST "nnnnnnnnnnnnnnnnnnnnnnnnnnnnnnnnnnnnnnnnnnnnnnnnnnnnnnnnnnnnnnnn"
    enum { ENDS = 7, INSIDE = TEXT_ROOM - ENDS, NAMED = INSIDE / 67, PAIRS = NODE_ROOM / 2 - 1 };
    static const struct large rows[] = {
        {"as many elements as may be", "a b", "<a>", "<b/>", "</a>", NODE_ROOM - 2, 0, 0, ENDS + 7 * (NODE_ROOM - 2)},
        {"elements by turns with texts", "a b", "<a>", "<b/>x", "</a>", PAIRS, 0, 0, ENDS + 8 * PAIRS},
        {"elements removed between texts", "a b", "<a>", "<b/>x", "</a>", PAIRS, 2, 0, ENDS + PAIRS},
        {"texts removed between elements", "a b", "<a>", "<b/>x", "</a>", PAIRS, 2, 1, ENDS + 7 * PAIRS},
        {"`]]` and `>` by turns, all joined", "a b", "<a>", "<b/>>]]", "</a>", PAIRS, 2, 0, ENDS + 6 * PAIRS - 3},
        {"`]` by turns with removed elements", "a b", "<a>", "<b/>]", "</a>", PAIRS, 2, 0, ENDS + PAIRS},
        {"elements of the longest name", "a " LONGEST, "<a>", "<" LONGEST "/>", "</a>", NAMED, 0, 0,
         ENDS + 133 * NAMED},
        {"one text", "a b", "<a>", "x", "</a>", INSIDE, 0, 0, TEXT_ROOM},
        {"one text of `]`", "a b", "<a>", "]", "</a>", INSIDE, 0, 0, TEXT_ROOM},
        {"one text of `>`", "a b", "<a>", ">", "</a>", INSIDE, 0, 0, TEXT_ROOM},
        {"one text of references", "a b", "<a>", "&gt;", "</a>", INSIDE / 4, 0, 0, ENDS + INSIDE / 4 * 4},
        {"white space in a tag", "a b", "<a", " ", "/>", TEXT_ROOM - 4, 0, 0, ENDS},
        {"white space in an end tag", "a b", "<a></a", "\n", ">", TEXT_ROOM - 7, 0, 0, ENDS},
        {"white space around", "a b", "<a/>", "\r", "", TEXT_ROOM - 4, 0, 0, ENDS},
    };
    for (size_t i = 0; i < sizeof rows / sizeof rows[0]; i++)
        large_is(&rows[i]);
}

/* Chains whose elements are marked from the top down to a depth. */
static void chains(void)
{
    static const size_t depths[] = {1, 2, 100, NODE_ROOM - 2, NODE_ROOM - 1};
    list_of(&file.list, "a b");
    clear_text(&file.xml.text);
    for (size_t i = 1; i < NODE_ROOM; i++)
        put_word(&file.xml.text, "<a>");
    for (size_t i = 1; i < NODE_ROOM; i++)
        put_word(&file.xml.text, "</a>");
    tally(read_text(&file), "a chain is not read");
    for (size_t d = 0; d < sizeof depths / sizeof depths[0]; d++) {
        for (size_t i = 0; i < file.table.nodes; i++)
            file.table.marks[i] = i <= depths[d];
        answer_all("a chain in exact room", 7 * depths[d], 7 * depths[d]);
        answer_all("a chain in room one short", 7 * depths[d] - 1, REFUSED(ROOM, 7 * depths[d]));
    }
}

int main(void)
{
    group_start("file_refusals");
    samples_are(samples, sizeof samples / sizeof samples[0]);
    samples_are(join_samples, sizeof join_samples / sizeof join_samples[0]);
    other_names();
    lengths_are_checked();
    lists_are_checked();
    tables_are_checked();
    marks_are_checked();
    no_element();
    other_texts();
    columns_by_one();
    order();
    rooms();
    large_files();
    chains();
    return group_end();
}
