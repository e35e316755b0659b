/* Every refusal of reading XML at its edges and in its order, with what it may and may not write; texts at the limits.
 */
#include "halyardfig.h"
#include "offering.h"
#include "xml_making.h"

#include <stdio.h>
#include <string.h>

enum { XML = HALYARDFIG_REFUSED_XML, LEFT_OUT = HALYARDFIG_REFUSED_LEFT_OUT, ROOM = HALYARDFIG_REFUSED_ROOM };
enum { MANY_ROOM = 1 << 16, LONGER = TEXT_ROOM + 1 };

static const char ab[] = "a\nb\n";

static void read_in(const char *what, const void *text, size_t text_len, const void *names, size_t names_len,
                    const size_t rooms[COLUMNS], uint64_t expected)
{
    const uint8_t *our_text = offer(text, text_len), *our_names = offer(names, names_len);
    uint16_t *out[COLUMNS];
    for (unsigned i = 0; i < COLUMNS; i++)
        out[i] = offer(NULL, rooms[i] * sizeof *out[i]);
    uint64_t answer = halyardfig_read_xml(our_text, text_len, our_names, names_len, out[0], rooms[0], out[1], rooms[1],
                                          out[2], rooms[2], out[3], rooms[3]);
    size_t written = halyardfig_value(answer) * sizeof(uint16_t);
    judge_offered(what, answer, expected, (size_t[]){0, 0, written, written, written, written});
}

static void read_bytes(const char *what, const void *text, size_t text_len, const void *names, size_t names_len,
                       size_t room, uint64_t expected)
{
    read_in(what, text, text_len, names, names_len, (size_t[]){room, room, room, room}, expected);
}

static void read_is(const char *text, const char *names, size_t room, uint64_t expected)
{
    read_bytes(text, text, strlen(text), names, strlen(names), room, expected);
}

/* Texts that are built. */

static struct text built;

/* Appends one string so many times. */
static void add(const char *part, size_t times)
{
    for (; times > 0; times--)
        put_word(&built, part);
}

static void built_is(const char *what, size_t room, uint64_t expected)
{
    tally(!built.overflowed, "%s does not fit", what);
    read_bytes(what, built.bytes, built.length, ab, strlen(ab), room, expected);
    clear_text(&built);
}

/* A start, a part as often as it fits, and an end; answers how often that is. */
static size_t fill(const char *start, const char *part, const char *end)
{
    size_t times = (TEXT_ROOM - strlen(start) - strlen(end)) / strlen(part);
    add(start, 1);
    add(part, times);
    add(end, 1);
    return times;
}

/* A text that is refused with a number, or is read with so many nodes where the number is 0. */
struct sample {
    const char *text;
    unsigned number, value;
};

static void samples_are(const struct sample *samples, size_t count)
{
    for (size_t i = 0; i < count; i++)
        read_is(samples[i].text, ab, NODE_ROOM, REFUSED(samples[i].number, samples[i].value));
}

#define SAMPLES_ARE(samples) samples_are(samples, sizeof(samples) / sizeof(samples)[0])

/* What is lent. */

static void lengths(void)
{
    static uint8_t text[LONGER], names[LIST_ROOM + 1];
    memset(text, ' ', sizeof text);
    memcpy(text, "<a/>", 4);
    memset(names, 'a', sizeof names);
    read_bytes("longest text", text, TEXT_ROOM, ab, strlen(ab), 2, 2);
    read_bytes("text too long", text, LONGER, ab, strlen(ab), 2, REFUSED(1, 0));
    read_bytes("longest list", text, 4, names, LIST_ROOM, 2, REFUSED(2, 0));
    read_bytes("list too long", text, 4, names, LIST_ROOM + 1, 2, REFUSED(1, 0));
    for (unsigned i = 0; i < COLUMNS; i++)
        for (size_t odd = 0; odd < 5; odd++) {
            size_t rooms[COLUMNS] = {2, 2, 2, 2};
            rooms[i] = odd;
            read_in("one column of another length", text, 4, ab, strlen(ab), rooms, odd == 2 ? 2 : REFUSED(1, 0));
        }
    for (unsigned i = 1; i < COLUMNS; i++) {
        size_t rooms[COLUMNS] = {9, 9, 9, 9};
        memset(rooms, 0, i * sizeof rooms[0]);
        read_in("some columns empty", text, 4, ab, strlen(ab), rooms, REFUSED(1, 0));
    }
}

static void lists(void)
{
    static const struct {
        const char *names;
        unsigned place;
    } bad[] = {
        {"1a\n", 0},  {"\n", 0},    {"a\n\n", 2},     {"a\nb", 2},   {"a b\n", 0},
        {"a:b\n", 0}, {"a\r\n", 0}, {"a\nb\na\n", 4}, {"a\na\n", 2}, {"a\n\xC3\xA9\n", 2},
    };
    for (size_t i = 0; i < sizeof bad / sizeof bad[0]; i++)
        read_is("<a/>", bad[i].names, 2, REFUSED(2, bad[i].place));
    read_is("<a/>", "", 2, REFUSED(5, 1));
    read_is("<a.b-c_1/>", "a\na.b-c_1\n", 2, 2);
}

/* Each refusal before each that comes later; 12 and 11 by place, and 12 where the places are equal. */
static void order(void)
{
    static uint8_t longer[LONGER];
    static const char *const later[] = {"<a>&", "<a><!", "<e/>", "<a>x</a>"};
    const size_t unequal[COLUMNS] = {0, 0, 0, 1};
    for (size_t i = 0; i < sizeof later / sizeof later[0]; i++) {
        size_t length = strlen(later[i]);
        read_in("1 before later", later[i], length, ab, strlen(ab), unequal, REFUSED(1, 0));
        read_in("1 before 2", later[i], length, "1\n", 2, unequal, REFUSED(1, 0));
        read_is(later[i], "a\n1\n", 0, REFUSED(2, 2));
        memset(longer, ' ', sizeof longer);
        memcpy(longer, later[i], length);
        read_bytes("1 before all", longer, LONGER, "1\n", 2, 0, REFUSED(1, 0));
    }
    static const struct sample pairs[] = {
        {"<e>&", XML, 4},        {"<e><!", LEFT_OUT, 3},     {"<e/>", HALYARDFIG_REFUSED_NAME, 1},
        {"<a>&<!", LEFT_OUT, 4}, {"<a>]]><!", XML, 5},       {"<a><!]]>", LEFT_OUT, 3},
        {"<a>&x<!", XML, 4},     {"<a b></c>", LEFT_OUT, 3}, {"<a></c><!", XML, 5},
    };
    for (size_t i = 0; i < sizeof pairs / sizeof pairs[0]; i++)
        read_is(pairs[i].text, ab, 0, REFUSED(pairs[i].number, pairs[i].value));
    read_is("<a/>", ab, 0, REFUSED(ROOM, 2));
}

/* Texts. */

static const struct sample tag_samples[] = {
    {"", XML, 0},
    {" ", XML, 1},
    {"\t\r\n", XML, 3},
    {"x", XML, 0},
    {"<", XML, 1},
    {"< a/>", XML, 1},
    {"</a>", XML, 1},
    {" </a>", XML, 2},
    {"<1/>", XML, 1},
    {"<.a/>", XML, 1},
    {"<-a/>", XML, 1},
    {"<>", XML, 1},
    {"<a", XML, 2},
    {"<a ", XML, 3},
    {"<a/", XML, 3},
    {"<a/ >", XML, 3},
    {"<a //>", XML, 4},
    {"<a/b>", XML, 3},
    {"<a /b>", XML, 4},
    {"<a='b'>", XML, 2},
    {"<a\"/>", XML, 2},
    {"<a<b/>", XML, 2},
    {"<a>", XML, 3},
    {"<a><", XML, 4},
    {"<a></", XML, 5},
    {"<a></a", XML, 6},
    {"<a></a ", XML, 7},
    {"<a></a/>", XML, 6},
    {"<a></ a>", XML, 5},
    {"<a></b>", XML, 5},
    {"<ab></a>", XML, 7},
    {"<a></ab>", XML, 6},
    {"<a></a b>", XML, 7},
    {"<a></>", XML, 5},
    {"<a><b></a></b>", XML, 8},
    {"<a/>x", XML, 4},
    {"<a/><a/>", XML, 4},
    {"<a/>&lt;", XML, 4},
    {"<a></a></a>", XML, 7},
    {"x<a/>", XML, 0},
    {"&lt;<a/>", XML, 0},
    {"<a/> <", XML, 5},
    {"<a/></a>", XML, 4},
    {"\xC2\xA0<a/>", XML, 0},
    {"\x0B<a/>", XML, 0},
    {"<a/>\x0C", XML, 4},
    {"<a\x0B/>", XML, 2},
    {"<a></a\xC2\xA0>", XML, 6},
    {"<a/>", 0, 2},
    {"<a />", 0, 2},
    {"<a\t\r\n/>", 0, 2},
    {"<a></a>", 0, 2},
    {"<a ></a\t>", 0, 2},
    {" \t\r\n<a/>\n", 0, 2},
    {"<a> </a>", 0, 3},
    {"<a><b/></a>", 0, 3},
    {"<a> <b/> </a>", 0, 5},
    {"<a><b><a/></b></a>", 0, 4},
    {"<a><b>x</b>y<b/>z</a>", 0, 7},
};

static const struct sample reference_samples[] = {
    {"<a>&", XML, 4},
    {"<a>&;", XML, 4},
    {"<a>& ", XML, 4},
    {"<a>&lt", XML, 6},
    {"<a>&lt</a>", XML, 6},
    {"<a>&LT;", XML, 4},
    {"<a>&ap;", XML, 6},
    {"<a>&am;", XML, 6},
    {"<a>&amp</a>", XML, 7},
    {"<a>&nbsp;", XML, 4},
    {"<a>&apo", XML, 7},
    {"<a>&quo;", XML, 7},
    {"<a>&g", XML, 5},
    {"<a>&gt ;", XML, 6},
    {"<a>&gtt;", XML, 6},
    {"<a>&&lt;", XML, 4},
    {"<a>&l<b/>", XML, 5},
    {"&lt;", XML, 0},
    {"<a&lt;/>", XML, 2},
    {"<a></a&lt;>", XML, 6},
    {"<a>&lt;</a>", 0, 3},
    {"<a>&gt;</a>", 0, 3},
    {"<a>&amp;</a>", 0, 3},
    {"<a>&apos;</a>", 0, 3},
    {"<a>&quot;</a>", 0, 3},
    {"<a>&lt;;</a>", 0, 3},
    {"<a>&amp;lt;</a>", 0, 3},
    {"<a>&lt;&gt;x</a>", 0, 3},
    {"<a>&lt;<b/>&gt;</a>", 0, 5},
};

/* `]]>`, and what only looks like it. */
static const struct sample square_samples[] = {
    {"<a>]]></a>", XML, 5},   {"<a>]]]></a>", XML, 6},  {"<a>x]]></a>", XML, 6},   {"<a>&lt;]]>", XML, 9},
    {"<a><b/>]]>", XML, 9},   {"<a>]]", XML, 5},        {"<a>]></a>", 0, 3},       {"<a>] ]></a>", 0, 3},
    {"<a>]]&gt;</a>", 0, 3},  {"<a>]]<b/>></a>", 0, 5}, {"<a>]&amp;]></a>", 0, 3}, {"<a>]]x></a>", 0, 3},
    {"<a>]<b/>]></a>", 0, 5}, {"<a>></a>", 0, 3},       {"<a>]]&amp;></a>", 0, 3}, {"<a>]]\xC3\xA9></a>", 0, 3},
    {"<a>]]\r></a>", 0, 3},   {"<a>]]]]</a>", 0, 3},    {"<a>>>]]</a>", 0, 3},
};

/* Characters, each at the edge of what a sequence of its form may be. */
static const struct sample character_samples[] = {
    {"<a>\x01", XML, 3},
    {"<a>\x08", XML, 3},
    {"<a>\x0B", XML, 3},
    {"<a>\x0E", XML, 3},
    {"<a>\x1F", XML, 3},
    {"<a>\x80", XML, 3},
    {"<a>\xBF", XML, 3},
    {"<a>\xC0\x80", XML, 3},
    {"<a>\xC1\xBF", XML, 3},
    {"<a>\xC2", XML, 4},
    {"<a>\xC2 ", XML, 4},
    {"<a>\xC2\x7F", XML, 4},
    {"<a>\xC2\xC2", XML, 4},
    {"<a>\xC2<", XML, 4},
    {"<a>\xE0\x9F", XML, 4},
    {"<a>\xE0\xA0", XML, 5},
    {"<a>\xE0\xA0z", XML, 5},
    {"<a>\xED\x9F\xC0", XML, 5},
    {"<a>\xED\xA0", XML, 4},
    {"<a>\xED\xBF", XML, 4},
    {"<a>\xEE\x7F", XML, 4},
    {"<a>\xEF\xBF\xBE", XML, 5},
    {"<a>\xEF\xBF\xBF", XML, 5},
    {"<a>\xEF\xC0", XML, 4},
    {"<a>\xF0\x8F", XML, 4},
    {"<a>\xF0\x90", XML, 5},
    {"<a>\xF0\x90\x80", XML, 6},
    {"<a>\xF0\x90\x80&", XML, 6},
    {"<a>\xF3\xC0", XML, 4},
    {"<a>\xF4\x90", XML, 4},
    {"<a>\xF5", XML, 3},
    {"<a>\xF8", XML, 3},
    {"<a>\xFE", XML, 3},
    {"<a>\xFF", XML, 3},
    {"<a>\x09\x0A\x0D</a>", 0, 3},
    {"<a>\x7F</a>", 0, 3},
    {"<a>\xC2\x80</a>", 0, 3},
    {"<a>\xDF\xBF</a>", 0, 3},
    {"<a>\xE0\xA0\x80</a>", 0, 3},
    {"<a>\xE1\x80\x80</a>", 0, 3},
    {"<a>\xEC\xBF\xBF</a>", 0, 3},
    {"<a>\xED\x9F\xBF</a>", 0, 3},
    {"<a>\xEE\x80\x80</a>", 0, 3},
    {"<a>\xEF\xBE\xBF</a>", 0, 3},
    {"<a>\xEF\xB7\x90</a>", 0, 3},
    {"<a>\xEF\xBF\xBD</a>", 0, 3},
    {"<a>\xF0\x90\x80\x80</a>", 0, 3},
    {"<a>\xF0\x9F\xBF\xBE</a>", 0, 3},
    {"<a>\xF3\xBF\xBF\xBF</a>", 0, 3},
    {"<a>\xF4\x8F\xBF\xBF</a>", 0, 3},
    {"<a>\xEF\xBB\xBF</a>", 0, 3},
};

static const struct sample declaration_samples[] = {
    {"<?xml version='1.0'?><a/>", 0, 2},
    {"<?xml\t\r\n version\n=\t\"1.0\" ?>\r<a/>", 0, 2},
    {"<?xml version='1.0' encoding='UTF-8'?><a/>", 0, 2},
    {"<?xml version=\"1.10\" encoding = \"uTf-8\" standalone\t=\n'yes'?><a/>", 0, 2},
    {"<?xml version='1.0' standalone='no'?><a/>", 0, 2},
    {"<?xml version='1.0'?>", XML, 21},
    {"<?xml version=\"1.0'?>", XML, 18},
    {"<?xml version='1.'?><a/>", XML, 17},
    {"<?xml version='2.0'?>", XML, 15},
    {"<?xml version='1'?>", XML, 16},
    {"<?xml version='1.0a'?>", XML, 18},
    {"<?xml version=1.0?>", XML, 14},
    {"<?xml version'1.0'?>", XML, 13},
    {"<?xml Version='1.0'?>", XML, 6},
    {"<?xml ?>", XML, 6},
    {"<?xml version='1.0'encoding='UTF-8'?>", XML, 19},
    {"<?xml version='1.0'standalone='no'?>", XML, 19},
    {"<?xml version='1.0' encoding='UTF-8'standalone='no'?><a/>", XML, 36},
    {"<?xml version='1.0' standalone='no' encoding='UTF-8'?>", XML, 36},
    {"<?xml version='1.0' version='1.0'?>", XML, 20},
    {"<?xml encoding='UTF-8'?>", XML, 6},
    {"<?xml version='1.0' encoding=UTF-8?>", XML, 29},
    {"<?xml version='1.0' encoding=''?>", XML, 30},
    {"<?xml version='1.0' encoding='8859'?>", XML, 30},
    {"<?xml version='1.0' encoding='_x'?>", XML, 30},
    {"<?xml version='1.0' encoding='UTF-8 '?>", XML, 35},
    {"<?xml version='1.0' encoding='UTF 8'?>", XML, 33},
    {"<?xml version='1.0' encoding='UTF-8\"?>", XML, 35},
    {"<?xml version='1.0' encoding='latin1\"?>", XML, 30},
    {"<?xml version='1.0' encoding='UTF-", XML, 34},
    {"<?xml version='1.0' encoding='utf-1", XML, 34},
    {"<?xml version='1.0' encoding='UTF-8", XML, 35},
    {"<?xml version='1.0' standalone='maybe'?>", XML, 32},
    {"<?xml version='1.0' standalone='yess'?>", XML, 35},
    {"<?xml version='1.0' standalone='ye'?>", XML, 34},
    {"<?xml version='1.0' standalone='Yes'?>", XML, 32},
    {"<?xml version='1.0' standalone='no\"?>", XML, 34},
    {"<?xml version='1.0' ? >", XML, 21},
    {"<?xml version='1.0'>", XML, 19},
    {"<?xml version='1.0'?>x", XML, 21},
    {"<?xml version='1.0' encoding='utf8'?>", LEFT_OUT, 30},
    {"<?xml version='1.0' encoding='UTF-8x'?>", LEFT_OUT, 30},
    {"<?xml version='1.0' encoding='UTF-'?>", LEFT_OUT, 30},
    {"<?xml version='1.0' encoding='u'", LEFT_OUT, 30},
    {"<?xml version='1.0' encoding=\"x.y_z-1\"", LEFT_OUT, 30},
    {"<?xml version='1.0' encoding='U<!", LEFT_OUT, 31},
    {"<?xml version='1.0' encoding='UTF<?", LEFT_OUT, 33},
    {"<?xml version='1.0' encoding='UTF-8&#", LEFT_OUT, 35},
    {"<?xml version<!", LEFT_OUT, 13},
    {"<?xml version='1.0'?><?xml version='1.0'?>", LEFT_OUT, 21},
    {"<?xml version='1.0'?> <?a?>", LEFT_OUT, 22},
    {" <?xml version='1.0'?><a/>", LEFT_OUT, 1},
    {"<?XML version='1.0'?><a/>", LEFT_OUT, 0},
    {"<?xml:a?><a/>", LEFT_OUT, 0},
    {"<?xml<!", LEFT_OUT, 0},
    {"<?xml", LEFT_OUT, 0},
    {"<?xml\x0B", LEFT_OUT, 0},
    {"<?", LEFT_OUT, 0},
    {"<?xml\t", XML, 6},
    {"<?xml\r", XML, 6},
    {"<?xml\n", XML, 6},
};

/* Each thing that is left out at each kind of place. */

/* A place is named by the bytes before it. The answers follow the things: `2` is 12 and `1` is 11 at the place, a
   letter is 11 so many bytes on, `a` for one, where the bytes before it go on. */
static const char *const things[] = {"<!",       "&#",       "<?", "\xEF\xBB\xBF", "b",  ":", "\xC3\x97",
                                     "\xC2\xB7", "\xCC\x80", "-",  "L1\"",         "L1'"};
enum { THINGS = sizeof things / sizeof things[0] };
static const struct {
    const char *kind, *before;
    char answers[THINGS + 1];
} places[] = {
    {"start", "", "222211111111"},
    {"first", "<", "2222a22111bb"},
    {"heading", "<?xml ", "222111111111"},
    {"heading", "<?xml v", "222111111111"},
    {"heading", "<?xml version", "222111111111"},
    {"heading", "<?xml version=", "222111111111"},
    {"heading", "<?xml version='", "222111111111"},
    {"heading", "<?xml version='1.", "222111111111"},
    {"heading", "<?xml version='1.0", "222111111111"},
    {"heading", "<?xml version='1.0'", "222111111111"},
    {"heading", "<?xml version='1.0' ", "222111111111"},
    {"heading", "<?xml version='1.0' encoding=\"", "222111111121"},
    {"heading", "<?xml version='1.0' encoding='", "222111111112"},
    {"heading", "<?xml version='1.0' encoding='UTF-8'", "222111111111"},
    {"heading", "<?xml version='1.0' standalone=\"", "222111111111"},
    {"heading", "<?xml version='1.0' standalone='no'?", "222111111111"},
    {"ahead", "<?xml version='1.0'?>", "222111111111"},
    {"ahead", " ", "222111111111"},
    {"opening", " <", "2222a22111bb"},
    {"opening", "<?xml version='1.0'?><", "2222a22111bb"},
    {"opening", "<a><", "2222a22111bb"},
    {"opening", "<a>x<", "2222a22111bb"},
    {"inName", "<a", "2222a2222abb"},
    {"inName", "<a><b", "2222a2222abb"},
    {"inTag", "<a ", "222222211122"},
    {"inTag", "<a><b\t\r\n", "222222211122"},
    {"emptied", "<a/", "222111111111"},
    {"emptied", "<a /", "222111111111"},
    {"content", "<a>", "222caabbbacc"},
    {"content", "<a><b/>", "222caabbbacc"},
    {"run", "<a>x", "222caabbbacc"},
    {"run", "<a>]]", "222caabbbacc"},
    {"run", "<a>&lt;", "222caabbbacc"},
    {"partly", "<a>&", "222111111111"},
    {"partly", "<a>&l", "222111111111"},
    {"partly", "<a>x&quot", "222111111111"},
    {"partly", "<a>\xC3", "222111111111"},
    {"partly", "<a>\xE0\xA0", "222111111111"},
    {"partly", "<a>\xF0\x90\x80", "222111111111"},
    {"closing", "<a></", "222111111111"},
    {"closing", "<a></a", "222111111111"},
    {"closing", "<a></a ", "222111111111"},
    {"ended", "<a/>", "222111111111"},
    {"ended", "<a></a>\n", "222111111111"},
};

static void left_out(void)
{
    char text[100], what[200];
    for (size_t p = 0; p < sizeof places / sizeof places[0]; p++)
        for (size_t t = 0; t < THINGS; t++) {
            char answer = places[p].answers[t];
            unsigned on = answer >= 'a' ? (unsigned)(answer - 'a') + 1 : 0;
            snprintf(text, sizeof text, "%s%s", places[p].before, things[t]);
            snprintf(what, sizeof what, "%s, `%s`", places[p].kind, text);
            read_bytes(what, text, strlen(text), ab, strlen(ab), NODE_ROOM,
                       REFUSED(answer == '2' ? LEFT_OUT : XML, strlen(places[p].before) + on));
        }
}

static const struct sample left_out_samples[] = {
    {"<a b='c'/>", LEFT_OUT, 3},
    {"<a \xC3\xA9", LEFT_OUT, 3},
    {"<a _", LEFT_OUT, 3},
    {"<a:b/>", LEFT_OUT, 2},
    {"<:a/>", LEFT_OUT, 1},
    {"<a></a:b>", XML, 6},
    {"<a></:a>", XML, 5},
    {"<a><!--x--></a>", LEFT_OUT, 3},
    {"<a><![CDATA[x]]></a>", LEFT_OUT, 3},
    {"<!DOCTYPE a><a/>", LEFT_OUT, 0},
    {"<a>&#x41;", LEFT_OUT, 3},
    {"<a>&l&#", LEFT_OUT, 5},
    {"<&#", LEFT_OUT, 1},
    {"<<", XML, 1},
    {"\xEF\xBB\xBF<a/>", LEFT_OUT, 0},
    {"\xEF\xBB", XML, 0},
    {"\xEF", XML, 0},
    {" \xEF\xBB\xBF<a/>", XML, 1},
    {"\xFE\xFF", XML, 0},
    {"<a\xED", LEFT_OUT, 2},
    {"<a\xEE", XML, 2},
    {"<a\xEF", LEFT_OUT, 2},
    {"<a\xF3", LEFT_OUT, 2},
    {"<a\xF4", XML, 2},
    {"<a\xC1", XML, 2},
    {"<a\xC2", LEFT_OUT, 2},
    {"<a\xCB", LEFT_OUT, 2},
    {"<a\xCC", LEFT_OUT, 2},
    {"<a\xCD", LEFT_OUT, 2},
    {"<\xC2", XML, 1},
    {"<\xC3", LEFT_OUT, 1},
    {"<\xCB", LEFT_OUT, 1},
    {"<\xCC", XML, 1},
    {"<\xCD", LEFT_OUT, 1},
    {"<\xED", LEFT_OUT, 1},
    {"<\xEE", XML, 1},
    {"<\xEF", LEFT_OUT, 1},
    {"<\xF3", LEFT_OUT, 1},
    {"<\xF4", XML, 1},
    {"<\xB7", XML, 1},
    {"<a\xB7", XML, 2},
};

static void texts(void)
{
    SAMPLES_ARE(tag_samples);
    SAMPLES_ARE(reference_samples);
    SAMPLES_ARE(square_samples);
    SAMPLES_ARE(character_samples);
    SAMPLES_ARE(declaration_samples);
    SAMPLES_ARE(left_out_samples);
}

static void zero_bytes(void)
{
    read_bytes("a zero byte alone", "", 1, ab, strlen(ab), 9, REFUSED(XML, 0));
    read_bytes("a zero byte in a tag", "<a\0/>", 5, ab, strlen(ab), 9, REFUSED(XML, 2));
    read_bytes("a zero byte in a run", "<a>x\0</a>", 9, ab, strlen(ab), 9, REFUSED(XML, 4));
    read_bytes("a zero byte behind", "<a/>\0", 5, ab, strlen(ab), 9, REFUSED(XML, 4));
}

/* Names. */

static void names(void)
{
    read_is("<a><e/></a>", ab, 9, REFUSED(5, 4));
    read_is("<e><f/></e>", ab, 0, REFUSED(5, 1));
    read_is("<?xml version='1.0'?> <aa/>", ab, 9, REFUSED(5, 23));
    read_is("<A/>", ab, 9, REFUSED(5, 1));
    read_is("<a>x<b/>&lt;<b.><c/></b.></a>", ab, 9, REFUSED(5, 13));
    read_is("<ab/>", "a\nb\nabc\n", 9, REFUSED(5, 1));
    read_is("<abc/>", "a\nb\nabc\n", 9, 2);
    char text[HALYARDFIG_NAME_BYTES + 10], list[HALYARDFIG_NAME_BYTES + 2];
    memset(list, 'n', sizeof list);
    snprintf(text, sizeof text, "<%.*s/>", HALYARDFIG_NAME_BYTES, list);
    snprintf(list + HALYARDFIG_NAME_BYTES, 2, "\n");
    read_is(text, list, 2, 2);
    snprintf(text, sizeof text, "<%.*sn/>", HALYARDFIG_NAME_BYTES, list);
    read_is(text, list, 2, REFUSED(5, 1));
    read_is("<axc/>", "abc\nac\n", 9, REFUSED(5, 1));
    read_is("<abc/>", "axc\nabc\n", 9, 2);
    for (size_t bytes = HALYARDFIG_NAME_BYTES; bytes < 10 * HALYARDFIG_NAME_BYTES; bytes++) {
        add("<", 1);
        add("a", bytes);
        add("/>", 1);
        built_is("a long name", 9, REFUSED(5, 1));
    }
    fill("<", "a", "/>");
    built_is("the longest name", 9, REFUSED(5, 1));
    struct list all;
    struct dice dice = {1};
    make_list(&dice, &all, HALYARDFIG_NAMES);
    size_t length;
    const uint8_t *last = name_at(&all, HALYARDFIG_NAMES - 1, &length);
    snprintf(text, sizeof text, "<%.*s/>", (int)length, (const char *)last);
    read_bytes("the last name of all", text, strlen(text), all.bytes, all.length, 2, 2);
}

/* An element name so long that its end tag just fits, or differs in its last byte. */
static void long_end_tags(void)
{
    enum { BYTES = (TEXT_ROOM - 5) / 2 };
    static const char *const ends[] = {"</", "</a"};
    for (size_t i = 0; i < 2; i++) {
        add("<", 1);
        add("a", BYTES);
        add(">", 1);
        add(ends[i], 1);
        add("a", BYTES - 1 - i);
        add(i == 0 ? "a>" : "b>", 1);
        built_is("the longest end tag", 9, i == 0 ? REFUSED(HALYARDFIG_REFUSED_NAME, 1) : REFUSED(XML, 2 * BYTES + 3));
    }
}

/* Room and nodes. */

static void rooms(void)
{
    for (size_t room = 0; room < 7; room++)
        read_is("<a>x<b/>y</a>", ab, room, room < 5 ? REFUSED(ROOM, 5) : 5);
    read_is("<a/>", ab, MANY_ROOM, 2);
    read_is("<a/>", ab, MANY_ROOM + 1, 2);
    read_is("<a>x</a>", ab, MANY_ROOM + 2, 3);
}

/* The root, one element, and so many nodes inside it. */
static void nodes_are(const char *what, const char *part, size_t inside, size_t part_nodes, size_t room)
{
    add("<a>", 1);
    add(part, inside / part_nodes);
    add(inside % part_nodes == 0 ? "" : "<b/>", 1);
    add("</a>", 1);
    size_t nodes = 2 + inside;
    built_is(what, room, nodes > room || nodes > NODE_ROOM ? REFUSED(ROOM, nodes) : nodes);
}

static void most_nodes(void)
{
    enum { MOST = NODE_ROOM - 2 };
    for (size_t inside = MOST - 1; inside <= MOST + 1; inside++)
        for (size_t room = NODE_ROOM - 1; room <= NODE_ROOM + 1; room++) {
            nodes_are("empty elements", "<b/>", inside, 1, room);
            nodes_are("elements by turns with texts", "<b/>x", inside, 2, room);
            nodes_are("elements with a text", "<b>x</b>", inside, 2, room);
        }
    size_t times = fill("<a>", "<b/>x", "</a>");
    built_is("as many nodes as a text can have", MANY_ROOM, REFUSED(ROOM, 2 * times + 2));
    times = fill("<a>", "<b/>", "</a>");
    built_is("as many elements as a text can have", NODE_ROOM, REFUSED(ROOM, times + 2));
}

static void chain_is(size_t elements, size_t room, uint64_t expected)
{
    add("<a>", elements);
    add("</a>", elements);
    built_is("a chain", room, expected);
}

static void most_open(void)
{
    static const struct sample ends[] = {
        {"", XML, 0},         {"<", XML, 1},  {"</", XML, 2},      {"/>", XML, 2},      {"x", XML, 1},
        {"]]", XML, 2},       {"&l", XML, 2}, {"<!", LEFT_OUT, 0}, {"&#", LEFT_OUT, 0}, {"<?", LEFT_OUT, 0},
        {"\xC3\xA9", XML, 2}, {"<b", XML, 2}, {"<:", LEFT_OUT, 1}, {"\xC3&", XML, 1},   {"\xFF", XML, 0},
    };
    for (size_t i = 0; i < sizeof ends / sizeof ends[0]; i++) {
        add("<a>", OPEN_MOST);
        add(ends[i].text, 1);
        built_is("as many open as can be", NODE_ROOM, REFUSED(ends[i].number, 3 * OPEN_MOST + ends[i].value));
    }
    enum { CLOSED_MOST = TEXT_ROOM / 7 };
    chain_is(NODE_ROOM - 2, NODE_ROOM, NODE_ROOM - 1);
    chain_is(NODE_ROOM - 1, NODE_ROOM, NODE_ROOM);
    chain_is(NODE_ROOM, NODE_ROOM + 1, REFUSED(ROOM, NODE_ROOM + 1));
    chain_is(CLOSED_MOST, MANY_ROOM, REFUSED(ROOM, CLOSED_MOST + 1));
    add("<a>", CLOSED_MOST);
    add("</a>", CLOSED_MOST - 1);
    built_is("a chain with one open", NODE_ROOM, REFUSED(XML, 7 * CLOSED_MOST - 4));
    add("<a>", CLOSED_MOST);
    add("</a>", CLOSED_MOST - 1);
    add("</b", 1);
    built_is("a chain whose last end tag is another's", NODE_ROOM, REFUSED(XML, 7 * CLOSED_MOST - 2));
}

/* One run that fills the text, of each sort of characters; and the same with no end. */
static void long_runs(void)
{
    static const char *const parts[] = {
        "x", " ", "\r\n", "]", ">", "&lt;", "&quot;", "\xC3\xA9", "\xEF\xBF\xBD", "\xF4\x8F\xBF\xBF"};
    for (size_t i = 0; i < sizeof parts / sizeof parts[0]; i++) {
        fill("<a>", parts[i], "</a>");
        built_is("a long run", 3, 3);
        fill("<a>", parts[i], "");
        size_t length = built.length;
        built_is("a long run without an end", 3, REFUSED(XML, length));
    }
    fill("", " ", "<a/>");
    built_is("white space before", 2, 2);
    fill("<a/>", "\n", "");
    built_is("white space behind", 2, 2);
    fill("<a", "\t", "/>");
    built_is("white space in a tag", 2, 2);
    fill("<a></a", "\r", ">");
    built_is("white space in an end tag", 2, 2);
    fill("<?xml version='1.", "0", "'?><a/>");
    built_is("a long version", 2, 2);
    fill("<?xml version='1.0' encoding='", "u", "'");
    built_is("a long encoding", 2, REFUSED(LEFT_OUT, 30));
}

int main(void)
{
    group_start("xml_refusals");
    lengths();
    lists();
    order();
    texts();
    zero_bytes();
    left_out();
    names();
    long_end_tags();
    rooms();
    most_nodes();
    most_open();
    long_runs();
    return group_end();
}
