/* 02, 2026-01 in plain C: XML text read by descent through its productions, where each look at a byte asks first what
 * is left out. */
#include "paper.h"

#include "halyardfig.h"
#include "names.h"
#include "support.h"

#include <string.h>

/* Every node but the root has two bytes of its own at least. */
enum { MOST_NODES = HALYARDFIG_TEXT_BYTES / 2 + 1, NO_BYTE = -1, UTF8_BYTES = 5 };

/* Where a look is taken, as far as that decides what is left out. */
enum where { ANYWHERE, NAME_BEGINS, NAME_GOES_ON, BEHIND_WHITE_IN_TAG };

struct xml_node {
    size_t parent;
    size_t begin;
    size_t end;
    size_t name_length;
    size_t kind;
};

/* A text, the place that reading has reached, and the refusal that ended it, if any; a text node has no name. */
struct reading {
    const uint8_t *text;
    size_t length;
    size_t at;
    uint64_t refusal;
    size_t count;
    struct xml_node nodes[MOST_NODES];
};

static struct reading reading;

/* Code points. */

struct range {
    uint32_t low, high;
};

/* XML 1.0, productions 2, 4 and 4a. */
static const struct range characters[] = {{0x9, 0xA},       {0xD, 0xD},          {0x20, 0xD7FF},
                                          {0xE000, 0xFFFD}, {0x10000, 0x10FFFF}, {0, 0}};
static const struct range name_starts[] = {{':', ':'},
                                           {'A', 'Z'},
                                           {'_', '_'},
                                           {'a', 'z'},
                                           {0xC0, 0xD6},
                                           {0xD8, 0xF6},
                                           {0xF8, 0x2FF},
                                           {0x370, 0x37D},
                                           {0x37F, 0x1FFF},
                                           {0x200C, 0x200D},
                                           {0x2070, 0x218F},
                                           {0x2C00, 0x2FEF},
                                           {0x3001, 0xD7FF},
                                           {0xF900, 0xFDCF},
                                           {0xFDF0, 0xFFFD},
                                           {0x10000, 0xEFFFF},
                                           {0, 0}};
static const struct range name_parts[] = {{'-', '-'},     {'.', '.'},       {'0', '9'}, {0xB7, 0xB7},
                                          {0x300, 0x36F}, {0x203F, 0x2040}, {0, 0}};

/* Does a range have a code point from low to high? */
static bool meet(const struct range *ranges, uint32_t low, uint32_t high)
{
    for (; ranges->high != 0; ranges++)
        if (ranges->low <= high && low <= ranges->high)
            return true;
    return false;
}

/* How UTF-8 writes code points in so many bytes: the least of them, and the bits that the first byte has of them. */
static const struct {
    uint32_t least;
    unsigned bits;
    uint8_t first;
} forms[] = {{0, 0, 0}, {0, 7, 0}, {0x80, 5, 0xC0}, {0x800, 4, 0xE0}, {0x10000, 3, 0xF0}};
enum { LONGEST_FORM = 4, LATER_BITS = 6, LATER_FIRST = 0x80 };

static bool has_form(uint8_t byte, unsigned bits, uint8_t first)
{
    return byte >> bits == first >> bits;
}

/* In how many bytes the character is written that begins with this one; 0 for none. */
static unsigned form_of(uint8_t byte)
{
    unsigned bytes = LONGEST_FORM;
    while (bytes > 0 && !has_form(byte, forms[bytes].bits, forms[bytes].first))
        bytes--;
    return bytes;
}

/* Is there a code point of these ranges whose first bytes are these? */
static bool begins_one(const struct range *ranges, const uint8_t *bytes, unsigned count)
{
    unsigned form = form_of(bytes[0]);
    if (form == 0)
        return false;
    uint32_t low = bytes[0] & ((1u << forms[form].bits) - 1);
    for (unsigned i = 1; i < count; i++) {
        if (!has_form(bytes[i], LATER_BITS, LATER_FIRST))
            return false;
        low = low << LATER_BITS | (bytes[i] & ((1u << LATER_BITS) - 1));
    }
    unsigned open = LATER_BITS * (form - count);
    uint32_t high = (low + 1) << open;
    low <<= open;
    return high > forms[form].least && meet(ranges, low < forms[form].least ? forms[form].least : low, high - 1);
}

static bool xml_name_begins(uint8_t byte)
{
    return begins_one(name_starts, &byte, 1);
}

static bool xml_name_goes_on(uint8_t byte)
{
    return xml_name_begins(byte) || begins_one(name_parts, &byte, 1);
}

/* What is left out. */

static bool is_white(int byte)
{
    return byte == ' ' || byte == '\t' || byte == '\n' || byte == '\r';
}

static bool is_letter(uint8_t byte)
{
    return starts_name(byte) && byte != '_';
}

/* The byte at a place; none past the end. */
static int byte_at(const struct reading *r, size_t place)
{
    return place < r->length ? r->text[place] : NO_BYTE;
}

static bool stands_at(const struct reading *r, size_t place, const char *word)
{
    size_t length = strlen(word);
    return place + length <= r->length && memcmp(r->text + place, word, length) == 0;
}

static bool declares(const struct reading *r)
{
    return stands_at(r, 0, "<?xml") && is_white(byte_at(r, strlen("<?xml")));
}

static bool opens_left_out(const struct reading *r, enum where where)
{
    if (stands_at(r, r->at, "<!") || stands_at(r, r->at, "&#"))
        return true;
    if (stands_at(r, r->at, "<?") && !(r->at == 0 && declares(r)))
        return true;
    if (r->at == 0 && stands_at(r, 0, "\xEF\xBB\xBF"))
        return true;
    if (r->at == r->length || where == ANYWHERE)
        return false;
    uint8_t byte = r->text[r->at];
    if (where == BEHIND_WHITE_IN_TAG)
        return xml_name_begins(byte);
    return where == NAME_BEGINS ? xml_name_begins(byte) && !starts_name(byte)
                                : xml_name_goes_on(byte) && !continues_name(byte);
}

static void refuse(struct reading *r, unsigned number)
{
    if (r->refusal == 0)
        r->refusal = REFUSED(number, r->at);
}

/* The next byte; none past the end, or once the text is refused. */
static int look(struct reading *r, enum where where)
{
    if (r->refusal == 0 && opens_left_out(r, where))
        refuse(r, HALYARDFIG_REFUSED_LEFT_OUT);
    return r->refusal == 0 ? byte_at(r, r->at) : NO_BYTE;
}

/* Takes the next byte, if it may stand there. */
static bool take(struct reading *r, bool may_stand)
{
    if (!may_stand)
        refuse(r, HALYARDFIG_REFUSED_XML);
    else
        r->at++;
    return may_stand;
}

static bool take_byte(struct reading *r, uint8_t byte)
{
    return take(r, look(r, ANYWHERE) == byte);
}

static bool take_word(struct reading *r, const char *word)
{
    while (*word != 0 && take_byte(r, (uint8_t)*word))
        word++;
    return *word == 0;
}

/* Takes white space; answers whether there was some. */
static bool take_white(struct reading *r)
{
    size_t from = r->at;
    while (is_white(look(r, ANYWHERE)))
        r->at++;
    return r->at > from;
}

/* The declaration. */

/* Takes a word, `=` and the quote that opens its value, and answers that quote. */
static int take_opening(struct reading *r, const char *word)
{
    take_word(r, word);
    take_white(r);
    take_byte(r, '=');
    take_white(r);
    int quote = look(r, ANYWHERE);
    return take(r, quote == '"' || quote == '\'') ? quote : NO_BYTE;
}

/* Is this the byte of `UTF-8` at an index, in any case? */
static bool is_in_utf8(size_t index, int byte)
{
    return index < UTF8_BYTES && (byte == "UTF-8"[index] || byte == "utf-8"[index]);
}

/* Refuses another encoding's name that stands here in closed quotes. */
static void refuse_encoding(struct reading *r, int quote)
{
    size_t length = 0;
    bool other = false;
    for (; r->at + length < r->length && continues_name(r->text[r->at + length]); length++)
        other = other || !is_in_utf8(length, r->text[r->at + length]);
    if (r->refusal == 0 && length > 0 && is_letter(r->text[r->at]) && byte_at(r, r->at + length) == quote &&
        (other || length != UTF8_BYTES))
        refuse(r, HALYARDFIG_REFUSED_LEFT_OUT);
}

/* Takes the quote that closes a value. */
static void take_closing(struct reading *r, int quote)
{
    take(r, quote != NO_BYTE && look(r, ANYWHERE) == quote);
}

static void take_encoding(struct reading *r)
{
    int quote = take_opening(r, "encoding");
    refuse_encoding(r, quote);
    for (size_t i = 0; i < UTF8_BYTES; i++)
        take(r, is_in_utf8(i, look(r, ANYWHERE)));
    take_closing(r, quote);
}

static void take_version(struct reading *r)
{
    int quote = take_opening(r, "version");
    take_word(r, "1.");
    int byte = look(r, ANYWHERE);
    take(r, byte >= '0' && byte <= '9');
    for (byte = look(r, ANYWHERE); byte >= '0' && byte <= '9'; byte = look(r, ANYWHERE))
        r->at++;
    take_closing(r, quote);
}

static void take_standalone(struct reading *r)
{
    int quote = take_opening(r, "standalone");
    take_word(r, look(r, ANYWHERE) == 'y' ? "yes" : "no");
    take_closing(r, quote);
}

static void take_declaration(struct reading *r)
{
    take_word(r, "<?xml");
    take_white(r);
    take_version(r);
    bool spaced = take_white(r);
    if (spaced && look(r, ANYWHERE) == 'e') {
        take_encoding(r);
        spaced = take_white(r);
    }
    if (spaced && look(r, ANYWHERE) == 's') {
        take_standalone(r);
        take_white(r);
    }
    take_word(r, "?>");
}

/* Elements. */

static size_t add_node(struct reading *r, size_t parent, size_t begin)
{
    r->nodes[r->count] = (struct xml_node){.parent = parent, .begin = begin};
    return r->count++;
}

static void take_reference(struct reading *r)
{
    static const char *const references[] = {"&lt;", "&gt;", "&amp;", "&apos;", "&quot;"};
    size_t from = r->at;
    do {
        int byte = look(r, ANYWHERE);
        bool may_stand = false;
        for (size_t i = 0; i < sizeof references / sizeof references[0]; i++)
            may_stand = may_stand || (strncmp(references[i], (const char *)r->text + from, r->at - from) == 0 &&
                                      references[i][r->at - from] == byte);
        take(r, may_stand);
    } while (r->refusal == 0 && r->text[r->at - 1] != ';');
}

static void take_character(struct reading *r)
{
    size_t from = r->at;
    unsigned count = 0;
    do {
        int byte = look(r, ANYWHERE);
        take(r, byte != NO_BYTE && begins_one(characters, r->text + from, ++count));
    } while (r->refusal == 0 && count < form_of(r->text[from]));
}

static bool ends_squares(const struct reading *r, size_t begin)
{
    return r->at >= begin + 2 && r->text[r->at - 1] == ']' && r->text[r->at - 2] == ']';
}

static void take_run(struct reading *r, size_t parent)
{
    size_t node = add_node(r, parent, r->at);
    for (int byte = look(r, ANYWHERE); r->refusal == 0 && byte != '<'; byte = look(r, ANYWHERE))
        if (byte == '&')
            take_reference(r);
        else if (byte == '>' && ends_squares(r, r->nodes[node].begin))
            refuse(r, HALYARDFIG_REFUSED_XML);
        else
            take_character(r);
    r->nodes[node].end = r->at;
}

/* A start tag from its name on; answers whether something follows inside the element. */
static bool take_start(struct reading *r, struct xml_node *node)
{
    int byte = look(r, NAME_BEGINS);
    size_t from = r->at;
    take(r, byte != NO_BYTE && starts_name((uint8_t)byte));
    for (byte = look(r, NAME_GOES_ON); byte != NO_BYTE && continues_name((uint8_t)byte); byte = look(r, NAME_GOES_ON))
        r->at++;
    node->name_length = r->at - from;
    for (; is_white(byte); byte = look(r, BEHIND_WHITE_IN_TAG))
        r->at++;
    take(r, byte == '/' || byte == '>');
    if (byte == '/')
        take_byte(r, '>');
    return byte == '>';
}

static void take_element(struct reading *r, size_t parent, size_t begin);

/* All inside an element, and the `</` behind it. */
static void take_content(struct reading *r, size_t node)
{
    while (r->refusal == 0) {
        size_t begin = r->at;
        if (look(r, ANYWHERE) != '<') {
            take_run(r, node);
            continue;
        }
        r->at++;
        if (look(r, NAME_BEGINS) == '/') {
            r->at++;
            return;
        }
        take_element(r, node, begin);
    }
}

/* An element, whose `<` is taken. */
static void take_element(struct reading *r, size_t parent, size_t begin)
{
    size_t node = add_node(r, parent, begin);
    if (take_start(r, &r->nodes[node])) {
        take_content(r, node);
        for (size_t i = 0; i < r->nodes[node].name_length && r->refusal == 0; i++)
            take_byte(r, r->text[begin + 1 + i]);
        take_white(r);
        take_byte(r, '>');
    }
    r->nodes[node].end = r->at;
}

static void take_text(struct reading *r)
{
    size_t root = add_node(r, 0, 0);
    r->nodes[root].end = r->length;
    if (declares(r))
        take_declaration(r);
    take_white(r);
    if (take_byte(r, '<'))
        take_element(r, root, r->at - 1);
    take_white(r);
    if (look(r, ANYWHERE) != NO_BYTE)
        refuse(r, HALYARDFIG_REFUSED_XML);
}

/* Gives each node its kind; answers 0 or the refusal. */
static uint64_t give_kinds(struct reading *r, const struct names *list)
{
    for (size_t i = 0; i < r->count; i++) {
        struct xml_node *node = &r->nodes[i];
        size_t v = number_named(list, r->text + node->begin + 1, node->name_length);
        if (node->name_length > 0 && v == list->count)
            return REFUSED(HALYARDFIG_REFUSED_NAME, node->begin + 1);
        node->kind = i == 0 ? HALYARDFIG_KIND_ROOT : HALYARDFIG_KIND_TEXT;
        if (node->name_length > 0)
            node->kind = HALYARDFIG_KIND_ELEMENT + v;
    }
    return 0;
}

uint64_t model_read_xml(const uint8_t *text, size_t text_len, const uint8_t *names, size_t names_len, uint16_t *parent,
                        size_t parent_len, uint16_t *kind, size_t kind_len, uint16_t *begin, size_t begin_len,
                        uint16_t *end, size_t end_len)
{
    static struct names list;
    struct reading *r = &reading;
    if (text_len > HALYARDFIG_TEXT_BYTES || names_len > HALYARDFIG_NAMES_BYTES || kind_len != parent_len ||
        begin_len != parent_len || end_len != parent_len)
        return REFUSED(HALYARDFIG_REFUSED_LENGTH, 0);
    uint64_t refusal = take_names(&list, names, names_len);
    if (refusal != 0)
        return refusal;
    r->text = text;
    r->length = text_len;
    r->at = r->count = 0;
    r->refusal = 0;
    take_text(r);
    if (r->refusal != 0 || (refusal = give_kinds(r, &list)) != 0)
        return r->refusal != 0 ? r->refusal : refusal;
    if (r->count > parent_len || r->count > HALYARDFIG_NODES)
        return REFUSED(HALYARDFIG_REFUSED_ROOM, r->count);
    for (size_t i = 0; i < r->count; i++) {
        parent[i] = (uint16_t)r->nodes[i].parent;
        kind[i] = (uint16_t)r->nodes[i].kind;
        begin[i] = (uint16_t)r->nodes[i].begin;
        end[i] = (uint16_t)r->nodes[i].end;
    }
    return r->count;
}
