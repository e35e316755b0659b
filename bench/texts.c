/* The documents of the benchmark as XML text: no white space between the tags, and words for the texts. */
#include "texts.h"

#include <string.h>

/* What stands in text nodes, by turns; words as XMark has them, with a reference and characters of several bytes. */
static const char *const phrases[] = {"United States",
                                      "1",
                                      "duteous nine eighteen",
                                      "Creditcard, Money order",
                                      "07/28/2000",
                                      "page rous lady idle authority capt professes stabs",
                                      "salt &amp; pepper",
                                      "Caf\xC3\xA9 na\xC3\xAFve"};
enum { PHRASES = sizeof phrases / sizeof phrases[0] };

struct writing {
    struct xml_text *text;
    size_t limit;
    int fits;
};

static void put(struct writing *writing, const char *part)
{
    size_t length = strlen(part);
    writing->fits = writing->fits && writing->text->length + length <= writing->limit;
    if (!writing->fits)
        return;
    memcpy(writing->text->bytes + writing->text->length, part, length);
    writing->text->length += length;
}

static void put_tag(struct writing *writing, const char *open, size_t node, const char *close)
{
    const struct document *document = writing->text->document;
    put(writing, open);
    put(writing, document->name[document->kind[node] - HALYARDFIG_KIND_ELEMENT]);
    put(writing, close);
}

/* Closes elements, the innermost first, up to the one that stays open. */
static void close_up_to(struct writing *writing, size_t open, size_t stays)
{
    for (; open != stays; open = writing->text->document->parent[open])
        put_tag(writing, "</", open, ">");
}

int write_xml(const struct document *document, size_t limit, struct xml_text *text)
{
    struct writing writing = {text, limit < sizeof text->bytes ? limit : sizeof text->bytes, 1};
    size_t open = 0;
    text->document = document;
    text->length = 0;
    put(&writing, "<?xml version=\"1.0\" encoding=\"UTF-8\"?>\n");
    for (size_t i = 1; i < document->nodes; i++) {
        close_up_to(&writing, open, document->parent[i]);
        open = document->parent[i];
        if (document->kind[i] == HALYARDFIG_KIND_TEXT) {
            put(&writing, phrases[i % PHRASES]);
        } else if (i + 1 < document->nodes && document->parent[i + 1] == i) {
            put_tag(&writing, "<", i, ">");
            open = i;
        } else {
            put_tag(&writing, "<", i, "/>");
        }
    }
    close_up_to(&writing, open, 0);
    put(&writing, "\n");
    return writing.fits;
}
