/*
 * Halyardfig: queries in a part of XPath 1.0 and 2.0, run over node tables as subtree queries, and composed;
 * and XML text read into such tables, and what is kept of it written back.
 *
 * A query in memory is an array of 32-bit items, made by halyardfig_read, halyardfig_compose, halyardfig_compose_lean
 * or halyardfig_for_role.
 * A document is two columns of one length, parent and kind: node 0 is the root (parent 0, kind 0),
 * kind 1 is text, kind 2 + v an element with the name v of the name list, counted from 0.
 * halyardfig_read_xml makes them of XML text, and two columns more that say where each node's text stands.
 * Marks are one byte a node, 0 or 1; a marked node's parent is marked.
 * A name list is names one after another, each ended by LF.
 *
 * Every call examines all that it is lent before it writes. A refused call changes no byte.
 * Pointers are not null and are aligned for their type, even where a length is 0;
 * memory that a call writes does not overlap other memory lent to the same call.
 * Lengths count elements, not bytes. No call allocates, and none keeps what it is lent.
 * Calls share nothing: threads may call at once, as long as what one call writes is lent to no other.
 * No call uses more than HALYARDFIG_STACK_BYTES of stack, but halyardfig_for_role up to HALYARDFIG_ROLE_STACK_BYTES,
 * whatever it is lent; that is measured on the deepest and longest inputs, and not proved.
 *
 * A caller that does not know how much room a call needs lends it none (length 0, the pointer still not null):
 * the place of refusal 10 is the number needed.
 *
 * An answer below 2^32 is the call's value. Any other answer is a refusal:
 * its number times 2^32, plus its place.
 *
 *   1   a length is over its limit, two lengths that must agree do not,
 *       a number that tells the scratch is 0 or over 4,096,
 *       a version of XPath is neither 1 nor 2, there are over 32 views
 *       or 16 roles, or no LF ends the last view                             place 0
 *   2   name list: a line is no name, is over 64 bytes, has no LF,
 *       is the 257th, or repeats an earlier line                             start of that line
 *   3   text: no query begins like this, or the text ends too early          the token, the byte, or the length
 *   4   text: a bracket with which 65 are open at once                       place of the bracket
 *   5   a name that is not in the list                                       byte of the text; printing: the item
 *   6   items that are no query, no items, or nested over 64                 0; composing: 1 for the inner query
 *   7   table: a bad node, or no nodes                                       the node; 0 for no nodes
 *   8   marks: not 0 or 1, or a marked node under an unmarked one            the node
 *   9   the composed query would be nested over 64                           its nesting
 *   10  room too short, or a query over 4,096 items,
 *       or XML text of over 4,096 nodes                                      the number needed
 *   11  XML text: no wanted text goes on like this, or it ends too early     the byte, or the length
 *   12  XML text: a thing of XML that is left out begins                     its first byte
 *   13  marks: no element is marked                                          0
 *   14  XML text: read with this list it is refused, or does not give
 *       exactly these nodes, parents, kinds and places                       0
 *   15  roles: no such role                                                  the role's number
 *   16  roles: the role has no view, or names one that is not given          the role's number
 *   17  views: a view can't be read with a room of 4,096 items               the number of the first
 */
/*
 * Version 3.0.0 of the library: halyardfig_print writes the short form of a text, with //, . and .. and no child::.
 * The long form, which it wrote before, is what halyardfig_print_long writes, with the same arguments.
 * Both forms are read as the same query; every other call is as it was.
 */
#ifndef HALYARDFIG_H
#define HALYARDFIG_H

#include <stddef.h>
#include <stdint.h>

/* The limits of what is lent for reading. */
#define HALYARDFIG_TEXT_BYTES 32768
#define HALYARDFIG_NAMES_BYTES 8192
#define HALYARDFIG_QUERY_ITEMS 4096
#define HALYARDFIG_NODES 4096

/* The limits inside a name list and inside a query. */
#define HALYARDFIG_NAME_BYTES 64
#define HALYARDFIG_NAMES 256
#define HALYARDFIG_NESTING 64

/* The stack that a call uses, at most; halyardfig_for_role has two arrays of 4,096 items on top of reading's. */
#define HALYARDFIG_STACK_BYTES 65536
#define HALYARDFIG_ROLE_STACK_BYTES 98304

/* The most views, and the most roles. */
#define HALYARDFIG_VIEWS 32
#define HALYARDFIG_ROLES 16

/* The versions of XPath by which a text is read. */
#define HALYARDFIG_XPATH_1 1
#define HALYARDFIG_XPATH_2 2

/* The kinds of nodes; an element with the name v has the kind HALYARDFIG_KIND_ELEMENT + v. */
#define HALYARDFIG_KIND_ROOT 0
#define HALYARDFIG_KIND_TEXT 1
#define HALYARDFIG_KIND_ELEMENT 2

/* The refusal numbers. */
#define HALYARDFIG_REFUSED_LENGTH 1
#define HALYARDFIG_REFUSED_NAMES 2
#define HALYARDFIG_REFUSED_SYNTAX 3
#define HALYARDFIG_REFUSED_BRACKET 4
#define HALYARDFIG_REFUSED_NAME 5
#define HALYARDFIG_REFUSED_QUERY 6
#define HALYARDFIG_REFUSED_TABLE 7
#define HALYARDFIG_REFUSED_MARKS 8
#define HALYARDFIG_REFUSED_NESTING 9
#define HALYARDFIG_REFUSED_ROOM 10
#define HALYARDFIG_REFUSED_XML 11
#define HALYARDFIG_REFUSED_LEFT_OUT 12
#define HALYARDFIG_REFUSED_NO_ELEMENT 13
#define HALYARDFIG_REFUSED_COLUMNS 14
#define HALYARDFIG_REFUSED_ROLE 15
#define HALYARDFIG_REFUSED_ROLE_VIEWS 16
#define HALYARDFIG_REFUSED_VIEW 17

#ifdef __cplusplus
extern "C" {
#endif

/* The refusal number of an answer; 0 if the call was accepted. */
static inline uint32_t halyardfig_refused(uint64_t answer)
{
    return (uint32_t)(answer >> 32);
}

/* The place of a refusal. */
static inline uint32_t halyardfig_place(uint64_t answer)
{
    return (uint32_t)(answer & 0xffffffffu);
}

/* The value of an accepted call. */
static inline uint32_t halyardfig_value(uint64_t answer)
{
    return (uint32_t)(answer & 0xffffffffu);
}

/*
 * Reads a query text by a version of XPath, 1 or 2, with the names of a list and writes the query's items to out.
 * By version 2 predicates may stand after . and .., and between absolute paths the word union for |, except after
 * a / that no step follows, where a word is a name. What version 1 accepts means the same in version 2.
 * Value: the number of items; out past it is untouched.
 * Refuses, in this order: 1 (text over 32,768 bytes, list over 8,192, another version), 2,
 * then 3 or 4, whichever place comes first (3 if they are equal), 5, 10 (place: the items needed).
 */
uint64_t halyardfig_read(const uint8_t *text, size_t text_len, uint32_t version, const uint8_t *names, size_t names_len,
                         uint32_t *out, size_t out_len);

/*
 * Writes a query's text to out in the short form, with the names of a list: child is left out, . and .. stand for
 * self and parent with node() and no predicate, and // for descendant-or-self with node() and no predicate that
 * has a step after it, except at the start of a path inside a predicate; of several such steps in a row, that one
 * left out, // stands for the first, the third and so on. All else is as in the long form, which is never shorter.
 * Value: the number of bytes; out past it is untouched, and no zero byte ends the text.
 * Refuses, in this order: 1 (query over 4,096 items, list over 8,192 bytes), 2, 6 (place 0),
 * 5 (place: the item), 10 (place: the bytes needed).
 */
uint64_t halyardfig_print(const uint32_t *query, size_t query_len, const uint8_t *names, size_t names_len, uint8_t *out,
                          size_t out_len);

/*
 * Writes a query's text to out in the long form, every axis written out, with the names of a list.
 * Either form, where it has at most 32,768 bytes, is read by either version of XPath as the same query again.
 * Value: the number of bytes; out past it is untouched, and no zero byte ends the text.
 * Refuses as halyardfig_print does: 1, 2, 6, 5, 10 (place: the bytes needed in this form).
 */
uint64_t halyardfig_print_long(const uint32_t *query, size_t query_len, const uint8_t *names, size_t names_len,
                               uint8_t *out, size_t out_len);

/*
 * Composes two queries into one and writes its items to out: run inside any marks,
 * it keeps what outer keeps when run inside the marks that inner leaves.
 * Value: the number of items; out past it is untouched.
 * Refuses, in this order: 1 (a query over 4,096 items), 6 (place 0 for outer, 1 for inner, outer first),
 * 9 (place: the nesting), 10 (place: the items needed).
 */
uint64_t halyardfig_compose(const uint32_t *outer, size_t outer_len, const uint32_t *inner, size_t inner_len,
                            uint32_t *out, size_t out_len);

/*
 * Composes two queries as halyardfig_compose does, with fewer guards: run inside any marks, the query written
 * keeps the same nodes. It never has more items or a greater nesting, so it is never refused where
 * halyardfig_compose is not; it is the one for other engines, which run it faster.
 * Value: the number of items; out past it is untouched.
 * Refuses, in this order: 1 (a query over 4,096 items), 6 (place 0 for outer, 1 for inner, outer first),
 * 9 (place: the nesting), 10 (place: the items needed).
 */
uint64_t halyardfig_compose_lean(const uint32_t *outer, size_t outer_len, const uint32_t *inner, size_t inner_len,
                                 uint32_t *out, size_t out_len);

/*
 * Runs a query on a document inside the given marks and writes to marks what it keeps:
 * the given marks of the nodes selected, of all above them and of all below them.
 * Value: the number of nodes kept. Scratch needs nodes x 2 x (height + 1) bytes, where a path's height
 * is 1 + the greatest of its predicates, and that of `and`, `or` and `not` 1 + the greatest below;
 * that part of it is zero afterwards, the rest untouched. To learn the number, run with a scratch of length 0:
 * where nothing else is refused, the place of refusal 10 is the bytes needed for this query on this table.
 * That place counts all nodes of the table, marked or not, and the marks written say where hidden nodes stand:
 * both are for the caller, and halyardfig_extract makes what may be shown.
 * Refuses, in this order: 1 (query over 4,096 items, over 4,096 nodes, columns or marks of unequal length),
 * 6 (place 0), 7 (place: the node), 8 (place: the node), 10 (place: the bytes of scratch needed).
 */
uint64_t halyardfig_run(const uint32_t *query, size_t query_len, const uint16_t *parent, size_t parent_len,
                        const uint16_t *kind, size_t kind_len, const uint8_t *given, size_t given_len, uint8_t *marks,
                        size_t marks_len, uint8_t *scratch, size_t scratch_len);

/*
 * Runs a query as halyardfig_run does, by a second way, without scratch: for each node the definition of selection is
 * followed directly, one node and one step at a time. Value and marks are those of halyardfig_run, for every query,
 * table and marks; that is proved. It is for operators who compare, never for a subscriber's query: every call ends,
 * but its time has no other bound, and grows at worst as the nodes to the power of the steps of a path, those in its
 * predicates included. A step along self or parent leads to one node and costs no such power.
 * Refuses, in this order: 1 (query over 4,096 items, over 4,096 nodes, columns or marks of unequal length),
 * 6 (place 0), 7 (place: the node), 8 (place: the node); never 10.
 */
uint64_t halyardfig_follow(const uint32_t *query, size_t query_len, const uint16_t *parent, size_t parent_len,
                           const uint16_t *kind, size_t kind_len, const uint8_t *given, size_t given_len,
                           uint8_t *marks, size_t marks_len);

/*
 * Writes the marked nodes of a document, in order, as a new table with its parents renumbered.
 * Value: the number of nodes written; both columns past it are untouched. All marks zero gives 0.
 * Refuses, in this order: 1 (over 4,096 nodes, columns or marks of unequal length, output columns of
 * unequal length), 7 (place: the node), 8 (place: the node), 10 (place: the nodes needed).
 */
uint64_t halyardfig_extract(const uint16_t *parent, size_t parent_len, const uint16_t *kind, size_t kind_len,
                            const uint8_t *marks, size_t marks_len, uint16_t *out_parent, size_t out_parent_len,
                            uint16_t *out_kind, size_t out_kind_len);

/*
 * Reads XML 1.0 text in UTF-8 with the names of a list and writes a document: its columns parent and kind,
 * and the columns begin and end, which say for each node the place of its first byte and the place past its last.
 * The root's place is the whole text; an element's runs from its first `<` past its last `>`; a run of characters and
 * references inside an element, blank or not, is one text node, and its place is the run as it stands.
 * Value: the number of nodes, in document order; all four columns past it are untouched.
 * Wanted are one element, white space around it, the XML declaration, character data and the references
 * `&lt;`, `&gt;`, `&amp;`, `&apos;` and `&quot;`, with names as in a name list but of any length.
 * Left out are `<!`, `&#`, `<?` (but a declaration at place 0), a byte order mark, attributes, names that only XML 1.0
 * allows, and every encoding but UTF-8.
 * Refuses, in this order: 1 (text over 32,768 bytes, list over 8,192, columns of unequal length), 2,
 * then 12 or 11, whichever place comes first (12 if they are equal), 5 (place: where the first start tag's name begins
 * that the list lacks), 10 (place: the nodes; also over 4,096 of them).
 * A refused call changes no byte of the columns, and the stack does not grow with the elements that are open.
 */
uint64_t halyardfig_read_xml(const uint8_t *text, size_t text_len, const uint8_t *names, size_t names_len,
                             uint16_t *parent, size_t parent_len, uint16_t *kind, size_t kind_len, uint16_t *begin,
                             size_t begin_len, uint16_t *end, size_t end_len);

/*
 * Writes the marked part of an XML text to out as XML: lent are the text, the list, the columns that
 * halyardfig_read_xml wrote for them, and marks.
 * Written are for each marked element `<name>`, what is kept inside it and `</name>`, also where the text has `<name/>`
 * or white space in a tag; and for each marked text node its bytes as they stand in the text, but a `>` that would end
 * `]]>` with what stands before it in out is written `&gt;`. There is no declaration, and nothing outside the one
 * element.
 * Value: the number of bytes; out past it is untouched, and no zero byte ends the text.
 * Read again with the same list, where they are at most 32,768, the bytes give what halyardfig_extract writes for these
 * marks, with each row of text nodes side by side made one.
 * Refuses, in this order: 1 (text over 32,768 bytes, list over 8,192, over 4,096 nodes, columns or marks of unequal
 * length), 2, 7 (place: the node), 8 (place: the node), 13, 14, 10 (place: the bytes needed).
 */
uint64_t halyardfig_write_xml(const uint8_t *text, size_t text_len, const uint8_t *names, size_t names_len,
                              const uint16_t *parent, size_t parent_len, const uint16_t *kind, size_t kind_len,
                              const uint16_t *begin, size_t begin_len, const uint16_t *end, size_t end_len,
                              const uint8_t *marks, size_t marks_len, uint8_t *out, size_t out_len);

/*
 * The height of a query, by which halyardfig_run reckons its scratch. Value: the height, from 1 on.
 * Refuses, in this order: 1 (query over 4,096 items), 6 (place 0).
 */
uint64_t halyardfig_height(const uint32_t *query, size_t query_len);

/*
 * The number of a query's paths, those that `|` joins. Value: the number, from 1 on.
 * Refuses, in this order: 1 (query over 4,096 items), 6 (place 0).
 */
uint64_t halyardfig_paths(const uint32_t *query, size_t query_len);

/*
 * How much scratch to lend for a run of a composition, told before composing: with so many bytes, a run of an accepted
 * composition of two queries of these heights and path counts on a table of so many nodes is never refused 10.
 * Value: nodes x 2 x (outer_height + inner_paths + 2 + the larger of 3 and inner_height) bytes, 100,679,680 at
 * most; the composed query's height is at most one less than the sum in round brackets.
 * Refuses 1 where any of the five numbers is 0 or over 4,096; an answer that is a refusal is over 4,096 too.
 */
uint64_t halyardfig_scratch(size_t nodes, size_t outer_height, size_t outer_paths, size_t inner_height,
                            size_t inner_paths);

/*
 * Says whether a partner's table, with the original number of each of its nodes, is a cut of a document: what is left
 * of it where sub-trees are removed down to the leaves. Value: 1 for yes, 0 for no; nothing is written.
 * Yes exactly if the cut is empty, or: the numbers rise and are nodes, the first is the root, each kind is the kind of
 * its node, the parent of each node but the root stands for the parent of its node (and the root's parent is 0),
 * and every node of the cut that has no child in the cut has none in the document.
 * What halyardfig_extract writes after a run that started with every mark 1 is a cut, with the numbers of the marked
 * nodes; of other marks it is one only if no marked node lost all its children.
 * After a yes the marks that are 1 at each number are closed, and halyardfig_extract writes the cut for them.
 * Refuses, in this order: 1 (over 4,096 nodes in either table, columns of either of unequal length, the numbers
 * included), 7 (place: the node of the document). Any other fault of the partner's table is a no.
 */
uint64_t halyardfig_is_cut(const uint16_t *parent, size_t parent_len, const uint16_t *kind, size_t kind_len,
                           const uint16_t *cut_parent, size_t cut_parent_len, const uint16_t *cut_kind,
                           size_t cut_kind_len, const uint16_t *cut_node, size_t cut_node_len);

/* A role: the views that it may see, bit v for view v, the lowest bit for view 0. */
typedef struct {
    uint32_t views;
} halyardfig_role;

/*
 * Composes a role's query with the union of the views that the role names, and writes the items of the composition to
 * out. Views are lines of one text, each ended by LF, counted from 0: at most 32. An empty text has no views, and a
 * blank line is a view that can't be read. A role's number is its index among at most 16 roles. Views and query are
 * read by version 1. The union of queries is their paths one after the other, here in view number order.
 * Run inside any marks, the query written keeps what the role's query keeps inside what one of its views keeps.
 * Views and roles that the role does not use never change its answer, as long as every view can be read and no limit
 * of 1 is passed; a role with every view of another sees on each document at least what the other sees where the
 * query is / and both are accepted.
 * Value: the number of items; out past it is untouched.
 * Refuses, in this order: 1 (views or text over 32,768 bytes, list over 8,192, over 32 views, over 16 roles, no LF
 * after the last view), 2, 15 (no such role; place: the role's number), 16 (its mask is 0, or names a view that is not
 * given; place: the role's number), 17 (a view can't be read with a room of 4,096 items; place: the number of the
 * first; all are read, not only the role's), then 3, 4, 5 and 10 as halyardfig_read gives them for the query with a
 * room of 4,096 items, 10 where the union is over 4,096 items (place: its size), then 9 and 10 as halyardfig_compose.
 */
uint64_t halyardfig_for_role(const uint8_t *views, size_t views_len, const uint8_t *names, size_t names_len,
                             const halyardfig_role *roles, size_t roles_len, uint32_t role, const uint8_t *text,
                             size_t text_len, uint32_t *out, size_t out_len);

#ifdef __cplusplus
}
#endif

#endif
