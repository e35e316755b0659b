/* Calls of the library beside calls of the model on equal memory. */
#include "twin.h"

#include "halyardfig.h"
#include "paper.h"

#include <string.h>

/* Two slots for each piece lent: the library's, and the same piece as the model has it. The columns of a read or a
   write of XML follow the text and the names. */
enum { PIECES = 8, FIRST_COLUMN = 2 };

uint64_t twin_answer;

static struct {
    size_t bytes;
    void *ours;
    void *models;
} pieces[PIECES];
static unsigned piece_count;
static void *written_first;

static void *new_piece(size_t bytes)
{
    pieces[piece_count].bytes = bytes;
    pieces[piece_count].ours = lend(2 * piece_count, bytes);
    pieces[piece_count].models = lend(2 * piece_count + 1, bytes);
    return pieces[piece_count++].ours;
}

/* Lends memory that is read. */
static void *lend_read(const void *from, size_t bytes)
{
    void *ours = new_piece(bytes);
    memcpy(ours, from, bytes);
    memcpy(pieces[piece_count - 1].models, from, bytes);
    return ours;
}

/* Lends memory that is written, full of random bytes. */
static void *lend_write(struct dice *dice, size_t bytes)
{
    uint64_t pattern = roll(dice);
    uint8_t *ours = new_piece(bytes);
    for (size_t i = 0; i < bytes; i++)
        ours[i] = (uint8_t)(pattern >> (i % 8 * 8));
    memcpy(pieces[piece_count - 1].models, ours, bytes);
    return ours;
}

static void *model_piece(unsigned piece)
{
    return pieces[piece].models;
}

/* The lengths are those of the pieces, in elements. */
static bool compare(const char *call, uint64_t ours, uint64_t models)
{
    twin_answer = ours;
    if (ours != models)
        return complain("%s answered %u with %u, the model %u with %u", call, (unsigned)(ours >> 32), (unsigned)ours,
                        (unsigned)(models >> 32), (unsigned)models);
    for (unsigned i = 0; i < piece_count; i++)
        if (memcmp(pieces[i].ours, pieces[i].models, pieces[i].bytes) != 0)
            return complain("%s left other bytes in its argument %u than the model", call, i);
    return guards_whole() || complain("%s wrote outside what it was lent", call);
}

const uint32_t *twin_items(void)
{
    return written_first;
}

const uint8_t *twin_bytes(void)
{
    return written_first;
}

const uint8_t *twin_marks(void)
{
    return written_first;
}

bool twin_read(struct dice *dice, const uint8_t *text, size_t text_len, uint32_t version, const uint8_t *names,
               size_t names_len, size_t room)
{
    piece_count = 0;
    const uint8_t *our_text = lend_read(text, text_len);
    const uint8_t *our_names = lend_read(names, names_len);
    uint32_t *out = lend_write(dice, room * sizeof *out);
    written_first = out;
    uint64_t ours = halyardfig_read(our_text, text_len, version, our_names, names_len, out, room);
    uint64_t models = model_read(model_piece(0), text_len, version, model_piece(1), names_len, model_piece(2), room);
    if (compare("read", ours, models))
        return true;
    complain("by version %u", (unsigned)version);
    show_text("text", text, text_len);
    show_text("names", names, names_len);
    return false;
}

bool twin_print(struct dice *dice, bool brief, const uint32_t *query, size_t query_len, const uint8_t *names,
                size_t names_len, size_t room)
{
    piece_count = 0;
    const uint32_t *our_query = lend_read(query, query_len * sizeof *query);
    const uint8_t *our_names = lend_read(names, names_len);
    uint8_t *out = lend_write(dice, room);
    written_first = out;
    uint64_t ours = (brief ? halyardfig_print : halyardfig_print_long)(our_query, query_len, our_names, names_len, out,
                                                                       room);
    uint64_t models = model_print(brief, model_piece(0), query_len, model_piece(1), names_len, model_piece(2), room);
    if (compare(brief ? "print" : "print_long", ours, models))
        return true;
    show_items("query", query, query_len);
    show_text("names", names, names_len);
    return false;
}

typedef uint64_t composing(const uint32_t *, size_t, const uint32_t *, size_t, uint32_t *, size_t);

static bool twin_composing(struct dice *dice, const char *what, composing *our, composing *model, const uint32_t *outer,
                           size_t outer_len, const uint32_t *inner, size_t inner_len, size_t room)
{
    piece_count = 0;
    const uint32_t *our_outer = lend_read(outer, outer_len * sizeof *outer);
    const uint32_t *our_inner = lend_read(inner, inner_len * sizeof *inner);
    uint32_t *out = lend_write(dice, room * sizeof *out);
    written_first = out;
    uint64_t ours = our(our_outer, outer_len, our_inner, inner_len, out, room);
    uint64_t models = model(model_piece(0), outer_len, model_piece(1), inner_len, model_piece(2), room);
    if (compare(what, ours, models))
        return true;
    show_items("outer", outer, outer_len);
    show_items("inner", inner, inner_len);
    return false;
}

bool twin_compose(struct dice *dice, const uint32_t *outer, size_t outer_len, const uint32_t *inner, size_t inner_len,
                  size_t room)
{
    return twin_composing(dice, "compose", halyardfig_compose, model_compose, outer, outer_len, inner, inner_len, room);
}

bool twin_compose_lean(struct dice *dice, const uint32_t *outer, size_t outer_len, const uint32_t *inner,
                       size_t inner_len, size_t room)
{
    return twin_composing(dice, "compose_lean", halyardfig_compose_lean, model_compose_lean, outer, outer_len, inner,
                          inner_len, room);
}

/* The other engine on the same memory, where it can be waited for: the same answer and marks, unless the run lacked
   scratch. */
static bool follows_too(const uint32_t *query, size_t query_len, const uint16_t *parent, size_t parent_len,
                        const uint16_t *kind, size_t kind_len, const uint8_t *given, size_t given_len,
                        const uint8_t *kept, size_t marks_len, uint64_t ran)
{
    static uint8_t marks[NODE_ROOM + 1];
    if (marks_len > NODE_ROOM || !can_follow(query, query_len, parent_len))
        return true;
    memset(marks, 0xA5, sizeof marks);
    uint64_t answer = halyardfig_follow(query, query_len, parent, parent_len, kind, kind_len, given, given_len, marks,
                                        marks_len);
    size_t untouched = halyardfig_refused(answer) == 0 ? marks_len : 0;
    for (size_t i = untouched; i < sizeof marks; i++)
        if (marks[i] != 0xA5)
            return complain("follow writes where it may not");
    if (halyardfig_refused(ran) == HALYARDFIG_REFUSED_ROOM)
        return halyardfig_refused(answer) == 0 || complain("follow is refused where a run lacks scratch");
    if (answer != ran || (untouched != 0 && memcmp(marks, kept, marks_len) != 0))
        return complain("follow and run differ");
    return true;
}

bool twin_run(struct dice *dice, const uint32_t *query, size_t query_len, const uint16_t *parent, size_t parent_len,
              const uint16_t *kind, size_t kind_len, const uint8_t *given, size_t given_len, size_t marks_len,
              size_t scratch_len)
{
    piece_count = 0;
    const uint32_t *our_query = lend_read(query, query_len * sizeof *query);
    const uint16_t *our_parent = lend_read(parent, parent_len * sizeof *parent);
    const uint16_t *our_kind = lend_read(kind, kind_len * sizeof *kind);
    const uint8_t *our_given = lend_read(given, given_len);
    uint8_t *marks = lend_write(dice, marks_len);
    uint8_t *scratch = lend_write(dice, scratch_len);
    written_first = marks;
    uint64_t ours = halyardfig_run(our_query, query_len, our_parent, parent_len, our_kind, kind_len, our_given,
                                   given_len, marks, marks_len, scratch, scratch_len);
    uint64_t models = model_run(model_piece(0), query_len, model_piece(1), parent_len, model_piece(2), kind_len,
                                model_piece(3), given_len, model_piece(4), marks_len, model_piece(5), scratch_len);
    if (compare("run", ours, models) && follows_too(query, query_len, parent, parent_len, kind, kind_len, given,
                                                    given_len, marks, marks_len, ours))
        return true;
    show_items("query", query, query_len);
    show_words("parent", parent, parent_len);
    show_words("kind", kind, kind_len);
    show_bytes("given", given, given_len);
    show_bytes("marks", marks, marks_len);
    return false;
}

bool twin_extract(struct dice *dice, const uint16_t *parent, size_t parent_len, const uint16_t *kind, size_t kind_len,
                  const uint8_t *marks, size_t marks_len, size_t parent_room, size_t kind_room)
{
    piece_count = 0;
    const uint16_t *our_parent = lend_read(parent, parent_len * sizeof *parent);
    const uint16_t *our_kind = lend_read(kind, kind_len * sizeof *kind);
    const uint8_t *our_marks = lend_read(marks, marks_len);
    uint16_t *out_parent = lend_write(dice, parent_room * sizeof *out_parent);
    uint16_t *out_kind = lend_write(dice, kind_room * sizeof *out_kind);
    written_first = out_parent;
    uint64_t ours = halyardfig_extract(our_parent, parent_len, our_kind, kind_len, our_marks, marks_len, out_parent,
                                       parent_room, out_kind, kind_room);
    uint64_t models = model_extract(model_piece(0), parent_len, model_piece(1), kind_len, model_piece(2), marks_len,
                                    model_piece(3), parent_room, model_piece(4), kind_room);
    if (compare("extract", ours, models))
        return true;
    show_words("parent", parent, parent_len);
    show_words("kind", kind, kind_len);
    show_bytes("marks", marks, marks_len);
    return false;
}

const uint16_t *twin_column(enum column column)
{
    return pieces[FIRST_COLUMN + column].ours;
}

bool twin_read_xml(struct dice *dice, const uint8_t *text, size_t text_len, const uint8_t *names, size_t names_len,
                   const size_t rooms[COLUMNS])
{
    piece_count = 0;
    const uint8_t *our_text = lend_read(text, text_len);
    const uint8_t *our_names = lend_read(names, names_len);
    uint16_t *out[COLUMNS], *models_out[COLUMNS];
    for (unsigned i = 0; i < COLUMNS; i++) {
        out[i] = lend_write(dice, rooms[i] * sizeof *out[i]);
        models_out[i] = model_piece(FIRST_COLUMN + i);
    }
    uint64_t ours = halyardfig_read_xml(our_text, text_len, our_names, names_len, out[0], rooms[0], out[1], rooms[1],
                                        out[2], rooms[2], out[3], rooms[3]);
    uint64_t models = model_read_xml(model_piece(0), text_len, model_piece(1), names_len, models_out[0], rooms[0],
                                     models_out[1], rooms[1], models_out[2], rooms[2], models_out[3], rooms[3]);
    if (compare("read_xml", ours, models))
        return true;
    show_text("text", text, text_len);
    show_text("names", names, names_len);
    return false;
}

bool twin_write_xml(struct dice *dice, const uint8_t *text, size_t text_len, const uint8_t *names, size_t names_len,
                    const uint16_t *const columns[COLUMNS], const uint8_t *marks, const size_t lengths[COLUMNS + 1],
                    size_t room)
{
    enum { MARKS_PIECE = FIRST_COLUMN + COLUMNS, OUT_PIECE };
    piece_count = 0;
    const uint8_t *our_text = lend_read(text, text_len);
    const uint8_t *our_names = lend_read(names, names_len);
    const uint16_t *in[COLUMNS], *models_in[COLUMNS];
    for (unsigned i = 0; i < COLUMNS; i++) {
        in[i] = lend_read(columns[i], lengths[i] * sizeof *in[i]);
        models_in[i] = model_piece(FIRST_COLUMN + i);
    }
    const uint8_t *our_marks = lend_read(marks, lengths[COLUMNS]);
    uint8_t *out = lend_write(dice, room);
    written_first = out;
    uint64_t ours = halyardfig_write_xml(our_text, text_len, our_names, names_len, in[0], lengths[0], in[1], lengths[1],
                                         in[2], lengths[2], in[3], lengths[3], our_marks, lengths[COLUMNS], out, room);
    uint64_t models = model_write_xml(model_piece(0), text_len, model_piece(1), names_len, models_in[0], lengths[0],
                                      models_in[1], lengths[1], models_in[2], lengths[2], models_in[3], lengths[3],
                                      model_piece(MARKS_PIECE), lengths[COLUMNS], model_piece(OUT_PIECE), room);
    if (compare("write_xml", ours, models))
        return true;
    show_text("text", text, text_len);
    show_text("names", names, names_len);
    for (unsigned i = 0; i < COLUMNS; i++)
        show_words("column", columns[i], lengths[i]);
    show_bytes("marks", marks, lengths[COLUMNS]);
    show_text("written", out, halyardfig_refused(ours) == 0 ? halyardfig_value(ours) : 0);
    return false;
}

bool twin_height(const uint32_t *query, size_t query_len)
{
    piece_count = 0;
    const uint32_t *our_query = lend_read(query, query_len * sizeof *query);
    if (compare("height", halyardfig_height(our_query, query_len), model_height(model_piece(0), query_len)))
        return true;
    show_items("query", query, query_len);
    return false;
}

bool twin_paths(const uint32_t *query, size_t query_len)
{
    piece_count = 0;
    const uint32_t *our_query = lend_read(query, query_len * sizeof *query);
    if (compare("paths", halyardfig_paths(our_query, query_len), model_paths(model_piece(0), query_len)))
        return true;
    show_items("query", query, query_len);
    return false;
}

bool twin_scratch(const size_t numbers[SCRATCH_NUMBERS])
{
    piece_count = 0;
    uint64_t ours = halyardfig_scratch(numbers[0], numbers[1], numbers[2], numbers[3], numbers[4]);
    uint64_t models = model_scratch(numbers[0], numbers[1], numbers[2], numbers[3], numbers[4]);
    return compare("scratch", ours, models) ||
           complain("of %zu %zu %zu %zu %zu", numbers[0], numbers[1], numbers[2], numbers[3], numbers[4]);
}

bool twin_is_cut(const uint16_t *parent, size_t parent_len, const uint16_t *kind, size_t kind_len,
                 const uint16_t *cut_parent, size_t cut_parent_len, const uint16_t *cut_kind, size_t cut_kind_len,
                 const uint16_t *cut_node, size_t cut_node_len)
{
    piece_count = 0;
    const uint16_t *our_parent = lend_read(parent, parent_len * sizeof *parent);
    const uint16_t *our_kind = lend_read(kind, kind_len * sizeof *kind);
    const uint16_t *our_cut_parent = lend_read(cut_parent, cut_parent_len * sizeof *cut_parent);
    const uint16_t *our_cut_kind = lend_read(cut_kind, cut_kind_len * sizeof *cut_kind);
    const uint16_t *our_cut_node = lend_read(cut_node, cut_node_len * sizeof *cut_node);
    uint64_t ours = halyardfig_is_cut(our_parent, parent_len, our_kind, kind_len, our_cut_parent, cut_parent_len,
                                      our_cut_kind, cut_kind_len, our_cut_node, cut_node_len);
    uint64_t models = model_is_cut(model_piece(0), parent_len, model_piece(1), kind_len, model_piece(2), cut_parent_len,
                                   model_piece(3), cut_kind_len, model_piece(4), cut_node_len);
    if (compare("is_cut", ours, models))
        return true;
    show_words("parent", parent, parent_len);
    show_words("kind", kind, kind_len);
    show_words("cut's parent", cut_parent, cut_parent_len);
    show_words("cut's kind", cut_kind, cut_kind_len);
    show_words("cut's node", cut_node, cut_node_len);
    return false;
}

bool twin_for_role(struct dice *dice, const uint8_t *views, size_t views_len, const uint8_t *names, size_t names_len,
                   const halyardfig_role *roles, size_t roles_len, uint32_t role, const uint8_t *text, size_t text_len,
                   size_t room)
{
    enum { VIEWS_PIECE, NAMES_PIECE, ROLES_PIECE, TEXT_PIECE, OUT_PIECE };
    piece_count = 0;
    const uint8_t *our_views = lend_read(views, views_len);
    const uint8_t *our_names = lend_read(names, names_len);
    const halyardfig_role *our_roles = lend_read(roles, roles_len * sizeof *roles);
    const uint8_t *our_text = lend_read(text, text_len);
    uint32_t *out = lend_write(dice, room * sizeof *out);
    written_first = out;
    uint64_t ours = halyardfig_for_role(our_views, views_len, our_names, names_len, our_roles, roles_len, role,
                                        our_text, text_len, out, room);
    uint64_t models = model_for_role(model_piece(VIEWS_PIECE), views_len, model_piece(NAMES_PIECE), names_len,
                                     model_piece(ROLES_PIECE), roles_len, role, model_piece(TEXT_PIECE), text_len,
                                     model_piece(OUT_PIECE), room);
    if (compare("for_role", ours, models))
        return true;
    complain("for role %u of %zu, with the mask %#x", (unsigned)role, roles_len,
             role < roles_len ? (unsigned)roles[role].views : 0);
    show_text("views", views, views_len);
    show_text("names", names, names_len);
    show_text("text", text, text_len);
    return false;
}
