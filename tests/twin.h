/*
 * Calls of the library beside calls of the model on equal memory.
 * Each answers whether both answered alike and left every lent byte alike, guards included.
 * The last answer stands in twin_answer.
 */
#ifndef TWIN_H
#define TWIN_H

#include "xml_making.h"

/* The numbers by which scratch is told, in the order of the call. */
enum { SCRATCH_NUMBERS = 5 };

extern uint64_t twin_answer;

bool twin_read(struct dice *dice, const uint8_t *text, size_t text_len, uint32_t version, const uint8_t *names,
               size_t names_len, size_t room);
bool twin_print(struct dice *dice, bool brief, const uint32_t *query, size_t query_len, const uint8_t *names,
                size_t names_len, size_t room);
bool twin_compose(struct dice *dice, const uint32_t *outer, size_t outer_len, const uint32_t *inner, size_t inner_len,
                  size_t room);
bool twin_compose_lean(struct dice *dice, const uint32_t *outer, size_t outer_len, const uint32_t *inner,
                       size_t inner_len, size_t room);
bool twin_run(struct dice *dice, const uint32_t *query, size_t query_len, const uint16_t *parent, size_t parent_len,
              const uint16_t *kind, size_t kind_len, const uint8_t *given, size_t given_len, size_t marks_len,
              size_t scratch_len);
bool twin_extract(struct dice *dice, const uint16_t *parent, size_t parent_len, const uint16_t *kind, size_t kind_len,
                  const uint8_t *marks, size_t marks_len, size_t parent_room, size_t kind_room);

bool twin_read_xml(struct dice *dice, const uint8_t *text, size_t text_len, const uint8_t *names, size_t names_len,
                   const size_t rooms[COLUMNS]);

/* The columns are lent in the lengths given; so are the marks, the last of the lengths. */
bool twin_write_xml(struct dice *dice, const uint8_t *text, size_t text_len, const uint8_t *names, size_t names_len,
                    const uint16_t *const columns[COLUMNS], const uint8_t *marks, const size_t lengths[COLUMNS + 1],
                    size_t room);

bool twin_height(const uint32_t *query, size_t query_len);
bool twin_paths(const uint32_t *query, size_t query_len);
bool twin_scratch(const size_t numbers[SCRATCH_NUMBERS]);

bool twin_is_cut(const uint16_t *parent, size_t parent_len, const uint16_t *kind, size_t kind_len,
                 const uint16_t *cut_parent, size_t cut_parent_len, const uint16_t *cut_kind, size_t cut_kind_len,
                 const uint16_t *cut_node, size_t cut_node_len);

bool twin_for_role(struct dice *dice, const uint8_t *views, size_t views_len, const uint8_t *names, size_t names_len,
                   const halyardfig_role *roles, size_t roles_len, uint32_t role, const uint8_t *text, size_t text_len,
                   size_t room);

/* What the last accepted read, compose, for_role, print or write of XML wrote. */
const uint32_t *twin_items(void);
const uint8_t *twin_bytes(void);

/* What the last accepted run wrote. */
const uint8_t *twin_marks(void);

/* What the last accepted read of XML wrote. */
const uint16_t *twin_column(enum column column);

#endif
