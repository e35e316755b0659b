/*
 * docs/SCOPE.md in plain C, as an independent model of the calls.
 * Each model call takes what the library's call takes, answers alike and writes alike.
 */
#ifndef PAPER_H
#define PAPER_H

#include "halyardfig.h"

#include <stdbool.h>
#include <stddef.h>
#include <stdint.h>

uint64_t model_read(const uint8_t *text, size_t text_len, uint32_t version, const uint8_t *names, size_t names_len,
                    uint32_t *out, size_t out_len);
uint64_t model_print(bool brief, const uint32_t *query, size_t query_len, const uint8_t *names, size_t names_len, uint8_t *out,
                     size_t out_len);
uint64_t model_compose(const uint32_t *outer, size_t outer_len, const uint32_t *inner, size_t inner_len, uint32_t *out,
                       size_t out_len);
uint64_t model_compose_lean(const uint32_t *outer, size_t outer_len, const uint32_t *inner, size_t inner_len,
                            uint32_t *out, size_t out_len);
uint64_t model_run(const uint32_t *query, size_t query_len, const uint16_t *parent, size_t parent_len,
                   const uint16_t *kind, size_t kind_len, const uint8_t *given, size_t given_len, uint8_t *marks,
                   size_t marks_len, uint8_t *scratch, size_t scratch_len);
uint64_t model_extract(const uint16_t *parent, size_t parent_len, const uint16_t *kind, size_t kind_len,
                       const uint8_t *marks, size_t marks_len, uint16_t *out_parent, size_t out_parent_len,
                       uint16_t *out_kind, size_t out_kind_len);
uint64_t model_read_xml(const uint8_t *text, size_t text_len, const uint8_t *names, size_t names_len, uint16_t *parent,
                        size_t parent_len, uint16_t *kind, size_t kind_len, uint16_t *begin, size_t begin_len,
                        uint16_t *end, size_t end_len);
uint64_t model_write_xml(const uint8_t *text, size_t text_len, const uint8_t *names, size_t names_len,
                         const uint16_t *parent, size_t parent_len, const uint16_t *kind, size_t kind_len,
                         const uint16_t *begin, size_t begin_len, const uint16_t *end, size_t end_len,
                         const uint8_t *marks, size_t marks_len, uint8_t *out, size_t out_len);
uint64_t model_is_cut(const uint16_t *parent, size_t parent_len, const uint16_t *kind, size_t kind_len,
                      const uint16_t *cut_parent, size_t cut_parent_len, const uint16_t *cut_kind, size_t cut_kind_len,
                      const uint16_t *cut_node, size_t cut_node_len);

uint64_t model_for_role(const uint8_t *views, size_t views_len, const uint8_t *names, size_t names_len,
                        const halyardfig_role *roles, size_t roles_len, uint32_t role, const uint8_t *text,
                        size_t text_len, uint32_t *out, size_t out_len);

uint64_t model_height(const uint32_t *query, size_t query_len);
uint64_t model_paths(const uint32_t *query, size_t query_len);
uint64_t model_scratch(size_t nodes, size_t outer_height, size_t outer_paths, size_t inner_height, size_t inner_paths);

/* What can be measured of a query in memory. */
struct measures {
    bool is_query;
    size_t paths;
    size_t guards;        /* guarded steps of all depths */
    size_t nesting;
    size_t guard_nesting; /* the most brackets open at a guarded step */
    size_t height;
};

struct measures measure(const uint32_t *query, size_t query_len);

#endif
