/*
 * Checking a partner's cut as source document 002 says it another way, in plain C: a document is the set of its
 * root-to-leaf paths, and a sub-document is a part of that set. The partner's table is compared with the extract.
 */
#include "halyardfig.h"
#include "paper.h"
#include "support.h"

#include <string.h>

/* Marks the nodes of all root-to-leaf paths whose leaf is among the given. */
static void mark_paths(const uint16_t *parent, size_t nodes, const uint8_t *given, uint8_t *paths)
{
    static bool inner[HALYARDFIG_NODES];
    memset(inner, 0, sizeof inner);
    memset(paths, 0, nodes);
    for (size_t i = 1; i < nodes; i++)
        inner[parent[i]] = true;
    for (size_t leaf = 0; leaf < nodes; leaf++) {
        if (inner[leaf] || given[leaf] == 0)
            continue;
        for (size_t i = leaf; paths[i] == 0; i = parent[i])
            paths[i] = 1;
    }
}

/* Are these the numbers of different nodes? Then they are marked. */
static bool mark_numbers(const uint16_t *numbers, size_t count, size_t nodes, uint8_t *marks)
{
    memset(marks, 0, nodes);
    for (size_t r = 0; r < count; r++) {
        if (numbers[r] >= nodes || marks[numbers[r]] == 1)
            return false;
        marks[numbers[r]] = 1;
    }
    return true;
}

uint64_t model_is_cut(const uint16_t *parent, size_t parent_len, const uint16_t *kind, size_t kind_len,
                      const uint16_t *cut_parent, size_t cut_parent_len, const uint16_t *cut_kind, size_t cut_kind_len,
                      const uint16_t *cut_node, size_t cut_node_len)
{
    static uint8_t none[HALYARDFIG_NODES], marks[HALYARDFIG_NODES], paths[HALYARDFIG_NODES];
    static uint16_t numbers[HALYARDFIG_NODES], parents[HALYARDFIG_NODES], kinds[HALYARDFIG_NODES];
    size_t nodes = parent_len, count = cut_parent_len;
    if (count > HALYARDFIG_NODES || cut_kind_len != count || cut_node_len != count || nodes > HALYARDFIG_NODES)
        return REFUSED(1, 0);
    uint64_t refusal = model_extract(parent, nodes, kind, kind_len, none, nodes, parents, 0, kinds, 0);
    if (refusal != 0)
        return refusal;
    if (!mark_numbers(cut_node, count, nodes, marks))
        return 0;
    mark_paths(parent, nodes, marks, paths);
    if (memcmp(paths, marks, nodes) != 0)
        return 0;
    size_t marked = 0;
    for (size_t i = 0; i < nodes; i++)
        if (marks[i] == 1)
            numbers[marked++] = (uint16_t)i;
    model_extract(parent, nodes, kind, nodes, marks, nodes, parents, nodes, kinds, nodes);
    return memcmp(numbers, cut_node, count * sizeof *numbers) == 0 &&
           memcmp(parents, cut_parent, count * sizeof *parents) == 0 &&
           memcmp(kinds, cut_kind, count * sizeof *kinds) == 0;
}
