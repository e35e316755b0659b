// pugixml as an engine: a node's number is found by its address, in a table over the addresses of all nodes.
#include "engines.h"

#include <algorithm>
#include <cstddef>
#include <cstdint>
#include <cstdlib>
#include <cstring>
#include <limits>
#include <pugixml.hpp>
#include <vector>

namespace
{

constexpr std::uintptr_t node_alignment = 8;

constexpr char version[] = {'0' + PUGIXML_VERSION / 1000, '.', '0' + PUGIXML_VERSION / 100 % 10,
                            '0' + PUGIXML_VERSION / 10 % 10, 0};

struct loaded_document {
    pugi::xml_document tree;
    std::uintptr_t lowest = 0;
    std::vector<std::uint16_t> numbers;
};

std::uintptr_t address(const pugi::xml_node &node)
{
    return reinterpret_cast<std::uintptr_t>(node.internal_object());
}

pugi::xml_node add_node(pugi::xml_node parent, const document &document, std::size_t i)
{
    if (document.kind[i] != HALYARDFIG_KIND_TEXT)
        return parent.append_child(document.name[document.kind[i] - HALYARDFIG_KIND_ELEMENT]);
    pugi::xml_node node = parent.append_child(pugi::node_pcdata);
    node.set_value("t");
    return node;
}

// Keeps the numbers of all nodes but the root, whose address lies apart.
void number_nodes(loaded_document &loaded, const std::vector<pugi::xml_node> &nodes)
{
    auto by_address = [](const pugi::xml_node &a, const pugi::xml_node &b) { return address(a) < address(b); };
    auto [low, high] = std::minmax_element(nodes.begin() + 1, nodes.end(), by_address);
    loaded.lowest = address(*low);
    loaded.numbers.resize((address(*high) - loaded.lowest) / node_alignment + 1);
    for (std::size_t i = 1; i < nodes.size(); i++)
        loaded.numbers[(address(nodes[i]) - loaded.lowest) / node_alignment] = static_cast<std::uint16_t>(i);
}

void *load(const document *document)
{
    auto *loaded = new loaded_document;
    std::vector<pugi::xml_node> nodes{loaded->tree};
    for (std::size_t i = 1; i < document->nodes; i++)
        nodes.push_back(add_node(nodes[document->parent[i]], *document, i));
    number_nodes(*loaded, nodes);
    return loaded;
}

void unload(void *loaded)
{
    delete static_cast<loaded_document *>(loaded);
}

void *compile(const char *text)
{
    return new pugi::xpath_query(text);
}

void discard(void *query)
{
    delete static_cast<pugi::xpath_query *>(query);
}

std::uint16_t number_of(const loaded_document &loaded, const pugi::xml_node &node)
{
    if (node.type() == pugi::node_document)
        return 0;
    return loaded.numbers[(address(node) - loaded.lowest) / node_alignment];
}

std::size_t select_nodes(void *loaded, void *query, std::uint16_t *selected)
{
    const auto &in = *static_cast<loaded_document *>(loaded);
    const pugi::xpath_node_set found = static_cast<pugi::xpath_query *>(query)->evaluate_node_set(in.tree);
    std::size_t count = 0;
    for (const pugi::xpath_node &one : found)
        selected[count++] = number_of(in, one.node());
    return count;
}

// Blank text is kept, as the library and libxml2 keep it.
void *parse(const std::uint8_t *text, std::size_t length)
{
    auto *tree = new pugi::xml_document;
    if (tree->load_buffer(text, length, pugi::parse_default | pugi::parse_ws_pcdata, pugi::encoding_utf8))
        return tree;
    delete tree;
    return nullptr;
}

void release(void *parsed)
{
    delete static_cast<pugi::xml_document *>(parsed);
}

std::size_t count_nodes(void *parsed)
{
    struct : pugi::xml_tree_walker {
        std::size_t nodes = 1;
        bool for_each(pugi::xml_node &) override
        {
            nodes++;
            return true;
        }
    } walker;
    static_cast<pugi::xml_document *>(parsed)->traverse(walker);
    return walker.nodes;
}

// Keeps the nodes that are not marked, without those inside them; nodes are numbered in document order.
struct unmarked : pugi::xml_tree_walker {
    const std::uint8_t *marks;
    std::size_t number = 0;
    int removed_depth = std::numeric_limits<int>::max();
    std::vector<pugi::xml_node> nodes;
    explicit unmarked(const std::uint8_t *of) : marks(of)
    {
    }
    bool for_each(pugi::xml_node &node) override
    {
        bool goes = marks[++number] == 0;
        if (depth() > removed_depth)
            return true;
        removed_depth = goes ? depth() : std::numeric_limits<int>::max();
        if (goes)
            nodes.push_back(node);
        return true;
    }
};

// What is written, as far as there is room.
struct writing : pugi::xml_writer {
    std::uint8_t *out;
    std::size_t room, length = 0;
    writing(std::uint8_t *to, std::size_t bytes) : out(to), room(bytes)
    {
    }
    void write(const void *data, std::size_t size) override
    {
        if (size > room - length)
            std::abort();
        std::memcpy(out + length, data, size);
        length += size;
    }
};

std::size_t write_marked(void *parsed, const std::uint8_t *marks, std::uint8_t *out, std::size_t room)
{
    auto *tree = static_cast<pugi::xml_document *>(parsed);
    unmarked walker(marks);
    tree->traverse(walker);
    for (pugi::xml_node &node : walker.nodes)
        node.parent().remove_child(node);
    writing writer(out, room);
    tree->print(writer, "", pugi::format_raw | pugi::format_no_declaration | pugi::format_no_empty_element_tags,
                pugi::encoding_utf8);
    return writer.length;
}

} // namespace

const engine pugixml_engine = {"pugixml",    version, load,    unload,      compile,     discard,
                               select_nodes, parse,   release, count_nodes, write_marked};
