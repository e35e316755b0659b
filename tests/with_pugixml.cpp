// pugixml as the other engine; its nodes are compared by their addresses.
#include "other_engine.h"

#include <map>
#include <pugixml.hpp>
#include <vector>

const char other_engine[] = "pugixml";

bool other_selects(const case_document *document, const char *text, std::uint8_t *selected)
{
    pugi::xml_document made;
    std::vector<pugi::xml_node> tree(document->nodes, made);
    std::map<pugi::xml_node, std::size_t> numbers{{made, 0}};
    for (std::size_t i = 1; i < document->nodes; i++) {
        if (document->marks[i] == 0)
            continue;
        bool is_text = document->name[i] == nullptr;
        tree[i] = tree[document->parent[i]].append_child(is_text ? pugi::node_pcdata : pugi::node_element);
        is_text ? tree[i].set_value("t") : tree[i].set_name(document->name[i]);
        numbers[tree[i]] = i;
    }
    try {
        for (const pugi::xpath_node &found : made.select_nodes(text))
            selected[numbers.at(found.node())] = 1;
    } catch (const pugi::xpath_exception &) {
        return false;
    }
    return true;
}
