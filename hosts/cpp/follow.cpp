/* A host in C++ that keeps a tree of its own and follows the editor by what changed alone.
 *
 *     follow < PAGE
 *
 * It reads a page, executes some commands at the start of its first text, undoes and redoes them,
 * and prints the HTML that its own tree comes to, which is the editor's. */
#include <hedit.hpp>

#include <algorithm>
#include <functional>
#include <iostream>
#include <iterator>
#include <unordered_map>

/* A node of the tree, with the labels of its parent and its children. */
struct Item {
    hedit_node_kind kind;
    std::string name;
    std::vector<hedit::Attribute> attributes;
    std::string value;
    hedit::Label parent = HEDIT_NO_NODE;
    std::vector<hedit::Label> children = {};
};

/* The bytes of so many characters of a text, from an offset in bytes on. */
static std::size_t width(const std::string &text, std::size_t from, std::uint32_t characters) {
    std::size_t at = from;
    for (; characters > 0; --characters) {
        do {
            ++at;
        } while (at < text.size() && (text[at] & 0xc0) == 0x80);
    }
    return at - from;
}

/* Characters as HTML has them in a text or in the value of an attribute. */
static std::string escaped(const std::string &text, bool is_value) {
    std::string html;
    for (std::size_t at = 0; at < text.size(); ++at) {
        switch (text[at]) {
        case '&': html += "&amp;"; break;
        case '<': html += "&lt;"; break;
        case '>': html += "&gt;"; break;
        case '"': html += is_value ? "&quot;" : "\""; break;
        default:
            bool is_no_break_space = text.compare(at, 2, "\xc2\xa0") == 0;
            html += is_no_break_space ? "&nbsp;" : text.substr(at, 1);
            at += is_no_break_space;
        }
    }
    return html;
}

static bool is_void(const std::string &name) {
    static const char *const all[] = {"area",  "base", "br",   "col",    "embed", "hr", "img",
                                      "input", "link", "meta", "source", "track", "wbr"};
    return std::find(std::begin(all), std::end(all), name) != std::end(all);
}

/* A tree that was a page once, and follows it. */
class Tree {
  public:
    explicit Tree(hedit::Editor &editor) { read(editor, 0); }

    /* Does what changes say, one after another. */
    void follow(const std::vector<hedit::Change> &changes) {
        for (const hedit::Change &change : changes) {
            std::visit([this](const auto &each) { does(each); }, change);
        }
    }

    /* The HTML of the tree, as the editor prints it. */
    std::string html() const { return html_of(0) + '\n'; }

  private:
    void read(hedit::Editor &editor, hedit::Label label) {
        items_[label] = {editor.node(label).kind, editor.node_name(label), editor.attributes(label),
                         editor.node_value(label)};
        for (hedit::Label child : editor.children(label)) {
            read(editor, child);
            put(child, label, std::nullopt);
        }
    }

    void put(hedit::Label label, hedit::Label parent, std::optional<hedit::Label> before) {
        std::vector<hedit::Label> &children = items_.at(parent).children;
        auto at = before ? std::find(children.begin(), children.end(), *before) : children.end();
        children.insert(at, label);
        items_.at(label).parent = parent;
    }

    void take(hedit::Label label) {
        std::vector<hedit::Label> &children = items_.at(items_.at(label).parent).children;
        children.erase(std::find(children.begin(), children.end(), label));
    }

    void forget(hedit::Label label) {
        for (hedit::Label child : items_.at(label).children) {
            forget(child);
        }
        items_.erase(label);
    }

    void does(const hedit::Removed &change) {
        take(change.label);
        forget(change.label);
    }

    void does(const hedit::Inserted &change) {
        std::vector<hedit::Label> above;
        for (const hedit::TreeNode &node : change.tree) {
            items_[node.label] = {node.kind, node.name, node.attributes, node.value};
            above.resize(node.level);
            if (!above.empty()) {
                put(node.label, above.back(), std::nullopt);
            }
            above.push_back(node.label);
        }
        put(above.front(), change.parent, change.before);
    }

    void does(const hedit::Moved &change) {
        take(change.label);
        put(change.label, change.parent, change.before);
    }

    void does(const hedit::Replaced &change) {
        std::string &text = items_.at(change.label).value;
        std::size_t from = width(text, 0, change.at);
        text.replace(from, width(text, from, change.taken), change.put);
    }

    void does(const hedit::AttributesSet &change) {
        items_.at(change.label).attributes = change.attributes;
    }

    std::string html_of(hedit::Label label) const {
        const Item &item = items_.at(label);
        if (item.kind == HEDIT_TEXT) {
            return escaped(item.value, false);
        }
        if (item.kind == HEDIT_COMMENT) {
            return "<!--" + item.value + "-->";
        }
        std::string inner;
        for (hedit::Label child : item.children) {
            inner += html_of(child);
        }
        return item.kind == HEDIT_DOCUMENT ? inner : tag(item) + inner + end_tag(item);
    }

    static std::string tag(const Item &item) {
        std::string html = '<' + item.name;
        for (const auto &[name, value] : item.attributes) {
            html += ' ' + name + "=\"" + escaped(value, true) + '"';
        }
        return html + '>';
    }

    static std::string end_tag(const Item &item) {
        return is_void(item.name) ? "" : "</" + item.name + '>';
    }

    std::unordered_map<hedit::Label, Item> items_;
};

/* Returns the first text node from a node on that doesn't begin with whitespace. */
static std::optional<hedit::Label> first_text(hedit::Editor &editor, hedit::Label label) {
    std::string text = editor.node(label).kind == HEDIT_TEXT ? editor.node_value(label) : "";
    if (!text.empty() && std::string(" \t\r\n").find(text[0]) == std::string::npos) {
        return label;
    }
    std::optional<hedit::Label> found;
    for (hedit::Label child : editor.children(label)) {
        found = found ? found : first_text(editor, child);
    }
    return found;
}

int main() {
    std::string page(std::istreambuf_iterator<char>(std::cin), {});
    hedit::Editor editor(page);
    Tree tree(editor);
    std::uint64_t seen = editor.revision();
    if (std::optional<hedit::Label> text = first_text(editor, 0)) {
        editor.select_points({*text, 0}, {*text, 1});
    }
    const std::function<void()> calls[] = {
        [&] { editor.exec("bold"); },
        [&] { editor.exec("insertText", "Hello"); },
        [&] { editor.exec("insertParagraph"); },
        [&] { editor.undo(); },
        [&] { editor.undo(); },
        [&] { editor.redo(); },
    };
    for (const std::function<void()> &call : calls) {
        call();
        if (editor.revision() != seen) {
            seen = editor.revision();
            tree.follow(editor.changes());
        }
    }
    std::cout << tree.html();
    return tree.html() != editor.html();
}
