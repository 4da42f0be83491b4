/* hedit.hpp: an editor for C++17, over hedit.h.
 *
 *     hedit::Editor editor("<p contenteditable>Call Ann</p>");
 *     editor.select({{0, 0}, 5}, {{0, 0}, 8});
 *     editor.exec("bold");
 *     std::cout << editor.html();
 *
 * A refused call throws a hedit::Error, with a class of its own for each cause, or std::bad_alloc.
 * It leaves the editor as it was. hedit.h says what each call does.
 */
#ifndef HEDIT_HPP
#define HEDIT_HPP

#include <hedit.h>

#include <cstddef>
#include <cstdint>
#include <new>
#include <optional>
#include <stdexcept>
#include <string>
#include <string_view>
#include <utility>
#include <variant>
#include <vector>

namespace hedit {

/* Returns the version of the linked library. HEDIT_VERSION is that of the header. */
inline std::string version() {
    std::uint32_t number = hedit_version();
    return std::to_string(number >> 16) + '.' + std::to_string(number >> 8 & 255) + '.' +
           std::to_string(number & 255);
}

/* A path and an offset. The path has the index of a child in each node, from the document down. The
 * offset counts characters (code points) in a text node, and children in an element. */
struct Place {
    std::vector<std::uint32_t> path;
    std::uint32_t offset = 0;
};

/* The number of a node, which the node keeps as long as the editor is open. The document has 0. */
using Label = std::uint32_t;

/* The label of a node, and an offset in it. */
struct Point {
    Label label = 0;
    std::uint32_t offset = 0;
};

inline bool operator==(const Point &left, const Point &right) {
    return left.label == right.label && left.offset == right.offset;
}

inline bool operator!=(const Point &left, const Point &right) { return !(left == right); }

struct Selection {
    Point anchor;
    Point focus;
};

/* How a command is executed. */
struct ExecOptions {
    std::optional<Selection> range; /* what it selects first and works on */
    bool joined = false;            /* whether its edits are added to the previous undo step */
    std::string_view denied;        /* names that are denied, as "bold,insertImage" */
};

/* A named range, which follows the edits. The name is any bytes. */
struct Mark {
    std::string name;
    Point anchor;
    Point focus;
};

/* A node: its kind, the count of its characters or of its children, and the labels of the nodes next
 * to it, if there are any. */
struct Node {
    hedit_node_kind kind;
    std::uint32_t length;
    std::optional<Label> parent;
    std::optional<Label> first_child;
    std::optional<Label> last_child;
    std::optional<Label> previous;
    std::optional<Label> next;
};

struct Attribute {
    std::string name;
    std::string value;
};

/* A node of an inserted tree, with its level below the root of the tree. An element has a name and
 * attributes, a text node and a comment have a value. */
struct TreeNode {
    std::uint32_t level;
    Label label;
    hedit_node_kind kind;
    std::string name;
    std::vector<Attribute> attributes;
    std::string value;
};

/* A node is removed, with its tree. */
struct Removed {
    Label label;
};

/* A tree is inserted before a child of the parent, or at its end. Its nodes are in tree order. */
struct Inserted {
    std::vector<TreeNode> tree;
    Label parent;
    std::optional<Label> before;
};

/* A node is moved, with its tree. */
struct Moved {
    Label label;
    Label parent;
    std::optional<Label> before;
};

/* In a text node or a comment, `put` replaces `taken` characters from the offset `at` on. */
struct Replaced {
    Label label;
    std::uint32_t at;
    std::uint32_t taken;
    std::string put;
};

/* An element has another list of attributes. */
struct AttributesSet {
    Label label;
    std::vector<Attribute> attributes;
};

/* A change of the document by a call. */
using Change = std::variant<Removed, Inserted, Moved, Replaced, AttributesSet>;

/* A call was refused. */
class Error : public std::runtime_error {
  public:
    Error(hedit_status status, const char *words) : std::runtime_error(words), status_(status) {}

    hedit_status status() const noexcept { return status_; }

  private:
    hedit_status status_;
};

/* The bytes aren't a page: the first at() of them begin one, and kind() says why no more do. */
class PageRefused : public Error {
  public:
    PageRefused(std::size_t at, hedit_page_kind kind)
        : Error(HEDIT_PAGE_REFUSED, "the bytes aren't a page"), at_(at), kind_(kind) {}

    std::size_t at() const noexcept { return at_; }
    hedit_page_kind kind() const noexcept { return kind_; }

  private:
    std::size_t at_;
    hedit_page_kind kind_;
};

/* A node that the command makes would have the label label_cap. */
class PageFull : public Error {
  public:
    PageFull() : Error(HEDIT_FULL, "no label is left below label_cap") {}
};

/* The document is too deep for commands. */
class TooDeep : public Error {
  public:
    TooDeep() : Error(HEDIT_DEEP, "the document is too deep") {}
};

/* A path or a label names no node, or an offset is past its length. */
class BadPlace : public Error {
  public:
    BadPlace() : Error(HEDIT_BAD_PLACE, "the document has no such place") {}
};

/* There are 16 markers of other names. */
class TooManyMarks : public Error {
  public:
    TooManyMarks() : Error(HEDIT_TOO_MANY_MARKS, "there are 16 markers of other names already") {}
};

/* A text isn't UTF-8, a list of names is malformed, or a limit is 0. */
class BadArgument : public Error {
  public:
    BadArgument() : Error(HEDIT_BAD_ARGUMENT, "an argument is invalid") {}
};

/* The editor is closed, since it was moved from. */
class Closed : public Error {
  public:
    Closed() : Error(HEDIT_CLOSED, "the editor is closed") {}
};

/* Reads packed changes, as hedit.h describes them. */
class ChangeReader {
  public:
    explicit ChangeReader(std::string_view packed) : rest_(packed) {}

    /* Returns all changes, in their order. */
    std::vector<Change> changes() {
        std::vector<Change> all;
        while (!rest_.empty()) {
            all.push_back(change());
        }
        return all;
    }

  private:
    std::string_view take(std::size_t length) {
        std::string_view taken = rest_.substr(0, length);
        rest_.remove_prefix(taken.size());
        return taken;
    }

    std::uint64_t number() {
        std::uint64_t found = 0;
        int shift = 0;
        for (char byte : take(8)) {
            found |= std::uint64_t{static_cast<unsigned char>(byte)} << shift;
            shift += 8;
        }
        return found;
    }

    /* A label, an offset or a level. */
    std::uint32_t small() { return static_cast<std::uint32_t>(number()); }

    std::optional<Label> there() {
        Label label = small();
        return label == HEDIT_NO_NODE ? std::nullopt : std::optional<Label>(label);
    }

    std::string text() { return std::string(take(static_cast<std::size_t>(number()))); }

    std::vector<Attribute> attributes() {
        std::vector<Attribute> all;
        for (std::uint64_t left = number(); left > 0; --left) {
            std::string name = text();
            all.push_back({std::move(name), text()});
        }
        return all;
    }

    TreeNode node() {
        TreeNode node = {};
        node.level = small();
        node.label = small();
        node.kind = static_cast<hedit_node_kind>(number());
        if (node.kind == HEDIT_ELEMENT) {
            node.name = text();
            node.attributes = attributes();
        } else if (node.kind != HEDIT_DOCUMENT) {
            node.value = text();
        }
        return node;
    }

    Inserted inserted() {
        Inserted change = {};
        change.parent = small();
        change.before = there();
        for (std::uint64_t left = number(); left > 0; --left) {
            change.tree.push_back(node());
        }
        return change;
    }

    /* The values in braces are read in their order. */
    Change change() {
        switch (number()) {
        case HEDIT_REMOVED: return Removed{small()};
        case HEDIT_INSERTED: return inserted();
        case HEDIT_MOVED: return Moved{small(), small(), there()};
        case HEDIT_REPLACED: return Replaced{small(), small(), small(), text()};
        default: return AttributesSet{small(), attributes()};
        }
    }

    std::string_view rest_;
};

/* An editor of a page. Its destructor closes it. It can be moved, but not copied. Call it from one
 * thread only. */
class Editor {
  public:
    /* Opens a page. No node gets a label from label_cap on, and undo_depth commands can be undone. */
    explicit Editor(std::string_view page, std::uint32_t label_cap = 2000000,
                    std::size_t undo_depth = 100) {
        hedit_refusal refusal = {0, 0};
        std::uint32_t status =
            hedit_open(&handle_, bytes(page), page.size(), label_cap, undo_depth, &refusal);
        if (status == HEDIT_PAGE_REFUSED) {
            throw PageRefused(refusal.at, static_cast<hedit_page_kind>(refusal.kind));
        }
        answer(status);
        html_length_ = page.size();
    }

    Editor(Editor &&other) noexcept
        : handle_(std::exchange(other.handle_, hedit_editor HEDIT_CLOSED_EDITOR)),
          html_length_(other.html_length_) {}

    Editor &operator=(Editor &&other) noexcept {
        Editor taken(std::move(other));
        std::swap(handle_, taken.handle_);
        std::swap(html_length_, taken.html_length_);
        return *this;
    }

    ~Editor() { hedit_close(&handle_); }

    /* Executes a command by its name, in any case. Returns false if it isn't enabled or refuses the
     * value. */
    bool exec(std::string_view name, std::string_view value = "") {
        return answer(hedit_exec(&handle_, bytes(name), name.size(), bytes(value), value.size()));
    }

    /* Executes a command like exec, unless its name is denied: then it returns false. Denied names are
     * separated by commas, as "bold,insertImage". */
    bool exec_gated(std::string_view denied, std::string_view name, std::string_view value = "") {
        return answer(hedit_exec_gated(&handle_, bytes(denied), denied.size(), bytes(name),
                                       name.size(), bytes(value), value.size()));
    }

    /* Executes a command like exec, but adds its edits to the previous undo step, if a command made
     * that step and nothing has intervened. */
    bool exec_joined(std::string_view name, std::string_view value = "") {
        return answer(
            hedit_exec_joined(&handle_, bytes(name), name.size(), bytes(value), value.size()));
    }

    /* Executes a command with options: on a range, as part of the previous undo step, or unless it
     * is denied. The selection is left where the command leaves it. */
    bool exec(std::string_view name, std::string_view value, const ExecOptions &options) {
        Selection range = options.range.value_or(Selection{});
        hedit_exec_options told = {options.joined,     options.range.has_value(),
                                   range.anchor.label, range.anchor.offset,
                                   range.focus.label,  range.focus.offset};
        return answer(hedit_exec_with(&handle_, &told, bytes(options.denied), options.denied.size(),
                                      bytes(name), name.size(), bytes(value), value.size()));
    }

    /* Replaces the range between two points by a text, as one command, which continues a run of
     * typing. Returns false if the points aren't in an editing host. */
    bool replace(Point anchor, Point focus, std::string_view text) {
        return answer(hedit_replace(&handle_, anchor.label, anchor.offset, focus.label,
                                    focus.offset, bytes(text), text.size()));
    }

    /* Undo or redo one step. They return false if there is none. */
    bool undo() { return answer(hedit_undo(&handle_)); }
    bool redo() { return answer(hedit_redo(&handle_)); }

    /* Selects from an anchor to a focus, or sets the caret. */
    void select(const Place &anchor, const Place &focus) {
        answer(hedit_select(&handle_, path(anchor), anchor.path.size(), anchor.offset, path(focus),
                            focus.path.size(), focus.offset));
    }
    void select(const Place &caret) { select(caret, caret); }

    /* Selects from one point to another. The cost doesn't grow with the page. */
    void select_points(const Point &anchor, const Point &focus) {
        answer(
            hedit_select_points(&handle_, anchor.label, anchor.offset, focus.label, focus.offset));
    }
    void select_points(const Point &caret) { select_points(caret, caret); }

    /* Removes the selection. */
    void unselect() { answer(hedit_unselect(&handle_)); }

    /* Sets the marker of a name from an anchor to a focus. */
    void mark(std::string_view name, const Place &anchor, const Place &focus) {
        answer(hedit_mark(&handle_, bytes(name), name.size(), path(anchor), anchor.path.size(),
                          anchor.offset, path(focus), focus.path.size(), focus.offset));
    }

    /* Sets the marker of a name from one point to another. */
    void mark_points(std::string_view name, const Point &anchor, const Point &focus) {
        answer(hedit_mark_points(&handle_, bytes(name), name.size(), anchor.label, anchor.offset,
                                 focus.label, focus.offset));
    }

    /* Removes the marker of a name. Returns false if there is none. */
    bool unmark(std::string_view name) {
        return answer(hedit_unmark(&handle_, bytes(name), name.size()));
    }

    /* Returns whether there is such a command. */
    bool supported(std::string_view name) { return ask(HEDIT_SUPPORTED, name).first; }

    /* Returns whether the command has an editing host to work in. */
    bool enabled(std::string_view name) { return ask(HEDIT_ENABLED, name).first; }

    /* Returns whether only a part of the selection has it. */
    bool indeterm(std::string_view name) { return ask(HEDIT_INDETERM, name).first; }

    /* Returns whether the selection has it, for a button of a toolbar. */
    bool state(std::string_view name) { return ask(HEDIT_STATE, name).first; }

    /* Returns the command's value: a font, a colour, the name of a block. */
    std::string value(std::string_view name) { return ask(HEDIT_VALUE, name).second; }

    /* Returns the document as HTML, with a line feed at the end. */
    std::string html() {
        /* Enough capacity for what commands have added since, so that it is printed once. */
        std::string text = view(HEDIT_HTML, 4096 + html_length_ + html_length_ / 4);
        html_length_ = text.size();
        return text;
    }

    /* Returns a line for each node. */
    std::string tree() { return view(HEDIT_TREE, 4096); }

    /* Returns the selection and the markers, as lines. */
    std::string points() { return view(HEDIT_POINTS, 4096); }

    /* Returns the counts of the document and of its history, as a line. */
    std::string numbers() { return view(HEDIT_NUMBERS, 4096); }

    /* Returns the counts of the document and of its history. */
    hedit_number_facts counts() {
        hedit_number_facts facts = {};
        answer(hedit_numbers(&handle_, &facts));
        return facts;
    }

    /* Returns how many calls have changed the document. */
    std::uint64_t revision() {
        std::uint64_t number = 0;
        answer(hedit_revision(&handle_, &number));
        return number;
    }

    /* Returns the changes of the last call that changed something, from the first to the last. A copy
     * of the document before that call that applies them equals the document. */
    std::vector<Change> changes() {
        std::optional<std::string> packed = read_text(
            [&](std::uint8_t *buffer, std::size_t capacity, std::size_t *length) {
                return hedit_changes(&handle_, buffer, capacity, length);
            },
            1024);
        return ChangeReader(packed.value()).changes();
    }

    /* Returns whether the node of a label is in the document, or may be restored by undo or redo. A
     * removed node that isn't kept is never restored, so you can forget it. */
    bool is_kept(Label label) { return answer(hedit_is_kept(&handle_, label)); }

    /* Returns the points of the selection, if something is selected. */
    std::optional<Selection> selection() {
        hedit_selection_facts facts = {};
        if (!answer(hedit_selection(&handle_, &facts))) {
            return std::nullopt;
        }
        return selection_of(facts);
    }

    /* Returns the markers. A new one is last, and one that is set again keeps its index. */
    std::vector<Mark> marks() {
        std::vector<Mark> all;
        hedit_selection_facts facts = {};
        while (answer(hedit_mark_range(&handle_, all.size(), &facts))) {
            Selection range = selection_of(facts);
            all.push_back({mark_name(all.size()), range.anchor, range.focus});
        }
        return all;
    }

    /* Return the HTML and the plain text of the selection, if something is selected. */
    std::optional<std::string> selection_html() {
        return read_text(
            [&](std::uint8_t *buffer, std::size_t capacity, std::size_t *length) {
                return hedit_selection_html(&handle_, buffer, capacity, length);
            },
            4096);
    }
    std::optional<std::string> selection_text() {
        return read_text(
            [&](std::uint8_t *buffer, std::size_t capacity, std::size_t *length) {
                return hedit_selection_text(&handle_, buffer, capacity, length);
            },
            4096);
    }

    /* Returns the label of the node at a path. */
    Label label_at(const std::vector<std::uint32_t> &path) {
        Label label = 0;
        answer(hedit_label_at(&handle_, steps(path), path.size(), &label));
        return label;
    }

    /* Returns the path of the node of a label. */
    std::vector<std::uint32_t> path_of(Label label) {
        return read_items<std::uint32_t>(
            [&](std::uint32_t *path, std::size_t capacity, std::size_t *length) {
                return hedit_path_of(&handle_, label, path, capacity, length);
            },
            32);
    }

    /* Returns the node of a label. */
    Node node(Label label) {
        hedit_node_facts facts = {};
        answer(hedit_node(&handle_, label, &facts));
        return {static_cast<hedit_node_kind>(facts.kind),
                facts.length,
                there(facts.parent),
                there(facts.first_child),
                there(facts.last_child),
                there(facts.previous),
                there(facts.next)};
    }

    /* Returns the labels of a node's children, in order. */
    std::vector<Label> children(Label label) {
        std::vector<Label> labels;
        std::optional<Label> child = node(label).first_child;
        while (child) {
            labels.push_back(*child);
            child = node(*child).next;
        }
        return labels;
    }

    /* Returns the name of an element, and an empty text for another node. */
    std::string node_name(Label label) {
        return read_text(
                   [&](std::uint8_t *buffer, std::size_t capacity, std::size_t *length) {
                       return hedit_node_name(&handle_, label, buffer, capacity, length);
                   },
                   64)
            .value();
    }

    /* Returns the characters of a text node or a comment, and an empty text for another node. */
    std::string node_value(Label label) {
        return read_text(
                   [&](std::uint8_t *buffer, std::size_t capacity, std::size_t *length) {
                       return hedit_node_value(&handle_, label, buffer, capacity, length);
                   },
                   1024)
            .value();
    }

    /* Returns the HTML of a node with its descendants; for the document, that of its children. */
    std::string node_html(Label label) {
        return read_text(
                   [&](std::uint8_t *buffer, std::size_t capacity, std::size_t *length) {
                       return hedit_node_html(&handle_, label, buffer, capacity, length);
                   },
                   4096)
            .value();
    }

    /* Returns the plain text of a node with its descendants. */
    std::string node_text(Label label) {
        return read_text(
                   [&](std::uint8_t *buffer, std::size_t capacity, std::size_t *length) {
                       return hedit_node_text(&handle_, label, buffer, capacity, length);
                   },
                   4096)
            .value();
    }

    /* Returns the points at which a text occurs in a node and its descendants, in tree order, without
     * overlap. */
    std::vector<Point> find(std::string_view text, Label label = 0) {
        std::vector<hedit_point> found = read_items<hedit_point>(
            [&](hedit_point *points, std::size_t capacity, std::size_t *count) {
                return hedit_find(&handle_, label, bytes(text), text.size(), points, capacity,
                                  count);
            },
            64);
        std::vector<Point> points;
        points.reserve(found.size());
        for (const hedit_point &point : found) {
            points.push_back({point.label, point.offset});
        }
        return points;
    }

    /* Returns the attributes of a node, in their order. */
    std::vector<Attribute> attributes(Label label) {
        std::vector<Attribute> all;
        while (std::optional<std::string> name =
                   attribute(hedit_attribute_name, label, all.size())) {
            std::optional<std::string> value = attribute(hedit_attribute_value, label, all.size());
            all.push_back({std::move(*name), std::move(value.value())});
        }
        return all;
    }

  private:
    /* hedit.h takes no null pointer, not even if the count is 0. */
    static const std::uint8_t *bytes(std::string_view text) {
        return reinterpret_cast<const std::uint8_t *>(text.empty() ? "" : text.data());
    }

    static const std::uint32_t *steps(const std::vector<std::uint32_t> &path) {
        static constexpr std::uint32_t none = 0;
        return path.empty() ? &none : path.data();
    }

    static const std::uint32_t *path(const Place &place) { return steps(place.path); }

    /* Returns a label, if there is a node. */
    static std::optional<Label> there(Label label) {
        return label == HEDIT_NO_NODE ? std::nullopt : std::optional<Label>(label);
    }

    static Selection selection_of(const hedit_selection_facts &facts) {
        return {{facts.anchor, facts.anchor_offset}, {facts.focus, facts.focus_offset}};
    }

    /* Returns whether a call was done. Throws an exception if it was refused. */
    static bool answer(std::uint32_t status) {
        switch (status) {
        case HEDIT_MEMORY: throw std::bad_alloc();
        case HEDIT_FULL: throw PageFull();
        case HEDIT_DEEP: throw TooDeep();
        case HEDIT_BAD_PLACE: throw BadPlace();
        case HEDIT_TOO_MANY_MARKS: throw TooManyMarks();
        case HEDIT_BAD_ARGUMENT: throw BadArgument();
        case HEDIT_CLOSED: throw Closed();
        default: return status == HEDIT_DONE;
        }
    }

    /* Returns the text of a call that takes a buffer, unless the answer is false. If the text is longer
     * than the capacity, it calls again. */
    template <typename Call>
    static std::optional<std::string> read_text(Call call, std::size_t capacity) {
        for (;;) {
            std::string text(capacity, '\0');
            std::size_t length = 0;
            std::uint32_t status =
                call(reinterpret_cast<std::uint8_t *>(text.data()), capacity, &length);
            if (status != HEDIT_TOO_SMALL) {
                if (!answer(status)) {
                    return std::nullopt;
                }
                text.resize(length);
                return text;
            }
            capacity = length;
        }
    }

    /* Returns the items of a call that takes a buffer for a number of them. */
    template <typename Item, typename Call>
    static std::vector<Item> read_items(Call call, std::size_t capacity) {
        for (;;) {
            std::vector<Item> items(capacity);
            std::size_t count = 0;
            std::uint32_t status = call(items.data(), capacity, &count);
            if (status != HEDIT_TOO_SMALL) {
                answer(status);
                items.resize(count);
                return items;
            }
            capacity = count;
        }
    }

    std::pair<bool, std::string> ask(hedit_question question, std::string_view name) {
        std::uint32_t flag = 0;
        std::optional<std::string> text = read_text(
            [&](std::uint8_t *buffer, std::size_t capacity, std::size_t *length) {
                return hedit_query(&handle_, question, bytes(name), name.size(), &flag, buffer,
                                   capacity, length);
            },
            256);
        return {flag == 1, std::move(text.value())};
    }

    std::string view(hedit_view_kind kind, std::size_t capacity) {
        return read_text(
                   [&](std::uint8_t *buffer, std::size_t size, std::size_t *length) {
                       return hedit_view(&handle_, kind, buffer, size, length);
                   },
                   capacity)
            .value();
    }

    /* Returns the name of a marker by its index in the list of markers. */
    std::string mark_name(std::size_t place) {
        return read_text(
                   [&](std::uint8_t *buffer, std::size_t capacity, std::size_t *length) {
                       return hedit_mark_name(&handle_, place, buffer, capacity, length);
                   },
                   64)
            .value();
    }

    /* Returns the name or the value of an attribute by its index in a node's list. */
    template <typename Call>
    std::optional<std::string> attribute(Call call, Label label, std::size_t place) {
        return read_text(
            [&](std::uint8_t *buffer, std::size_t capacity, std::size_t *length) {
                return call(&handle_, label, place, buffer, capacity, length);
            },
            256);
    }

    hedit_editor handle_ = HEDIT_CLOSED_EDITOR;

    /* The length of the page when it was last printed. */
    std::size_t html_length_ = 0;
};

} // namespace hedit

#endif
