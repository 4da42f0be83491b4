/* Tests of hedit.hpp: what it adds to the calls of hedit.h. */
#include <hedit.hpp>

#include <iostream>
#include <type_traits>

static int failed = 0;

static void check(bool holds, const char *words) {
    if (!holds) {
        std::cout << "hedit.hpp: " << words << ": FAILED\n";
        failed = 1;
    }
}

/* Checks that a call throws an error of one class. */
template <typename Cause, typename Call> static void refused(Call call, const char *words) {
    try {
        call();
    } catch (const Cause &) {
        return;
    }
    check(false, words);
}

static const char PAGE[] = "<p contenteditable=\"\">ab</p>";

static void moves() {
    static_assert(!std::is_copy_constructible_v<hedit::Editor>);
    static_assert(!std::is_copy_assignable_v<hedit::Editor>);
    hedit::Editor first(PAGE), second("<p>x</p>");
    second = std::move(first);
    hedit::Editor third(std::move(second));
    check(third.html() == std::string(PAGE) + "\n", "a moved editor has its page");
    refused<hedit::Closed>([&] { first.undo(); }, "an editor that was assigned from is closed");
    refused<hedit::Closed>([&] { second.html(); }, "an editor that was moved from is closed");
}

static void causes() {
    try {
        hedit::Editor editor("<p>x</b>");
        check(false, "a page is refused");
    } catch (const hedit::PageRefused &error) {
        check(error.at() == 6 && error.kind() == HEDIT_PAGE_STRAY_END, "place and kind");
        check(error.status() == HEDIT_PAGE_REFUSED, "status");
    }
    refused<hedit::BadArgument>([] { hedit::Editor editor(PAGE, 0); }, "a cap of 0");
    hedit::Editor editor(PAGE, 3);
    refused<hedit::BadPlace>([&] { editor.select({{7}, 0}); }, "a path that names no node");
    refused<hedit::BadArgument>([&] { editor.exec("\xff"); }, "a name that isn't UTF-8");
    editor.select({{0, 0}, 0}, {{0, 0}, 1});
    refused<hedit::PageFull>([&] { editor.exec("bold"); }, "a full page");
}

static void texts() {
    hedit::Editor editor(PAGE);
    /* An empty text and an empty path may have null pointers in C++, and may not in C. */
    editor.mark({}, {}, {{0}, 1});
    check(editor.points() == "none\nmark  .:0 0:1\n", "a mark without a name");
    check(editor.unmark(std::string_view()), "a mark is taken out");
    editor.select({{0, 0}, 2});
    editor.exec("insertText", std::string(20000, 'x'));
    check(editor.html().size() == sizeof PAGE + 20000, "a page that has grown is whole");
    check(editor.tree().size() > 20000, "a tree longer than the room is whole");
}

static void gates() {
    hedit::Editor editor(PAGE);
    editor.select({{0, 0}, 0}, {{0, 0}, 2});
    check(!editor.exec_gated("italic,BOLD", "bold"), "a denied command does nothing");
    check(editor.html() == std::string(PAGE) + "\n", "the page is as before a denied command");
    editor.select({{0, 0}, 2});
    check(editor.exec_gated("italic", "insertText", "x"), "a command that isn't denied is done");
    check(editor.exec_gated({}, "insertText", "y"), "an empty list denies none");
    check(editor.html() == "<p contenteditable=\"\">abxy</p>\n", "both texts are there");
    refused<hedit::BadArgument>([&] { editor.exec_gated(",", "bold"); }, "what is no list");
}

static void steps() {
    hedit::Editor editor(PAGE);
    hedit::Label text = editor.label_at({0, 0});
    editor.select_points({text, 0}, {text, 2});
    check(editor.exec("bold"), "a command is done");
    check(editor.exec_joined("italic"), "another one joins it");
    check(!editor.exec_joined("createLink"), "one that is refused changes nothing");
    check(editor.counts().undo == 1, "both are one step");
    editor.undo();
    check(editor.replace({text, 0}, {text, 1}, "x"), "a text is put in place of another");
    check(editor.replace({text, 1}, {text, 2}, {}), "an empty one too");
    check(editor.counts().undo == 1, "both are one step of typing");
    check(editor.html() == "<p contenteditable=\"\">x</p>\n", "the text is there");
    check(!editor.replace({0, 0}, {0, 0}, "x"), "nothing is replaced outside of the host");
    refused<hedit::BadPlace>(
        [&] {
            editor.replace({text, 0}, {text, 9}, "x");
        },
        "a place past the end");
    refused<hedit::BadArgument>([&] { editor.exec_joined("\xff"); }, "a name that isn't UTF-8");
}

static void options() {
    hedit::Editor editor(PAGE);
    hedit::Label text = editor.label_at({0, 0});
    hedit::ExecOptions first;
    first.range = hedit::Selection{{text, 0}, {text, 1}};
    check(editor.exec("bold", "", first), "a command works on a range");
    hedit::ExecOptions second;
    hedit::Label rest = editor.label_at({0, 1});
    second.range = hedit::Selection{{rest, 0}, {rest, 1}};
    second.joined = true;
    second.denied = "bold";
    check(!editor.exec("bold", "", second), "a denied command does nothing");
    check(editor.exec("italic", "", second), "another one joins the step");
    check(editor.html() == "<p contenteditable=\"\"><b>a</b><i>b</i></p>\n",
          "both ranges are formatted");
    check(editor.counts().undo == 1, "both are one step");
    second.range = hedit::Selection{{rest, 0}, {rest, 9}};
    refused<hedit::BadPlace>([&] { editor.exec("italic", "", second); }, "a range past the end");
}

/* A line for each node below one: its kind, its name or its characters, and its attributes. */
static std::string told(hedit::Editor &editor, hedit::Label label) {
    hedit::Node node = editor.node(label);
    std::string text =
        std::to_string(node.kind) + ' ' + editor.node_name(label) + editor.node_value(label);
    for (const auto &[name, value] : editor.attributes(label)) {
        text += ' ' + name + '=' + value;
    }
    text += '\n';
    std::optional<hedit::Label> before;
    for (hedit::Label child : editor.children(label)) {
        check(editor.node(child).parent == label, "a child has its parent");
        check(editor.node(child).previous == before, "a child comes after the one before it");
        text += told(editor, child);
        before = child;
    }
    check(node.last_child == before, "the last child is the last");
    return text;
}

static void labels() {
    hedit::Editor editor("<!--n--><p contenteditable><i class=\"x&amp;y\" lang>\u00e9</i>b</p>");
    check(told(editor, 0) == "9 \n8 n\n1 p contenteditable=\n1 i class=x&y lang=\n3 \u00e9\n3 b\n",
          "a walk over the nodes");
    hedit::Label text = editor.label_at({1, 1});
    check(editor.label_at({}) == 0 && !editor.node(0).parent, "the document is 0");
    check(editor.node(text).length == 1 && editor.node(text).kind == HEDIT_TEXT, "a text");
    check(!editor.node(text).first_child && !editor.node(text).next, "a text has no child");
    check(!editor.selection(), "nothing is selected");
    check(!editor.selection_html() && !editor.selection_text(), "which has no texts");
    editor.select({{1, 0, 0}, 0}, {{1, 1}, 1});
    check(editor.selection_text() == "\u00e9b", "the plain text of what is selected");
    editor.select_points({text, 0}, {text, 1});
    check(editor.selection_html() == "b", "the HTML of what is selected");
    check(editor.points() == "anchor 1/1:0\nfocus 1/1:1\n", "two points are selected");
    editor.exec("bold");
    hedit::Label b = editor.label_at({1, 1});
    check(editor.node_name(b) == "b" && editor.node(text).parent == b, "a label stays");
    check(editor.selection()->anchor == hedit::Point{text, 0}, "so does an anchor");
    check(editor.selection()->focus != editor.selection()->anchor, "and a focus");
    hedit_number_facts counts = editor.counts();
    check(counts.nodes == 7 && counts.chars == 2 && counts.undo == 1 && counts.redo == 0, "counts");
    editor.undo();
    check(editor.counts().redo == 1 && editor.node(text).parent == editor.label_at({1}), "undo");
    refused<hedit::BadPlace>([&] { editor.node(b); }, "a node that isn't there any more");
    editor.redo();
    check(editor.node_name(b) == "b" && editor.node(b).first_child == text, "redo");
    editor.select_points({text, 1});
    editor.exec("insertText", std::string(20000, 'x'));
    check(editor.node_value(text).size() == 20001, "characters that are many are whole");
    check(editor.node_text(text) == editor.node_value(text), "a text is its own plain text");
    check(editor.find("x", b).size() == 20000, "occurrences that are many are whole");
    check(editor.find("bx") == std::vector<hedit::Point>{{text, 0}}, "an occurrence is a point");
    check(editor.find("bx", editor.label_at({0})).empty(), "none is outside a node");
    check(editor.node_html(0) + '\n' == editor.html(), "the document's HTML");
    check(editor.path_of(text) == std::vector<std::uint32_t>{1, 1, 0}, "a path");
    check(editor.path_of(0).empty(), "the document's path");
    editor.mark_points("m", {text, 0}, {0, 2});
    check(editor.unmark("m"), "a mark between points");
    refused<hedit::BadPlace>([&] { editor.select_points({99, 0}); }, "a label of no node");
    refused<hedit::BadPlace>([&] { editor.mark_points("m", {text, 0}, {0, 3}); }, "an offset");
    refused<hedit::BadPlace>([&] { editor.label_at({7}); }, "the label at no place");
    refused<hedit::BadPlace>([&] { editor.attributes(99); }, "the attributes of no node");
    refused<hedit::BadPlace>([&] { editor.path_of(99); }, "the path of no node");
    refused<hedit::BadPlace>([&] { editor.node_html(99); }, "the HTML of no node");
    refused<hedit::BadPlace>([&] { editor.node_text(99); }, "the plain text of no node");
    refused<hedit::BadPlace>([&] { editor.find("x", 99); }, "a search in no node");
    refused<hedit::BadArgument>([&] { editor.find("\xff"); }, "a search for what is no text");
    hedit::Editor other(std::move(editor));
    refused<hedit::Closed>([&] { editor.node(0); }, "a closed editor has no nodes");
    refused<hedit::Closed>([&] { editor.selection(); }, "nor a selection");
}

static void marks() {
    hedit::Editor editor(PAGE);
    hedit::Label text = editor.label_at({0, 0});
    check(editor.marks().empty(), "there are no marks");
    std::string name(100, 'n');
    editor.mark_points(name, {text, 2}, {text, 0});
    editor.mark_points("\xff", {text, 1}, {0, 1});
    std::vector<hedit::Mark> marks = editor.marks();
    check(marks.size() == 2 && marks[0].name == name && marks[1].name == "\xff", "names of marks");
    check(marks[0].anchor == hedit::Point{text, 2} && marks[0].focus == hedit::Point{text, 0},
          "the points of a mark");
    check(marks[1].focus == hedit::Point{0, 1}, "and of another one");
    editor.select_points({text, 1});
    editor.exec("insertText", "xyz");
    check(editor.marks()[0].anchor == hedit::Point{text, 5}, "a mark follows");
    editor.unmark(name);
    check(editor.marks().size() == 1 && editor.marks()[0].name == "\xff", "a mark is out");
    hedit::Editor other(std::move(editor));
    refused<hedit::Closed>([&] { editor.marks(); }, "a closed editor has no marks");
}

static void kept() {
    hedit::Editor editor(PAGE);
    hedit::Label text = editor.label_at({0, 0});
    editor.select_points({text, 0}, {text, 2});
    editor.exec("bold");
    hedit::Label b = editor.label_at({0, 0});
    editor.undo();
    check(editor.is_kept(b), "what redo would bring back is kept");
    editor.exec("insertText", "c");
    check(!editor.is_kept(b) && editor.is_kept(text), "and no more after a command");
    hedit::Editor other(std::move(editor));
    refused<hedit::Closed>([&] { editor.is_kept(text); }, "a closed editor keeps nothing");
}

static std::string told(const std::optional<hedit::Label> &label) {
    return label ? std::to_string(*label) : "-";
}

static std::string told(const std::vector<hedit::Attribute> &attributes) {
    std::string text;
    for (const auto &[name, value] : attributes) {
        text += ' ' + name + '=' + value;
    }
    return text;
}

/* A line for each change, and for each node of a tree that comes. */
struct Teller {
    std::string text;

    void operator()(const hedit::Removed &change) {
        text += "removed " + told(change.label) + '\n';
    }

    void operator()(const hedit::Inserted &change) {
        text += "inserted " + told(change.parent) + ' ' + told(change.before) + '\n';
        for (const hedit::TreeNode &node : change.tree) {
            text += std::string(node.level + 1, ' ') + told(node.label) + ' ' +
                    std::to_string(node.kind) + ' ' + node.name + node.value +
                    told(node.attributes) + '\n';
        }
    }

    void operator()(const hedit::Moved &change) {
        text += "moved " + told(change.label) + ' ' + told(change.parent) + ' ' +
                told(change.before) + '\n';
    }

    void operator()(const hedit::Replaced &change) {
        text += "replaced " + told(change.label) + ' ' + std::to_string(change.at) + ' ' +
                std::to_string(change.taken) + ' ' + change.put + '\n';
    }

    void operator()(const hedit::AttributesSet &change) {
        text += "attributes " + told(change.label) + told(change.attributes) + '\n';
    }
};

static void tells(hedit::Editor &editor, std::uint64_t revision, const std::string &changes,
                  const char *words) {
    Teller teller;
    for (const hedit::Change &change : editor.changes()) {
        std::visit(teller, change);
    }
    check(editor.revision() == revision && teller.text == changes, words);
}

static void changes() {
    hedit::Editor editor("<p contenteditable>a<b lang id=\"x\"><!--n-->\u00e9</b>c</p>");
    editor.select_points({2, 0}, {6, 1});
    check(!editor.exec_gated("delete", "delete"), "a denied command does nothing");
    tells(editor, 0, "", "nothing is told at first");
    editor.exec("delete");
    std::string gone = "removed 2\nremoved 3\nremoved 6\ninserted 1 -\n 7 1 br\n";
    tells(editor, 1, gone, "what went is told");
    refused<hedit::BadPlace>([&] { editor.select_points({99, 0}); }, "a label of no node");
    tells(editor, 1, gone, "and told again");
    editor.undo();
    tells(editor, 2,
          "removed 7\ninserted 1 -\n 6 3 c\n"
          "inserted 1 6\n 3 1 b lang= id=x\n  4 8 n\n  5 3 \u00e9\n"
          "inserted 1 3\n 2 3 a\n",
          "what comes back is told whole");
    check(!editor.undo(), "no step is left");
    editor.select_points({5, 1});
    editor.exec("insertText", "\u00fcy");
    tells(editor, 3, "replaced 5 1 0 \u00fc\nreplaced 5 2 0 y\n", "characters are told");
    editor.exec("styleWithCSS", "true");
    editor.select_points({2, 0}, {2, 1});
    editor.exec("foreColor", "red");
    tells(editor, 4, "inserted 1 2\n 8 1 span\nattributes 8 style=color: red;\nmoved 2 8 -\n",
          "attributes and a move are told");
    editor.select_points({6, 1});
    editor.exec("insertImage", std::string(20000, 'x'));
    check(std::get<hedit::Inserted>(editor.changes().back()).tree[0].attributes[0].value.size() ==
              20000,
          "changes that are long are whole");
    hedit::Editor other(std::move(editor));
    check(other.revision() == 5, "a moved editor has its revision");
    refused<hedit::Closed>([&] { editor.revision(); }, "a closed editor has no revision");
    refused<hedit::Closed>([&] { editor.changes(); }, "and no changes");
}

int main() {
    check(hedit::version() == HEDIT_VERSION, "the library has the header's version");
    moves();
    causes();
    texts();
    gates();
    steps();
    options();
    labels();
    marks();
    changes();
    kept();
    return failed;
}
