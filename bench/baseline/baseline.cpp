// A baseline for the speed of `landmap script`: a plain map of features, and their points in a plain R-tree.
//
//     baseline OFFICE FILE
//
// Reads the script of one session and writes the replies that `landmap script` writes where the session's subject is of this office
// and may read and add everything. There is no policy, and no trail. It knows these lines alone:
//
//     n: HELLO name
//     n: ADD id class POINT (x y)
//     n: COMMIT
//     n: SEARCH POINT (x y)
//     n: SEARCH POLYGON ((a b, c b, c d, a d, a b))
//
// where a < c and b < d, so that the polygon is a rectangle along the axes. HELLO comes first and once, a COMMIT stands behind one to
// sixteen ADDs, and each id is added once. At anything else it stops with a message and status 1.
#include <algorithm>
#include <charconv>
#include <cstdint>
#include <cstdio>
#include <cstdlib>
#include <deque>
#include <fstream>
#include <limits>
#include <string>
#include <string_view>
#include <unordered_map>
#include <vector>

using std::size_t;
using std::string;
using std::string_view;
using Id = std::uint64_t;
using Coordinate = std::int32_t;

constexpr string_view LABEL = "n: ";
constexpr Coordinate GREATEST = 10'000'000;
constexpr size_t MOST_STAGED = 16, MOST_NAME = 32, BUFFER = 1 << 20;

// The R-tree of Guttman (1984), with quadratic splits.

constexpr size_t MOST = 16, LEAST = 6;

struct Box {
    Coordinate left, bottom, right, top;
};

static bool meet(const Box &a, const Box &b) {
    return a.left <= b.right && b.left <= a.right && a.bottom <= b.top && b.bottom <= a.top;
}

// The least box around both.
static Box around(const Box &a, const Box &b) {
    return {std::min(a.left, b.left), std::min(a.bottom, b.bottom), std::max(a.right, b.right), std::max(a.top, b.top)};
}

static std::int64_t area(const Box &box) {
    return (std::int64_t{box.right} - box.left) * (std::int64_t{box.top} - box.bottom);
}

// How much larger a box grows that has to take in another one.
static std::int64_t growth(const Box &box, const Box &other) {
    return area(around(box, other)) - area(box);
}

struct Node;

struct Entry {
    Box box;
    union {
        Node *child; // of a node above the leaves
        Id id;       // of a leaf
    };
};

struct Node {
    bool leaf;
    size_t count;
    Entry entries[MOST + 1]; // one too many, until the node is split
};

static Box frame(const Node &node) {
    Box box = node.entries[0].box;
    for (size_t i = 1; i < node.count; i++)
        box = around(box, node.entries[i].box);
    return box;
}

class Tree {
    std::deque<Node> nodes; // none is ever let go
    Node *root;

    Node *made(bool leaf) {
        nodes.emplace_back();
        nodes.back().leaf = leaf;
        nodes.back().count = 0;
        return &nodes.back();
    }

    // The pair that would waste the most area in one node.
    static void pick_seeds(const std::vector<Entry> &entries, size_t &first, size_t &second) {
        std::int64_t most = std::numeric_limits<std::int64_t>::min();
        for (size_t i = 0; i < entries.size(); i++)
            for (size_t j = i + 1; j < entries.size(); j++) {
                std::int64_t waste = area(around(entries[i].box, entries[j].box)) - area(entries[i].box) - area(entries[j].box);
                if (waste > most)
                    most = waste, first = i, second = j;
            }
    }

    // The entry whose choice of a node makes the greatest difference.
    static size_t pick_next(const std::vector<Entry> &entries, const Box &one, const Box &other) {
        size_t next = 0;
        std::int64_t greatest = -1;
        for (size_t i = 0; i < entries.size(); i++) {
            std::int64_t difference = std::abs(growth(one, entries[i].box) - growth(other, entries[i].box));
            if (difference > greatest)
                greatest = difference, next = i;
        }
        return next;
    }

    static void put(Node &node, Box &box, const Entry &entry) {
        node.entries[node.count++] = entry;
        box = around(box, entry.box);
    }

    // Parts the entries of a node that has one too many, and answers the new node that has the others.
    Node *split(Node &one) {
        Node &other = *made(one.leaf);
        std::vector<Entry> waiting(one.entries, one.entries + one.count);
        size_t first = 0, second = 1;
        pick_seeds(waiting, first, second);
        Box box = waiting[first].box, other_box = waiting[second].box;
        one.count = 0;
        put(one, box, waiting[first]);
        put(other, other_box, waiting[second]);
        waiting.erase(waiting.begin() + second);
        waiting.erase(waiting.begin() + first);
        while (!waiting.empty()) {
            size_t next = pick_next(waiting, box, other_box);
            Entry entry = waiting[next];
            waiting[next] = waiting.back();
            waiting.pop_back();
            // Where one of the nodes needs all that are left, it gets them.
            size_t rest = waiting.size() + 1;
            std::int64_t here = growth(box, entry.box), there = growth(other_box, entry.box);
            bool to_one;
            if (one.count + rest == LEAST || other.count + rest == LEAST)
                to_one = one.count + rest == LEAST;
            else if (here != there)
                to_one = here < there;
            else if (area(box) != area(other_box))
                to_one = area(box) < area(other_box);
            else
                to_one = one.count <= other.count;
            if (to_one)
                put(one, box, entry);
            else
                put(other, other_box, entry);
        }
        return &other;
    }

    // The child that has to grow the least; of several the smallest.
    static size_t choose(const Node &node, const Box &box) {
        size_t best = 0;
        std::int64_t least = growth(node.entries[0].box, box);
        for (size_t i = 1; i < node.count; i++) {
            std::int64_t more = growth(node.entries[i].box, box);
            if (more < least || (more == least && area(node.entries[i].box) < area(node.entries[best].box)))
                least = more, best = i;
        }
        return best;
    }

    // Places an entry below the node. Where the node had to be split, its new neighbour is answered.
    Node *place(Node &node, const Entry &entry) {
        if (node.leaf) {
            node.entries[node.count++] = entry;
        } else {
            Entry &chosen = node.entries[choose(node, entry.box)];
            if (Node *added = place(*chosen.child, entry)) {
                chosen.box = frame(*chosen.child);
                Entry &beside = node.entries[node.count++];
                beside.box = frame(*added);
                beside.child = added;
            } else {
                chosen.box = around(chosen.box, entry.box);
            }
        }
        return node.count > MOST ? split(node) : nullptr;
    }

    static void find(const Node &node, const Box &window, std::vector<Id> &found) {
        for (size_t i = 0; i < node.count; i++)
            if (meet(node.entries[i].box, window)) {
                if (node.leaf)
                    found.push_back(node.entries[i].id);
                else
                    find(*node.entries[i].child, window, found);
            }
    }

public:
    Tree() : root(made(true)) {}

    void place(const Box &box, Id id) {
        Entry entry;
        entry.box = box;
        entry.id = id;
        if (Node *added = place(*root, entry)) {
            Node *above = made(false);
            for (Node *child : {root, added}) {
                above->entries[above->count].box = frame(*child);
                above->entries[above->count++].child = child;
            }
            root = above;
        }
    }

    void find(const Box &window, std::vector<Id> &found) const { find(*root, window, found); }
};

[[noreturn]] static void stop(const string &what) {
    std::fprintf(stderr, "baseline: %s\n", what.c_str());
    std::exit(1);
}

// What is left of a line. Each of these says whether the line goes on so, and takes that away.
class Words {
    string_view rest;

public:
    explicit Words(string_view line) : rest(line) {}

    bool text(string_view wanted) {
        if (rest.substr(0, wanted.size()) != wanted)
            return false;
        rest.remove_prefix(wanted.size());
        return true;
    }

    template <class Number> bool number(Number &value) {
        auto [end, fault] = std::from_chars(rest.data(), rest.data() + rest.size(), value);
        if (fault != std::errc())
            return false;
        rest.remove_prefix(end - rest.data());
        return true;
    }

    bool name(string_view &value) {
        size_t length = std::min(rest.find_first_not_of("abcdefghijklmnopqrstuvwxyz0123456789-"), rest.size());
        value = rest.substr(0, length);
        rest.remove_prefix(length);
        return length >= 1 && length <= MOST_NAME;
    }

    // `x y`, both within the whole square.
    bool place(Coordinate &x, Coordinate &y) {
        return number(x) && text(" ") && number(y) && -GREATEST <= x && x <= GREATEST && -GREATEST <= y && y <= GREATEST;
    }

    // A point, behind its word.
    bool point(Box &box) {
        if (!place(box.left, box.bottom) || !text(")"))
            return false;
        box.right = box.left, box.top = box.bottom;
        return true;
    }

    // A rectangle, behind its word.
    bool rectangle(Box &box) {
        Coordinate x[5], y[5];
        for (int i = 0; i < 5; i++)
            if (!place(x[i], y[i]) || !text(i < 4 ? ", " : "))"))
                return false;
        box = {x[0], y[0], x[2], y[2]};
        return x[1] == x[2] && y[1] == y[0] && x[3] == x[0] && y[3] == y[2] && x[4] == x[0] && y[4] == y[0] && x[0] < x[2] && y[0] < y[2];
    }

    bool end() const { return rest.empty(); }
};

// Standard output, through a buffer.
class Output {
    string buffer;

public:
    Output() { buffer.reserve(BUFFER); }

    Output &operator<<(string_view text) {
        if (buffer.size() + text.size() > BUFFER)
            flush();
        buffer.append(text);
        return *this;
    }

    Output &operator<<(std::uint64_t number) {
        char digits[20];
        return *this << string_view(digits, std::to_chars(digits, digits + sizeof digits, number).ptr - digits);
    }

    void flush() {
        if (std::fwrite(buffer.data(), 1, buffer.size(), stdout) != buffer.size() || std::fflush(stdout) != 0)
            stop("cannot write");
        buffer.clear();
    }
};

struct Feature {
    std::uint64_t version;
    string office, kind, shape;
};

struct Addition {
    Id id;
    Box box;
    string kind;
};

class World {
    string office;
    bool begun = false;
    std::uint64_t version = 0;
    std::vector<Addition> staged;
    std::unordered_map<Id, Feature> features;
    Tree tree;
    std::vector<Id> found;
    Output &output;

    bool hello(Words words) {
        string_view name;
        if (begun || !words.name(name) || !words.end())
            return false;
        begun = true;
        output << LABEL << "hello " << name << "\n";
        return true;
    }

    bool add(Words words) {
        Addition made;
        string_view kind;
        if (staged.size() == MOST_STAGED || !words.number(made.id) || !words.text(" ") || !words.name(kind) || !words.text(" ") ||
            !words.text("POINT (") || !words.point(made.box) || !words.end())
            return false;
        made.kind = kind;
        staged.push_back(std::move(made));
        output << LABEL << "staged\n";
        return true;
    }

    bool commit(Words words) {
        if (staged.empty() || !words.end())
            return false;
        version++;
        for (Addition &made : staged) {
            string shape = "POINT (" + std::to_string(made.box.left) + " " + std::to_string(made.box.bottom) + ")";
            if (!features.emplace(made.id, Feature{version, office, std::move(made.kind), std::move(shape)}).second)
                return false;
            tree.place(made.box, made.id);
        }
        staged.clear();
        output << LABEL << "applied " << version << "\n";
        return true;
    }

    bool search(Words words) {
        Box window;
        bool known = words.text("POINT (") ? words.point(window) : words.text("POLYGON ((") && words.rectangle(window);
        if (!known || !words.end())
            return false;
        found.clear();
        tree.find(window, found);
        std::sort(found.begin(), found.end());
        output << LABEL << "rows " << found.size() << "\n";
        for (Id id : found) {
            const Feature &feature = features.find(id)->second;
            output << LABEL << id << " " << feature.version << " " << feature.office << " " << feature.kind << " " << feature.shape << "\n";
        }
        return true;
    }

public:
    World(string office, Output &output) : office(std::move(office)), output(output) {}

    // Answers a line, and whether it is one that is known.
    bool answer(string_view line) {
        Words words(line);
        if (!words.text(LABEL))
            return false;
        if (words.text("HELLO "))
            return hello(words);
        if (!begun)
            return false;
        if (words.text("ADD "))
            return add(words);
        if (words.text("COMMIT"))
            return commit(words);
        return words.text("SEARCH ") && search(words);
    }
};

int main(int count, char **words) {
    if (count != 3)
        stop("usage: baseline OFFICE FILE");
    std::vector<char> buffer(BUFFER);
    std::ifstream file;
    file.rdbuf()->pubsetbuf(buffer.data(), buffer.size());
    file.open(words[2]);
    if (!file)
        stop(string("cannot read ") + words[2]);
    Output output;
    World world(words[1], output);
    string line;
    for (size_t number = 1; std::getline(file, line); number++)
        if (!world.answer(line))
            stop("line " + std::to_string(number) + " is none that it knows here: " + line);
    if (file.bad())
        stop(string("cannot read ") + words[2]);
    output.flush();
}
