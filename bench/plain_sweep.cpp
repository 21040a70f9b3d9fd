// A plain sweep over straights, with nothing proved and no certificate: do any two of them meet in
// a place that is not a common end? The live straights are a std::set. Straights come as 32-bit
// numbers, x and y of each end.
//
// usage: plain_sweep FILE [read]      (read: the numbers are read and added up, and nothing swept)
#include <algorithm>
#include <cstdint>
#include <cstdio>
#include <cstring>
#include <set>
#include <vector>

struct Point {
    int64_t x, y;
    bool operator==(const Point &p) const { return x == p.x && y == p.y; }
    bool operator<(const Point &p) const { return x < p.x || (x == p.x && y < p.y); }
};
struct Edge { Point low, high; };

static int turn(const Point &a, const Point &b, const Point &c) {
    __int128 cross = (__int128)(b.x - a.x) * (c.y - a.y) - (__int128)(b.y - a.y) * (c.x - a.x);
    return cross > 0 ? 1 : cross < 0 ? -1 : 0;
}

static std::vector<Edge> edges;

// Live edges from below to above, and of edges with one low end by slope.
struct Above {
    bool operator()(uint32_t a, uint32_t b) const {
        if (a == b) return false;
        const Edge &p = edges[a], &q = edges[b];
        int side;
        if (q.low < p.low) {
            side = -turn(q.low, q.high, p.low);
            if (side == 0) side = -turn(q.low, q.high, p.high);
        } else {
            side = turn(p.low, p.high, q.low);
            if (side == 0) side = turn(p.low, p.high, q.high);
        }
        return side != 0 ? side > 0 : a < b;
    }
};

static bool on(const Edge &e, const Point &p) {
    return turn(e.low, e.high, p) == 0 && !(p < e.low) && !(e.high < p);
}

// Two edges have a place in common that is not an end of both.
static bool bad(const Edge &p, const Edge &q) {
    int a = turn(p.low, p.high, q.low), b = turn(p.low, p.high, q.high);
    int c = turn(q.low, q.high, p.low), d = turn(q.low, q.high, p.high);
    if (a * b < 0 && c * d < 0) return true;
    const Point ends[4] = {p.low, p.high, q.low, q.high};
    for (int i = 0; i < 4; i++) {
        const Edge &other = i < 2 ? q : p;
        if (on(other, ends[i]) && !(ends[i] == other.low) && !(ends[i] == other.high)) return true;
    }
    return p.low == q.low && p.high == q.high;
}

int main(int argc, char **argv) {
    FILE *file = fopen(argv[1], "rb");
    if (!file) return 2;
    int32_t n[4];
    int64_t sum = 0;
    while (fread(n, sizeof n, 1, file) == 1) {
        Point a{n[0], n[1]}, b{n[2], n[3]};
        edges.push_back(a < b ? Edge{a, b} : Edge{b, a});
        sum += n[0] + n[1] + n[2] + n[3];
    }
    if (argc > 2 && !strcmp(argv[2], "read")) {
        printf("%zu straights, sum %lld\n", edges.size(), (long long)sum);
        return 0;
    }
    struct End { Point at; uint32_t edge; bool starts; };
    std::vector<End> ends;
    ends.reserve(2 * edges.size());
    for (uint32_t e = 0; e < edges.size(); e++) {
        ends.push_back({edges[e].low, e, true});
        ends.push_back({edges[e].high, e, false});
    }
    std::sort(ends.begin(), ends.end(), [](const End &a, const End &b) {
        return a.at < b.at || (a.at == b.at && a.starts < b.starts);
    });
    std::set<uint32_t, Above> live;
    std::vector<std::set<uint32_t, Above>::iterator> place(edges.size());
    size_t events = 0, widest = 0;
    for (size_t i = 0; i < ends.size(); i++) {
        events += i == 0 || !(ends[i].at == ends[i - 1].at);
        const uint32_t e = ends[i].edge;
        if (ends[i].starts) {
            auto [it, fresh] = live.insert(e);
            if (!fresh) return printf("bad\n"), 1;
            place[e] = it;
            if (it != live.begin() && bad(edges[*std::prev(it)], edges[e])) return printf("bad\n"), 1;
            if (std::next(it) != live.end() && bad(edges[*std::next(it)], edges[e])) return printf("bad\n"), 1;
            widest = std::max(widest, live.size());
        } else {
            auto it = place[e];
            if (it != live.begin() && std::next(it) != live.end()
                && bad(edges[*std::prev(it)], edges[*std::next(it)])) return printf("bad\n"), 1;
            live.erase(it);
        }
    }
    printf("good, %zu events, at most %zu live\n", events, widest);
    return 0;
}
