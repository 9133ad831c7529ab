// Writes a country of roads with about NODES nodes: `country NODES SEED PREFIX` makes PREFIX.gr and PREFIX.patterns.tp (a third of the arcs have
// one of 200 traffic patterns). Its cuts are as small as those of real roads.
//
// Towns with sizes by a power law lie at places of a multiplicative cascade; between them and lonely junctions country roads follow a relative
// neighbourhood graph and are cut into chains. The relative neighbourhood graph of all points, less a part of its circles, gives the streets. Then
// ever larger towns are joined by quickest paths that become roads, trunk roads and motorways. Weights are hundredths of seconds. All but a few
// streets (on circles) go both ways. Numbers are those of cells of about 1,000 nodes along a curve, shuffled inside.
#include <algorithm>
#include <cmath>
#include <cstdint>
#include <cstdio>
#include <cstdlib>
#include <functional>
#include <queue>
#include <string>
#include <vector>

typedef uint32_t u32;
typedef uint64_t u64;

struct Words {  // SplitMix64
    u64 s;
    explicit Words(u64 seed) : s(seed) {}
    u64 next() {
        u64 z = (s += 0x9E3779B97F4A7C15ull);
        z = (z ^ (z >> 30)) * 0xBF58476D1CE4E5B9ull;
        z = (z ^ (z >> 27)) * 0x94D049BB133111EBull;
        return z ^ (z >> 31);
    }
    u32 below(u32 n) { return u32(next() % n); }
    double unit() { return (next() >> 11) * (1.0 / 9007199254740992.0); }
    double normal() { return std::sqrt(-2 * std::log(1 - unit())) * std::cos(6.283185307179586 * unit()); }
};

struct P { double x, y; };
static double dist(P a, P b) { return std::hypot(a.x - b.x, a.y - b.y); }

// Relative neighbourhood graph among the k nearest: p-q stays if no r is nearer to both than they are.
static std::vector<std::pair<u32, u32>> rng(const std::vector<P> &p, double cell, u32 k) {
    double lx = 1e300, ly = 1e300, hx = -1e300, hy = -1e300;
    for (P q : p) { lx = std::min(lx, q.x); ly = std::min(ly, q.y); hx = std::max(hx, q.x); hy = std::max(hy, q.y); }
    long W = long((hx - lx) / cell) + 1, H = long((hy - ly) / cell) + 1;
    std::vector<u32> first(W * H + 2, 0), in(p.size());
    auto at = [&](P q) { return long((q.y - ly) / cell) * W + long((q.x - lx) / cell); };
    for (P q : p) first[at(q) + 2]++;
    for (long c = 0; c < W * H; c++) first[c + 2] += first[c + 1];
    for (u32 i = 0; i < p.size(); i++) in[first[at(p[i]) + 1]++] = i;
    std::vector<std::pair<u32, u32>> edges;
    std::vector<std::pair<double, u32>> near;
    for (u32 i = 0; i < p.size(); i++) {
        long cx = long((p[i].x - lx) / cell), cy = long((p[i].y - ly) / cell);
        near.clear();
        size_t sure = 0;                                   // how many lie within the ring that was looked at
        for (long r = 0; sure <= k && r < 200; r++) {
            auto look = [&](long x, long y) {
                if (x < 0 || y < 0 || x >= W || y >= H) return;
                for (u32 e = first[y * W + x]; e < first[y * W + x + 1]; e++) near.push_back({dist(p[i], p[in[e]]), in[e]});
            };
            for (long x = cx - r; x <= cx + r; x++) { look(x, cy - r); if (r) look(x, cy + r); }
            for (long y = cy - r + 1; y < cy + r; y++) { look(cx - r, y); look(cx + r, y); }
            sure = 0;
            for (auto &n : near) sure += n.first <= r * cell;
        }
        std::sort(near.begin(), near.end());
        for (size_t a = 0; a < near.size() && a <= k; a++) {
            u32 q = near[a].second;
            if (q == i) continue;
            bool keep = true;
            for (size_t b = 0; b < a && keep; b++) {
                u32 r = near[b].second;
                keep = r == i || r == q || dist(p[r], p[q]) >= near[a].first;
            }
            if (keep) edges.push_back({std::min(i, q), std::max(i, q)});
        }
    }
    std::sort(edges.begin(), edges.end());
    edges.erase(std::unique(edges.begin(), edges.end()), edges.end());
    return edges;
}

struct Union {
    std::vector<u32> up;
    explicit Union(u32 n) : up(n) { for (u32 i = 0; i < n; i++) up[i] = i; }
    u32 find(u32 v) { while (up[v] != v) v = up[v] = up[up[v]]; return v; }
    bool join(u32 a, u32 b) { a = find(a); b = find(b); if (a == b) return false; up[a] = b; return true; }
};

int main(int argc, char **argv) {
    if (argc < 4) { fprintf(stderr, "country NODES SEED PREFIX\n"); return 2; }
    u32 want = u32(atoll(argv[1]));
    Words w(u64(atoll(argv[2])) * 7919 + 17);
    std::string prefix = argv[3];
    const double spacing = 90;
    double town_nodes = 0.68 * want, side = std::sqrt(town_nodes * spacing * spacing / 0.12);
    // cascade: at each of 7 levels one of four quarters, with its own share
    u64 seed = w.next();
    auto place = [&]() {
        double x = 0, y = 0, s = side;
        u64 path = seed;
        for (int l = 0; l < 7; l++) {
            double share[4], sum = 0;
            for (int c = 0; c < 4; c++) { Words h(path * 4 + c); sum += share[c] = std::exp(0.7 * h.normal()); }
            double r = w.unit() * sum;
            int c = 0;
            while (c < 3 && r >= share[c]) r -= share[c++];
            s /= 2; x += (c & 1) * s; y += (c >> 1) * s;
            path = Words(path * 4 + c).next();
        }
        return P{x + w.unit() * s, y + w.unit() * s};
    };
    struct Town { P at; double size; u32 node; };
    std::vector<Town> towns;
    for (double sum = 0; sum < town_nodes;) {
        double size = std::min(40 * std::pow(1 - w.unit(), -1 / 1.1), want / 20.0);
        towns.push_back({place(), size, 0});
        sum += size;
    }
    std::sort(towns.begin(), towns.end(), [](const Town &a, const Town &b) { return a.size > b.size; });
    // country roads
    std::vector<P> anchors;
    for (auto &t : towns) anchors.push_back(t.at);
    for (size_t i = 0, m = 6 * towns.size(); i < m; i++) anchors.push_back(i % 3 ? place() : P{w.unit() * side, w.unit() * side});
    auto roads = rng(anchors, side / std::sqrt(double(anchors.size())), 30);
    double length = 0;
    for (auto &e : roads) length += dist(anchors[e.first], anchors[e.second]);
    double gap = length / (0.32 * want);
    std::vector<P> p;
    size_t country;
    {
        std::vector<P> all = anchors;
        for (auto &e : roads) {
            P a = anchors[e.first], b = anchors[e.second];
            double l = dist(a, b), bend = (w.unit() - 0.5) * 0.2 * l;
            u32 parts = u32(l / gap) + 1;
            for (u32 i = 1; i < parts; i++) {
                double f = double(i) / parts, o = bend * std::sin(3.14159265 * f) + (w.unit() - 0.5) * 0.3 * gap;
                all.push_back({a.x + (b.x - a.x) * f - (b.y - a.y) / l * o, a.y + (b.y - a.y) * f + (b.x - a.x) / l * o});
            }
        }
        country = all.size();
        for (auto &t : towns) {                            // a bent grid with gaps, in a disc
            double r = spacing * std::sqrt(t.size / 3.14159265), turn = w.unit() * 1.57, c = std::cos(turn), s = std::sin(turn);
            long m = long(r / spacing) + 1;
            for (long i = -m; i <= m; i++)
                for (long k = -m; k <= m; k++) {
                    double u = (i + 0.6 * (w.unit() - 0.5)) * spacing, v = (k + 0.6 * (w.unit() - 0.5)) * spacing;
                    if (u * u + v * v <= r * r) all.push_back({t.at.x + c * u - s * v, t.at.y + s * u + c * v});
                }
        }
        // points nearer than 25 m to an earlier one are left out
        const double cell = 25;
        std::vector<std::pair<u64, u32>> by;
        auto key = [&](P q) { return u64(long((q.x + 1e5) / cell)) << 32 | u64(long((q.y + 1e5) / cell)); };
        for (u32 i = 0; i < all.size(); i++) by.push_back({key(all[i]), i});
        std::sort(by.begin(), by.end());
        std::vector<uint8_t> out(all.size(), 0);
        for (size_t i = 1; i < by.size(); i++) if (by[i].first == by[i - 1].first) out[by[i].second] = 1;
        size_t kept = 0;
        for (u32 i = 0; i < all.size(); i++) { if (i < towns.size()) out[i] = 0; if (!out[i]) { p.push_back(all[i]); if (i < country) kept++; } }
        country = kept;                                    // points before are country's; towns are the first
    }
    auto edges = rng(p, 1.2 * spacing, 14);
    u32 n = u32(p.size());
    // a spanning tree stays, and of the others as many as make 1.23 edges a node
    std::vector<u32> by(edges.size());
    for (u32 i = 0; i < by.size(); i++) by[i] = i;
    auto len = [&](u32 e) { return dist(p[edges[e].first], p[edges[e].second]); };
    std::vector<double> lens(edges.size());
    for (u32 e = 0; e < edges.size(); e++) lens[e] = len(e);
    std::sort(by.begin(), by.end(), [&](u32 a, u32 b) { return lens[a] < lens[b]; });
    Union sets(n);
    std::vector<uint8_t> tree(edges.size(), 0);
    u32 in_tree = 0;
    for (u32 e : by) if (sets.join(edges[e].first, edges[e].second)) { tree[e] = 1; in_tree++; }
    double keep = std::min(1.0, (1.23 * n - in_tree) / double(edges.size() - in_tree));
    struct Edge { u32 a, b; double length, speed; uint8_t road, one_way; };
    std::vector<Edge> es;
    for (u32 e = 0; e < edges.size(); e++) {
        if (!tree[e] && w.unit() >= keep) continue;
        bool town = edges[e].first >= country && edges[e].second >= country;
        double speed = town ? 7.5 + 5 * w.unit() : 14 + 7 * w.unit();
        es.push_back({edges[e].first, edges[e].second, lens[e] * (1 + 0.15 * w.unit()), speed, 0, uint8_t(!tree[e] && town && w.unit() < 0.25)});
    }
    // the largest part
    std::vector<u32> count(n, 0);
    for (u32 v = 0; v < n; v++) count[sets.find(v)]++;
    u32 main_set = u32(std::max_element(count.begin(), count.end()) - count.begin());
    for (u32 i = 0; i < towns.size(); i++) towns[i].node = i;
    // roads between towns, the largest towns first
    std::vector<u32> first(n + 2, 0), inc(2 * es.size());
    for (auto &e : es) { first[e.a + 2]++; first[e.b + 2]++; }
    for (u32 v = 0; v < n; v++) first[v + 2] += first[v + 1];
    for (u32 i = 0; i < es.size(); i++) { inc[first[es[i].a + 1]++] = i; inc[first[es[i].b + 1]++] = i; }
    const double share[3] = {1.0 / 80000, 1.0 / 8000, 1.0 / 1000}, fast[3] = {33, 26, 20};
    std::vector<double> cost(n, 1e300);
    std::vector<u32> from(n), touched;
    for (int level = 0; level < 3; level++) {
        u32 m = std::min<u32>(std::max<u32>(u32(share[level] * want), 5 + 5 * level), u32(towns.size()));
        std::vector<P> hubs;
        for (u32 i = 0; i < m; i++) hubs.push_back(towns[i].at);
        for (auto &l : rng(hubs, side / std::sqrt(double(m)), 20)) {
            u32 s = towns[l.first].node, t = towns[l.second].node;
            if (sets.find(s) != main_set || sets.find(t) != main_set) continue;
            std::priority_queue<std::pair<double, u32>, std::vector<std::pair<double, u32>>, std::greater<std::pair<double, u32>>> q;
            touched.clear(); touched.push_back(s);
            cost[s] = 0; q.push({dist(p[s], p[t]) / 33, s});
            while (!q.empty()) {
                u32 v = q.top().second;
                double key = q.top().first;
                q.pop();
                if (v == t) break;
                if (key > cost[v] + dist(p[v], p[t]) / 33 + 1e-9) continue;
                for (u32 a = first[v]; a < first[v + 1]; a++) {
                    const Edge &e = es[inc[a]];
                    u32 x = e.a == v ? e.b : e.a;
                    double c = cost[v] + e.length / std::max(e.speed, e.road ? e.speed : 12.0);
                    if (c >= cost[x]) continue;
                    if (cost[x] > 1e299) touched.push_back(x);
                    cost[x] = c; from[x] = inc[a];
                    q.push({c + dist(p[x], p[t]) / 33, x});
                }
            }
            for (u32 v = t; cost[t] < 1e299 && v != s;) {
                Edge &e = es[from[v]];
                if (!e.road) { e.road = uint8_t(3 - level); e.speed = fast[level] * (0.95 + 0.1 * w.unit()); e.one_way = 0; }
                v = e.a == v ? e.b : e.a;
            }
            for (u32 v : touched) cost[v] = 1e300;
        }
    }
    // numbers: cells of about 1,000 nodes along a curve that keeps neighbours near, shuffled inside
    std::vector<std::pair<u64, u32>> curve;
    double grain = side / std::sqrt(want / 300.0);
    for (u32 v = 0; v < n; v++) {
        if (sets.find(v) != main_set) continue;
        u64 cx = u64((p[v].x + 2e4) / grain), cy = u64((p[v].y + 2e4) / grain), z = 0;
        for (int b = 0; b < 20; b++) z |= ((cx >> b) & 1) << (2 * b) | ((cy >> b) & 1) << (2 * b + 1);
        curve.push_back({z << 20 | (w.next() & 0xfffff), v});
    }
    std::sort(curve.begin(), curve.end());
    std::vector<u32> id(n, 0);
    for (u32 i = 0; i < curve.size(); i++) id[curve[i].second] = i + 1;
    n = u32(curve.size());
    struct Out { u32 a, b, w; uint8_t road; };
    std::vector<Out> arcs;
    for (auto &e : es) {
        if (!id[e.a]) continue;
        u32 t = u32(e.length / e.speed * 100) + 1;
        bool turn = w.next() & 1;
        u32 a = turn ? e.b : e.a, b = turn ? e.a : e.b;
        arcs.push_back({id[a], id[b], t, e.road});
        if (!e.one_way) arcs.push_back({id[b], id[a], t + w.below(t / 20 + 1), e.road});
    }
    FILE *f = fopen((prefix + ".gr").c_str(), "wb");
    fprintf(f, "p sp %u %zu\n", n, arcs.size());
    for (auto &a : arcs) fprintf(f, "a %u %u %u\n", a.a, a.b, a.w);
    fclose(f);
    // 200 patterns of 96 steps, at a third of the arcs
    std::vector<std::pair<u32, u32>> given;
    for (u32 i = 0; i < arcs.size(); i++) if (w.unit() < 1 / 3.) given.push_back({i + 1, 1 + w.below(200)});
    f = fopen((prefix + ".patterns.tp").c_str(), "wb");
    fprintf(f, "p tp 200 %zu\n", given.size());
    Words words(9);
    for (u32 j = 1; j <= 200; j++) {
        fprintf(f, "k %u speeds 8640000 96\n", j);
        int mid[2], half[2], most[2];
        for (int r = 0; r < 2; r++) { mid[r] = (r ? 70 : 32) - 3 + int(words.below(7)); half[r] = 4 + int(words.below(9)); most[r] = 200 + int(words.below(380)); }
        for (int s = 0; s < 96; s++) {
            int lost = 0;
            for (int r = 0; r < 2; r++) lost += std::max(0, most[r] - most[r] * std::abs(s - mid[r]) / half[r]);
            fprintf(f, "v %d %d\n", 90000 * s, std::max(400, 1000 - lost - int(words.below(25))));
        }
    }
    for (auto &g : given) fprintf(f, "t %u %u\n", g.first, g.second);
    fclose(f);
    fprintf(stderr, "%u nodes, %zu arcs, %zu towns, %.0f km wide\n", n, arcs.size(), towns.size(), side / 1000);
}
