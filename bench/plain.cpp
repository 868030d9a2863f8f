// A plain search of the same kind as `best`, to measure against: label-setting over arrays, each fix's legs chained by
// `first` and `next`, which are built anew for every call. It makes the same charts as the program `bench` and prints
// the same sums.
#include <chrono>
#include <cstdint>
#include <cstdio>
#include <vector>

struct Leg { uint16_t from, to; uint32_t low, high; uint16_t top; bool open; };
struct Chart { uint16_t n; std::vector<Leg> legs; };
struct QuickestTotal { uint32_t seconds; uint16_t legs; };

static bool better(const QuickestTotal& a, const QuickestTotal& b) {
    return a.seconds < b.seconds || (a.seconds == b.seconds && a.legs < b.legs);
}

static bool best(const Chart& c, uint16_t departure, uint16_t destination, QuickestTotal& out) {
    const int NONE = 65535;
    std::vector<uint16_t> first(c.n, NONE), next(c.legs.size(), NONE);
    for (int k = (int)c.legs.size() - 1; k >= 0; --k) {
        next[k] = first[c.legs[k].from];
        first[c.legs[k].from] = (uint16_t)k;
    }
    std::vector<QuickestTotal> label(c.n, QuickestTotal{0, 0});
    std::vector<uint8_t> state(c.n, 0);
    state[departure] = 1;
    for (;;) {
        int u = NONE;
        for (int v = 0; v < c.n; ++v)
            if (state[v] == 1 && (u == NONE || better(label[v], label[u]))) u = v;
        if (u == NONE || u == destination) break;
        state[u] = 2;
        for (int k = first[u]; k != NONE; k = next[k]) {
            const Leg& l = c.legs[k];
            if (!l.open || state[l.to] == 2) continue;
            QuickestTotal t{label[u].seconds + l.high, (uint16_t)(label[u].legs + 1)};
            if (state[l.to] == 0 || better(t, label[l.to])) { label[l.to] = t; state[l.to] = 1; }
        }
    }
    if (state[destination] == 0) return false;
    out = label[destination];
    return true;
}

static uint32_t draw(uint32_t x) { return x * 1664525u + 1013904223u; }

static Chart lattice() {
    const int rows = 10, columns = 20;
    Chart c{rows * columns, {}};
    uint32_t x = 7;
    for (int s = 0; s + 1 < columns; ++s) {
        uint32_t high[3];
        for (int t = 0; t < 3; ++t) { x = draw(x); high[t] = 1000 + x / 65536; }
        for (int r = 0; r < rows; ++r)
            for (int t = 0; t < 3; ++t)
                if (r + t >= 1 && r + t <= rows)
                    c.legs.push_back({(uint16_t)(s * rows + r), (uint16_t)((s + 1) * rows + r + t - 1), 0, high[t], 390, true});
    }
    return c;
}

static Chart table() {
    Chart c{200, {}};
    uint32_t x = 11;
    for (int k = 0; k < 1000; ++k) {
        x = draw(x); uint16_t from = (x / 65536) % 200;
        x = draw(x); uint16_t on = (x / 65536) % 199;
        x = draw(x);
        c.legs.push_back({from, (uint16_t)((from + 1 + on) % 200), 0, 1000 + x / 65536, 390, true});
    }
    return c;
}

static void run(const char* name, const Chart& c) {
    const int calls = 2000;
    uint64_t sum = 0;
    auto begin = std::chrono::steady_clock::now();
    for (int i = 0; i < calls; ++i) {
        QuickestTotal f{0, 0};
        if (best(c, (uint16_t)(i % 10), 199, f)) sum += f.seconds + f.legs;
    }
    auto end = std::chrono::steady_clock::now();
    double us = std::chrono::duration<double, std::micro>(end - begin).count();
    std::printf("%s sum %llu\n", name, (unsigned long long)sum);
    std::fprintf(stderr, "%s %.1f us a call\n", name, us / calls);
}

int main() {
    run("lattice", lattice());
    run("table", table());
}
