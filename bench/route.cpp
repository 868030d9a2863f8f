// A plain search of the same kind as `least_regret`, to measure against: it goes over the chains in the order of their
// lists, depth first, and drops a chain by its pursuit bound alone. It makes the same lattices as the program
// `lattice_bench` and prints the same answers. It serves charts whose legs all lead from an earlier to a later fix, for
// some order of the fixes; those of lattices do.
#include <algorithm>
#include <cstdint>
#include <cstdio>
#include <cstdlib>
#include <ctime>
#include <vector>

struct Leg { uint16_t from, to; int32_t low, high; };
struct Chart { int fixes; std::vector<Leg> legs; };
struct Ends { int from, to; };
struct Route { bool found = false; int32_t regret = 0; std::vector<uint16_t> legs; };

// More seconds than any route takes.
static const int32_t FAR = 1'000'000'000;

class Search {
public:
    Search(const Chart& chart, Ends ends)
        : chart(chart), ends(ends), out(chart.fixes), place(chart.fixes, 0), margins(chart.fixes * chart.fixes, 0),
          own(chart.legs.size(), false), time(chart.fixes, FAR), done(chart.fixes, false) {
        index();
        put_in_order();
        fill_margins();
    }

    void run() { explore(ends.from); }

    Route best;
    long chains = 0; // that were looked at

private:
    const Chart& chart;
    const Ends ends;
    std::vector<std::vector<uint16_t>> out; // for each fix the legs that leave it
    std::vector<int> order;                 // every leg leads to a later fix
    std::vector<int> place;                 // where in the order a fix stands
    std::vector<int32_t> margins;           // for each fix of the route one row, for each fix of the rival one column
    std::vector<uint16_t> chain;
    std::vector<uint8_t> own; // whether a leg is on the chain
    int32_t high = 0;         // the high times of the chain together
    std::vector<int32_t> time;
    std::vector<uint8_t> done;

    int32_t& margin(int a, int b) { return margins[a * chart.fixes + b]; }

    // No route enters its departure or leaves its destination.
    void index() {
        for (size_t k = 0; k < chart.legs.size(); ++k) {
            const Leg& leg = chart.legs[k];
            if (leg.to != ends.from && leg.from != ends.to) out[leg.from].push_back((uint16_t)k);
        }
    }

    void put_in_order() {
        std::vector<int> before(chart.fixes, 0);
        for (const auto& legs : out)
            for (int k : legs) ++before[chart.legs[k].to];
        for (int v = 0; v < chart.fixes; ++v)
            if (before[v] == 0) order.push_back(v);
        for (size_t i = 0; i < order.size(); ++i)
            for (int k : out[order[i]])
                if (--before[chart.legs[k].to] == 0) order.push_back(chart.legs[k].to);
        if ((int)order.size() < chart.fixes) std::abort();
        for (int i = 0; i < chart.fixes; ++i) place[order[i]] = i;
    }

    // The route moves, which is behind: it takes the least of its ways on.
    int32_t route_moves(int a, int b) {
        int32_t least = FAR;
        for (int e : out[a]) least = std::min(least, chart.legs[e].high + margin(chart.legs[e].to, b));
        return least;
    }

    // The rival moves, which is behind: it takes the best of its ways on.
    int32_t rival_moves(int a, int b) {
        int32_t most = -FAR;
        for (int f : out[b]) most = std::max(most, margin(a, chart.legs[f].to) - chart.legs[f].low);
        return most;
    }

    // Both leave one fix. Where they take the same leg, it takes the same time for both.
    int32_t both_move(int a) {
        int32_t least = FAR;
        for (int e : out[a]) {
            int32_t most = -FAR;
            for (int f : out[a]) {
                const Leg& counter = chart.legs[f];
                most = std::max(most, margin(chart.legs[e].to, counter.to) - (f == e ? counter.high : counter.low));
            }
            least = std::min(least, chart.legs[e].high + most);
        }
        return least;
    }

    int32_t next_margin(int a, int b) {
        if (a == b) return a == ends.to ? 0 : both_move(a);
        if (place[b] < place[a]) return b == ends.to ? FAR : rival_moves(a, b);
        return a == ends.to ? -FAR : route_moves(a, b);
    }

    // By how much the route, from the fix `a` on, at least loses to a rival from the fix `b` on, which sees where the route
    // is. Where the route has no way on it is FAR, and where the rival has none −FAR.
    void fill_margins() {
        for (int i = chart.fixes - 1; i >= 0; --i)
            for (int j = chart.fixes - 1; j >= 0; --j) {
                int a = order[i], b = order[j];
                margin(a, b) = std::clamp(next_margin(a, b), -FAR, FAR);
            }
    }

    int32_t worst_time(int k) const { return own[k] ? chart.legs[k].high : chart.legs[k].low; }

    // Lets a rival take each leg that leaves the fix `u`.
    void take_legs(int u) {
        for (int k : out[u]) {
            int32_t& known = time[chart.legs[k].to];
            known = std::min(known, time[u] + worst_time(k));
        }
    }

    void begin_times() {
        std::fill(time.begin(), time.end(), FAR);
        time[ends.from] = 0;
    }

    // The pursuit bound of the chain, which leads to the fix `here`: a rival comes to a fix from there on by legs that leave
    // earlier fixes, and pursues the route from there.
    int32_t bound(int here) {
        begin_times();
        for (int i = 0; i < place[here]; ++i)
            if (time[order[i]] < FAR) take_legs(order[i]);
        int32_t most = -FAR;
        for (int i = place[here]; i < chart.fixes; ++i) {
            int b = order[i];
            int32_t ahead = margin(here, b);
            if (time[b] == FAR || ahead == -FAR) continue;
            if (ahead == FAR) return FAR;
            most = std::max(most, high - time[b] + ahead);
        }
        return most;
    }

    // The regret of the chain as a route, by label-setting.
    int32_t regret() {
        begin_times();
        std::fill(done.begin(), done.end(), false);
        for (;;) {
            int u = -1;
            for (int v = 0; v < chart.fixes; ++v)
                if (!done[v] && time[v] < FAR && (u < 0 || time[v] < time[u])) u = v;
            if (u < 0 || u == ends.to) return high - time[ends.to];
            done[u] = true;
            take_legs(u);
        }
    }

    bool is_better(int32_t regret) const {
        return !best.found || regret < best.regret || (regret == best.regret && chain < best.legs);
    }

    // Compares every route that begins with the chain, which leads to the fix `here`, with the best so far, or drops it.
    void explore(int here) {
        ++chains;
        if (here == ends.to) {
            int32_t own_regret = regret();
            if (is_better(own_regret)) best = {true, own_regret, chain};
            return;
        }
        int32_t least = bound(here);
        if (least == FAR || !is_better(least)) return;
        for (int k : out[here]) {
            const Leg& leg = chart.legs[k];
            chain.push_back((uint16_t)k);
            own[k] = true;
            high += leg.high;
            explore(leg.to);
            high -= leg.high;
            own[k] = false;
            chain.pop_back();
        }
    }
};

// Numbers without pattern, the same on every run.
struct Numbers {
    uint32_t last;
    uint32_t draw() { return (last = last * 1664525u + 1013904223u) / 65536; }
    int32_t up_to(uint32_t most) { return (int32_t)(draw() % (most + 1)); }
};

// How the times of legs are drawn: the least low time, which a leg to another row has `slant` more of, and what the interval
// is wide at least; and up to how much each varies.
struct Kind { const char* name; int32_t low, slant, low_varies, width, width_varies; };

static const Kind KINDS[] = {
    {"near", 3000, 60, 100, 50, 250},
    {"medium", 2400, 60, 1200, 0, 1200},
    {"wide", 0, 0, 50000, 0, 50000},
    {"same", 3000, 0, 0, 1000, 0},
};

static Chart lattice(int rows, int columns, const Kind& kind) {
    Chart chart{rows * columns, {}};
    Numbers numbers{(uint32_t)(rows * columns)};
    for (int s = 0; s + 1 < columns; ++s) {
        int32_t low[3], high[3];
        for (int t = 0; t < 3; ++t) {
            low[t] = kind.low + (t == 1 ? 0 : kind.slant) + numbers.up_to(kind.low_varies);
            high[t] = low[t] + kind.width + numbers.up_to(kind.width_varies);
        }
        for (int r = 0; r < rows; ++r)
            for (int t = 0; t < 3; ++t)
                if (r + t >= 1 && r + t <= rows)
                    chart.legs.push_back({(uint16_t)(s * rows + r), (uint16_t)((s + 1) * rows + r + t - 1), low[t], high[t]});
    }
    return chart;
}

// How many microseconds the processor has worked on this program: other work on the machine does not count.
static double processor_micros() {
    timespec used;
    clock_gettime(CLOCK_PROCESS_CPUTIME_ID, &used);
    return used.tv_sec * 1e6 + used.tv_nsec / 1e3;
}

static const int CALLS = 10;

static void answer(const char* name, const Chart& chart, Ends ends) {
    Route best;
    long chains = 0;
    double least = 0;
    for (int call = 0; call < CALLS; ++call) {
        double begin = processor_micros();
        Search search(chart, ends);
        search.run();
        double micros = processor_micros() - begin;
        if (call == 0 || micros < least) least = micros;
        best = search.best;
        chains = search.chains;
    }
    std::printf("%s regret %d legs", name, best.regret);
    for (int k : best.legs) std::printf(" %d", k);
    std::printf("\n");
    std::fprintf(stderr, "%s %.1f us, %ld chains\n", name, least, chains);
}

int main() {
    for (int rows : {3, 5, 10})
        for (int columns : {10, 14, 17, 20})
            for (const Kind& kind : KINDS) {
                Chart chart = lattice(rows, columns, kind);
                int last = (columns - 1) * rows;
                char name[64];
                std::snprintf(name, sizeof name, "%d %d %s middle", rows, columns, kind.name);
                answer(name, chart, {rows / 2, last + rows / 2});
                std::snprintf(name, sizeof name, "%d %d %s corner", rows, columns, kind.name);
                answer(name, chart, {0, last + rows - 1});
            }
}
