// How long the ready queue takes for a call, beside boost's d_ary_heap with mutable_<true> and the same arity: one trace of puts, takes, rekeys and
// removes through both, with equal sums of what came out, and the ratio of their times. Build and run by bench/run.
#include <algorithm>
#include <boost/heap/d_ary_heap.hpp>
#include <chrono>
#include <cstdint>
#include <cstdio>
#include <cstdlib>
#include <cstring>
#include <set>
#include <tuple>
#include <vector>

typedef uint64_t u64;

extern "C" u64 wastelquib_queue_trace(u64 *w, size_t w_len, u64 d, const u64 *trace, size_t trace_len, u64 *handles, size_t handles_len);

enum Kind { PUT, TAKE, REKEY, REMOVE };

// A small generator of numbers, so that runs repeat.
struct Numbers {
    u64 x;
    u64 next() {
        x ^= x << 13;
        x ^= x >> 7;
        x ^= x << 17;
        return x;
    }
    u64 below(u64 n) { return next() % n; }
};

// A trace: two words to an operation, the slot times 4 with the kind, then the key.
struct Trace {
    std::vector<u64> words;
    u64 count[4] = {0, 0, 0, 0};
    void add(Kind kind, u64 slot, u64 key) {
        words.push_back(slot * 4 + kind);
        words.push_back(key);
        count[kind]++;
    }
};

// The queue as an ordered set, to know at each step which slots are live.
struct Simulation {
    std::set<std::tuple<u64, u64, u64>> queue; // key, order number, slot
    std::vector<std::pair<u64, u64>> at;       // of a live slot: key and order number
    std::vector<u64> live, place, idle;        // the live slots, where each stands there, and the others
    u64 counter = 1, now = 0;
    explicit Simulation(u64 n) : at(n), place(n) {
        for (u64 s = n; s > 0; s--) idle.push_back(s - 1);
    }
    u64 enter(u64 key) {
        u64 s = idle.back();
        idle.pop_back();
        place[s] = live.size();
        live.push_back(s);
        at[s] = {key, counter};
        queue.insert({key, counter++, s});
        return s;
    }
    void leave(u64 s) {
        queue.erase({at[s].first, at[s].second, s});
        u64 last = live.back();
        live[place[s]] = last;
        place[last] = place[s];
        live.pop_back();
        idle.push_back(s);
    }
    void rekey(u64 s, u64 key) {
        queue.erase({at[s].first, at[s].second, s});
        at[s] = {key, counter};
        queue.insert({key, counter++, s});
    }
    u64 take() {
        auto top = *queue.begin();
        now = std::get<0>(top);
        leave(std::get<2>(top));
        return std::get<2>(top);
    }
};

// First n puts; then `more` operations at three quarters of n to n live entries: a third each of puts, of rekeys, and of takes and removes, two to one. A new
// key is at most 8 n past the key last taken, so that equal keys occur.
static Trace make_trace(u64 n, u64 more, u64 seed) {
    Trace t;
    Simulation q(n);
    Numbers r{seed};
    auto key = [&] { return q.now + r.below(8 * n); };
    auto put = [&] {
        u64 k = key();
        t.add(PUT, q.enter(k), k);
    };
    for (u64 i = 0; i < n; i++) put();
    for (u64 i = 0; i < more; i++) {
        u64 dice = r.below(9);
        bool full = q.live.size() == n, low = q.live.size() <= n * 3 / 4;
        if (dice < 3) {
            u64 s = q.live[r.below(q.live.size())], k = key();
            q.rekey(s, k);
            t.add(REKEY, s, k);
        } else if (low || (dice < 6 && !full)) {
            put();
        } else if (dice == 8) {
            u64 s = q.live[r.below(q.live.size())];
            q.leave(s);
            t.add(REMOVE, s, 0);
        } else {
            t.add(TAKE, q.take(), 0);
        }
    }
    return t;
}

static u64 mix(u64 sum, u64 x) { return sum % 4294967296 * 31 + x % 4294967296; }

struct Entry {
    u64 key, order, load;
};

// boost's heaps hand the greatest out first, so that the earlier entry is the greater.
struct Later {
    bool operator()(const Entry &a, const Entry &b) const { return b.key != a.key ? b.key < a.key : b.order < a.order; }
};

template <int D> u64 boost_trace(u64 n, const Trace &t, void *) {
    typedef boost::heap::d_ary_heap<Entry, boost::heap::arity<D>, boost::heap::mutable_<true>, boost::heap::compare<Later>> Heap;
    Heap q;
    q.reserve(n);
    std::vector<typename Heap::handle_type> handles(n);
    u64 counter = 1, sum = 0, ops = t.words.size() / 2;
    for (u64 i = 0; i < ops; i++) {
        u64 kind = t.words[2 * i] % 4, slot = t.words[2 * i] / 4, key = t.words[2 * i + 1];
        if (kind == PUT) {
            handles[slot] = q.push(Entry{key, counter++, i});
        } else if (kind == TAKE) {
            const Entry &top = q.top();
            sum = mix(mix(sum, top.key), top.load);
            q.pop();
        } else if (kind == REKEY) {
            Entry &e = *handles[slot];
            e.key = key;
            e.order = counter++;
            q.update(handles[slot]);
        } else {
            sum = mix(sum, (*handles[slot]).load);
            q.erase(handles[slot]);
        }
    }
    return sum;
}

struct Memory {
    std::vector<u64> words, handles;
};

template <int D> u64 our_trace(u64, const Trace &t, void *memory) {
    Memory &m = *(Memory *)memory;
    return wastelquib_queue_trace(m.words.data(), m.words.size(), D, t.words.data(), t.words.size(), m.handles.data(), m.handles.size());
}

typedef u64 (*Side)(u64, const Trace &, void *);

static double time_ns(Side side, u64 n, const Trace &t, void *memory, u64 expected) {
    auto start = std::chrono::steady_clock::now();
    u64 sum = side(n, t, memory);
    auto end = std::chrono::steady_clock::now();
    if (sum != expected) {
        fprintf(stderr, "the sums differ\n");
        exit(1);
    }
    return std::chrono::duration<double, std::nano>(end - start).count() / (t.words.size() / 2);
}

template <int D> void compare(u64 n, const Trace &t, int turns) {
    Memory m{std::vector<u64>(8 * n), std::vector<u64>(2 * n)};
    u64 expected = boost_trace<D>(n, t, nullptr);
    double ours = 1e300, theirs = 1e300;
    for (int i = 0; i < turns; i++) {
        ours = std::min(ours, time_ns(our_trace<D>, n, t, &m, expected));
        theirs = std::min(theirs, time_ns(boost_trace<D>, n, t, nullptr, expected));
    }
    printf("%d %lu %.1f %.1f %.2f\n", D, (unsigned long)n, ours, theirs, ours / theirs);
}

// `queue` measures all. `queue SIDE ARITY SIZE TURNS` runs one side only, to be profiled.
int main(int argc, char **argv) {
    if (argc == 5) {
        bool ours = !strcmp(argv[1], "ours");
        int d = atoi(argv[2]), turns = atoi(argv[4]);
        u64 n = atoi(argv[3]), sum = 0;
        Trace t = make_trace(n, 160000, 88172645463325252u);
        Memory m{std::vector<u64>(8 * n), std::vector<u64>(2 * n)};
        Side us = d == 2 ? our_trace<2> : d == 4 ? our_trace<4> : our_trace<8>;
        Side them = d == 2 ? boost_trace<2> : d == 4 ? boost_trace<4> : boost_trace<8>;
        for (int i = 0; i < turns; i++) sum = (ours ? us : them)(n, t, &m);
        printf("%lu operations, sum %lu\n", (unsigned long)(turns * (t.words.size() / 2)), (unsigned long)sum);
        return 0;
    }
    printf("arity live ours_ns boost_ns ratio\n");
    for (u64 n : {64, 512, 4000}) {
        Trace t = make_trace(n, 160000, 88172645463325252u);
        compare<2>(n, t, 60);
        compare<4>(n, t, 60);
        compare<8>(n, t, 60);
    }
}
