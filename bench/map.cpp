// The same work as map_bench, in plain C++ over a concurrent map of TBB:
// `map keys|insert|find|pairs|merge|total COUNT THREADS`.

#include <tbb/concurrent_hash_map.h>

#include <cstdint>
#include <cstdio>
#include <cstdlib>
#include <string>
#include <thread>
#include <utility>
#include <vector>

using Pairs = std::vector<std::pair<std::uint64_t, std::uint64_t>>;
using Map = tbb::concurrent_hash_map<std::uint64_t, std::uint64_t>;

// SplitMix64.
struct Words {
    std::uint64_t state;

    std::uint64_t next() {
        state += 0x9e3779b97f4a7c15;
        std::uint64_t z = state;
        z = (z ^ (z >> 30)) * 0xbf58476d1ce4e5b9;
        z = (z ^ (z >> 27)) * 0x94d049bb133111eb;
        return z ^ (z >> 31);
    }
};

// The seed of crates/map_bench/src/keys.rt.
static const std::uint64_t SEED = 1;

// How many pairs have the same key where pairs are merged, as in crates/map_bench/src/job.rt.
static const std::uint64_t PAIRS_OF_KEY = 7;

// So many pairs of random keys, of which so many that stand side by side have the same key.
static Pairs random_pairs(std::uint64_t count, std::uint64_t of_key) {
    Words words{SEED};
    std::uint64_t key = 0;
    Pairs pairs;
    pairs.reserve(count);
    for (std::uint64_t place = 0; place < count; place++) {
        if (place % of_key == 0) {
            key = words.next();
        }
        pairs.emplace_back(key, place);
    }
    return pairs;
}

static Pairs shuffled(Pairs pairs) {
    Words words{SEED + 1};
    for (std::uint64_t place = 1; place < pairs.size(); place++) {
        std::swap(pairs[place], pairs[words.next() % (place + 1)]);
    }
    return pairs;
}

// Each thread takes a slice of the pairs, and the sum of what they answer is returned.
template <typename Part> static std::uint64_t in_threads(unsigned count, const Pairs &pairs, Part part) {
    std::vector<std::uint64_t> answers(count);
    std::vector<std::thread> threads;
    for (unsigned i = 0; i < count; i++) {
        auto from = pairs.data() + pairs.size() * i / count, to = pairs.data() + pairs.size() * (i + 1) / count;
        threads.emplace_back([&answers, &part, i, from, to] { answers[i] = part(from, to); });
    }
    std::uint64_t sum = 0;
    for (unsigned i = 0; i < count; i++) {
        threads[i].join();
        sum += answers[i];
    }
    return sum;
}

// The pairs that are stored, and one of each key, in the order in which the keys are found.
static std::pair<Pairs, Pairs> lists(bool merges, std::uint64_t count) {
    if (merges) {
        std::uint64_t keys = (count + PAIRS_OF_KEY - 1) / PAIRS_OF_KEY;
        return {shuffled(random_pairs(count, PAIRS_OF_KEY)), random_pairs(keys, 1)};
    }
    Pairs pairs = random_pairs(count, 1);
    return {pairs, shuffled(pairs)};
}

// How many of the keys were new.
static std::uint64_t insert_all(Map &map, unsigned threads, const Pairs &pairs) {
    return in_threads(threads, pairs, [&map](auto pair, auto end) {
        std::uint64_t added = 0;
        for (; pair != end; pair++) {
            added += map.insert(*pair);
        }
        return added;
    });
}

// How many of the keys were new. The values of each key are summed up.
static std::uint64_t merge_all(Map &map, unsigned threads, const Pairs &pairs) {
    return in_threads(threads, pairs, [&map](auto pair, auto end) {
        std::uint64_t added = 0;
        for (; pair != end; pair++) {
            Map::accessor held;
            if (map.insert(held, *pair)) {
                added++;
            } else {
                held->second += pair->second;
            }
        }
        return added;
    });
}

// The sum of the values of keys.
static std::uint64_t sum_of(const Map &map, unsigned threads, const Pairs &wanted) {
    return in_threads(threads, wanted, [&map](auto pair, auto end) {
        std::uint64_t sum = 0;
        for (; pair != end; pair++) {
            Map::const_accessor found;
            if (map.find(found, pair->first)) {
                sum += found->second;
            }
        }
        return sum;
    });
}

static std::uint64_t run(const std::string &mode, std::uint64_t count, unsigned threads) {
    bool merges = mode == "pairs" || mode == "merge" || mode == "total";
    auto [pairs, wanted] = lists(merges, count);
    Map map(2 * wanted.size());
    if (mode == "keys" || mode == "pairs") {
        return pairs.size();
    }
    std::uint64_t added = merges ? merge_all(map, threads, pairs) : insert_all(map, threads, pairs);
    if (mode == "insert" || mode == "merge") {
        return added;
    }
    return sum_of(map, threads, wanted);
}

int main(int argc, char **argv) {
    if (argc != 4) {
        std::fputs("usage: map keys|insert|find|pairs|merge|total COUNT THREADS\n", stderr);
        return 2;
    }
    std::printf("%llu\n", (unsigned long long)run(argv[1], std::strtoull(argv[2], nullptr, 10), std::atoi(argv[3])));
    std::fflush(stdout);
    // The map's nodes are not given back one by one: that would be timed in some of the modes alone.
    std::_Exit(0);
}
