// The cache of examples/c/lru.c in C++. It prints the same.
#include "norphuen.hpp"

#include <cstdio>
#include <cstdlib>

using norphuen::object;
using norphuen::scope;

namespace {

constexpr uint32_t most = 100, bucket_count = 64, keys = 300;

struct entry {
    uint32_t key = 0;
    object<entry> next, newer, older; // next in the bucket; newer and older in the order of use
    uint64_t value[6] = {};
};

// Ends the program on a status that it does not expect.
void must(nph_status status) {
    if (status == NPH_OK) return;
    std::fprintf(stderr, "lru: %s\n", nph_text(status));
    std::exit(1);
}

class cache {
  public:
    cache() { must(heap_.open(16, 1024, 1, most)); }

    // The last word of a key's value. A key without an entry gets one, and each word of its value is the key.
    uint64_t value_of(uint32_t key) {
        object<entry> &first = buckets_[key % bucket_count];
        entry e;
        for (object<entry> at = first; at; at = e.next) {
            e = copy_of(at);
            if (e.key != key) continue;
            unlink(e);
            put_first(at);
            hits++;
            return e.value[5];
        }
        if (count_ == most) evict();
        e = {key, first, {}, {}, {key, key, key, key, key, key}};
        object<entry> made;
        must(heap_.make(made, e));
        first = made;
        put_first(made);
        count_++;
        return key;
    }

    uint32_t newest_key() { return copy_of(newest_).key; }
    uint32_t oldest_key() { return copy_of(oldest_).key; }

    unsigned long hits = 0, evicted = 0, moves = 0;

  private:
    entry copy_of(object<entry> at) {
        scope s(heap_, at);
        must(s.status());
        auto &[e] = s;
        return e;
    }

    // Calls `change` with the entry, if there is one.
    template <class F> void with(object<entry> at, F change) {
        if (!at) return;
        scope s(heap_, at);
        must(s.status());
        auto &[e] = s;
        change(e);
    }

    // Takes an entry out of the order of use.
    void unlink(const entry &e) {
        with(e.newer, [&](entry &newer) { newer.older = e.older; });
        with(e.older, [&](entry &older) { older.newer = e.newer; });
        if (!e.newer) newest_ = e.older;
        if (!e.older) oldest_ = e.newer;
    }

    // Puts an entry in front of the order of use.
    void put_first(object<entry> at) {
        if (newest_) {
            scope s(heap_, at, newest_);
            must(s.status());
            auto &[first, second] = s;
            first.newer = {};
            first.older = newest_;
            second.newer = at;
        } else {
            with(at, [](entry &first) { first.newer = first.older = {}; });
            oldest_ = at;
        }
        newest_ = at;
    }

    // Takes the entry that was not used for longest out of its bucket and of the order, and frees it.
    void evict() {
        object<entry> out = oldest_;
        entry e = copy_of(out);
        object<entry> &first = buckets_[e.key % bucket_count];
        unlink(e);
        if (first == out) {
            first = e.next;
        } else {
            object<entry> before = first;
            for (object<entry> next; (next = copy_of(before).next) != out;) before = next;
            with(before, [&](entry &b) { b.next = e.next; });
        }
        nph_freed freed;
        must(heap_.drop(out, &freed));
        moves += freed.moved != NPH_NONE;
        evicted++;
        count_--;
    }

    norphuen::heap heap_;
    object<entry> buckets_[bucket_count], newest_, oldest_;
    uint32_t count_ = 0;
};

// A drawn number below `n`.
uint32_t draw(uint32_t n) {
    static uint64_t state = 1;
    state = state * 6364136223846793005u + 1442695040888963407u;
    return static_cast<uint32_t>(state >> 33) % n;
}

} // namespace

int main() {
    cache c;
    for (int i = 0; i < 10000; i++) {
        uint32_t key = draw(1 + draw(keys)); // low keys are drawn more often
        if (c.value_of(key) != key) return 1;
    }
    std::printf("10000 rounds: %lu hits, %lu evicted, %lu moves\n", c.hits, c.evicted, c.moves);
    std::printf("newest %u, oldest %u\n", c.newest_key(), c.oldest_key());
}
