// The other tables, where the machine has them.
#pragma once
#include "table.h"

// The numbers are random already, so the others hash a number to itself; the proved table mixes it.
template <class Key> struct Hash : std::hash<Key> {};
template <> struct Hash<uint64_t> {
  size_t operator()(uint64_t key) const { return key; }
};

#if __has_include(<libcuckoo/cuckoohash_map.hh>)
#define HAS_LIBCUCKOO
#include <libcuckoo/cuckoohash_map.hh>
template <class Key> struct Libcuckoo {
  libcuckoo::cuckoohash_map<Key, uint64_t, Hash<Key>> map;
  explicit Libcuckoo(uint64_t keys) : map(keys ? keys : 4096) {}
  bool find(const Key &key, uint64_t &value) { return map.find(key, value); }
  bool insert(const Key &key, uint64_t value) { return map.insert(key, value); }
  bool update(const Key &key, uint64_t value) { return map.update(key, value); }
  bool add(const Key &key) {
    return map.upsert(
        key, [](uint64_t &value) { value++; }, 1);
  }
  bool erase(const Key &key) { return map.erase(key); }
};
#endif

#if __has_include(<tbb/concurrent_hash_map.h>)
#define HAS_TBB
#include <tbb/concurrent_hash_map.h>
template <class Key> struct Tbb {
  struct Compare {
    size_t hash(const Key &key) const { return Hash<Key>()(key); }
    bool equal(const Key &a, const Key &b) const { return a == b; }
  };
  using Map = tbb::concurrent_hash_map<Key, uint64_t, Compare>;
  Map map;
  explicit Tbb(uint64_t keys) : map(keys ? keys : 4096) {}
  bool find(const Key &key, uint64_t &value) {
    typename Map::const_accessor at;
    if (!map.find(at, key)) return false;
    value = at->second;
    return true;
  }
  bool insert(const Key &key, uint64_t value) {
    return map.insert(typename Map::value_type(key, value));
  }
  bool update(const Key &key, uint64_t value) {
    typename Map::accessor at;
    if (!map.find(at, key)) return false;
    at->second = value;
    return true;
  }
  bool add(const Key &key) {
    typename Map::accessor at;
    bool fresh = map.insert(at, key);
    at->second++;
    return fresh;
  }
  bool erase(const Key &key) { return map.erase(key); }
};
#endif

#if __has_include(<absl/container/flat_hash_map.h>)
#define HAS_ABSL
#include <absl/container/flat_hash_map.h>
#include <atomic>
// absl's map, which is for one thread, in 1,024 parts with a spin lock each.
template <class Key> class ShardedAbsl {
  static constexpr unsigned BITS = 10;
  struct alignas(64) Shard {
    std::atomic<uint32_t> held{0};
    absl::flat_hash_map<Key, uint64_t, Hash<Key>> map;
  };
  struct Guard {
    Shard &shard;
    explicit Guard(Shard &shard) : shard(shard) {
      for (unsigned tries = 1; shard.held.exchange(1, std::memory_order_acquire); tries++)
        if (tries % 64 == 0) std::this_thread::yield();
    }
    ~Guard() { shard.held.store(0, std::memory_order_release); }
  };
  std::vector<Shard> shards{1u << BITS};
  // By the upper bits of the hash: absl takes the lower ones.
  Shard &of(const Key &key) { return shards[Hash<Key>()(key) >> (64 - BITS)]; }

public:
  explicit ShardedAbsl(uint64_t keys) {
    for (Shard &shard : shards) shard.map.reserve(keys >> BITS);
  }
  bool find(const Key &key, uint64_t &value) {
    Guard guard(of(key));
    auto at = guard.shard.map.find(key);
    if (at == guard.shard.map.end()) return false;
    value = at->second;
    return true;
  }
  bool insert(const Key &key, uint64_t value) {
    Guard guard(of(key));
    return guard.shard.map.try_emplace(key, value).second;
  }
  bool update(const Key &key, uint64_t value) {
    Guard guard(of(key));
    auto at = guard.shard.map.find(key);
    if (at == guard.shard.map.end()) return false;
    at->second = value;
    return true;
  }
  bool add(const Key &key) {
    Guard guard(of(key));
    auto [at, fresh] = guard.shard.map.try_emplace(key, 0);
    at->second++;
    return fresh;
  }
  bool erase(const Key &key) {
    Guard guard(of(key));
    return guard.shard.map.erase(key);
  }
};
#endif

#ifdef HAS_DASHMAP
#include <string_view>
// Rust's dashmap, by the calls of bench/dashmap. It has the shards that it chooses itself.
struct DashNumbers;
struct DashTexts;
struct DashText {
  const char *at;
  size_t length;
};
extern "C" {
DashNumbers *dash_open(size_t keys);
void dash_close(DashNumbers *map);
bool dash_find(const DashNumbers *map, uint64_t key, uint64_t *value);
bool dash_insert(const DashNumbers *map, uint64_t key, uint64_t value);
bool dash_update(const DashNumbers *map, uint64_t key, uint64_t value);
bool dash_add(const DashNumbers *map, uint64_t key);
bool dash_erase(const DashNumbers *map, uint64_t key);
DashTexts *dash_text_open(size_t keys);
void dash_text_close(DashTexts *map);
bool dash_text_find(const DashTexts *map, DashText key, uint64_t *value);
bool dash_text_insert(const DashTexts *map, DashText key, uint64_t value);
bool dash_text_update(const DashTexts *map, DashText key, uint64_t value);
bool dash_text_add(const DashTexts *map, DashText key);
bool dash_text_erase(const DashTexts *map, DashText key);
// dashmap asks for it, so that a text has the hash that it has in the other tables.
uint64_t dash_hash(DashText text) { return std::hash<std::string_view>()({text.at, text.length}); }
}

template <class Key> class Dashmap;
template <> class Dashmap<uint64_t> {
  DashNumbers *map;

public:
  explicit Dashmap(uint64_t keys) : map(dash_open(keys ? keys : 4096)) {}
  Dashmap(const Dashmap &) = delete;
  ~Dashmap() { dash_close(map); }
  bool find(uint64_t key, uint64_t &value) { return dash_find(map, key, &value); }
  bool insert(uint64_t key, uint64_t value) { return dash_insert(map, key, value); }
  bool update(uint64_t key, uint64_t value) { return dash_update(map, key, value); }
  bool add(uint64_t key) { return dash_add(map, key); }
  bool erase(uint64_t key) { return dash_erase(map, key); }
};
template <> class Dashmap<std::string> {
  DashTexts *map;
  static DashText of(const std::string &key) { return {key.data(), key.size()}; }

public:
  explicit Dashmap(uint64_t keys) : map(dash_text_open(keys ? keys : 4096)) {}
  Dashmap(const Dashmap &) = delete;
  ~Dashmap() { dash_text_close(map); }
  bool find(const std::string &key, uint64_t &value) {
    return dash_text_find(map, of(key), &value);
  }
  bool insert(const std::string &key, uint64_t value) {
    return dash_text_insert(map, of(key), value);
  }
  bool update(const std::string &key, uint64_t value) {
    return dash_text_update(map, of(key), value);
  }
  bool add(const std::string &key) { return dash_text_add(map, of(key)); }
  bool erase(const std::string &key) { return dash_text_erase(map, of(key)); }
};
#endif

template <class Key> std::vector<Contestant> peers(const Trace &trace) {
  Calls<Key> calls = keyed<Key>(trace);
  std::vector<Contestant> all;
#ifdef HAS_LIBCUCKOO
  all.push_back(own<Libcuckoo<Key>>("libcuckoo", calls));
#endif
#ifdef HAS_TBB
  all.push_back(own<Tbb<Key>>("TBB", calls));
#endif
#ifdef HAS_ABSL
  all.push_back(own<ShardedAbsl<Key>>("sharded absl", calls));
#endif
#ifdef HAS_DASHMAP
  all.push_back(own<Dashmap<Key>>("dashmap", calls));
#endif
  return all;
}
