// The proved table, which is linked into this process: the C++ header over libcuckoo_map.a, with its
// handle for each thread and its retries.
#pragma once
#include "table.h"
#include <cuckoo_map.hpp>

template <class Key> struct Proved {
  using View = std::conditional_t<std::is_same_v<Key, std::string>, std::string_view, Key>;
  cuckoo::map<View, uint64_t> map;
  explicit Proved(uint64_t keys) : map(cuckoo::options{keys ? keys : 4096, 16, 64}) {}
  bool find(const Key &key, uint64_t &value) { return map.find(key, value); }
  bool insert(const Key &key, uint64_t value) { return map.insert(key, value); }
  bool update(const Key &key, uint64_t value) { return map.update(key, value); }
  bool add(const Key &key) { return map.add(key, 1); }
  bool erase(const Key &key) { return map.erase(key); }
};
