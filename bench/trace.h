// A trace: the calls that every table makes, and the keys in them.
#pragma once
#include <algorithm>
#include <cmath>
#include <cstdint>
#include <cstdio>
#include <string>
#include <vector>

// Find, insert, update, add, erase, and what the key is made of.
struct Call {
  char letter;
  uint64_t number;
};

// A part of the trace that is one workload.
struct Workload {
  std::string name;
  size_t from, to;
  unsigned calls_each; // calls that count as one
  bool racy;           // several threads may answer it differently
};

inline uint64_t mix(uint64_t z) { // splitmix64
  z += 0x9e3779b97f4a7c15;
  z = (z ^ (z >> 30)) * 0xbf58476d1ce4e5b9;
  z = (z ^ (z >> 27)) * 0x94d049bb133111eb;
  return z ^ (z >> 31);
}

struct Random {
  uint64_t state;
  uint64_t next() { return mix(state++); }
  uint64_t below(uint64_t n) { return next() % n; }
  double unit() { return (next() >> 11) * 0x1p-53; }
};

// Ranks below n, as YCSB draws them: rank r has a probability in proportion to (r + 1)^-0.99
// (Gray and others 1994, "Quickly Generating Billion-Record Synthetic Databases").
class Zipfian {
  double n, theta = 0.99, zeta = 0, alpha, eta;

public:
  explicit Zipfian(uint64_t count) : n(count) {
    for (uint64_t rank = 1; rank <= count; rank++) zeta += std::pow(rank, -theta);
    alpha = 1 / (1 - theta);
    eta = (1 - std::pow(2 / n, 1 - theta)) / (1 - (1 + std::pow(0.5, theta)) / zeta);
  }
  uint64_t next(Random &random) {
    double u = random.unit(), scaled = u * zeta;
    if (scaled < 1) return 0;
    if (scaled < 1 + std::pow(0.5, theta)) return 1;
    return std::min<uint64_t>(n - 1, n * std::pow(eta * u - eta + 1, alpha));
  }
};

struct Trace {
  std::vector<Call> calls;
  std::vector<Workload> workloads;
};

// The insertions of so many keys.
inline Trace insertions(uint64_t keys) {
  Trace trace;
  for (uint64_t i = 0; i < keys; i++) trace.calls.push_back({'i', mix(i)});
  trace.workloads.push_back({"insert", 0, keys, 1, false});
  return trace;
}

// Each call on so many keys: on one that is unbound, and on one that is bound.
inline Trace all_calls(uint64_t keys) {
  Trace trace;
  for (uint64_t i = 0; i < keys; i++)
    for (char letter : std::string("eufaafifufeei")) trace.calls.push_back({letter, mix(i)});
  return trace;
}

// The insertions, and then each workload, with as many calls as there are keys. The mixes are those
// of YCSB.
inline Trace workloads(uint64_t keys, bool mixes) {
  Trace trace = insertions(keys);
  auto &calls = trace.calls;
  Random random{uint64_t(1) << 40};
  std::vector<uint64_t> order(keys);
  for (uint64_t i = 0; i < keys; i++) order[i] = calls[i].number;
  auto shuffle = [&] {
    for (uint64_t i = keys; i > 1; i--) std::swap(order[i - 1], order[random.below(i)]);
  };
  auto add = [&](const char *name, unsigned each, bool racy, auto fill) {
    size_t from = calls.size();
    shuffle();
    for (uint64_t i = 0; i < keys; i++) fill(i);
    trace.workloads.push_back({name, from, calls.size(), each, racy});
  };
  add("hit", 1, false, [&](uint64_t i) { calls.push_back({'f', order[i]}); });
  add("miss", 1, false, [&](uint64_t) { calls.push_back({'f', random.next()}); });
  add("upsert", 1, false, [&](uint64_t i) { calls.push_back({'a', order[i]}); });
  add("erase and insert", 2, false, [&](uint64_t i) {
    calls.push_back({'e', order[i]});
    calls.push_back({'i', order[i]});
  });
  if (!mixes) return trace;
  Zipfian zipfian(keys);
  auto mixed = [&](unsigned updates) {
    return [&, updates](uint64_t) {
      char letter = random.below(100) < updates ? 'u' : 'f';
      calls.push_back({letter, order[zipfian.next(random)]});
    };
  };
  add("YCSB A", 1, true, mixed(50));
  add("YCSB B", 1, true, mixed(5));
  add("YCSB C", 1, false, mixed(0));
  return trace;
}
