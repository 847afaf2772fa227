// What is measured of a table, and how a C++ table does it.
#pragma once
#include "trace.h"
#include <atomic>
#include <chrono>
#include <functional>
#include <memory>
#include <pthread.h>
#include <sched.h>
#include <thread>
#include <type_traits>

struct Timed {
  double nanos;
  uint64_t sum; // of the answers
};

// Nanoseconds of a call.
struct Latencies {
  uint64_t sum;
  double mean, half, p99, p999, longest;
};

// Nanoseconds of the longest call.
struct Pauses {
  uint64_t sum;
  double find, insertion;
};

class Table {
public:
  virtual ~Table() = default;
  // Makes the calls from one position to another by so many threads, each a part of them.
  virtual Timed run(size_t from, size_t to, unsigned threads) = 0;
  // Makes them by one thread, and times each.
  virtual Latencies time_each(size_t from, size_t to) = 0;
  // Makes them by so many threads, and where it `finds`, one thread more finds the keys of the first
  // calls meanwhile.
  virtual Pauses pause(size_t from, size_t to, unsigned threads, bool finds) = 0;
  // The memory that the table's process has.
  virtual long resident() const = 0;
};

// A kind of table for the calls of one trace. `open` opens one for so many keys, the smallest one
// for 0, and so many threads.
struct Contestant {
  std::string name;
  std::function<std::unique_ptr<Table>(uint64_t keys, unsigned threads)> open;
};

inline long resident_of(const std::string &process) {
  long all = 0, resident = 0;
  if (FILE *file = fopen(("/proc/" + process + "/statm").c_str(), "r")) {
    if (fscanf(file, "%ld %ld", &all, &resident) != 2) resident = 0;
    fclose(file);
  }
  return resident * 4096;
}

// A call with its key, which is a number or a text.
template <class Key> struct KeyedCall {
  char letter;
  Key key;
  uint64_t number;
};

template <class Key> using Calls = std::shared_ptr<const std::vector<KeyedCall<Key>>>;

template <class Key> Calls<Key> keyed(const Trace &trace) {
  auto calls = std::make_shared<std::vector<KeyedCall<Key>>>();
  calls->reserve(trace.calls.size());
  for (const Call &call : trace.calls) {
    if constexpr (std::is_same_v<Key, uint64_t>)
      calls->push_back({call.letter, call.number, call.number});
    else
      calls->push_back({call.letter, "key " + std::to_string(call.number), call.number});
  }
  return calls;
}

// A table of this process: a class with a constructor (keys), and find, insert, update, add, erase.
template <class Key, class Map> class Own : public Table {
  using Clock = std::chrono::steady_clock;
  Calls<Key> calls;
  Map map;

  static double nanos(Clock::duration time) {
    return std::chrono::duration<double, std::nano>(time).count();
  }

  // Binds this thread to the last processor alone, or to all others.
  static void bind(bool to_last) {
    unsigned last = std::max(1u, std::thread::hardware_concurrency()) - 1;
    cpu_set_t set;
    CPU_ZERO(&set);
    for (unsigned one = 0; one <= last; one++)
      if ((one == last) == to_last) CPU_SET(one, &set);
    if (last > 0) pthread_setaffinity_np(pthread_self(), sizeof set, &set);
  }

  // A number of the answer.
  uint64_t make(const KeyedCall<Key> &call) {
    switch (call.letter) {
    case 'f': {
      uint64_t value = 0;
      return map.find(call.key, value) ? value : 0;
    }
    case 'i': return map.insert(call.key, call.number);
    case 'u': return map.update(call.key, call.number);
    case 'a': return map.add(call.key);
    default: return map.erase(call.key);
    }
  }

  uint64_t make_all(size_t from, size_t to) {
    uint64_t sum = 0;
    for (const KeyedCall<Key> *call = calls->data() + from; call != calls->data() + to; call++)
      sum += make(*call);
    return sum;
  }

public:
  Own(const Calls<Key> &calls, uint64_t keys) : calls(calls), map(keys) {}

  Timed run(size_t from, size_t to, unsigned threads) override {
    size_t size = (to - from + threads - 1) / threads;
    std::vector<uint64_t> sums(threads * 16); // 16: no two in one line of the cache
    auto part = [&](unsigned i) {
      sums[i * 16] = make_all(std::min(to, from + i * size), std::min(to, from + (i + 1) * size));
    };
    std::vector<std::thread> others;
    auto start = Clock::now();
    for (unsigned i = 1; i < threads; i++) others.emplace_back(part, i);
    part(0);
    for (auto &other : others) other.join();
    double time = nanos(Clock::now() - start);
    uint64_t sum = 0;
    for (uint64_t one : sums) sum += one;
    return {time, sum};
  }

  Latencies time_each(size_t from, size_t to) override {
    std::vector<double> times(to - from);
    uint64_t sum = 0;
    auto last = Clock::now();
    for (size_t i = from; i < to; i++) {
      sum += make((*calls)[i]);
      auto now = Clock::now();
      times[i - from] = nanos(now - last);
      last = now;
    }
    std::sort(times.begin(), times.end());
    double all = 0;
    for (double time : times) all += time;
    auto within = [&](size_t calls) {
      return times[std::min(times.size() - 1, times.size() * calls / 1000)];
    };
    return {sum, all / times.size(), within(500), within(990), within(999), times.back()};
  }

  // The longest of finds of the keys of the first calls, until it is over.
  double longest_find(size_t calls_made, const std::atomic<bool> &over) {
    double longest = 0;
    uint64_t value = 0;
    size_t i = 0;
    for (auto last = Clock::now(); !over; i = (i + 1) % std::min<size_t>(calls_made, 1000)) {
      map.find((*calls)[i].key, value);
      auto now = Clock::now();
      longest = std::max(longest, nanos(now - last));
      last = now;
    }
    return longest;
  }

  // A finding thread has a processor of its own, and the others share the rest: so what it waits for
  // is the table, and not another thread's turn on its processor.
  Pauses pause(size_t from, size_t to, unsigned threads, bool finds) override {
    std::atomic<bool> over{false};
    Pauses pauses{0, 0, 0};
    std::thread finder([&] {
      if (!finds) return;
      bind(true);
      pauses.find = longest_find(from, over);
    });
    std::vector<Latencies> found(threads);
    size_t size = (to - from + threads - 1) / threads;
    std::vector<std::thread> inserters;
    for (unsigned i = 0; i < threads; i++)
      inserters.emplace_back([&, i] {
        if (finds) bind(false);
        found[i] = time_each(std::min(to, from + i * size), std::min(to, from + (i + 1) * size));
      });
    for (auto &inserter : inserters) inserter.join();
    over = true;
    finder.join();
    for (const Latencies &one : found) {
      pauses.sum += one.sum;
      pauses.insertion = std::max(pauses.insertion, one.longest);
    }
    return pauses;
  }

  long resident() const override { return resident_of("self"); }
};

template <class Map, class Key> Contestant own(const char *name, Calls<Key> calls) {
  return {name, [calls](uint64_t keys, unsigned) {
            return std::make_unique<Own<Key, Map>>(calls, keys);
          }};
}
