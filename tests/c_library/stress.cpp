// Threads that make calls of cuckoo_map.hpp for a time, and know what has to come of them.
//
//     stress [THREADS [SECONDS [TURNS]]]      8 threads, 10 seconds, 2 turns
//
// Half of the threads have handles of their own, and the others share one. The tables open small,
// and grow. A key that is lost or a sum that is wrong is told, and then the status is 1.
#include "check.hpp"
#include <cuckoo_map.hpp>

#include <algorithm>
#include <chrono>
#include <cstdlib>
#include <random>
#include <string>
#include <thread>
#include <vector>

namespace {

constexpr std::uint64_t shared_keys = 16;
constexpr std::uint64_t own_keys = 5000;
constexpr std::uint64_t drained_keys = 20;

// The keys of numbers and texts.
std::uint64_t number_key(std::uint64_t owner, std::uint64_t key) { return owner << 32 | key; }

std::string text_key(std::uint64_t owner, std::uint64_t key) {
  return "thread " + std::to_string(owner) + " has key " + std::to_string(key);
}

struct tables {
  cuckoo::map<std::uint64_t, std::uint64_t> sums;
  cuckoo::map<std::uint64_t, std::uint64_t> numbers;
  cuckoo::map<std::string_view, std::uint64_t> texts;
  cuckoo::map<std::uint64_t, std::uint64_t> drained;
};

// Keys that one thread alone binds: it knows their values. 0 is of an unbound key.
template <class Map, class ToKey> class own {
  Map &map_;
  ToKey to_key_;
  std::uint64_t owner_;
  std::vector<std::uint64_t> wanted_ = std::vector<std::uint64_t>(own_keys);

public:
  own(Map &map, ToKey to_key, std::uint64_t owner) : map_(map), to_key_(to_key), owner_(owner) {}

  void change(std::uint64_t key, std::uint64_t value) {
    std::uint64_t &wanted = wanted_[key];
    const auto name = to_key_(owner_, key);
    switch (value % 5) {
    case 0:
      CHECK(map_.erase(name) == (wanted > 0));
      wanted = 0;
      break;
    case 1:
      CHECK(map_.insert(name, value) == (wanted == 0));
      if (wanted == 0) wanted = value;
      break;
    case 2:
      CHECK(map_.insert_or_assign(name, value) == (wanted == 0));
      wanted = value;
      break;
    case 3:
      CHECK(map_.update_fn(name, [](std::uint64_t &old) { old++; }) == (wanted > 0));
      if (wanted > 0) wanted++;
      break;
    default: look(key);
    }
  }

  void look(std::uint64_t key) const {
    CHECK(map_.get(to_key_(owner_, key)).value_or(0) == wanted_[key]);
  }

  // Looks for all, and returns how many are bound.
  std::uint64_t look_at_all() const {
    for (std::uint64_t key = 0; key < own_keys; key++) look(key);
    return static_cast<std::uint64_t>(
        std::count_if(wanted_.begin(), wanted_.end(), [](std::uint64_t one) { return one > 0; }));
  }
};

// What a thread has done.
struct tally {
  std::uint64_t rounds = 0;
  std::uint64_t added = 0;
  std::uint64_t to_drain = 0;
  std::uint64_t drained = 0;
  std::uint64_t numbers = 0;
  std::uint64_t texts = 0;
};

template <class Pairs> std::uint64_t sum_of(Pairs pairs) {
  std::uint64_t sum = 0;
  for (auto [key, value] : pairs) sum += value;
  return sum;
}

// Adds to keys that all threads add to, by one call or by a closure.
void add(tables &all, std::uint64_t random, tally &mine) {
  const std::uint64_t key = random % shared_keys;
  const std::uint64_t more = random / shared_keys % 7;
  if (random % 3 == 0)
    all.sums.upsert(key, [more](std::uint64_t &sum) { sum += more; }, more);
  else
    all.sums.add(key, more);
  mine.added += more;
}

// Adds to keys that other threads may take out, or takes out one of them or all.
void add_or_drain(tables &all, std::uint64_t random, tally &mine) {
  const std::uint64_t key = random % drained_keys;
  const std::uint64_t which = random / drained_keys % 1000;
  if (which == 0) {
    mine.drained += sum_of(all.drained.drain());
  } else if (which % 4 == 0) {
    // What the closure sees in its last run is what is taken out.
    std::uint64_t taken = 0;
    const auto take = [&taken](std::uint64_t &sum) {
      taken = sum;
      return true;
    };
    if (all.drained.erase_fn(key, take)) mine.drained += taken;
  } else {
    if (which % 2 == 0)
      all.drained.add(key, 1);
    else
      all.drained.upsert(key, [](std::uint64_t &sum) { sum++; }, 1);
    mine.to_drain++;
  }
}

// One thread, until it is time.
void work(tables &all, std::uint64_t owner, std::chrono::steady_clock::time_point end,
          tally &mine) {
  std::mt19937_64 random(owner + 1);
  own numbers(all.numbers, number_key, owner);
  own texts(all.texts, text_key, owner);
  std::uint64_t least = 0;
  for (; mine.rounds % 64 != 0 || std::chrono::steady_clock::now() < end; mine.rounds++) {
    add(all, random(), mine);
    numbers.change(random() % own_keys, random());
    texts.change(random() % own_keys, random());
    add_or_drain(all, random(), mine);
    if (random() % 2003 == 0) {
      // Nothing is taken from the sums.
      const std::uint64_t sum = sum_of(all.sums.snapshot());
      CHECK(sum >= least);
      least = sum;
    }
  }
  mine.numbers = numbers.look_at_all();
  mine.texts = texts.look_at_all();
}

tally total_of(const std::vector<tally> &tallies) {
  tally total;
  for (const tally &one : tallies) {
    total.rounds += one.rounds;
    total.added += one.added;
    total.to_drain += one.to_drain;
    total.drained += one.drained;
    total.numbers += one.numbers;
    total.texts += one.texts;
  }
  return total;
}

std::uint64_t argument(int argc, char **argv, int index, std::uint64_t otherwise) {
  return index < argc ? std::strtoull(argv[index], nullptr, 10) : otherwise;
}

} // namespace

int main(int argc, char **argv) {
  const std::uint64_t count = std::max<std::uint64_t>(argument(argc, argv, 1, 8), 1);
  const std::uint64_t seconds = argument(argc, argv, 2, 10);
  const auto turns = static_cast<std::uint32_t>(argument(argc, argv, 3, 2));

  const cuckoo::options small{100, static_cast<std::uint32_t>((count + 1) / 2), turns};
  using map = cuckoo::map<std::uint64_t, std::uint64_t>;
  tables all{map(small), map(small), cuckoo::map<std::string_view, std::uint64_t>(small),
             map(small)};

  const auto end = std::chrono::steady_clock::now() + std::chrono::seconds(seconds);
  std::vector<tally> tallies(count);
  std::vector<std::thread> threads;
  for (std::uint64_t owner = 0; owner < count; owner++)
    threads.emplace_back([&, owner] { work(all, owner, end, tallies[owner]); });
  for (std::thread &one : threads) one.join();

  const tally total = total_of(tallies);
  CHECK(sum_of(all.sums.pairs()) == total.added);
  CHECK(sum_of(all.drained.drain()) + total.drained == total.to_drain);
  CHECK(all.numbers.size() == total.numbers);
  CHECK(all.texts.size() == total.texts);
  std::printf("%llu threads, %llu seconds, %u turns: %llu rounds of four calls\n",
              static_cast<unsigned long long>(count), static_cast<unsigned long long>(seconds),
              turns, static_cast<unsigned long long>(total.rounds));
  return report();
}
