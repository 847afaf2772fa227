// A cache that threads share: how many steps a number takes to 1, where an even one is halved and
// an odd one n becomes 3n + 1.
#include <cuckoo_map.hpp>

#include <iostream>
#include <thread>
#include <vector>

namespace {

constexpr std::uint64_t limit = 100'000;

// Keeps the answers for numbers below the limit.
class steps_cache {
  cuckoo::map<std::uint64_t, std::uint32_t> known_{limit};

public:
  std::uint32_t steps(std::uint64_t number) {
    if (number == 1) return 0;
    if (const auto steps = known_.get(number)) return *steps;
    const std::uint64_t next = number % 2 == 0 ? number / 2 : 3 * number + 1;
    const std::uint32_t result = steps(next) + 1;
    // Another thread may have found it meanwhile; both found the same.
    if (number < limit) known_.insert(number, result);
    return result;
  }

  std::size_t size() const { return known_.size(); }
};

struct best {
  std::uint64_t number = 1;
  std::uint32_t steps = 0;
};

} // namespace

int main() {
  constexpr unsigned count = 4;
  steps_cache cache;
  best found[count];
  std::vector<std::thread> threads;
  for (unsigned i = 0; i < count; i++)
    threads.emplace_back([&cache, &mine = found[i], i] {
      for (std::uint64_t number = 1 + i; number < limit; number += count) {
        const std::uint32_t steps = cache.steps(number);
        if (steps > mine.steps) mine = {number, steps};
      }
    });
  for (std::thread &one : threads) one.join();

  best all;
  for (const best &one : found)
    if (one.steps > all.steps) all = one;
  std::cout << all.number << " takes " << all.steps << " steps, the most below " << limit << '\n'
            << cache.size() << " answers are kept\n";
}
