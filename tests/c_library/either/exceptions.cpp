// Closures that throw leave the map as it was, and it goes on.
#include "../check.hpp"
#include "map.hpp"

#include <stdexcept>

namespace {

struct refusal : std::runtime_error {
  refusal() : std::runtime_error("refused") {}
};

using numbers = hash_map<int, int>;

void fill(numbers &map) {
  for (int key = 0; key < 100; key++) CHECK(map.insert(key, 10 * key));
}

void check_filled(const numbers &map) {
  CHECK(map.size() == 100);
  for (int key = 0; key < 100; key++) {
    int value = -1;
    CHECK(map.find(key, value) && value == 10 * key && map.find(key) == 10 * key);
  }
}

} // namespace

int main() {
  numbers map;
  fill(map);
  const auto throw_it = [](const int &) -> bool { throw refusal(); };
  for (int key = 0; key < 100; key += 7) {
    CHECK_THROWS(refusal, map.find_fn(key, throw_it));
    CHECK_THROWS(refusal, map.update_fn(key, throw_it));
    CHECK_THROWS(refusal, map.erase_fn(key, throw_it));
    CHECK_THROWS(refusal, map.upsert(key, throw_it, 1));
    CHECK_THROWS(refusal, map.uprase_fn(key, throw_it, 1));
  }
  check_filled(map);

  // No closure runs where the key is unbound.
  CHECK(!map.find_fn(100, throw_it) && !map.update_fn(100, throw_it));
  CHECK(!map.erase_fn(100, throw_it));
  CHECK(map.upsert(100, throw_it, 1) && map.uprase_fn(101, throw_it, 2));
  CHECK(map.find(100) == 1 && map.find(101) == 2);
  CHECK(map.erase(100) && map.erase(101));
  CHECK_THROWS(std::out_of_range, map.find(100));
  check_filled(map);
  map.clear();
  CHECK(map.empty());
  fill(map);
  check_filled(map);
  return report();
}
