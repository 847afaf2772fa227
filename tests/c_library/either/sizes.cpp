// A map grows when it is told, and when it has no room, and keeps its keys.
#include "../check.hpp"
#include "map.hpp"

#include <cstddef>

namespace {

using numbers = hash_map<int, int>;

void check_keys(const numbers &map, int count) {
  CHECK(map.size() == static_cast<std::size_t>(count));
  for (int key = 0; key < count; key++) CHECK(map.contains(key) && map.find(key) == -key);
  CHECK(!map.contains(count) && !map.contains(-1));
}

} // namespace

int main() {
  numbers map(1);
  CHECK(map.empty() && map.load_factor() == 0);
  CHECK(map.reserve(100));
  const std::size_t first = map.capacity();
  CHECK(first >= 100 && map.empty());
  CHECK(!map.reserve(first) && map.capacity() == first);

  for (int key = 0; key < 10; key++) CHECK(map.insert(key, -key));
  CHECK(map.load_factor() == 10.0 / static_cast<double>(first));
  CHECK(map.reserve(1000) && map.capacity() >= 1000);
  check_keys(map, 10);

  for (int key = 10; key < 20000; key++) CHECK(map.insert(key, -key));
  CHECK(map.capacity() >= 20000);
  check_keys(map, 20000);
  CHECK(map.load_factor() > 0.1 && map.load_factor() <= 1);

  for (int key = 0; key < 20000; key++) CHECK(map.erase(key) && !map.erase(key));
  check_keys(map, 0);
  numbers large(5000);
  CHECK(large.capacity() >= 5000 && large.empty());
  return report();
}
