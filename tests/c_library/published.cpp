// Objects that one thread makes and others find by the map alone, and free. Its calls are their order:
// ThreadSanitizer reports nothing.
#include "check.hpp"
#include <cuckoo_map.hpp>

#include <string>
#include <thread>

namespace {

constexpr int count = 2000;

struct object {
  int number;
};

// The key of this number.
template <class Key> Key key_of(int number) {
  if constexpr (std::is_same_v<Key, int>)
    return number;
  else
    return "key " + std::to_string(number);
}

// So many threads have begun. It orders nothing else.
std::atomic<int> begun{0};

void begin() {
  begun.fetch_add(1, std::memory_order_relaxed);
  while (begun.load(std::memory_order_relaxed) % 2 != 0) std::this_thread::yield();
}

// Lets a thread bind the keys in turn to objects, and another one look at each as it comes. So many
// of the two have a handle of their own. Each also calls a map that it alone knows.
template <class Map, class Look> void publish(std::uint32_t handles, const Look &look) {
  using key = typename Map::key_type;
  Map map(cuckoo::options{100, handles, 64});
  std::thread maker([&] {
    Map own(100);
    map.contains(key_of<key>(0));
    begin();
    for (int number = 0; number < count; number++) {
      CHECK(map.insert(key_of<key>(number), new object{number}));
      if (number % 2 == 0) own.contains(key_of<key>(number));
    }
  });
  std::thread finder([&] {
    Map own(100);
    map.contains(key_of<key>(0));
    begin();
    for (int number = 0; number < count; number++) {
      while (!look(map, number)) std::this_thread::yield();
      if (number % 2 == 0) own.contains(key_of<key>(number));
    }
  });
  maker.join();
  finder.join();
  for (auto [known, it] : map.drain()) delete it;
}

template <class Map, class Look> void publish(const Look &look) {
  for (const std::uint32_t handles : {2u, 1u, 0u}) publish<Map>(handles, look);
}

template <class Key> void all_looks() {
  using map = cuckoo::map<Key, object *>;
  publish<map>([](map &known, int number) {
    object *it;
    if (!known.find(key_of<Key>(number), it)) return false;
    CHECK(it->number == number);
    return true;
  });
  publish<map>([](map &known, int number) {
    const auto it = known.take(key_of<Key>(number));
    if (!it) return false;
    CHECK((*it)->number == number);
    delete *it;
    return true;
  });
  publish<map>([](map &known, int number) {
    if (!known.contains(key_of<Key>(number))) return false;
    const auto before = known.exchange(key_of<Key>(number), new object{-number});
    CHECK((*before)->number == number);
    delete *before;
    return true;
  });
  // What the closure is given stays: nothing unbinds it.
  publish<map>([](map &known, int number) {
    return known.update_fn(key_of<Key>(number), [=](object *&it) { CHECK(it->number == number); });
  });
  int seen = 0;
  publish<map>([&seen](map &known, int number) {
    if (number % 100 != 0 && number < seen) return true;
    seen = 0;
    for (const auto &[key, it] : known.snapshot()) seen += it->number >= 0;
    return number < seen;
  });
}

} // namespace

int main() {
  all_looks<int>();
  all_looks<std::string>();
  return report();
}
