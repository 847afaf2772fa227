// Want of memory, as a map in C++ tells it: each request of the library's refused in turn. The linker
// puts in a malloc, an aligned_alloc and a realloc of this program by --wrap, which the library alone
// calls.
#include "check.hpp"
#include <cuckoo_map.hpp>

#include <limits>
#include <string>

namespace {

constexpr int none = std::numeric_limits<int>::max();

// From which request on they are refused, and how many there were.
int refused = none;
int requests = 0;

bool is_refused() { return requests++ >= refused; }

} // namespace

extern "C" {

void *__real_malloc(std::size_t size);
void *__wrap_malloc(std::size_t size);
void *__real_aligned_alloc(std::size_t alignment, std::size_t size);
void *__wrap_aligned_alloc(std::size_t alignment, std::size_t size);
void *__real_realloc(void *block, std::size_t size);
void *__wrap_realloc(void *block, std::size_t size);

void *__wrap_malloc(std::size_t size) { return is_refused() ? nullptr : __real_malloc(size); }

void *__wrap_aligned_alloc(std::size_t alignment, std::size_t size) {
  return is_refused() ? nullptr : __real_aligned_alloc(alignment, size);
}

void *__wrap_realloc(void *block, std::size_t size) {
  return is_refused() ? nullptr : __real_realloc(block, size);
}
}

namespace {

using numbers = cuckoo::map<int, int>;
using texts = cuckoo::map<std::string, int>;

constexpr int keys = 8;

// A table that opens with 32 slots, and may have 4 * 2^max.
cuckoo_settings settings_of(std::uint32_t max) { return {0, 3, max, 2, 64, 4, 5}; }

// The key of this number.
template <class Key> Key key_of(int number) {
  if constexpr (std::is_same_v<Key, int>)
    return number;
  else
    return "key " + std::to_string(number);
}

template <class Map> void check_keys(Map &map) {
  CHECK(map.size() == keys);
  for (int number = 0; number < keys; number++)
    CHECK(map.find(key_of<typename Map::key_type>(number)) == 10 * number);
}

// Whether a call is made where requests from this one on are refused.
template <class Call> bool is_made(int from, const Call &call) {
  bool is_answered = true;
  requests = 0;
  refused = from;
  try {
    call();
  } catch (const std::bad_alloc &) {
    is_answered = false;
  }
  refused = none;
  return is_answered;
}

// A call that is refused for want of memory has changed nothing, and is made later. It makes so many
// requests at least.
template <class Map, class Call> void refuse_each_request(int least, const Call &call) {
  bool is_answered = false;
  for (int request = 0; !is_answered && request < 100; request++) {
    Map map(settings_of(20));
    for (int number = 0; number < keys; number++)
      CHECK(map.insert(key_of<typename Map::key_type>(number), 10 * number));
    is_answered = is_made(request, [&] { call(map); });
    if (is_answered) {
      CHECK(request >= least);
    } else {
      check_keys(map);
      call(map);
    }
  }
  CHECK(is_answered);
}

template <class Map> void calls_on_all() {
  refuse_each_request<Map>(2, [](Map &map) { CHECK(map.reserve(4 * map.capacity())); });
  refuse_each_request<Map>(2, [](Map &map) { CHECK(map.pairs().size() == keys); });
  refuse_each_request<Map>(2, [](Map &map) {
    auto drained = map.drain();
    int count = 0;
    for (auto pair = drained.next(); pair; pair = drained.next()) count++;
    CHECK(count == keys && map.empty());
  });
  Map map(settings_of(3));
  CHECK(map.insert(key_of<typename Map::key_type>(0), 0));
  CHECK(is_made(0, [&] { map.clear(); }) && requests == 0 && map.empty());
}

// A text is copied where it is bound.
void calls_on_texts() {
  refuse_each_request<texts>(1, [](texts &map) { CHECK(map.insert("new", 5)); });
  refuse_each_request<texts>(1, [](texts &map) { CHECK(map.insert_or_assign("new", 5)); });
  refuse_each_request<texts>(1, [](texts &map) { CHECK(map.upsert("new", [](int &) {}, 5)); });
  refuse_each_request<texts>(
      2, [](texts &map) { CHECK(map.rename("key 0", "new") == cuckoo::renamed::done); });
}

// An insertion for which the table is to grow.
void growth() {
  numbers full(settings_of(3)), map(settings_of(8));
  int count = 0;
  try {
    for (;; count++) full.insert(count, count);
  } catch (const cuckoo::full &) {
    for (int key = 0; key < count; key++) CHECK(map.insert(key, key));
  }
  CHECK(!is_made(0, [&] { map.insert(count, count); }) && requests > 0);
  CHECK(map.size() == static_cast<std::size_t>(count) && map.capacity() == 32);
  CHECK(map.insert(count, count) && map.capacity() == 64);
  for (int key = 0; key <= count; key++) CHECK(map.find(key) == key);
}

void openings() {
  int request = 0;
  while (!is_made(request, [] { numbers map(settings_of(3)); }) && request < 100) request++;
  CHECK(2 < request && request < 100);
}

} // namespace

int main() {
  openings();
  calls_on_all<numbers>();
  calls_on_all<texts>();
  calls_on_texts();
  growth();
  return report();
}
