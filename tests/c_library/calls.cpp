// Each call of cuckoo_map.hpp, by one thread; renames by more too.
#include "check.hpp"
#include <cuckoo_map.hpp>

#include <array>
#include <functional>
#include <iterator>
#include <limits>
#include <optional>
#include <string>
#include <thread>
#include <vector>

namespace {

using cuckoo::renamed;

// Calls on a key that is unbound, and stays so.
template <class Map, class Key> void calls_on_unbound(Map &map, const Key &key) {
  std::uint64_t value = 7;
  CHECK(map.empty() && map.capacity() >= 100);
  CHECK(!map.find(key, value) && value == 7);
  CHECK_THROWS(std::out_of_range, map.find(key));
  CHECK(!map.get(key) && !map.contains(key));
  CHECK(!map.find_fn(key, [](const std::uint64_t &) { CHECK(false); }));
  CHECK(!map.update(key, 1u) && !map.update_fn(key, [](std::uint64_t &) { CHECK(false); }));
  CHECK(!map.erase(key) && !map.erase_fn(key, [](std::uint64_t &) { return true; }));
  CHECK(!map.take(key));
  CHECK(map.empty());
}

// Calls that bind two keys, and change their values: to 30 and 40 in the end.
template <class Map, class Key> void calls_that_bind(Map &map, const Key &one, const Key &two) {
  std::uint64_t value = 7;
  CHECK(map.insert(one, 10) && !map.insert(one, 11));
  CHECK(map.find(one) == 10 && map.find(one, value) && value == 10 && *map.get(one) == 10);
  CHECK(map.contains(one) && !map.contains(two) && map.size() == 1 && !map.empty());
  CHECK(map.find_fn(one, [&](const std::uint64_t &seen) { value = seen + 1; }) && value == 11);
  CHECK(map.update(one, 20) && map.find(one) == 20);
  CHECK(map.update_fn(one, [](std::uint64_t &seen) { seen += 2; }) && map.find(one) == 22);
  CHECK(map.exchange(two, 39) == std::nullopt && map.exchange(two, 38) == 39);
  CHECK(map.find(two) == 38 && map.take(two) == 38 && !map.contains(two) && !map.take(two));
  CHECK(!map.insert_or_assign(one, 30) && map.insert_or_assign(two, 40));
  CHECK(map.find(one) == 30 && map.find(two) == 40 && map.size() == 2);
  CHECK(map.load_factor() == 2.0 / static_cast<double>(map.capacity()));
}

// Calls that bind a key or change it, or unbind it.
template <class Map, class Key> void calls_by_closures(Map &map, const Key &key) {
  const auto next = [](std::uint64_t &seen) { seen++; };
  const auto is_gone = [](std::uint64_t &) { return true; };
  CHECK(!map.upsert(key, next, 5) && map.find(key) == 31);
  CHECK(map.erase(key) && !map.contains(key));
  CHECK(map.upsert(key, next, 5) && map.find(key) == 5);
  CHECK(map.erase_fn(key, [](std::uint64_t &seen) { return seen++ == 0; }) && map.find(key) == 6);
  CHECK(map.erase_fn(key, [](std::uint64_t &seen) { return seen == 6; }) && !map.contains(key));
  CHECK(map.uprase_fn(key, is_gone, 8) && map.find(key) == 8);
  CHECK(!map.uprase_fn(key, is_gone, 8) && !map.contains(key));
}

// Renames of two keys, of which the second has 40 and the first is unbound, before and after.
template <class Map, class Key> void calls_that_rename(Map &map, const Key &one, const Key &two) {
  CHECK(map.rename(one, two) == renamed::unbound && !map.contains(one) && map.find(two) == 40);
  CHECK(map.rename(two, one) == renamed::done && map.find(one) == 40 && !map.contains(two));
  CHECK(map.size() == 1 && map.rename(one, two) == renamed::done && map.find(two) == 40);
  CHECK(map.insert(one, 9) && map.rename(one, two) == renamed::occupied);
  CHECK(map.find(one) == 9 && map.find(two) == 40 && map.size() == 2);
  CHECK(map.rename(two, one) == renamed::occupied && map.find(one) == 9 && map.erase(one));
  CHECK_THROWS(std::invalid_argument, map.rename(two, two));
  CHECK_THROWS(std::invalid_argument, map.rename(one, one));
  CHECK(map.find(two) == 40 && map.size() == 1);
}

// Calls on all of the map, of which the second key has 40.
template <class Map, class Key> void calls_on_all(Map &map, const Key &one, const Key &two) {
  constexpr auto greatest = std::numeric_limits<std::uint64_t>::max();
  CHECK(map.add(one, 3) && !map.add(one, 4) && map.find(one) == 7);
  CHECK(!map.add(one, greatest) && map.find(one) == greatest);
  CHECK(map.reserve(10 * map.capacity()) && !map.reserve(1) && map.find(two) == 40);
  CHECK(map.pairs().size() == 2 && map.size() == 2);
  std::uint64_t sum = 0;
  for (const auto &[key, number] : map.snapshot()) {
    CHECK(key == one || key == two);
    sum += number;
  }
  CHECK(sum == greatest + 40);
  auto drained = map.drain();
  CHECK(map.empty() && drained.next() && drained.next() && !drained.next() && !drained.next());
  CHECK(map.insert(one) && map.find(one) == 0);
  map.clear();
  CHECK(map.empty());
}

// The calls of a map from a type of keys, on two of them.
template <class Key> void all_calls(const Key &one, const Key &two) {
  cuckoo::map<Key, std::uint64_t> map(100);
  calls_on_unbound(map, one);
  calls_that_bind(map, one, two);
  calls_by_closures(map, one);
  calls_that_rename(map, one, two);
  calls_on_all(map, one, two);
}

enum class color : signed char { red = -2, green = 5 };

struct point {
  std::int16_t x, y;
  char mark;
};

// Has a constructor of its own, so compilers warn of bytes that are copied there.
struct counter {
  int count = 1;
};

// A map, by a return of nothing but braces.
cuckoo::map<int, counter> counters() { return {}; }

// Maps in an aggregate, which is initialized by braces.
struct server {
  cuckoo::map<int, counter> known;
  int port = 0;
};

// A default constructor that isn't explicit.
void braces() {
  cuckoo::map<int, counter> one = {}, other = counters();
  server with_map{};
  std::array<cuckoo::map<int, counter>, 2> maps{};
  CHECK(one.empty() && other.empty() && with_map.known.empty() && maps[1].empty());
  CHECK(one.insert(1) && one.find(1).count == 1);
  CHECK(one.update_fn(1, [](counter &seen) { seen.count++; }) && one.find(1).count == 2);
}

// What `*i++` gives is the pair before, whose key is a copy.
void iterators() {
  cuckoo::map<std::string, int> map(100);
  CHECK(map.insert("one", 10) && map.insert("two", 20));
  auto pairs = map.snapshot();
  auto at = pairs.begin();
  const auto first = *at++;
  CHECK(first.first == "one" && first.second == 10 && at->first == "two");
  CHECK((*at++).first == "two" && at == pairs.end());
  cuckoo::map<int, int> numbers(100);
  CHECK(numbers.insert(1, 10) && numbers.insert(2, 20));
  auto rest = numbers.snapshot();
  auto next = rest.begin();
  std::pair<int, int> pair = *next++;
  CHECK(pair == std::pair(1, 10) && *next == std::pair(2, 20));
#if __cplusplus >= 202002L
  static_assert(std::input_iterator<decltype(next)>);
#endif
}

void values() {
  cuckoo::map<int, point> points(100);
  CHECK(points.insert(-1, point{1, 2, 'a'}));
  CHECK(points.update_fn(-1, [](point &seen) { seen.y = -3; }));
  const point found = points.find(-1);
  CHECK(found.x == 1 && found.y == -3 && found.mark == 'a');
  CHECK(points.erase_fn(-1, [](point &seen) { return seen.y == -3; }) && points.empty());

  int number = 4;
  cuckoo::map<int *, int *> pointers(100);
  CHECK(pointers.insert(&number, &number) && *pointers.find(&number) == 4);
  for (auto [key, value] : pointers.pairs()) CHECK(key == &number && value == &number);
  CHECK(pointers.exchange(&number, nullptr) == &number && pointers.take(&number) == nullptr);

  cuckoo::map<std::string, double> texts(100);
  CHECK(texts.insert("half", .5) && texts.find(std::string("half")) == .5);
  CHECK(texts.update_fn("half", [](double &seen) { seen *= 3; }) && texts.find("half") == 1.5);
}

// A text that is too long is found nowhere, and not bound.
void texts_too_long(cuckoo::map<std::string_view, int> &map, const std::string &key) {
  const auto never = [](const int &) -> bool { throw "a closure runs"; };
  int value = 7;
  CHECK(!map.contains(key) && !map.get(key) && !map.find(key, value) && value == 7);
  CHECK_THROWS(std::out_of_range, map.find(key));
  CHECK(!map.find_fn(key, never) && !map.update(key, 1) && !map.update_fn(key, never));
  CHECK(!map.erase(key) && !map.take(key) && !map.erase_fn(key, never));
  CHECK(map.rename(key, "a") == renamed::unbound && !map.contains("a"));
  CHECK_THROWS(std::length_error, map.insert(key, 1));
  CHECK_THROWS(std::length_error, map.insert_or_assign(key, 1));
  CHECK_THROWS(std::length_error, map.exchange(key, 1));
  CHECK_THROWS(std::length_error, map.upsert(key, never, 1));
  CHECK_THROWS(std::length_error, map.uprase_fn(key, never, 1));
  CHECK_THROWS(std::length_error, map.rename("", key));
  CHECK_THROWS(std::length_error, map.rename(key, key));
  cuckoo::map<std::string_view, std::uint64_t> sums(100);
  CHECK_THROWS(std::length_error, sums.add(key, 1));
  CHECK(map.find("") == 3 && map.size() == 3 && sums.empty());
}

void texts() {
  cuckoo::map<std::string_view, int> map(100);
  const std::string longest(64, 'x');
  const std::string zeros("a\0b", 3);
  CHECK(map.insert(longest, 1) && map.insert(zeros, 2) && map.insert(std::string_view(), 3));
  CHECK(map.find(longest) == 1 && map.find(zeros) == 2 && map.find("") == 3);
  CHECK(!map.contains("a") && map.size() == 3 && longest.size() == CUCKOO_TEXT_MAX);
  texts_too_long(map, longest + 'x');
  CHECK(map.rename(longest + 'x', std::string(64, 'y')) == renamed::unbound);
  const auto pairs = map.pairs();
  CHECK(pairs.size() == 3 && pairs[0].first.empty() && pairs[1].first == zeros);
  CHECK(pairs[2].first == longest && pairs[2].second == 1);
}

// Calls on several keys at one moment.
void several() {
  cuckoo::map<int, std::uint64_t> map(100);
  CHECK(map.insert(-1, 10) && map.insert(2, 20) && map.insert(3, 30));
  const auto [one, none, three] = map.get_all({-1, 4, 3});
  CHECK(one == 10 && !none && three == 30);
  CHECK(map.set_if_all({{-1, 10, 11}, {2, 20, 21}}) && map.find(-1) == 11 && map.find(2) == 21);
  CHECK(!map.set_if_all({{-1, 11, 12}, {2, 20, 22}}) && map.find(-1) == 11);
  CHECK(!map.set_if_all({{-1, 11, 12}, {4, 0, 1}}) && map.find(-1) == 11);
  CHECK(map.move_all({{-1, 11, 0}, {2, 0, 6}, {3, 0, 5}}));
  CHECK(map.find(-1) == 0 && map.find(2) == 27 && map.find(3) == 35);
  CHECK(!map.move_all({{2, 1, 0}, {-1, 1, 0}}) && map.find(2) == 27);
  CHECK(!map.move_all({{2, 1, 0}, {4, 0, 1}}) && map.find(2) == 27);
  CHECK_THROWS(std::invalid_argument, map.get_all({2, 2}));
  CHECK_THROWS(std::invalid_argument, map.set_if_all({{2, 27, 1}, {2, 27, 1}}));
  CHECK(map.find(2) == 27 && map.size() == 3);
  cuckoo::map<color, double> colors(100);
  CHECK(colors.insert(color::red, .5) && colors.set_if_all({{color::red, .5, 1.5}}));
  CHECK(colors.get_all({color::red, color::green})[0] == 1.5);
}

// Settings of a table that opens with 32 slots, and may have 4 * 2^max.
cuckoo_settings settings_of_few_slots(std::uint32_t max) { return {0, 3, max, 1, 64, 4, 5}; }

// Binds the keys from 0 on to themselves, up to one that has no room, and returns it with its
// refusal.
std::pair<int, cuckoo::full> fill_up(cuckoo::map<int, int> &map) {
  for (int key = 0;; key++) try {
      map.insert(key, key);
    } catch (const cuckoo::full &refusal) {
      return {key, refusal};
    }
}

// The same, and returns how many.
int fill(cuckoo::map<int, int> &map) { return fill_up(map).first; }

// Whether a key is renamed to one that is unbound, and back: not where that has no room.
bool renames_and_back(cuckoo::map<int, int> &map, int from, int to) {
  try {
    CHECK(map.rename(from, to) == renamed::done);
  } catch (const cuckoo::full &) {
    CHECK(map.find(from) == from && !map.contains(to));
    return false;
  }
  CHECK(!map.contains(from) && map.find(to) == from);
  CHECK(map.rename(to, from) == renamed::done && map.find(from) == from && !map.contains(to));
  return true;
}

// In a full table a key has room where the other one leaves a slot of its two buckets, else none.
void renames_in_full_table() {
  cuckoo::map<int, int> map(settings_of_few_slots(3));
  const int count = fill(map);
  int done = 0;
  for (int key = 0; key < count; key++) done += renames_and_back(map, key, count);
  CHECK(0 < done && done < count && map.size() == static_cast<std::size_t>(count));
  for (int key = 0; key < count; key++) CHECK(map.find(key) == key);
}

// Where the table may grow, a rename that needs room makes it grow.
void renames_that_need_room() {
  cuckoo::map<int, int> full(settings_of_few_slots(3)), map(settings_of_few_slots(8));
  const int count = fill(full);
  for (int key = 0; key < count; key++) CHECK(map.insert(key, key));
  int names = count;
  CHECK(map.capacity() == 32);
  while (map.capacity() == 32 && names < 100000) {
    CHECK(map.rename(names - count, names) == renamed::done);
    names++;
  }
  CHECK(map.capacity() == 64 && map.size() == static_cast<std::size_t>(count));
  for (int name = names - count; name < names; name++) CHECK(map.find(name) == name % count);
  CHECK(!map.contains(names - count - 1) && !map.contains(names));
}

// Two threads rename a key back and forth, and another finds one of the two bound each time.
void renames_of_threads() {
  constexpr int rounds = 4000;
  cuckoo::map<int, int> map(cuckoo::options{100, 3, 2});
  map.insert(1, 10);
  std::atomic<bool> is_over{false};
  std::atomic<int> went{0}, came_back{0};
  const auto rename = [&](int from, int to, std::atomic<int> &done) {
    while (!is_over) {
      const renamed came = map.rename(from, to);
      CHECK(came != renamed::occupied);
      if (came == renamed::done) done++;
      else std::this_thread::yield();
    }
  };
  const int before = failures;
  std::thread forth(rename, 1, 2, std::ref(went)), back(rename, 2, 1, std::ref(came_back));
  for (int seen = 0; failures == before && (seen < rounds || came_back < rounds); seen++) {
    const auto [one, two] = map.get_all({1, 2});
    CHECK(one.has_value() != two.has_value() && one.value_or(0) + two.value_or(0) == 10);
    std::this_thread::yield();
  }
  is_over = true;
  forth.join();
  back.join();
  CHECK(map.find(went > came_back ? 2 : 1) == 10 && map.size() == 1);
}

// Threads bind a key to values and take them out: each is taken once. So it is of what one binds the
// key to in place of another.
void values_are_taken_once() {
  constexpr int rounds = 20000;
  cuckoo::map<int, int> map(cuckoo::options{100, 4, 2});
  std::vector<std::atomic<int>> taken(rounds);
  std::atomic<bool> is_over{false};
  const auto note = [&](std::optional<int> value) {
    if (value) taken[static_cast<std::size_t>(*value)]++;
  };
  const auto take = [&] {
    while (!is_over) note(map.take(1));
  };
  std::thread one(take), other(take);
  for (int value = 0; value < rounds; value++) note(map.exchange(1, value));
  is_over = true;
  one.join();
  other.join();
  note(map.take(1));
  for (const std::atomic<int> &times : taken) CHECK(times == 1);
  CHECK(map.empty());
}

// Exceptions of a closure pass, and leave the map as it was.
void closures() {
  cuckoo::map<int, int> map(100);
  map.insert(1, 10);
  CHECK_THROWS(int, map.update_fn(1, [](int &value) { throw value = 3; }));
  CHECK_THROWS(int, map.upsert(1, [](int &value) { throw value = 3; }, 4));
  CHECK_THROWS(int, map.erase_fn(1, [](int &value) -> bool { throw value = 3; }));
  CHECK(map.find(1) == 10);
  // A closure may call the map. Where its own key changes meanwhile, it runs again.
  int runs = 0;
  const auto next_of_another = [&](int &value) {
    if (runs++ == 0) map.update(1, 20);
    value++;
  };
  CHECK(map.update_fn(1, next_of_another) && runs == 2 && map.find(1) == 21);
  runs = 0;
  const auto erase_another = [&](int &value) {
    if (runs++ == 0) map.update(1, 30);
    CHECK(value == (runs == 1 ? 21 : 30));
    return true;
  };
  CHECK(map.erase_fn(1, erase_another) && runs == 2 && !map.contains(1));
  // Where the key is unbound meanwhile, it is bound as an unbound one.
  map.insert(1, 10);
  const auto next_of_none = [&](int &value) {
    map.erase(1);
    value++;
  };
  CHECK(map.upsert(1, next_of_none, 6) && map.find(1) == 6);
  CHECK(map.update_fn(1, next_of_none) == false && map.empty());
}

// A map has room for as many keys as it is opened for.
void capacities() {
  const std::size_t keys = 100000;
  CHECK(cuckoo::map<int, int>(keys).capacity() >= keys);
  CHECK(cuckoo::map<int, int>(cuckoo::options{keys, 4, 64}).capacity() >= keys);
  CHECK(cuckoo::map<int, int>().capacity() >= 1024 && cuckoo::map<int, int>().capacity() < keys);
}

void refusals() {
  CHECK_THROWS(std::invalid_argument, cuckoo::map<int, int>(cuckoo::options{100, 1024, 64}));
  CHECK_THROWS(std::invalid_argument, cuckoo::map<int, int>(cuckoo::options{100, 4, 0}));
  CHECK_THROWS(std::invalid_argument, cuckoo::map<int, int>(cuckoo::options{100, ~0u, 64}));
  CHECK_THROWS(std::invalid_argument, cuckoo::map<int, int>(cuckoo::options{100, ~0u / 2, 64}));
  cuckoo_settings settings{0, 1, 2, 1, 64, 4, 5};
  cuckoo::map<int, int> small(settings);
  const auto [count, refusal] = fill_up(small);
  CHECK(refusal.code() == CUCKOO_FULL && small.size() == static_cast<std::size_t>(count));
  CHECK(std::string(refusal.what()) == "cuckoo: no room, and the table has its greatest size");
  CHECK_THROWS(cuckoo::full, small.upsert(count, [](int &) {}, 1));
  for (int key = 0; key < count; key++) CHECK(small.find(key) == key);
  CHECK_THROWS(std::length_error, small.reserve(17));
}

// A table that grows only where all its slots are taken.
void refusals_of_few_keys() {
  cuckoo::map<int, int> map(cuckoo_settings{0, 1, 20, 1, 64, 4, 100});
  const auto [count, refusal] = fill_up(map);
  CHECK(refusal.code() == CUCKOO_LOAD_TOO_LOW && map.size() == static_cast<std::size_t>(count));
  CHECK(std::string(refusal.what()) ==
        "cuckoo: no room, and too few slots are taken for it to grow");
  CHECK(map.size() < map.capacity());
  for (int key = 0; key < count; key++) CHECK(map.find(key) == key);
}

} // namespace

int main() {
  all_calls<std::uint64_t>(0, std::numeric_limits<std::uint64_t>::max());
  all_calls<int>(-1, 1);
  all_calls<color>(color::red, color::green);
  all_calls<std::string>("one", "two");
  all_calls<std::string_view>("", std::string_view("\0", 1));
  all_calls<const char *>("one", nullptr);
  values();
  braces();
  iterators();
  texts();
  several();
  renames_in_full_table();
  renames_that_need_room();
  renames_of_threads();
  values_are_taken_once();
  closures();
  capacities();
  refusals();
  refusals_of_few_keys();
  return report();
}
