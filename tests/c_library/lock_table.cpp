// `lock_table` of cuckoo_map.hpp.
#include "check.hpp"
#include <cuckoo_map.hpp>

#include <atomic>
#include <new>
#include <optional>
#include <stdexcept>
#include <string>
#include <thread>
#include <type_traits>
#include <utility>
#include <vector>

namespace {

using numbers = cuckoo::map<std::uint64_t, std::uint64_t>;
using texts = cuckoo::map<std::string, std::uint64_t>;

// Both can be moved where nothing may be thrown.
template <class Moved>
constexpr bool is_nothrow_movable =
    std::is_nothrow_move_constructible_v<Moved> && std::is_nothrow_move_assignable_v<Moved>;
static_assert(is_nothrow_movable<numbers>);
using locked_numbers = decltype(std::declval<numbers &>().lock_table());
static_assert(is_nothrow_movable<locked_numbers>);
static_assert(noexcept(std::declval<locked_numbers &>().unlock()));
static_assert(noexcept(std::declval<locked_numbers &>().is_active()));

cuckoo::options with_callers(std::uint32_t callers) { return {100, callers, 64}; }

// Each call of a locked map, and what it leaves.
template <class Map, class Key> void calls(Map &map, const Key &one, const Key &two) {
  CHECK(map.insert(one, 10));
  auto locked = map.lock_table();
  std::uint64_t value = 7;
  CHECK(locked.is_active() && locked.size() == 1 && !locked.empty());
  CHECK(locked.find(one) == 10 && locked.find(one, value) && value == 10 && locked.get(one) == 10);
  CHECK(!locked.find(two, value) && value == 10 && !locked.get(two) && !locked.contains(two));
  CHECK_THROWS(std::out_of_range, locked.find(two));
  CHECK(!locked.erase(two) && !locked.take(two));
  CHECK(!locked.insert(one, 11) && locked.insert(two, 20) && locked.contains(two));
  CHECK(!locked.insert_or_assign(one, 12) && locked.find(one) == 12);
  CHECK(locked.take(one) == 12 && locked.insert_or_assign(one, 13));
  CHECK(locked.erase(two) && locked.size() == 1);
  locked.unlock();
  CHECK(!locked.is_active() && map.find(one) == 13 && map.size() == 1);
  locked.unlock();
  CHECK_THROWS(cuckoo::not_locked, locked.size());
  CHECK_THROWS(cuckoo::not_locked, locked.find(one));
  locked = map.lock_table();
  locked.clear();
  CHECK(locked.empty());
  locked.unlock();
  CHECK(map.empty());
}

// Texts that are too long are unbound, and can't be bound.
void long_texts() {
  texts map(100);
  auto locked = map.lock_table();
  const std::string text(65, 'x');
  CHECK(!locked.contains(text) && !locked.erase(text));
  CHECK_THROWS(std::length_error, locked.insert(text, 1));
  CHECK(locked.insert("", 5) && locked.find("") == 5);
}

// The pairs are those of the moment when they were asked for.
void pairs() {
  texts map(100);
  for (const char *name : {"c", "a", "b"}) map.insert(name, 1);
  auto locked = map.lock_table();
  std::string names;
  for (auto [name, age] : locked) {
    names += name;
    CHECK(!locked.insert_or_assign(name, age + 1) && locked.insert(std::string(name) + "2", 0));
  }
  CHECK(names == "abc" && locked.size() == 6);
  auto all = locked.snapshot();
  locked.unlock();
  CHECK(all.next()->first == "a" && all.next()->second == 0 && map.find("c") == 2);
}

// What one of another map is moved to unlocks its own map first, and gives each map its handle back.
void moves_between_maps() {
  numbers first(100), second(100);
  auto locked = first.lock_table();
  locked = second.lock_table();
  CHECK(first.insert(1, 10) && locked.insert(2, 20));
  locked.unlock();
  CHECK(second.find(2) == 20 && second.insert(3, 30) && first.find(1) == 10);
}

// A map that was moved from can't be locked.
void no_lock_of_a_moved_map() {
  numbers map(100), other(std::move(map));
  CHECK_THROWS(cuckoo::closed, map.lock_table());
  CHECK(other.lock_table().empty());
}

// It is moved, and unlocked where it ends.
void moves() {
  numbers map(100);
  {
    auto first = map.lock_table();
    first.insert(1, 10);
    auto second = std::move(first);
    CHECK(!first.is_active() && second.is_active() && second.find(1) == 10);
    first = std::move(second);
    CHECK(first.is_active() && !second.is_active());
    auto &same = first;
    first = std::move(same);
    CHECK(first.insert(2, 20));
  }
  CHECK(map.size() == 2);
  try {
    auto locked = map.lock_table();
    locked.insert(3, 30);
    throw std::runtime_error("in between");
  } catch (const std::runtime_error &) {
  }
  CHECK(map.find(3) == 30);
}

// The thread that has locked a map can't wait for itself, whichever handle it has.
void own_calls() {
  for (std::uint32_t callers : {0u, 1u, 4u}) {
    numbers map(with_callers(callers)), other(with_callers(callers));
    map.insert(1, 10);
    auto locked = map.lock_table();
    CHECK_THROWS(cuckoo::locked_here, map.find(1));
    CHECK_THROWS(cuckoo::locked_here, map.size());
    CHECK_THROWS(cuckoo::locked_here, map.lock_table());
    CHECK(other.insert(1, 11) && locked.find(1) == 10);
    CHECK_THROWS(cuckoo::locked_here, map.insert(2, 20));
    auto both = other.lock_table();
    CHECK(both.find(1) == 11 && locked.erase(1));
    both.unlock();
    locked.unlock();
    CHECK(!map.contains(1) && other.contains(1));
  }
}

// A thread that shares a handle and has locked the map gets no handle of its own meanwhile.
void no_other_handle() {
  numbers map(with_callers(1));
  std::atomic<int> step{0};
  std::thread first([&] {
    map.insert(1, 10);
    step = 1;
    while (step != 2) std::this_thread::yield();
  });
  while (step != 1) std::this_thread::yield();
  auto locked = map.lock_table();
  step = 2;
  first.join();
  CHECK_THROWS(cuckoo::locked_here, map.find(1));
  CHECK(locked.find(1) == 10);
  locked.unlock();
  CHECK(map.find(1) == 10);
}

// Other threads see all that was done, or none of it. More threads than handles.
void other_threads() {
  constexpr std::uint64_t keys = 8;
  numbers map(with_callers(3));
  for (std::uint64_t key = 0; key < keys; key++) map.insert(key, 0);
  std::vector<std::thread> threads;
  for (int i = 0; i < 3; i++)
    threads.emplace_back([&] {
      for (int round = 0; round < 200; round++) {
        auto locked = map.lock_table();
        for (std::uint64_t key = 0; key < keys; key++) {
          const std::uint64_t value = locked.find(key);
          CHECK(locked.erase(key) && locked.insert(key, value + 1));
        }
      }
    });
  for (int i = 0; i < 3; i++)
    threads.emplace_back([&] {
      for (int round = 0; round < 200; round++) {
        auto all = map.get_all({0, 1, 2, 3, 4, 5, 6, 7});
        for (const auto &value : all) CHECK(value && value == all[0]);
      }
    });
  for (std::thread &thread : threads) thread.join();
  for (std::uint64_t key = 0; key < keys; key++) CHECK(map.find(key) == 600);
}

// Threads that share a handle lock the map in turn, beside calls by it.
void sharers_lock_in_turn() {
  numbers map(with_callers(0));
  map.insert(1, 0);
  std::vector<std::thread> lockers;
  for (int i = 0; i < 2; i++)
    lockers.emplace_back([&] {
      for (int round = 0; round < 2000; round++) {
        auto locked = map.lock_table();
        locked.insert_or_assign(1, locked.find(1) + 1);
      }
    });
  std::atomic<bool> over{false};
  std::thread finder([&] {
    while (!over) CHECK(map.contains(1));
  });
  for (std::thread &locker : lockers) locker.join();
  over = true;
  finder.join();
  CHECK(map.find(1) == 4000);
}

// A map that ends while it is locked takes its handles with it.
void outlives_its_map() {
  std::optional<numbers> map(std::in_place, 100);
  map->insert(1, 10);
  auto locked = map->lock_table();
  map.reset();
  CHECK(locked.find(1) == 10);
}

} // namespace

int main() {
  numbers ages(100);
  texts names(100);
  calls(ages, std::uint64_t{1}, std::uint64_t{2});
  calls(names, std::string("one"), std::string("two"));
  long_texts();
  pairs();
  moves_between_maps();
  no_lock_of_a_moved_map();
  moves();
  own_calls();
  no_other_handle();
  other_threads();
  sharers_lock_in_turn();
  outlives_its_map();
  return report();
}
