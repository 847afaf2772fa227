// What the C++ header asks of the library: the linker puts in this program's own cuckoo_contains, which
// notes the handle and can be refused as busy, cuckoo_insert, cuckoo_swap_if and cuckoo_erase_if,
// before and after which other calls can be made, and sched_yield, which is counted, by --wrap. Its
// `new` can be refused.
#include "check.hpp"
#include <cuckoo_map.hpp>

#include <atomic>
#include <chrono>
#include <condition_variable>
#include <cstdint>
#include <cstdlib>
#include <cstring>
#include <memory>
#include <mutex>
#include <new>
#include <set>
#include <thread>
#include <utility>
#include <vector>

static thread_local const void *noted;

// So many of a thread's next lookups are refused as busy, and so often it has let others run.
static thread_local int busy = 0;
static thread_local int yields = 0;

// The same of all threads.
static std::atomic<int> all_yields{0};

// So many of a thread's next requests by `new` are answered; all, if it is less than 0.
static thread_local int answered = -1;

// What this thread has by `new`, less what it has freed.
static thread_local int blocks = 0;

void *operator new(std::size_t size) {
  if (answered == 0) throw std::bad_alloc();
  if (answered > 0) answered--;
  void *block = std::malloc(size);
  if (!block) throw std::bad_alloc();
  blocks++;
  return block;
}

// Not inlined, since gcc would warn of a free behind a `new`.
[[gnu::noinline]] void operator delete(void *block) noexcept {
  if (block) blocks--;
  std::free(block);
}

[[gnu::noinline]] void operator delete(void *block, std::size_t) noexcept { operator delete(block); }

// The value that another call binds the next key to that is inserted; no call, if it is 0.
static std::uint64_t other_value = 0;

// Whether another call unbinds a key that has another value than the one that was to be erased.
static bool is_erased_then = false;

// Whether another call unbinds the next key whose value is to be changed, or that is to be erased if
// it has one, before that.
static bool is_erased_before = false;

// The values that the next changes were to be made from and to.
static std::vector<std::pair<std::uint64_t, std::uint64_t>> changes;

extern "C" {

std::int32_t __real_cuckoo_contains(cuckoo_handle *handle, std::uint64_t key);
std::int32_t __wrap_cuckoo_contains(cuckoo_handle *handle, std::uint64_t key);

std::int32_t __wrap_cuckoo_contains(cuckoo_handle *handle, std::uint64_t key) {
  noted = handle;
  if (busy == 0) return __real_cuckoo_contains(handle, key);
  busy--;
  return CUCKOO_BUSY;
}

int __real_sched_yield();
int __wrap_sched_yield();

int __wrap_sched_yield() {
  yields++;
  all_yields++;
  return __real_sched_yield();
}

std::int32_t __real_cuckoo_insert(cuckoo_handle *handle, std::uint64_t key, std::uint64_t value);
std::int32_t __wrap_cuckoo_insert(cuckoo_handle *handle, std::uint64_t key, std::uint64_t value);

std::int32_t __wrap_cuckoo_insert(cuckoo_handle *handle, std::uint64_t key, std::uint64_t value) {
  if (other_value != 0) {
    CHECK(__real_cuckoo_insert(handle, key, other_value) == CUCKOO_OK);
    other_value = 0;
  }
  return __real_cuckoo_insert(handle, key, value);
}

static void erase_before(cuckoo_handle *handle, std::uint64_t key) {
  std::uint64_t old;
  if (is_erased_before) CHECK(cuckoo_erase(handle, key, &old) == CUCKOO_OK);
  is_erased_before = false;
}

std::int32_t __real_cuckoo_swap_if(cuckoo_handle *handle, std::uint64_t key, std::uint64_t from,
                                   std::uint64_t to, std::uint64_t *seen);
std::int32_t __wrap_cuckoo_swap_if(cuckoo_handle *handle, std::uint64_t key, std::uint64_t from,
                                   std::uint64_t to, std::uint64_t *seen);

std::int32_t __wrap_cuckoo_swap_if(cuckoo_handle *handle, std::uint64_t key, std::uint64_t from,
                                   std::uint64_t to, std::uint64_t *seen) {
  erase_before(handle, key);
  changes.emplace_back(from, to);
  return __real_cuckoo_swap_if(handle, key, from, to, seen);
}

std::int32_t __real_cuckoo_erase_if(cuckoo_handle *handle, std::uint64_t key, std::uint64_t value);
std::int32_t __wrap_cuckoo_erase_if(cuckoo_handle *handle, std::uint64_t key, std::uint64_t value);

std::int32_t __wrap_cuckoo_erase_if(cuckoo_handle *handle, std::uint64_t key, std::uint64_t value) {
  erase_before(handle, key);
  const std::int32_t code = __real_cuckoo_erase_if(handle, key, value);
  std::uint64_t old;
  if (code == CUCKOO_DIFFERENT && is_erased_then) cuckoo_erase(handle, key, &old);
  return code;
}
}

namespace {

using numbers = cuckoo::map<int, int>;

// The handle that a call of this thread goes through.
const void *handle_of(const numbers &map) {
  CHECK(!map.contains(0));
  return noted;
}

// Those of so many threads, which all live until each has made its calls.
std::vector<const void *> handles_of(const numbers &map, int count) {
  std::mutex lock;
  std::condition_variable changed;
  std::vector<const void *> handles;
  std::vector<std::thread> threads;
  for (int i = 0; i < count; i++)
    threads.emplace_back([&] {
      const void *mine = handle_of(map);
      CHECK(mine == handle_of(map));
      std::unique_lock<std::mutex> held(lock);
      handles.push_back(mine);
      changed.notify_all();
      changed.wait(held, [&] { return handles.size() == static_cast<std::size_t>(count); });
    });
  for (std::thread &one : threads) one.join();
  return handles;
}

// Threads have a handle each, as long as there are some, and each in a line of the cache of its own.
// What they had is there for the threads that come after them.
void each_has_its_own() {
  numbers map(cuckoo::options{100, 4, 64});
  std::set<const void *> before;
  for (int round = 0; round < 3; round++) {
    const std::vector<const void *> handles = handles_of(map, 4);
    const std::set<const void *> different(handles.begin(), handles.end());
    CHECK(different.size() == 4 && (round == 0 || different == before));
    for (const void *one : different) CHECK(reinterpret_cast<std::uintptr_t>(one) % 64 == 0);
    before = different;
  }
}

// All others share one, which no thread has for itself.
void others_share_one() {
  numbers map(cuckoo::options{100, 2, 64});
  std::vector<const void *> handles = handles_of(map, 6);
  const std::set<const void *> different(handles.begin(), handles.end());
  CHECK(different.size() == 3);
  std::multiset<const void *> all(handles.begin(), handles.end());
  int own = 0, shared = 0;
  for (const void *one : different) (all.count(one) == 1 ? own : shared)++;
  CHECK(own == 2 && shared == 1);
}

// Is destroyed when its thread ends, after what the header keeps for the thread.
struct last_call {
  const numbers *map = nullptr;
  const void *own = nullptr;
  ~last_call() {
    if (map) CHECK(handle_of(*map) != own);
  }
};

// A thread that has given its handle back as it ends shares that of the others.
void one_that_ends_shares_too() {
  numbers map(cuckoo::options{100, 1, 64});
  std::thread([&] {
    static thread_local last_call last;
    last.map = &map;
    last.own = handle_of(map);
  }).join();
}

// A thread that had no memory to note that it has a handle gets it later.
void no_handle_is_lost_without_memory() {
  numbers map(cuckoo::options{100, 1, 64});
  int refused = 0;
  for (int requests = 0; requests < 3; requests++)
    std::thread([&] {
      answered = requests;
      try {
        handle_of(map);
      } catch (const std::bad_alloc &) {
        refused++;
      }
      answered = -1;
      const void *own = handle_of(map);
      std::thread([&] { CHECK(handle_of(map) != own); }).join();
    }).join();
  CHECK(refused > 0);
}

// The end of one of a thread's maps leaves it its handles of the others.
void others_stay_when_a_map_ends() {
  const cuckoo::options few{100, 1, 64};
  auto first = std::make_unique<numbers>(few);
  numbers second(few), third(few), last(few);
  handle_of(*first);
  const void *of_second = handle_of(second);
  const void *of_third = handle_of(third);
  first.reset();
  handle_of(last);
  CHECK(handle_of(second) == of_second && handle_of(third) == of_third);
}

// A thread keeps no more of several maps that have ended than of one.
template <class Use> void keeps_no_more(const Use &use) {
  std::vector<int> kept(4);
  std::thread([&] {
    for (int &count : kept) {
      use();
      count = blocks;
    }
  }).join();
  CHECK(kept == std::vector<int>(4, kept[0]));
}

void maps_that_ended_are_forgotten() {
  const cuckoo::options few{100, 1, 64};
  keeps_no_more([&] { handle_of(numbers(few)); });
  keeps_no_more([&] {
    numbers map(few);
    handle_of(map);
    map = numbers(few);
    handle_of(map);
  });
}

// A call that is refused as busy lets other threads run each time, and is made again.
void others_run_where_a_call_is_busy() {
  numbers map(100);
  CHECK(map.insert(1, 10));
  busy = 3;
  yields = 0;
  CHECK(map.contains(1) && busy == 0 && yields == 3);
}

// A thread that shares a handle lets others run where another thread has locked the map, until it is
// unlocked.
void a_lock_waits_for_another() {
  numbers map(cuckoo::options{100, 1, 64});
  auto locked = map.lock_table();
  all_yields = 0;
  std::thread other([&] {
    auto later = map.lock_table();
    CHECK(later.find(1) == 10 && later.insert(2, 20));
  });
  for (int looks = 0; all_yields == 0 && looks < 10000; looks++)
    std::this_thread::sleep_for(std::chrono::milliseconds(1));
  CHECK(all_yields > 0 && locked.insert(1, 10));
  locked.unlock();
  other.join();
  CHECK(map.find(2) == 20);
}

// A key that was unbound when it was looked up, and is bound by another call before it is inserted, is
// changed as a bound one.
void upsert_of_a_key_that_was_bound_meanwhile() {
  numbers map(100);
  other_value = 7;
  CHECK(!map.upsert(1, [](int &value) { value++; }, 5) && map.find(1) == 8);
  other_value = 7;
  CHECK(!map.uprase_fn(2, [](int &value) { return value == 7; }, 5) && !map.contains(2));
  other_value = 7;
  CHECK(!map.insert(3, 5) && map.find(3) == 7);
}

// A key that has another value than the one by which a closure unbinds it, and is unbound by another
// call then, is told as unbound.
void erasure_of_a_key_that_was_unbound_meanwhile() {
  numbers map(100);
  int runs = 0;
  CHECK(map.insert(1, 10));
  is_erased_then = true;
  CHECK(!map.erase_fn(1, [&](int &value) { return runs++ == 0 && map.update(1, value + 1); }));
  is_erased_then = false;
  CHECK(runs == 1 && map.empty());
}

// Lets a call run a closure whose key another call unbinds before what it makes is set: the closure
// has run once, in vain, and the call finds the key unbound.
template <class Call> void runs_in_vain(numbers &map, const Call &call) {
  int runs = 0;
  map.insert_or_assign(1, 10);
  is_erased_before = true;
  call(runs);
  CHECK(runs == 1 && !is_erased_before);
}

void closures_that_run_in_vain() {
  numbers map(100);
  const auto next = [](int &runs) {
    return [&runs](int &value) { value += ++runs; };
  };
  const auto gone = [](int &runs) {
    return [&runs](int &) { return ++runs > 0; };
  };
  runs_in_vain(map, [&](int &runs) { CHECK(!map.update_fn(1, next(runs)) && map.empty()); });
  runs_in_vain(map, [&](int &runs) { CHECK(!map.erase_fn(1, gone(runs)) && map.empty()); });
  runs_in_vain(map, [&](int &runs) { CHECK(map.upsert(1, next(runs), 5) && map.find(1) == 5); });
  runs_in_vain(map, [&](int &runs) { CHECK(map.uprase_fn(1, gone(runs), 6) && map.find(1) == 6); });
}

// Where others have bound the key again before an upsert does, its closure runs again, on that.
void a_closure_that_runs_in_vain_and_again() {
  numbers map(100);
  std::vector<int> seen;
  CHECK(map.insert(1, 10));
  is_erased_before = true;
  other_value = 7;
  const auto next = [&](int &value) { seen.push_back(value++); };
  CHECK(!map.upsert(1, next, 5) && map.find(1) == 8 && seen == std::vector<int>{10, 7});
}

struct padded {
  char mark;
  int number;
};

// What a closure makes of a value with padding is set where the key has all bytes that were read.
void padding_is_compared_as_it_was_read() {
  cuckoo::map<int, padded> map(100);
  padded value{};
  std::memset(static_cast<void *>(&value), 0xff, sizeof value);
  value.mark = 'a';
  value.number = 1;
  CHECK(map.insert(1, value));
  std::uint64_t kept = 0;
  std::memcpy(&kept, &value, sizeof value);
  changes.clear();
  CHECK(map.update_fn(1, [](padded &it) { it = padded{'b', it.number + 1}; }));
  CHECK(changes.size() == 1 && changes[0].first == kept);
  CHECK(map.find(1).mark == 'b' && map.find(1).number == 2);
  CHECK(map.update_fn(1, [](padded &) {}) && changes.size() == 2);
  CHECK(changes[1].first == changes[0].second && map.find(1).number == 2);
}

// Values that are their bytes aren't set where the closure leaves them as they were.
void values_that_stay_are_not_set() {
  numbers map(100);
  CHECK(map.insert(1, 10));
  changes.clear();
  CHECK(map.update_fn(1, [](int &) {}) && changes.empty());
}

} // namespace

int main() {
  each_has_its_own();
  others_share_one();
  one_that_ends_shares_too();
  no_handle_is_lost_without_memory();
  others_stay_when_a_map_ends();
  maps_that_ended_are_forgotten();
  others_run_where_a_call_is_busy();
  a_lock_waits_for_another();
  upsert_of_a_key_that_was_bound_meanwhile();
  erasure_of_a_key_that_was_unbound_meanwhile();
  closures_that_run_in_vain();
  a_closure_that_runs_in_vain_and_again();
  padding_is_compared_as_it_was_read();
  values_that_stay_are_not_set();
  return report();
}
