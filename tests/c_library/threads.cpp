// Threads that make calls of cuckoo_map.h on the same few keys, and what has to come of it.
#include "check.hpp"
#include <cuckoo_map.h>

#include <algorithm>
#include <array>
#include <functional>
#include <memory>
#include <thread>
#include <vector>

namespace {

// The handles of a table, each for a thread of its own.
class handles {
  std::vector<cuckoo_handle> all_;

public:
  explicit handles(std::size_t count) : all_(count, cuckoo_handle CUCKOO_CLOSED_HANDLE) {
    CHECK(cuckoo_open(100, 64, all_.data(), count) == CUCKOO_OK);
  }
  handles(std::size_t count, const cuckoo_settings &settings)
      : all_(count, cuckoo_handle CUCKOO_CLOSED_HANDLE) {
    CHECK(cuckoo_open_with(&settings, all_.data(), count) == CUCKOO_OK);
  }
  handles(const handles &) = delete;
  handles &operator=(const handles &) = delete;
  ~handles() {
    for (cuckoo_handle &one : all_) cuckoo_close(&one);
  }

  cuckoo_handle *at(std::size_t index) { return &all_[index]; }

  // Lets each thread work with its handle and its number.
  void run(const std::function<void(cuckoo_handle *, std::uint64_t)> &work) {
    std::vector<std::thread> threads;
    for (std::size_t thread = 0; thread < all_.size(); thread++)
      threads.emplace_back([&, thread] { work(at(thread), thread); });
    for (std::thread &one : threads) one.join();
  }
};

// Makes a call until it isn't busy.
template <class Call> int32_t patient(Call call) {
  for (;;) {
    const int32_t code = call();
    if (code != CUCKOO_BUSY) return code;
    std::this_thread::yield();
  }
}

// Threads bind one key again and again, each time to another value, and note by which value each was
// replaced. The values form one chain, in which those of one thread stand in the order of its calls.
void chains(std::size_t threads) {
  constexpr std::uint64_t calls = 20000;
  handles table(threads);
  std::vector<std::atomic<std::uint64_t>> next(threads * calls + 1);
  table.run([&](cuckoo_handle *handle, std::uint64_t thread) {
    for (std::uint64_t step = 1; step <= calls; step++) {
      const std::uint64_t value = thread * calls + step;
      std::uint64_t old = 0;
      CHECK(patient([&] { return cuckoo_assign(handle, 7, value, &old); }) >= CUCKOO_OK);
      CHECK(next[old].exchange(value) == 0);
    }
  });
  std::vector<std::uint64_t> steps(threads);
  std::uint64_t last = 0;
  for (std::uint64_t count = 0; count < threads * calls; count++) {
    last = next[last];
    CHECK(last > 0);
    if (last == 0) return;
    CHECK(steps[(last - 1) / calls]++ == (last - 1) % calls);
  }
  CHECK(next[last] == 0);
  std::uint64_t found = 0;
  CHECK(cuckoo_find(table.at(0), 7, &found) == CUCKOO_OK && found == last);
}

constexpr std::size_t few = 8;
constexpr std::uint64_t fund = 1000;

using accounts = std::array<cuckoo_part, few>;

// Moves one from each of some accounts to the next, and so from the last to the first.
accounts round_of(std::uint64_t first) {
  accounts parts{};
  for (std::size_t i = 0; i < few; i++) parts[i] = {(first + 3 * i) % few, 1, 1};
  parts[0].take = 2;
  parts[few - 1].put = 2;
  return parts;
}

// Looks at all accounts at one moment.
bool is_whole(cuckoo_handle *handle) {
  std::array<cuckoo_entry, few> entries{};
  for (std::size_t i = 0; i < few; i++) entries[i].key = few - 1 - i;
  CHECK(patient([&] { return cuckoo_find_all(handle, entries.data(), few); }) == CUCKOO_OK);
  std::uint64_t sum = 0;
  for (const cuckoo_entry &entry : entries) {
    CHECK(entry.bound == 1);
    sum += entry.value;
  }
  return sum == few * fund;
}

// Threads move among the same eight accounts, which they name in rising and falling order, and one
// looks at all of them meanwhile: nothing is lost, and no thread waits for ever.
void transfers(std::size_t threads) {
  handles table(threads);
  for (std::uint64_t key = 0; key < few; key++)
    CHECK(cuckoo_insert(table.at(0), key, fund) == CUCKOO_OK);
  std::atomic<std::uint64_t> moved{0};
  table.run([&](cuckoo_handle *handle, std::uint64_t thread) {
    for (std::uint64_t step = 0; step < 2000; step++) {
      if (thread == 0) {
        CHECK(is_whole(handle));
        continue;
      }
      accounts parts = round_of(step % few);
      if (thread % 2 == 0) std::reverse(parts.begin(), parts.end());
      const int32_t code = patient([&] { return cuckoo_move(handle, parts.data(), few); });
      CHECK(code == CUCKOO_OK || code == CUCKOO_SHORT);
      if (code == CUCKOO_OK) moved++;
    }
  });
  CHECK(is_whole(table.at(0)) && moved > 0);
}

// Threads raise all of eight counters at once, where none was raised meanwhile.
void counters(std::size_t threads) {
  constexpr std::uint64_t calls = 1000;
  handles table(threads);
  for (std::uint64_t key = 0; key < few; key++)
    CHECK(cuckoo_insert(table.at(0), key, 0) == CUCKOO_OK);
  table.run([&](cuckoo_handle *handle, std::uint64_t thread) {
    for (std::uint64_t done = 0; done < calls;) {
      std::uint64_t seen = 0;
      CHECK(patient([&] { return cuckoo_find(handle, thread % few, &seen); }) == CUCKOO_OK);
      std::array<cuckoo_change, few> changes{};
      for (std::size_t i = 0; i < few; i++)
        changes[i] = {thread % 2 == 0 ? i : few - 1 - i, seen, seen + 1};
      const int32_t code = patient([&] { return cuckoo_set_if_all(handle, changes.data(), few); });
      CHECK(code == CUCKOO_OK || code == CUCKOO_DIFFERENT);
      if (code == CUCKOO_OK) done++;
    }
  });
  for (std::uint64_t key = 0; key < few; key++) {
    std::uint64_t count = 0;
    CHECK(cuckoo_find(table.at(0), key, &count) == CUCKOO_OK && count == threads * calls);
  }
}

// Renames keys in turn to new ones, which are higher by the stride. One that has no room stays. Says
// how often that was so.
std::uint64_t rename_in_turn(cuckoo_handle *handle, std::vector<std::uint64_t> &keys,
                             std::uint64_t stride) {
  std::uint64_t full = 0;
  for (std::uint64_t step = 0; step < 20000; step++) {
    std::uint64_t &key = keys[step % keys.size()];
    const std::uint64_t other = key + stride;
    const int32_t code = patient([&] { return cuckoo_rename(handle, key, other); });
    CHECK(code == CUCKOO_OK || code == CUCKOO_FULL);
    if (code == CUCKOO_OK) key = other;
    if (code == CUCKOO_FULL) full++;
  }
  return full;
}

// Threads rename keys of their own in a table that is nearly full and can't grow, so that others take
// slots that were found or made for one: each value stays bound, to one key.
void crowded_renames(std::size_t threads) {
  constexpr std::uint64_t slots = 64;
  const cuckoo_settings settings{2, 4, 4, static_cast<std::uint32_t>(threads), 64, 4, 5};
  handles table(threads, settings);
  const std::uint64_t each = slots * 15 / 16 / threads;
  std::vector<std::vector<std::uint64_t>> keys(threads);
  for (std::uint64_t thread = 0; thread < threads; thread++)
    for (std::uint64_t i = 0; i < each; i++) {
      const std::uint64_t key = i * threads + thread;
      if (cuckoo_insert(table.at(0), key, key) == CUCKOO_OK)
        keys[thread].push_back(key);
    }
  std::uint64_t count = 0;
  for (const std::vector<std::uint64_t> &own : keys) count += own.size();
  std::atomic<std::uint64_t> full{0};
  table.run([&](cuckoo_handle *handle, std::uint64_t thread) {
    full += rename_in_turn(handle, keys[thread], threads * each);
  });
  std::uint64_t len = 0;
  CHECK(cuckoo_len(table.at(0), &len) == CUCKOO_OK && len == count);
  for (const std::vector<std::uint64_t> &own : keys)
    for (const std::uint64_t key : own) {
      std::uint64_t found = 0;
      CHECK(cuckoo_find(table.at(0), key, &found) == CUCKOO_OK);
      CHECK(found == key % (threads * each));
    }
  std::printf("%zu threads: %llu renames found no room\n", threads,
              static_cast<unsigned long long>(full));
}

} // namespace

int main() {
  for (const std::size_t threads : {2, 4, 8}) {
    chains(threads);
    transfers(threads);
    counters(threads);
    crowded_renames(threads);
  }
  return report();
}
