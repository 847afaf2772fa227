// Threads that outlive maps, maps that outlive threads, and more threads than handles.
#include "check.hpp"
#include <cuckoo_map.hpp>

#include <condition_variable>
#include <cstdlib>
#include <functional>
#include <list>
#include <memory>
#include <thread>
#include <vector>

namespace {

using numbers = cuckoo::map<int, int>;

cuckoo::options with_callers(std::uint32_t callers) { return {100, callers, 64}; }

// A thread that does what it is given, one after the other.
class worker {
  std::mutex lock_;
  std::condition_variable changed_;
  std::function<void()> job_;
  bool is_over_ = false;
  std::thread thread_{[this] { run(); }};

  void run() {
    std::unique_lock<std::mutex> held(lock_);
    while (!is_over_) {
      if (job_) job_();
      job_ = nullptr;
      changed_.notify_all();
      changed_.wait(held, [this] { return job_ || is_over_; });
    }
  }

public:
  // Waits until it is done.
  void run_here(std::function<void()> job) {
    std::unique_lock<std::mutex> held(lock_);
    changed_.wait(held, [this] { return !job_; });
    job_ = std::move(job);
    changed_.notify_all();
    changed_.wait(held, [this] { return !job_; });
  }

  ~worker() {
    {
      std::lock_guard<std::mutex> held(lock_);
      is_over_ = true;
    }
    changed_.notify_all();
    thread_.join();
  }
};

void threads_outlive_maps() {
  worker one, other;
  for (int round = 0; round < 50; round++) {
    numbers map(with_callers(2));
    one.run_here([&] { CHECK(map.insert(1, round)); });
    other.run_here([&] { CHECK(map.find(1) == round); });
    CHECK(map.find(1) == round);
  }
}

void maps_outlive_threads() {
  numbers map(with_callers(2));
  for (int round = 0; round < 50; round++)
    std::thread([&] { CHECK(map.insert(round, round)); }).join();
  CHECK(map.size() == 50);
}

void many_maps_in_a_thread() {
  std::list<numbers> maps;
  for (int round = 0; round < 30; round++) {
    maps.emplace_back(with_callers(1));
    int number = 0;
    for (numbers &map : maps) CHECK(map.insert(round, number++));
    number = 0;
    for (numbers &map : maps) CHECK(map.find(round) == number++);
    if (round % 3 == 2) maps.pop_front();
  }
  numbers::size_type sum = 0;
  for (numbers &map : maps) sum += map.size();
  CHECK(sum == 20 + 20 * 19 / 2);
}

void a_map_ends_in_another_thread() {
  for (int round = 0; round < 20; round++) {
    auto map = std::make_unique<numbers>(with_callers(2));
    CHECK(map->insert(1, 1));
    std::thread([&] {
      CHECK(map->find(1) == 1);
      map.reset();
    }).join();
    std::thread([&] { map = std::make_unique<numbers>(with_callers(2)); }).join();
    CHECK(map->insert(1, 2));
    numbers moved = std::move(*map);
    CHECK(moved.find(1) == 2);
  }
}

// A thread that finds no free handle has no latest one: a new map may stand where the ended one of its
// latest call stood, and must not be taken for that.
void no_free_handle_after_a_map_ended() {
  numbers crowded(with_callers(0));
  auto map = std::make_unique<numbers>(with_callers(1));
  CHECK(map->insert(1, 1));
  CHECK(cuckoo::detail::latest.of != &cuckoo::detail::nobody);
  map.reset();
  CHECK(crowded.insert(1, 2));
  CHECK(cuckoo::detail::latest.of == &cuckoo::detail::nobody);
}

// More threads at a time than handles: all of them get on, also where none gives its handle back.
void more_threads_than_handles(std::uint32_t callers) {
  constexpr int each = 2000;
  cuckoo::map<int, std::uint64_t> map(with_callers(callers));
  std::list<worker> workers(8);
  std::vector<std::thread> threads;
  for (worker &one : workers)
    threads.emplace_back([&] {
      one.run_here([&] {
        for (int i = 0; i < each; i++) map.add(i % 10, 1);
      });
    });
  for (std::thread &one : threads) one.join();
  std::uint64_t sum = 0;
  for (auto [key, value] : map.drain()) sum += value;
  CHECK(sum == 8 * each);
}

// Is destroyed when its thread ends, after what the header keeps for the thread where it is made
// before that; calls are good even then.
struct last_words {
  numbers *map = nullptr;
  ~last_words() {
    if (map) CHECK(map->insert(map->find(0), 1));
  }
};

void calls_of_a_thread_that_ends() {
  numbers map(with_callers(2));
  map.insert(0, 7);
  std::thread([&] {
    static thread_local last_words words;
    words.map = &map;
    CHECK(map.contains(0));
  }).join();
  CHECK(map.find(7) == 1);
}

// Threads that end while maps do.
void both_end() {
  for (int round = 0; round < 200; round++) {
    auto map = std::make_unique<numbers>(with_callers(3));
    std::atomic<int> left{4};
    std::vector<std::thread> threads;
    for (int i = 0; i < 4; i++)
      threads.emplace_back([&, i] {
        CHECK(map->insert(i, i));
        left--;
      });
    while (left > 0) std::this_thread::yield();
    map.reset();
    for (std::thread &one : threads) one.join();
  }
}

// Both end behind `main`, after what the header keeps for its thread.
numbers of_the_program(with_callers(2));

struct at_exit {
  ~at_exit() {
    if (of_the_program.find(1) != 1 || !of_the_program.insert(2, 2)) std::_Exit(1);
  }
} last;

} // namespace

int main() {
  CHECK(of_the_program.insert(1, 1));
  threads_outlive_maps();
  maps_outlive_threads();
  many_maps_in_a_thread();
  a_map_ends_in_another_thread();
  no_free_handle_after_a_map_ended();
  for (std::uint32_t callers : {0, 1, 3, 8}) more_threads_than_handles(callers);
  calls_of_a_thread_that_ends();
  both_end();
  return report();
}
