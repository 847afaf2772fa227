// Four threads hash words, and count how often they have seen each.
#include "map.hpp"

#include <iostream>
#include <string>
#include <thread>
#include <vector>

int main() {
  const std::vector<std::string> words{"one", "fish", "two", "fish", "red", "fish"};
  hash_map<std::string, int> counts;
  std::vector<std::thread> threads;
  for (int i = 0; i < 4; i++)
    threads.emplace_back([&] {
      for (int round = 0; round < 1000; round++)
        for (const std::string &word : words)
          counts.upsert(word, [](int &count) { count++; }, 1);
    });
  for (std::thread &one : threads) one.join();

  counts.insert_or_assign(std::string("green"), 0);
  counts.update("red", -1);
  counts.erase("one");
  for (const char *word : {"fish", "two", "red", "green", "one"}) {
    int count;
    if (counts.find(word, count))
      std::cout << word << ' ' << count << '\n';
    else
      std::cout << word << " is not there\n";
  }
}
