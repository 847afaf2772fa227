// Counts the words of files, or of standard input, by threads.
//
//     words [FILE..]
//
// It prints how many words there are, how many different ones, and the ten that are most frequent.
// Words of more than 64 bytes are left out.
#include <cuckoo_map.hpp>

#include <algorithm>
#include <fstream>
#include <functional>
#include <iostream>
#include <iterator>
#include <string>
#include <thread>
#include <vector>

namespace {

using counts = cuckoo::map<std::string_view, std::uint64_t>;

constexpr std::string_view blanks = " \t\r\n\f";

// Counts the words of a text.
void count(std::string_view text, counts &words) {
  for (std::size_t at = 0; (at = text.find_first_not_of(blanks, at)) != text.npos;) {
    const std::size_t end = std::min(text.find_first_of(blanks, at), text.size());
    if (end - at <= CUCKOO_TEXT_MAX) words.add(text.substr(at, end - at), 1);
    at = end;
  }
}

// Counts them by so many threads, which have a part each that ends behind a word.
void count_by_threads(std::string_view text, counts &words, std::size_t threads) {
  std::vector<std::thread> running;
  for (std::size_t left = threads; left > 0; left--) {
    const std::size_t end = std::min(text.find_first_of(blanks, text.size() / left), text.size());
    running.emplace_back(count, text.substr(0, end), std::ref(words));
    text.remove_prefix(end);
  }
  for (std::thread &one : running) one.join();
}

std::string read_all(std::istream &from) {
  return {std::istreambuf_iterator<char>(from), std::istreambuf_iterator<char>()};
}

} // namespace

int main(int argc, char **argv) {
  std::string text;
  for (int i = 1; i < argc; i++) {
    std::ifstream file(argv[i], std::ios::binary);
    if (!file) {
      std::cerr << "words: " << argv[i] << " can't be read\n";
      return 1;
    }
    text += read_all(file) + '\n';
  }
  if (argc == 1) text = read_all(std::cin);

  counts words;
  count_by_threads(text, words, 4);

  auto all = words.pairs();
  std::uint64_t sum = 0;
  for (const auto &[word, times] : all) sum += times;
  std::cout << sum << " words, " << all.size() << " different\n";

  // The pairs come in the order of the words, in which equally frequent ones stay.
  std::stable_sort(all.begin(), all.end(),
                   [](const auto &a, const auto &b) { return a.second > b.second; });
  all.resize(std::min<std::size_t>(all.size(), 10));
  for (const auto &[word, times] : all) std::cout << times << ' ' << word << '\n';
}
