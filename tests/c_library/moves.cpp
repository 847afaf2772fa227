// Maps and snapshots that are moved: what each has then. The address sanitizer and valgrind tell what
// is freed twice, or never.
#include "check.hpp"
#include <cuckoo_map.hpp>

#include <string>
#include <string_view>
#include <utility>

namespace {

using numbers = cuckoo::map<int, int>;

// A map that was moved from has no calls, also of texts that are too long.
void texts() {
  cuckoo::map<std::string, int> one(100);
  const std::string longer(CUCKOO_TEXT_MAX + 1, 'x');
  auto two = std::move(one);
  CHECK(!two.contains(longer));
  CHECK_THROWS(cuckoo::closed, one.contains(longer));
  CHECK_THROWS(cuckoo::closed, one.take(longer));
  CHECK_THROWS(cuckoo::closed, one.exchange("one", 1));
  CHECK_THROWS(cuckoo::closed, one.rename(longer, "one"));
}

void maps() {
  numbers one(100);
  one.insert(1, 10);
  numbers two(std::move(one));
  CHECK(two.find(1) == 10);
  CHECK_THROWS(cuckoo::closed, one.find(1));
  CHECK_THROWS(cuckoo::closed, one.size());
  one = numbers(100);
  CHECK(one.empty() && one.insert(2, 20));
  std::swap(one, two);
  CHECK(one.find(1) == 10 && two.find(2) == 20);
  two = std::move(one);
  CHECK(two.find(1) == 10);
  CHECK_THROWS(cuckoo::closed, one.find(1));
}

// By a reference, since compilers warn of a move onto itself that they see.
void a_map_onto_itself() {
  numbers map(100);
  numbers &same = map;
  map.insert(1, 10);
  map = std::move(same);
  CHECK(map.find(1) == 10 && map.insert(2, 20) && map.size() == 2);
}

// A snapshot of a key and its value.
template <class Key> cuckoo::snapshot<Key, int> snapshot_of(const Key &key, int value) {
  cuckoo::map<Key, int> map(100);
  map.insert(key, value);
  return map.snapshot();
}

// Whether this is the next pair, and the last one.
template <class Key> bool ends_with(cuckoo::snapshot<Key, int> &read, const Key &key, int value) {
  return read.next() == std::pair(key, value) && !read.next();
}

// One that is moved from has no pairs, and one that is assigned from has those of the other.
template <class Key> void snapshots(const Key &one, const Key &two) {
  auto from = snapshot_of(one, 10);
  auto first = std::move(from);
  CHECK(!from.next());
  auto second = snapshot_of(two, 20);
  first = std::move(second);
  CHECK(ends_with(first, two, 20) && ends_with(second, one, 10));
}

// Other pairs take the place of those that weren't read, and end unread too.
template <class Key> void unread_snapshots(const Key &one, const Key &two) {
  auto read = snapshot_of(one, 10);
  read = snapshot_of(two, 20);
  read = snapshot_of(one, 30);
  CHECK(ends_with(read, one, 30));
  read = snapshot_of(two, 40);
  auto &same = read;
  read = std::move(same);
  CHECK(ends_with(read, two, 40));
  read = snapshot_of(one, 50);
  read = {};
  CHECK(!read.next());
  read = snapshot_of(two, 60);
}

} // namespace

int main() {
  maps();
  texts();
  a_map_onto_itself();
  snapshots<int>(-1, 1);
  snapshots<std::string_view>("one", "two");
  unread_snapshots<int>(-1, 1);
  unread_snapshots<std::string_view>("one", "two");
  return report();
}
