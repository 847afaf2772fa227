// What cuckoo_map.hpp doesn't compile: each case, with a pattern of what the compiler says. Case 0
// is compiled.
#include <cuckoo_map.hpp>

using numbers = cuckoo::map<std::uint64_t, std::uint32_t>;

struct large {
  std::uint64_t one, two;
};

struct without_default {
  explicit without_default(int) {}
};

struct padded {
  char mark;
  int number;
};

struct base {};

struct derived : base {};

enum class color { red, green };

#if CASE == 0
void moved(numbers &map) { numbers other(std::move(map)); }
void moved_locked(numbers &map) {
  auto locked = map.lock_table();
  auto other = std::move(locked);
}
void any_value(cuckoo::map<char, double> &map) { map.insert('a', .5); }
void swapped(cuckoo::map<int, double> &map) { map.set_if_all({{1, .5, 1.5}}); }
void bound(cuckoo::map<int, base *> &map, derived *value) {
  map.insert(1, value);
  map.exchange(1, value);
}
#elif CASE == 1 // (use of|call to) (deleted|implicitly-deleted)
void copied(numbers &map) { numbers other(map); }
#elif CASE == 2 // have at most 8 bytes
void opened() { cuckoo::map<std::uint64_t, large> map; }
#elif CASE == 3 // values are trivially copyable
void opened() { cuckoo::map<std::uint64_t, std::unique_ptr<int>> map; }
#elif CASE == 4 // values have a default constructor
void opened() { cuckoo::map<std::uint64_t, without_default> map; }
#elif CASE == 5 // keys are integers, enums or pointers
void opened() { cuckoo::map<double, int> map; }
#elif CASE == 6 // only unsigned integers of 8 bytes
void added(numbers &map) { map.add(1, 1); }
#elif CASE == 7 // equal ones of this type may differ there
bool swapped(cuckoo::map<int, padded> &map, padded from, padded to) {
  return map.set_if_all({{1, from, to}});
}
#elif CASE == 8 // can't be constructed of these arguments
void bound(cuckoo::map<int, derived *> &map, base *value) { map.insert(1, value); }
#elif CASE == 9 // can't be constructed of these arguments
void bound(cuckoo::map<int, color> &map) { map.insert_or_assign(1, 1); }
#elif CASE == 10 // can't be constructed of these arguments
void bound(cuckoo::map<int, int *> &map, void *value) { map.update(1, value); }
#elif CASE == 11 // can't be constructed of these arguments
void bound(cuckoo::map<int, derived *> &map, base *value) { map.exchange(1, value); }
#elif CASE == 12 // can't be constructed of these arguments
void bound(cuckoo::map<int, derived *> &map, base *value) {
  map.upsert(1, [](derived *&) {}, value);
}
#elif CASE == 13 // (use of|call to) (deleted|implicitly-deleted)
void copied(numbers &map) {
  auto locked = map.lock_table();
  auto other = locked;
}
#elif CASE == 14 // only unsigned integers of 8 bytes
bool moved(numbers &map) { return map.move_all({{1, 2, 0}, {3, 0, 2}}); }
#elif CASE == 15 // only unsigned integers of 8 bytes
bool moved(cuckoo::map<int, std::int64_t> &map) { return map.move_all({{1, 2, 0}, {3, 0, 2}}); }
#endif
