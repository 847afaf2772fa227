// A concurrent hash map that cannot lose a key, for C++17: cuckoo_map.h as a class.
//
// `cuckoo::map<Key, T>` has the calls on a key of libcuckoo's `cuckoohash_map`, by their names and
// with their results; but closures differ (below), and keys and values are small (see `map`). What
// `lock_table` gives has iterators over copies of the pairs alone (see `locked_table`). There is no
// copy, member `swap` (`std::swap` does it), range or initializer list; no `rehash`, `hashpower`,
// `bucket_count` or `max_num_worker_threads`, nor `minimum_load_factor` and `maximum_hashpower`, for
// which a `cuckoo_settings` has `min_load` and `max`; and no hash, equality or allocator of the
// program's. `reserve` never shrinks.
//
//     cuckoo::map<std::uint64_t, int> ages(1000);
//     ages.insert(5, 50);
//     ages.upsert(5, [](int &age) { age++; }, 1);
//     int age = ages.find(5);
//
// Any number of threads may make calls at a time. Each call takes effect once, at one moment; a
// call that throws has changed no binding, unless its comment says so. The map has
// `options::callers` handles of the library's: a thread that calls takes one that is free, and keeps
// it until it ends. Those that find none share one more, a call at a time. A thread that calls another
// map than before looks for its handle among those that it has of all maps, one by one: that took 40
// ns a call with one map, and 300 to 1,000 with 1,000 maps in turn. A call that the library refuses as
// busy lets other threads run, and is made again.
//
// Closures differ. libcuckoo's run once, under the key's lock. Those of `update_fn`, `upsert`,
// `uprase_fn` and `erase_fn` run with no lock held, on a copy of the value that was read, and what
// they make of it is set where the key is still bound to what was read. Where it is bound to another
// value by then, the closure runs again, on that. Where it is unbound by then, the closure has run
// in vain, and the call goes on as for an unbound key: `update_fn` and `erase_fn` return false;
// `upsert` and `uprase_fn` bind it, or begin anew where others have bound it meanwhile. So a closure
// may run more than once, and may have run though the call tells that the key was unbound, or throws.
// Where it tells that the key was bound, what the last run saw is what it replaced.
//
// Therefore a closure must not free, send or count anything, nor read what a pointer that it is given
// leads to, unless the program keeps that alive. To take a value out there is `take`:
//
//     objects.erase_fn(1, [](object *&it) { delete it; return true; });  // may free it twice
//     if (auto it = objects.take(1)) delete *it;                         // frees it once
//
// A closure may throw, take its time and make calls of its own. What it changed before it threw is
// dropped here, and kept by libcuckoo.
//
// Calls have to be ordered before the end of the map, as by the end of their threads or by a lock.
// The library is linked as C: what this header does is tested, and not proved.
#ifndef CUCKOO_MAP_HPP
#define CUCKOO_MAP_HPP

#include "cuckoo_map.h"

#include <array>
#include <atomic>
#include <cstddef>
#include <cstdint>
#include <cstring>
#include <iterator>
#include <memory>
#include <mutex>
#include <new>
#include <optional>
#include <stdexcept>
#include <string>
#include <string_view>
#include <thread>
#include <type_traits>
#include <utility>
#include <vector>

#if defined(__SANITIZE_THREAD__)
#define CUCKOO_MAP_TSAN
#elif defined(__has_feature)
#if __has_feature(thread_sanitizer)
#define CUCKOO_MAP_TSAN
#endif
#endif
#ifdef CUCKOO_MAP_TSAN
#include <sanitizer/tsan_interface.h>
extern "C" void __tsan_ignore_thread_begin();
extern "C" void __tsan_ignore_thread_end();
#endif

namespace cuckoo {

/// There is no room for the key, and the table may not grow.
class full : public std::runtime_error {
  std::int32_t code_;

public:
  /// A refusal by this code.
  explicit full(std::int32_t code)
      : std::runtime_error(code == CUCKOO_FULL
                               ? "cuckoo: no room, and the table has its greatest size"
                               : "cuckoo: no room, and too few slots are taken for it to grow"),
        code_(code) {}

  /// CUCKOO_FULL or CUCKOO_LOAD_TOO_LOW.
  std::int32_t code() const noexcept { return code_; }
};

/// The map was moved from.
class closed : public std::logic_error {
public:
  /// A call of such a map.
  closed() : std::logic_error("cuckoo: the map was moved from") {}
};

/// The thread that makes a call has locked the map by `lock_table`, and not unlocked it yet: other
/// calls of the map than those of what `lock_table` gave would wait for themselves.
class locked_here : public std::logic_error {
public:
  /// A call of such a thread.
  locked_here() : std::logic_error("cuckoo: this thread has locked the map") {}
};

/// What `lock_table` gave was unlocked, or moved from.
class not_locked : public std::logic_error {
public:
  /// A call of it.
  not_locked() : std::logic_error("cuckoo: the map is not locked by this") {}
};

/// What a map is opened with.
struct options {
  /// About so many keys have room before the table grows.
  std::uint64_t keys = 1024;
  /// So many threads have a handle of their own: 0 to 1023. Each takes up to 57 KB.
  std::uint32_t callers = 16;
  /// Tries to take a stripe before other threads are let run: 1 at least. Many are good only where
  /// there are more processors than threads.
  std::uint32_t turns = 64;
};

/// What a rename came to.
enum class renamed {
  /// The value went from the one key, which is unbound now, to the other.
  done,
  /// The key that was to be renamed is unbound. Nothing has changed.
  unbound,
  /// Both keys are bound. Nothing has changed.
  occupied
};

namespace detail {

// A handle was found closed that no other thread closes. It is no code of the library's.
inline constexpr std::int32_t is_locked_here = INT32_MIN;

// Throws for a refusal. Where it was one as busy, it lets other threads run, and the call is to be
// made again.
[[gnu::noinline]] inline void refuse(std::int32_t code) {
  switch (code) {
  case CUCKOO_BUSY: return std::this_thread::yield();
  case CUCKOO_NO_MEMORY: throw std::bad_alloc();
  case CUCKOO_FULL:
  case CUCKOO_LOAD_TOO_LOW: throw full(code);
  case CUCKOO_OVER_MAX: throw std::length_error("cuckoo: more slots than the greatest size has");
  case CUCKOO_BAD_SETTINGS: throw std::invalid_argument("cuckoo: a setting is out of its range");
  case CUCKOO_TOO_LONG: throw std::length_error("cuckoo: a key has more than 64 bytes");
  case CUCKOO_TWICE: throw std::invalid_argument("cuckoo: a key stands twice");
  case CUCKOO_CLOSED: throw closed();
  case is_locked_here: throw locked_here();
  default: throw std::logic_error("cuckoo: refused by code " + std::to_string(code));
  }
}

// The calls on keys that are numbers.
struct numbers {
  using handle = cuckoo_handle;
  using locked = cuckoo_locked;
  static constexpr auto open = cuckoo_open_with;
  static constexpr auto close = cuckoo_close;
  static constexpr auto find = cuckoo_find;
  static constexpr auto contains = cuckoo_contains;
  static constexpr auto insert = cuckoo_insert;
  static constexpr auto assign = cuckoo_assign;
  static constexpr auto add = cuckoo_add;
  static constexpr auto update = cuckoo_update;
  static constexpr auto swap_if = cuckoo_swap_if;
  static constexpr auto erase = cuckoo_erase;
  static constexpr auto erase_if = cuckoo_erase_if;
  static constexpr auto rename = cuckoo_rename;
  static constexpr auto find_all = cuckoo_find_all;
  static constexpr auto set_if_all = cuckoo_set_if_all;
  static constexpr auto move_all = cuckoo_move;
  static constexpr auto len = cuckoo_len;
  static constexpr auto capacity = cuckoo_capacity;
  static constexpr auto reserve = cuckoo_reserve;
  static constexpr auto clear = cuckoo_clear;
  static constexpr auto copy = cuckoo_export;
  static constexpr auto drain = cuckoo_drain;
  static constexpr auto close_pairs = cuckoo_pairs_close;
  static constexpr auto lock = cuckoo_lock;
  static constexpr auto unlock = cuckoo_unlock;
  static constexpr auto end_locked = cuckoo_locked_close;
  static constexpr auto locked_find = cuckoo_locked_find;
  static constexpr auto locked_insert = cuckoo_locked_insert;
  static constexpr auto locked_assign = cuckoo_locked_assign;
  static constexpr auto locked_erase = cuckoo_locked_erase;
  static constexpr auto locked_len = cuckoo_locked_len;
  static constexpr auto locked_clear = cuckoo_locked_clear;
  static constexpr auto locked_copy = cuckoo_locked_export;

  // Pairs, and the place that the next one is read to.
  struct reader {
    cuckoo_pairs pairs = CUCKOO_NO_PAIRS;
    std::uint64_t key = 0;
    std::uint64_t value = 0;

    bool next() { return cuckoo_pairs_next(&pairs, &key, &value) == CUCKOO_OK; }
    std::uint64_t known() const { return key; }
  };
};

// The same on keys that are texts.
struct texts {
  using handle = cuckoo_text_handle;
  using locked = cuckoo_text_locked;
  static constexpr auto open = cuckoo_text_open_with;
  static constexpr auto close = cuckoo_text_close;
  static constexpr auto find = cuckoo_text_find;
  static constexpr auto contains = cuckoo_text_contains;
  static constexpr auto insert = cuckoo_text_insert;
  static constexpr auto assign = cuckoo_text_assign;
  static constexpr auto add = cuckoo_text_add;
  static constexpr auto update = cuckoo_text_update;
  static constexpr auto swap_if = cuckoo_text_swap_if;
  static constexpr auto erase = cuckoo_text_erase;
  static constexpr auto erase_if = cuckoo_text_erase_if;
  static constexpr auto rename = cuckoo_text_rename;
  static constexpr auto len = cuckoo_text_len;
  static constexpr auto capacity = cuckoo_text_capacity;
  static constexpr auto reserve = cuckoo_text_reserve;
  static constexpr auto clear = cuckoo_text_clear;
  static constexpr auto copy = cuckoo_text_export;
  static constexpr auto drain = cuckoo_text_drain;
  static constexpr auto close_pairs = cuckoo_text_pairs_close;
  static constexpr auto lock = cuckoo_text_lock;
  static constexpr auto unlock = cuckoo_text_unlock;
  static constexpr auto end_locked = cuckoo_text_locked_close;
  static constexpr auto locked_find = cuckoo_text_locked_find;
  static constexpr auto locked_insert = cuckoo_text_locked_insert;
  static constexpr auto locked_assign = cuckoo_text_locked_assign;
  static constexpr auto locked_erase = cuckoo_text_locked_erase;
  static constexpr auto locked_len = cuckoo_text_locked_len;
  static constexpr auto locked_clear = cuckoo_text_locked_clear;
  static constexpr auto locked_copy = cuckoo_text_locked_export;

  struct reader {
    cuckoo_text_pairs pairs = CUCKOO_NO_PAIRS;
    std::uint8_t key[CUCKOO_TEXT_MAX] = {};
    std::size_t length = 0;
    std::uint64_t value = 0;

    bool next() {
      return cuckoo_text_pairs_next(&pairs, key, sizeof key, &length, &value) == CUCKOO_OK;
    }
    std::string_view known() const { return {reinterpret_cast<const char *>(key), length}; }
  };
};

// Makes a call on a key.
template <class Function, class... Rest>
std::int32_t on_key(Function call, cuckoo_handle *at, std::uint64_t key, Rest... rest) {
  return call(at, key, rest...);
}

// A view of nothing may be a null pointer, and the library wants another.
inline const void *bytes_of(std::string_view key) { return key.empty() ? "" : key.data(); }

template <class Function, class... Rest>
std::int32_t on_key(Function call, cuckoo_text_handle *at, std::string_view key, Rest... rest) {
  return call(at, bytes_of(key), key.size(), rest...);
}

template <class Function, class... Rest>
std::int32_t on_key(Function call, cuckoo_locked *at, std::uint64_t key, Rest... rest) {
  return call(at, key, rest...);
}

template <class Function, class... Rest>
std::int32_t on_key(Function call, cuckoo_text_locked *at, std::string_view key, Rest... rest) {
  return call(at, bytes_of(key), key.size(), rest...);
}

// Makes a call on two keys.
template <class Function>
std::int32_t on_two(Function call, cuckoo_handle *at, std::uint64_t one, std::uint64_t other) {
  return call(at, one, other);
}

template <class Function>
std::int32_t on_two(Function call, cuckoo_text_handle *at, std::string_view one,
                    std::string_view other) {
  return call(at, bytes_of(one), one.size(), bytes_of(other), other.size());
}

template <class Key>
constexpr bool is_text = std::is_same_v<Key, std::string_view> || std::is_same_v<Key, std::string>;

template <class Key>
constexpr bool is_number = (std::is_integral_v<Key> || std::is_enum_v<Key> ||
                            std::is_pointer_v<Key>) && sizeof(Key) <= sizeof(std::uint64_t);

// How keys go to the library and come back: `taken` is what calls take, and `kept` a copy.
template <class Key, class = void> struct keys {
  static_assert(is_text<Key> || is_number<Key>,
                "keys are integers, enums or pointers of at most 8 bytes, or texts");
};

template <class Key> struct keys<Key, std::enable_if_t<is_text<Key>>> {
  using family = texts;
  using taken = std::string_view;
  using kept = std::string;
  static bool is_bindable(std::string_view key) { return key.size() <= CUCKOO_TEXT_MAX; }
  static std::string_view to(std::string_view key) { return key; }
  static std::string_view from(std::string_view key) { return key; }
};

template <class Key> struct keys<Key, std::enable_if_t<is_number<Key>>> {
  using family = numbers;
  using taken = Key;
  using kept = Key;

  static bool is_bindable(Key) { return true; }

  static std::uint64_t to(Key key) {
    if constexpr (std::is_pointer_v<Key>)
      return reinterpret_cast<std::uintptr_t>(key);
    else
      return static_cast<std::uint64_t>(key);
  }

  static Key from(std::uint64_t number) {
    if constexpr (std::is_pointer_v<Key>)
      return reinterpret_cast<Key>(static_cast<std::uintptr_t>(number));
    else if constexpr (std::is_enum_v<Key>)
      return static_cast<Key>(static_cast<std::underlying_type_t<Key>>(number));
    else
      return static_cast<Key>(number);
  }
};

// A value as the number that the library keeps.
template <class T> std::uint64_t to_number(const T &value) {
  std::uint64_t number = 0;
  std::memcpy(&number, &value, sizeof value);
  return number;
}

// A value that is made as by `T value(args...)`, as libcuckoo's are: a cast alone would do more.
template <class T, class... Args> std::uint64_t number_of(Args &&...args) {
  static_assert(std::is_constructible_v<T, Args...>,
                "a value can't be constructed of these arguments");
  return to_number<T>(T(std::forward<Args>(args)...));
}

// Whether equal values have equal bytes, but for 0.0 and -0.0: they have no padding.
template <class T>
constexpr bool is_its_bytes =
    std::has_unique_object_representations_v<T> || std::is_floating_point_v<T>;

template <class T> T from_number(std::uint64_t number) {
  T value;
  std::memcpy(static_cast<void *>(&value), &number, sizeof value);
  return value;
}

// What lends handles to threads, seen from a thread.
class lender {
public:
  virtual ~lender() = default;
  // Takes a handle back from a thread that ends.
  virtual void take_back(void *handle) noexcept = 0;
  virtual bool is_open() noexcept = 0;
};

// The handle that this thread had last. It is not destroyed, so that threads and programs that are
// ending may still look at it.
struct latest_loan {
  const void *of;
  void *handle;
  bool thread_ends;
};

inline constexpr char nobody = 0;
inline thread_local latest_loan latest{&nobody, nullptr, false};

inline void forget_latest() { latest.of = &nobody; }

// The handles that this thread has, one of each map that it has called. They keep their lenders in
// memory, so no new lender stands at the address of one that is in the list.
class loans {
  struct loan {
    std::shared_ptr<lender> of;
    void *handle;
  };
  std::vector<loan> all_;

  void drop_closed() {
    for (std::size_t i = 0; i < all_.size();)
      if (all_[i].of->is_open())
        i++;
      else
        drop(i);
  }

  void drop(std::size_t index) {
    all_[index] = std::move(all_.back());
    all_.pop_back();
  }

public:
  loans() = default;
  loans(const loans &) = delete;
  loans &operator=(const loans &) = delete;

  ~loans() {
    forget_latest();
    latest.thread_ends = true;
    for (loan &one : all_) one.of->take_back(one.handle);
  }

  void *find(const lender *of) const {
    for (const loan &one : all_)
      if (one.of.get() == of) return one.handle;
    return nullptr;
  }

  // Makes room for one more, and forgets maps that have ended.
  void prepare() {
    forget_latest();
    drop_closed();
    all_.reserve(all_.size() + 1);
  }

  void push(std::shared_ptr<lender> of, void *handle) { all_.push_back({std::move(of), handle}); }

  static loans &of_thread() {
    static thread_local loans one;
    return one;
  }
};

// Makes a call of a table. ThreadSanitizer sees neither the library's locks nor all of what they
// guard, so it looks away meanwhile, and is told that what threads did before earlier calls of this
// table comes before what follows this one. That is more order than calls of different keys make: it
// may miss a race there.
template <class Call, class Handle>
std::int32_t make(const Call &call, Handle *at, [[maybe_unused]] void *table) {
#ifdef CUCKOO_MAP_TSAN
  __tsan_release(table);
  __tsan_ignore_thread_begin();
#endif
  const std::int32_t code = call(at);
#ifdef CUCKOO_MAP_TSAN
  __tsan_ignore_thread_end();
  __tsan_acquire(table);
#endif
  return code;
}

// The code of a call by a thread's own handle. It is closed only while it is in a locked table of
// this thread's.
inline std::int32_t by_own(std::int32_t code) {
  return code == CUCKOO_CLOSED ? is_locked_here : code;
}

[[gnu::noinline]] inline void refuse_own(std::int32_t code) { refuse(by_own(code)); }

// The handles of one table.
template <class Family> class pool final : public lender {
  using handle = typename Family::handle;
  using locked = typename Family::locked;

  // Each is in a line of the cache of its own: every call writes it.
  struct alignas(64) place {
    handle at = CUCKOO_CLOSED_HANDLE;
  };

  std::mutex lock_;
  std::vector<place> places_;
  std::vector<handle *> idle_;
  bool is_open_ = true;

  // Guards the first handle, which all threads without one of their own share.
  std::mutex shared_lock_;
  // Which of them has locked the table by it.
  std::atomic<std::thread::id> sharer_{std::thread::id()};

public:
  explicit pool(const cuckoo_settings &settings) {
    const std::size_t count = settings.callers;
    if (count < 1 || count > 1024) refuse(CUCKOO_BAD_SETTINGS);
    places_.resize(count);
    idle_.reserve(count);
    std::vector<handle> handles(count, handle(CUCKOO_CLOSED_HANDLE));
    if (const std::int32_t code = Family::open(&settings, handles.data(), count)) refuse(code);
    for (std::size_t i = 0; i < count; i++) {
      places_[i].at = handles[i];
      if (i > 0) idle_.push_back(&places_[i].at);
    }
  }

  // Ends the table; threads that still have a handle find it closed when they end.
  void close() noexcept {
    std::lock_guard<std::mutex> held(lock_);
    is_open_ = false;
    for (place &one : places_) Family::close(&one.at);
    places_ = {};
    idle_ = {};
  }

  // A handle for a thread, or null where all are lent. A thread that has locked the table would wait
  // for itself by another one.
  handle *lend() {
    std::lock_guard<std::mutex> held(lock_);
    if (idle_.empty() || is_sharer()) return nullptr;
    handle *one = idle_.back();
    idle_.pop_back();
    return one;
  }

  void take_back(void *lent) noexcept override {
    std::lock_guard<std::mutex> held(lock_);
    if (is_open_) idle_.push_back(static_cast<handle *>(lent));
  }

  bool is_open() noexcept override {
    std::lock_guard<std::mutex> held(lock_);
    return is_open_;
  }

  // Makes a call through the handle that is shared.
  template <class Call> std::int32_t share(const Call &call) {
    std::lock_guard<std::mutex> held(shared_lock_);
    return share_held(call);
  }

  // Locks the table by this handle, or by the one that is shared where it is null.
  std::int32_t lock(handle *at, locked &to) {
    const auto call = [&to](handle *by) { return Family::lock(by, &to); };
    if (at) return by_own(make(call, at, this));
    std::lock_guard<std::mutex> held(shared_lock_);
    const std::int32_t code = share_held(call);
    if (code == CUCKOO_OK) sharer_ = std::this_thread::get_id();
    return code;
  }

  // Unlocks it, by which the handle is back. Where the table has ended, the handle ends too.
  void unlock(locked &from, handle *at) noexcept {
    if (at) return give_back(from, at);
    std::lock_guard<std::mutex> held(shared_lock_);
    sharer_ = std::thread::id();
    give_back(from, nullptr);
  }

private:
  bool is_sharer() const { return sharer_ == std::this_thread::get_id(); }

  template <class Call> std::int32_t share_held(const Call &call) {
    if (sharer_ == std::thread::id()) return make(call, &places_[0].at, this);
    return is_sharer() ? is_locked_here : CUCKOO_BUSY;
  }

  void give_back(locked &from, handle *at) noexcept {
    std::lock_guard<std::mutex> held(lock_);
    make(
        [this, at](locked *it) {
          if (is_open_) return Family::unlock(it, at ? at : &places_[0].at);
          Family::end_locked(it);
          return std::int32_t{CUCKOO_OK};
        },
        &from, this);
  }
};

// A locked table, with the place of the handle that is in it: null where that is the shared one.
template <class Family> class session {
  using handle = typename Family::handle;
  using locked = typename Family::locked;
  std::shared_ptr<pool<Family>> pool_;
  handle *home_ = nullptr;
  locked locked_ = CUCKOO_NOT_LOCKED;

public:
  session(std::shared_ptr<pool<Family>> of, handle *home, locked it)
      : pool_(std::move(of)), home_(home), locked_(it) {}
  session(session &&other) noexcept
      : pool_(std::move(other.pool_)), home_(other.home_), locked_(other.locked_) {
    other.locked_ = CUCKOO_NOT_LOCKED;
  }
  ~session() { unlock(); }

  session &operator=(session &&other) noexcept {
    if (this != &other) {
      unlock();
      pool_ = std::move(other.pool_);
      home_ = other.home_;
      locked_ = std::exchange(other.locked_, locked(CUCKOO_NOT_LOCKED));
    }
    return *this;
  }

  bool is_active() const noexcept { return pool_ != nullptr; }

  void unlock() noexcept {
    if (pool_) pool_->unlock(locked_, home_);
    pool_ = nullptr;
  }

  // Makes a call of the locked table. Where it is refused, it throws.
  template <class Call> std::int32_t answer(const Call &call) {
    if (!pool_) throw not_locked();
    const std::int32_t code = make(call, &locked_, pool_.get());
    if (code < 0) refuse(code);
    return code;
  }
};

// A table, which ends with it.
template <class Family> class table {
  using handle = typename Family::handle;
  std::shared_ptr<pool<Family>> pool_;

  // Whether the latest handle is of this table. One that was moved from has none.
  bool is_latest() const { return latest.of == pool_.get(); }

  // A handle of this thread's, which becomes the latest; null where it can't have one.
  handle *borrow() const {
    if (latest.thread_ends) return nullptr;
    loans &mine = loans::of_thread();
    void *at = mine.find(pool_.get());
    if (!at) {
      mine.prepare();
      at = pool_->lend();
      if (!at) return nullptr;
      mine.push(pool_, at);
    }
    latest.of = pool_.get();
    latest.handle = at;
    return static_cast<handle *>(at);
  }

  // Makes a call by the latest handle, which is of this table.
  template <class Call> std::int32_t by_latest(const Call &call) const {
    return make(call, static_cast<handle *>(latest.handle), pool_.get());
  }

  // Makes a call where the latest handle isn't of this table.
  template <class Call> std::int32_t other_than_latest(const Call &call) const {
    if (!pool_) return CUCKOO_CLOSED;
    if (handle *at = borrow()) return by_own(make(call, at, pool_.get()));
    return pool_->share(call);
  }

  void close() noexcept {
    if (pool_) pool_->close();
  }

  // Makes a call until it is answered, whichever handle is the latest.
  template <class Call> [[gnu::noinline]] std::int32_t answer_slowly(const Call &call) const {
    for (;;) {
      const std::int32_t code = is_latest() ? by_own(by_latest(call)) : other_than_latest(call);
      if (code >= 0) return code;
      refuse(code);
    }
  }

public:
  explicit table(const cuckoo_settings &settings)
      : pool_(std::make_shared<pool<Family>>(settings)) {}
  table(table &&) noexcept = default;
  ~table() { close(); }

  table &operator=(table &&other) noexcept {
    if (this != &other) {
      close();
      pool_ = std::move(other.pool_);
    }
    return *this;
  }

  // Makes a call until it is answered. Else it throws.
  template <class Call> std::int32_t answer(const Call &call) const {
    if (is_latest()) {
      const std::int32_t code = by_latest(call);
      if (code >= 0) return code;
      refuse_own(code);
    }
    return answer_slowly(call);
  }

  // Locks the table, until that is done. Else it throws.
  session<Family> lock() const {
    for (;;) {
      if (!pool_) refuse(CUCKOO_CLOSED);
      handle *const at = is_latest() ? static_cast<handle *>(latest.handle) : borrow();
      typename Family::locked to = CUCKOO_NOT_LOCKED;
      const std::int32_t code = pool_->lock(at, to);
      if (code == CUCKOO_OK) return session<Family>(pool_, at, to);
      refuse(code);
    }
  }
};

inline cuckoo_settings settings_for(const options &wanted) {
  cuckoo_settings settings;
  cuckoo_settings_for(wanted.keys, wanted.callers + 1, wanted.turns, &settings);
  return settings;
}

} // namespace detail

/// The pairs of a map at one moment, which are read once, in the order of the keys as unsigned
/// numbers or as bytes. Other threads don't change them. A text key that is read is good until the
/// next one is, or the snapshot moves.
///
///     for (auto [key, value] : ages.snapshot()) std::cout << key << ' ' << value << '\n';
template <class Key, class T> class snapshot {
  using keys = detail::keys<Key>;
  using family = typename keys::family;
  typename family::reader reader_;

public:
  /// A key and its value.
  using value_type = std::pair<typename keys::taken, T>;

  /// No pairs.
  snapshot() = default;

  /// Leaves no pairs in the other one.
  snapshot(snapshot &&other) noexcept : reader_(other.reader_) {
    other.reader_.pairs = CUCKOO_NO_PAIRS;
  }

  /// Leaves in the other one what this one had.
  snapshot &operator=(snapshot &&other) noexcept {
    std::swap(reader_, other.reader_);
    return *this;
  }

  /// What wasn't read is freed.
  ~snapshot() { family::close_pairs(&reader_.pairs); }

  /// The next pair, or nothing after the last one.
  std::optional<value_type> next() {
    if (!reader_.next()) return std::nullopt;
    return value_type(keys::from(reader_.known()), detail::from_number<T>(reader_.value));
  }

  /// Reads the pairs on.
  class iterator {
  public:
    /// It is passed over once.
    using iterator_category = std::input_iterator_tag;
    /// A key and its value.
    using value_type = typename snapshot<Key, T>::value_type;
    /// Of no use: iterators have no distance.
    using difference_type = std::ptrdiff_t;
    /// What `->` gives.
    using pointer = const value_type *;
    /// What `*` gives.
    using reference = const value_type &;

    /// A copy of a pair that was passed over.
    class passed {
      std::pair<typename keys::kept, T> pair_;

    public:
      /// Copies the pair.
      explicit passed(const value_type &pair) : pair_(pair.first, pair.second) {}
      /// The pair.
      std::pair<typename keys::kept, T> operator*() const { return pair_; }
    };

    /// Behind the last pair.
    iterator() = default;
    /// At the next pair.
    explicit iterator(snapshot &of) : of_(&of), now_(of.next()) {}

    /// The pair.
    reference operator*() const { return *now_; }
    /// The pair.
    pointer operator->() const { return &*now_; }
    /// Reads the next one.
    iterator &operator++() {
      now_ = of_->next();
      return *this;
    }
    /// Reads the next one, and gives a copy of the pair before it: a text that was read is good no
    /// longer.
    passed operator++(int) {
      passed before(*now_);
      ++*this;
      return before;
    }
    /// Whether both are behind the last pair, or neither is.
    bool operator==(const iterator &other) const {
      return now_.has_value() == other.now_.has_value();
    }
    /// Whether just one is behind the last pair.
    bool operator!=(const iterator &other) const { return !(*this == other); }

  private:
    snapshot *of_ = nullptr;
    std::optional<value_type> now_;
  };

  /// At the next pair, which it reads.
  iterator begin() { return iterator(*this); }
  /// Behind the last pair.
  iterator end() { return iterator(); }

private:
  template <class, class> friend class map;
  template <class, class> friend class locked_table;
};

/// A map that the thread has locked: what it does by this is one call of the map's, whatever it is
/// and however long it takes, and takes effect where it is unlocked. Until then the calls of all other
/// threads wait, and the thread's own other calls of the map throw `locked_here`. It is moved, but not
/// copied, and stays with its thread. Its end unlocks the map, also where an exception is thrown:
/// what was done until then takes effect. Calls of one that is unlocked, or was moved from, throw
/// `not_locked`.
///
///     auto locked = ages.lock_table();
///     for (auto [name, age] : locked) locked.insert_or_assign(name, age + 1);
///     locked.unlock();
template <class Key, class T> class locked_table {
  using keys = detail::keys<Key>;
  using family = typename keys::family;
  using key_taken = typename keys::taken;
  detail::session<family> session_;
  cuckoo::snapshot<Key, T> pairs_;

public:
  /// The type of keys.
  using key_type = Key;
  /// The type of values.
  using mapped_type = T;
  /// How many keys are bound.
  using size_type = std::size_t;
  /// Reads the pairs of one moment on.
  using iterator = typename cuckoo::snapshot<Key, T>::iterator;

  /// Leaves the other one unlocked. Iterators of the other one are of no use then.
  locked_table(locked_table &&) noexcept = default;
  /// The same; what this one has locked is unlocked.
  locked_table &operator=(locked_table &&) noexcept = default;
  /// Unlocks the map, where it is locked.
  ~locked_table() = default;

  /// Whether it is locked by this.
  bool is_active() const noexcept { return session_.is_active(); }

  /// Unlocks the map. It takes no memory.
  void unlock() noexcept { session_.unlock(); }

  /// Copies the value of the key to `value`, and returns whether the key is bound.
  bool find(const key_taken &key, T &value) {
    std::uint64_t number;
    if (!find_number(key, number)) return false;
    value = detail::from_number<T>(number);
    return true;
  }

  /// The value of the key. Throws std::out_of_range where it is unbound.
  T find(const key_taken &key) {
    std::uint64_t number;
    if (!find_number(key, number)) throw std::out_of_range("cuckoo: the key is unbound");
    return detail::from_number<T>(number);
  }

  /// The value of the key, or nothing where it is unbound.
  std::optional<T> get(const key_taken &key) {
    std::uint64_t number;
    if (!find_number(key, number)) return std::nullopt;
    return detail::from_number<T>(number);
  }

  /// Whether the key is bound.
  bool contains(const key_taken &key) {
    std::uint64_t number;
    return find_number(key, number);
  }

  /// Binds an unbound key to a value of these arguments, and returns whether it was unbound. This
  /// and the next may throw `full` and std::bad_alloc; then the map stays locked, and all that was
  /// done to it.
  template <class... Args> bool insert(const key_taken &key, Args &&...args) {
    const std::uint64_t number = detail::number_of<T>(std::forward<Args>(args)...);
    return on<family::locked_insert>(key, number) == CUCKOO_OK;
  }

  /// Binds the key, and returns whether it was unbound.
  template <class V> bool insert_or_assign(const key_taken &key, V &&value) {
    std::uint64_t old;
    const std::uint64_t number = detail::number_of<T>(std::forward<V>(value));
    return on<family::locked_assign>(key, number, &old) == CUCKOO_OK;
  }

  /// Unbinds the key, and returns whether it was bound.
  bool erase(const key_taken &key) { return take(key).has_value(); }

  /// Unbinds the key, and returns the value that it had, or nothing where it was unbound.
  std::optional<T> take(const key_taken &key) {
    std::uint64_t old;
    if (seek<family::locked_erase>(key, &old) != CUCKOO_OK) return std::nullopt;
    return detail::from_number<T>(old);
  }

  /// How many keys are bound, by a count.
  size_type size() {
    std::uint64_t number = 0;
    call<family::locked_len>(&number);
    return static_cast<size_type>(number);
  }

  /// Whether no key is bound, by a count.
  bool empty() { return size() == 0; }

  /// Unbinds all keys.
  void clear() { call<family::locked_clear>(); }

  /// All pairs as they are now. Later calls don't change them.
  cuckoo::snapshot<Key, T> snapshot() {
    cuckoo::snapshot<Key, T> result;
    call<family::locked_copy>(&result.reader_.pairs);
    return result;
  }

  /// At the first pair of a new snapshot, which is kept until the next `begin`.
  iterator begin() {
    pairs_ = snapshot();
    return pairs_.begin();
  }
  /// Behind the last pair.
  iterator end() { return iterator(); }

private:
  template <class, class> friend class map;

  explicit locked_table(detail::session<family> &&session) : session_(std::move(session)) {}

  template <auto function, class... Rest> std::int32_t call(Rest... rest) {
    return session_.answer([=](auto *at) { return function(at, rest...); });
  }

  template <auto function, class... Rest> std::int32_t on(const key_taken &key, Rest... rest) {
    const auto known = keys::to(key);
    return session_.answer([=](auto *at) { return detail::on_key(function, at, known, rest...); });
  }

  // The same of a call that binds no unbound key, as one that is too long is.
  template <auto function, class... Rest> std::int32_t seek(const key_taken &key, Rest... rest) {
    const auto known = keys::to(key);
    return session_.answer([=](auto *at) {
      const std::int32_t code = detail::on_key(function, at, known, rest...);
      return code == CUCKOO_TOO_LONG ? CUCKOO_ABSENT : code;
    });
  }

  bool find_number(const key_taken &key, std::uint64_t &number) {
    return seek<family::locked_find>(key, &number) == CUCKOO_OK;
  }
};

/// A concurrent hash map. Keys are integers, enums or pointers of at most 8 bytes, or
/// `std::string_view` or `std::string` of at most 64 bytes, of which the map keeps a copy: a longer
/// one is never bound, and where a call is to bind it, std::length_error is thrown. Pointers are
/// compared as addresses, `const char *` too. Values are trivially copyable, have at most 8 bytes and
/// a default constructor; they are passed as copies. All calls may throw `closed`, where the map was
/// moved from, `locked_here`, where this thread has locked it, and std::bad_alloc.
template <class Key, class T> class map {
  static_assert(std::is_trivially_copyable_v<T> && sizeof(T) <= sizeof(std::uint64_t),
                "values are trivially copyable, and have at most 8 bytes");
  static_assert(std::is_default_constructible_v<T>, "values have a default constructor");

  using keys = detail::keys<Key>;
  using family = typename keys::family;
  detail::table<family> table_;

public:
  /// The type of the keys.
  using key_type = Key;
  /// The type of the values.
  using mapped_type = T;
  /// The type of counts.
  using size_type = std::size_t;
  /// How calls take a key.
  using key_taken = typename keys::taken;
  /// A pair whose key is a copy.
  using value_type = std::pair<typename keys::kept, T>;

  /// An empty map, with the options as they are by default.
  map() : map(options()) {}

  /// An empty map. Throws std::invalid_argument where an option is out of its range. Options in
  /// braces need their name, since those of a `cuckoo_settings` look the same.
  ///
  ///     cuckoo::map<std::uint64_t, int> ages(cuckoo::options{1000, 8});
  explicit map(const options &wanted) : table_(detail::settings_for(wanted)) {}

  /// An empty map with room for about so many keys, and the other options as they are by default.
  explicit map(size_type keys_wanted) : map(with_keys(keys_wanted)) {}

  /// An empty map with every setting of the library's. One of its callers is the handle that
  /// threads share.
  explicit map(const cuckoo_settings &settings) : table_(settings) {}

  /// Moves the table; no other thread may make a call meanwhile. Calls of what is moved from throw
  /// `closed`.
  map(map &&) noexcept = default;
  /// The same, and the table that was here ends.
  map &operator=(map &&) noexcept = default;
  /// The table ends. Threads that have called it may live on.
  ~map() = default;

  /// Copies the value of the key to `value`, and returns whether the key is bound.
  bool find(const key_taken &key, T &value) const {
    std::uint64_t number;
    if (!find_number(key, number)) return false;
    value = detail::from_number<T>(number);
    return true;
  }

  /// The value of the key. Throws std::out_of_range where it is unbound.
  T find(const key_taken &key) const {
    std::uint64_t number;
    if (!find_number(key, number)) throw std::out_of_range("cuckoo: the key is unbound");
    return detail::from_number<T>(number);
  }

  /// The value of the key, or nothing where it is unbound.
  std::optional<T> get(const key_taken &key) const {
    std::uint64_t number;
    if (!find_number(key, number)) return std::nullopt;
    return detail::from_number<T>(number);
  }

  /// Calls `fn(const T &)` on a copy of the value, and returns whether the key is bound.
  template <class F> bool find_fn(const key_taken &key, F fn) const {
    std::uint64_t number;
    if (!find_number(key, number)) return false;
    fn(static_cast<const T &>(detail::from_number<T>(number)));
    return true;
  }

  /// Whether the key is bound.
  bool contains(const key_taken &key) const { return seek<family::contains>(key) == CUCKOO_OK; }

  /// Binds an unbound key to a value of these arguments, and returns whether it was unbound. Throws
  /// `full`, as each call does that binds a key.
  template <class... Args> bool insert(const key_taken &key, Args &&...args) {
    return on<family::insert>(key, number_of(std::forward<Args>(args)...)) == CUCKOO_OK;
  }

  /// Binds the key, and returns whether it was unbound.
  template <class V> bool insert_or_assign(const key_taken &key, V &&value) {
    std::uint64_t old;
    return on<family::assign>(key, number_of(std::forward<V>(value)), &old) == CUCKOO_OK;
  }

  /// Adds to the value of the key, but not beyond its greatest, and binds an unbound key to `more`;
  /// returns whether it was unbound. It is one call of the library's, where `upsert` makes two at
  /// least. Of values that are unsigned integers of 8 bytes.
  template <class U = T> bool add(const key_taken &key, std::common_type_t<U> more) {
    static_assert(std::is_unsigned_v<U> && sizeof(U) == sizeof(std::uint64_t),
                  "only unsigned integers of 8 bytes are added to");
    return on<family::add>(key, static_cast<std::uint64_t>(more)) == CUCKOO_OK;
  }

  /// Binds the key, and returns the value that it had, or nothing where it was unbound.
  ///
  ///     if (auto before = objects.exchange(5, object)) delete *before;
  template <class V> std::optional<T> exchange(const key_taken &key, V &&value) {
    std::uint64_t old;
    if (on<family::assign>(key, number_of(std::forward<V>(value)), &old) == CUCKOO_OK)
      return std::nullopt;
    return detail::from_number<T>(old);
  }

  /// Binds a bound key, and returns whether it was bound.
  template <class V> bool update(const key_taken &key, V &&value) {
    std::uint64_t old;
    return seek<family::update>(key, number_of(std::forward<V>(value)), &old) == CUCKOO_OK;
  }

  /// Changes the value of the key by `fn(T &)`, and returns whether the key is bound.
  template <class F> bool update_fn(const key_taken &key, F fn) {
    return erase_fn(key, and_keep(fn));
  }

  /// Changes the value of the key by `fn(T &)`, or binds an unbound key to a value of these
  /// arguments; returns whether it was unbound.
  template <class F, class... Args> bool upsert(const key_taken &key, F fn, Args &&...args) {
    return uprase_fn(key, and_keep(fn), std::forward<Args>(args)...);
  }

  /// Changes the value of the key by `fn(T &)`, or unbinds the key where that is true; an unbound
  /// key is bound to a value of these arguments. Returns whether it was unbound.
  template <class F, class... Args> bool uprase_fn(const key_taken &key, F fn, Args &&...args) {
    const std::uint64_t number = number_of(std::forward<Args>(args)...);
    for (;;) {
      if (change(key, fn)) return false;
      if (on<family::insert>(key, number) == CUCKOO_OK) return true;
    }
  }

  /// Unbinds the key, and returns whether it was bound.
  bool erase(const key_taken &key) {
    std::uint64_t old;
    return seek<family::erase>(key, &old) == CUCKOO_OK;
  }

  /// Unbinds the key, and returns the value that it had, or nothing where it was unbound. No two
  /// calls are given what was bound once, so what a pointer leads to may be freed by the one that
  /// is, unless others still use what they found.
  ///
  ///     if (auto object = objects.take(5)) delete *object;
  std::optional<T> take(const key_taken &key) {
    std::uint64_t old;
    if (seek<family::erase>(key, &old) != CUCKOO_OK) return std::nullopt;
    return detail::from_number<T>(old);
  }

  /// Changes the value of the key by `fn(T &)`, or unbinds the key where that is true. Returns
  /// whether it was bound. To free what the value leads to, see `take`.
  template <class F> bool erase_fn(const key_taken &key, F fn) { return change(key, fn); }

  /// Gives the value of `from` to another key, `to`, and unbinds `from`, in one step of the map: no
  /// other call finds both bound, or none. Where `from` is unbound or both are bound, it says so,
  /// and nothing has changed. Throws `full`, and std::invalid_argument where the two keys are one.
  ///
  ///     if (ages.rename(5, 7) == cuckoo::renamed::unbound) ages.insert(7, 50);
  cuckoo::renamed rename(const key_taken &from, const key_taken &to) {
    const auto one = keys::to(from);
    const auto other = keys::to(to);
    const bool is_bindable = keys::is_bindable(to);
    const auto ask = [=](auto *at) {
      const std::int32_t code = detail::on_two(family::rename, at, one, other);
      return is_bindable && code == CUCKOO_TOO_LONG ? CUCKOO_ABSENT : code;
    };
    switch (table_.answer(ask)) {
    case CUCKOO_ABSENT: return renamed::unbound;
    case CUCKOO_PRESENT: return renamed::occupied;
    default: return renamed::done;
    }
  }

  /// A key, the value that is expected of it, and its new one.
  struct change_if {
    /// The key.
    Key key;
    /// The value that is expected of it.
    T from;
    /// Its new value.
    T to;
  };

  /// A key, what is taken from its value, and what is then added to it.
  struct part {
    /// The key.
    Key key;
    /// What is taken from its value.
    T take;
    /// What is then added to it.
    T put;
  };

  /// The values of 1 to 8 different keys, in their order, all of one moment. This and the two below
  /// are of maps whose keys are numbers, and throw std::invalid_argument where a key stands twice.
  ///
  ///     auto [left, right] = ages.get_all({5, 6});
  template <std::size_t N>
  std::array<std::optional<T>, N> get_all(const Key (&wanted)[N]) const {
    cuckoo_entry entries[few<N>()];
    for (std::size_t i = 0; i < N; i++) entries[i] = {keys::to(wanted[i]), 0, 0};
    call<family::find_all>(&entries[0], N);
    std::array<std::optional<T>, N> values;
    for (std::size_t i = 0; i < N; i++)
      if (entries[i].bound) values[i] = detail::from_number<T>(entries[i].value);
    return values;
  }

  /// Compare and set: where each key is bound to the value that is expected of it, binds each to its
  /// new one, all at one moment. Returns whether it did. Values are compared by their bytes, so -0.0
  /// is not 0.0.
  ///
  ///     ages.set_if_all({{5, 50, 51}, {6, 60, 59}});
  template <std::size_t N> bool set_if_all(const change_if (&wanted)[N]) {
    static_assert(detail::is_its_bytes<T>,
                  "values are compared by their bytes, and equal ones of this type may differ there");
    cuckoo_change changes[few<N>()];
    for (std::size_t i = 0; i < N; i++)
      changes[i] = {keys::to(wanted[i].key), detail::to_number(wanted[i].from),
                    detail::to_number(wanted[i].to)};
    return call<family::set_if_all>(&changes[0], N) == CUCKOO_OK;
  }

  /// Takes from the values of the keys and adds to them, all at one moment, where each key is bound,
  /// has as much, and gets no more than its greatest. Returns whether it did. Of values that are
  /// unsigned integers of 8 bytes.
  ///
  ///     accounts.move_all({{1, 30, 0}, {2, 0, 20}, {3, 0, 10}});
  template <std::size_t N> bool move_all(const part (&wanted)[N]) {
    static_assert(std::is_unsigned_v<T> && sizeof(T) == sizeof(std::uint64_t),
                  "only unsigned integers of 8 bytes are added to");
    cuckoo_part parts[few<N>()];
    for (std::size_t i = 0; i < N; i++)
      parts[i] = {keys::to(wanted[i].key), static_cast<std::uint64_t>(wanted[i].take),
                  static_cast<std::uint64_t>(wanted[i].put)};
    return call<family::move_all>(&parts[0], N) == CUCKOO_OK;
  }

  /// How many keys are bound, counted under all locks: about a millisecond at a million keys, in
  /// which other calls wait. `empty` and `load_factor` count too.
  size_type size() const { return count<family::len>(); }

  /// Whether no key is bound, by a count of all.
  bool empty() const { return size() == 0; }

  /// How many slots the table has.
  size_type capacity() const { return count<family::capacity>(); }

  /// The part of the slots that is taken. Between its two counts other threads may make calls.
  double load_factor() const {
    return static_cast<double>(size()) / static_cast<double>(capacity());
  }

  /// Makes the table grow until it has so many slots, and returns whether it had fewer. It never
  /// shrinks. Throws std::length_error where it may not have so many. Where std::bad_alloc is
  /// thrown, it may have doubled.
  bool reserve(size_type slots) {
    return call<family::reserve>(slots) == CUCKOO_OK;
  }

  /// Unbinds all keys, at one moment.
  void clear() { call<family::clear>(); }

  /// Locks the map for this thread, until what it gives is unlocked or ends. Other threads' calls
  /// wait meanwhile; this thread's own throw `locked_here`, this one too.
  cuckoo::locked_table<Key, T> lock_table() {
    return cuckoo::locked_table<Key, T>(table_.lock());
  }

  /// All pairs at one moment.
  cuckoo::snapshot<Key, T> snapshot() const { return read<family::copy>(); }

  /// All pairs at one moment, as a vector.
  std::vector<value_type> pairs() const {
    std::vector<value_type> all;
    for (auto &&[key, value] : snapshot()) all.emplace_back(key, value);
    return all;
  }

  /// All pairs at one moment, and unbinds all keys at that moment. What isn't read of them is lost.
  /// Where std::bad_alloc is thrown, all keys are bound still.
  cuckoo::snapshot<Key, T> drain() { return read<family::drain>(); }

private:
  // So many keys, of which calls on several take eight at most.
  template <std::size_t N> static constexpr std::size_t few() {
    static_assert(detail::is_number<Key>, "calls on several keys are for keys that are numbers");
    static_assert(N <= 8, "calls on several keys are for 8 at most");
    return N;
  }

  static options with_keys(size_type keys_wanted) {
    options wanted;
    wanted.keys = keys_wanted;
    return wanted;
  }

  template <class... Args> static std::uint64_t number_of(Args &&...args) {
    return detail::number_of<T>(std::forward<Args>(args)...);
  }

  // A closure that doesn't unbind.
  template <class F> static auto and_keep(F &fn) {
    return [&fn](T &value) {
      fn(value);
      return false;
    };
  }

  // Makes a call of the library's on the table.
  template <auto function, class... Rest> std::int32_t call(Rest... rest) const {
    return table_.answer([=](auto *at) { return function(at, rest...); });
  }

  // The same on a key.
  template <auto function, class... Rest>
  std::int32_t on(const key_taken &key, Rest... rest) const {
    const auto known = keys::to(key);
    return table_.answer([=](auto *at) { return detail::on_key(function, at, known, rest...); });
  }

  // The same of a call that binds no unbound key, as one that is too long is.
  template <auto function, class... Rest>
  std::int32_t seek(const key_taken &key, Rest... rest) const {
    const auto known = keys::to(key);
    return table_.answer([=](auto *at) {
      const std::int32_t code = detail::on_key(function, at, known, rest...);
      return code == CUCKOO_TOO_LONG ? CUCKOO_ABSENT : code;
    });
  }

  bool find_number(const key_taken &key, std::uint64_t &number) const {
    return seek<family::find>(key, &number) == CUCKOO_OK;
  }

  template <auto function> size_type count() const {
    std::uint64_t number = 0;
    call<function>(&number);
    return static_cast<size_type>(number);
  }

  template <auto function> cuckoo::snapshot<Key, T> read() const {
    cuckoo::snapshot<Key, T> result;
    call<function>(&result.reader_.pairs);
    return result;
  }

  // Changes a bound key by a closure, and returns whether it was bound: sets what the closure makes
  // of the value that was seen, as long as the key has another by then. The library compares with
  // the number that it gave, of which padding is a part like any other. What the closure leaves may
  // have any bytes there, which nothing here depends on (valgrind tells that they are not set).
  template <class F> bool change(const key_taken &key, F &fn) {
    std::uint64_t seen;
    if (!find_number(key, seen)) return false;
    for (;;) {
      T value = detail::from_number<T>(seen);
      const bool is_erased = fn(value);
      const std::uint64_t next = detail::to_number(value);
      if (detail::is_its_bytes<T> && !is_erased && next == seen) return true;
      const std::int32_t code = is_erased ? seek<family::erase_if>(key, seen)
                                          : seek<family::swap_if>(key, seen, next, &seen);
      if (code != CUCKOO_DIFFERENT) return code == CUCKOO_OK;
      if (is_erased && !find_number(key, seen)) return false;
    }
  }
};

} // namespace cuckoo

#undef CUCKOO_MAP_TSAN

#endif
