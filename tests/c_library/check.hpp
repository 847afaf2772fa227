// What the tests in C++ check by.
#ifndef TESTS_CHECK_HPP
#define TESTS_CHECK_HPP

#include <atomic>
#include <cstdio>

inline std::atomic<int> failures{0};

// Says where something doesn't hold.
#define CHECK(...)                                                                                 \
  do {                                                                                             \
    if (!(__VA_ARGS__)) {                                                                          \
      std::fprintf(stderr, "%s:%d: wrong: %s\n", __FILE__, __LINE__, #__VA_ARGS__);                \
      failures++;                                                                                  \
    }                                                                                              \
  } while (false)

// Says where no such exception is thrown.
#define CHECK_THROWS(exception, ...)                                                               \
  do {                                                                                             \
    bool is_thrown = false;                                                                        \
    try {                                                                                          \
      (void)(__VA_ARGS__);                                                                         \
    } catch (const exception &) {                                                                  \
      is_thrown = true;                                                                            \
    }                                                                                              \
    CHECK(is_thrown && "throws " #exception ": " #__VA_ARGS__);                                    \
  } while (false)

// The last line of a test, and its status.
inline int report() {
  std::puts(failures == 0 ? "passed" : "failed");
  return failures == 0 ? 0 : 1;
}

#endif
