// The map of a test that is compiled with either: libcuckoo's where LIBCUCKOO is defined.
#ifndef TESTS_EITHER_MAP_HPP
#define TESTS_EITHER_MAP_HPP

#ifdef LIBCUCKOO
#include <libcuckoo/cuckoohash_map.hh>
template <class Key, class T> using hash_map = libcuckoo::cuckoohash_map<Key, T>;
#else
#include <cuckoo_map.hpp>
template <class Key, class T> using hash_map = cuckoo::map<Key, T>;
#endif

#endif
