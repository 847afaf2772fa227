// Measures the proved table and its peers in turn, and writes lines of CSV:
// measure,table,workload,threads,value,low,high
//   calls    millions of calls a second: the median of the slices, the lowest and the highest tenth
//   ratio    the time by that of libcuckoo, or of the first peer, in the same turn
//   latency  nanoseconds of an insertion while the table grows; the workload says which
//   pause    milliseconds of the longest find, and insertion, while so many threads insert over a
//            doubling and one more finds; `next pause` is over the doubling behind that
//   memory   bytes an entry while the table grows; the workload is the number of entries
#include "peers.h"
#include "proved.h"
#include <malloc.h>
#include <map>
#include <sys/wait.h>
#include <unistd.h>

struct Plan {
  uint64_t keys, grown;
  size_t slice, rounds;
};

static void put(const char *measure, const std::string &table, const std::string &workload,
                unsigned threads, double value, double low, double high) {
  printf("%s,%s,%s,%u,%.4g,%.4g,%.4g\n", measure, table.c_str(), workload.c_str(), threads, value,
         low, high);
  fflush(stdout);
}

static double at(std::vector<double> values, double part) {
  std::sort(values.begin(), values.end());
  return values[size_t(part * (values.size() - 1) + 0.5)];
}

static void put_all(const char *measure, const std::string &table, const std::string &workload,
                    unsigned threads, const std::vector<double> &values) {
  put(measure, table, workload, threads, at(values, 0.5), at(values, 0.1), at(values, 0.9));
}

// The proved table and its peers.
template <class Key> static std::vector<Contestant> contestants(const Trace &trace) {
  std::vector<Contestant> all = peers<Key>(trace);
  all.insert(all.begin(), own<Proved<Key>>("proved", keyed<Key>(trace)));
  return all;
}

static void differ(const std::string &table, const std::string &workload) {
  fprintf(stderr, "bench: %s answered otherwise than the proved table: %s\n", table.c_str(),
          workload.c_str());
  exit(1);
}

// Compares each answer for itself. In the workloads only finds meet unbound keys: an erasure that
// tells of success there too would pass them.
template <class Key> static void compare_answers() {
  Trace trace = all_calls(1000);
  std::vector<Contestant> all = contestants<Key>(trace);
  std::vector<std::unique_ptr<Table>> tables;
  for (const Contestant &one : all) tables.push_back(one.open(0, 1));
  for (size_t at = 0; at < trace.calls.size(); at++) {
    uint64_t answer = tables[0]->run(at, at + 1, 1).sum;
    for (size_t i = 1; i < all.size(); i++)
      if (tables[i]->run(at, at + 1, 1).sum != answer)
        differ(all[i].name, std::string("call ") + trace.calls[at].letter);
  }
}

// Makes the same slice on each table in turn, another one first in each round.
static void measure_workload(const Plan &plan, const std::vector<Contestant> &all,
                             std::vector<std::unique_ptr<Table>> &tables, const Workload &workload,
                             unsigned threads, const std::string &name) {
  size_t parts = threads * workload.calls_each, length = workload.to - workload.from,
         count = all.size();
  size_t calls = std::min(plan.slice, length / parts) * parts, slices = length / calls;
  std::vector<std::vector<double>> times(count), rates(count);
  for (size_t round = 0; round < plan.rounds; round++) {
    size_t from = workload.from + round % slices * calls;
    std::vector<uint64_t> sums(count);
    for (size_t turn = 0; turn < count; turn++) {
      size_t i = (turn + round) % count;
      Timed timed = tables[i]->run(from, from + calls, threads);
      sums[i] = timed.sum;
      times[i].push_back(timed.nanos);
      rates[i].push_back(calls / workload.calls_each / timed.nanos * 1e3);
    }
    for (size_t i = 1; i < count; i++)
      if (sums[i] != sums[0] && !(workload.racy && threads > 1)) differ(all[i].name, workload.name);
  }
  for (size_t i = 0; i < count; i++) {
    put_all("calls", all[i].name, name, threads, rates[i]);
    if (count < 2) continue;
    std::vector<double> ratios;
    for (size_t round = 0; round < plan.rounds; round++)
      ratios.push_back(times[i][round] / times[1][round]);
    put_all("ratio", all[i].name, name, threads, ratios);
  }
}

static void measure_calls(const Plan &plan, const char *kind) {
  bool texts = kind == std::string("texts");
  uint64_t keys = texts ? plan.keys / 4 : plan.keys;
  Trace trace = workloads(keys, !texts);
  std::vector<Contestant> all =
      texts ? contestants<std::string>(trace) : contestants<uint64_t>(trace);
  std::vector<std::unique_ptr<Table>> tables;
  for (const Contestant &one : all) {
    tables.push_back(one.open(keys, 4));
    if (tables.back()->run(0, keys, 1).sum != keys) differ(one.name, "insert");
  }
  for (unsigned threads : {1, 2, 4})
    for (const Workload &workload : trace.workloads)
      if (workload.from != 0)
        measure_workload(plan, all, tables, workload, threads,
                         texts ? "text " + workload.name : workload.name);
}

static void measure_growth(const Plan &plan, const std::vector<Contestant> &all) {
  std::map<std::string, std::vector<double>> found;
  size_t rounds = std::max<size_t>(5, plan.rounds / 12);
  for (size_t round = 0; round < rounds; round++)
    for (const Contestant &one : all) {
      malloc_trim(0);
      Latencies times = one.open(0, 1)->time_each(0, plan.grown);
      if (times.sum != plan.grown) differ(one.name, "growth");
      found[one.name + ",mean"].push_back(times.mean);
      found[one.name + ",p50"].push_back(times.half);
      found[one.name + ",p99"].push_back(times.p99);
      found[one.name + ",p99.9"].push_back(times.p999);
      found[one.name + ",longest"].push_back(times.longest);
    }
  for (const Contestant &one : all)
    for (const char *which : {"mean", "p50", "p99", "p99.9", "longest"})
      put_all("latency", one.name, which, 1, found[one.name + "," + which]);
}

// The insertions of keys by several threads into the smallest table.
static void measure_growing(const Plan &plan, const std::vector<Contestant> &all,
                            unsigned threads) {
  size_t rounds = std::max<size_t>(5, plan.rounds / 12), count = all.size();
  std::vector<std::vector<double>> rates(count), ratios(count);
  for (size_t round = 0; round < rounds; round++) {
    std::vector<double> times(count);
    for (size_t turn = 0; turn < count; turn++) {
      size_t i = (turn + round) % count;
      malloc_trim(0);
      Timed timed = all[i].open(0, threads)->run(0, plan.grown, threads);
      if (timed.sum != plan.grown) differ(all[i].name, "growing");
      times[i] = timed.nanos;
      rates[i].push_back(plan.grown / timed.nanos * 1e3);
    }
    for (size_t i = 0; i < count && count > 1; i++) ratios[i].push_back(times[i] / times[1]);
  }
  for (size_t i = 0; i < count; i++) {
    put_all("calls", all[i].name, "growing", threads, rates[i]);
    if (count > 1) put_all("ratio", all[i].name, "growing", threads, ratios[i]);
  }
}

// The insertions behind the first `from` up to half as many more, of which one doubles the table,
// beside finds.
static void measure_pauses(const Plan &plan, const std::vector<Contestant> &all, const char *name,
                           size_t from, unsigned threads) {
  size_t rounds = std::max<size_t>(5, plan.rounds / 12), count = all.size(), to = from + from / 2;
  std::vector<std::vector<double>> finds(count), insertions(count);
  for (size_t round = 0; round < rounds; round++)
    for (size_t turn = 0; turn < 2 * count; turn++) {
      size_t i = (turn / 2 + round) % count;
      bool with_finds = turn % 2 == 0;
      malloc_trim(0);
      auto table = all[i].open(0, threads + 1);
      table->run(0, from, 1);
      Pauses pauses = table->pause(from, to, threads, with_finds);
      if (pauses.sum != to - from) differ(all[i].name, "pause");
      if (with_finds) finds[i].push_back(pauses.find / 1e6);
      else insertions[i].push_back(pauses.insertion / 1e6);
    }
  for (size_t i = 0; i < count; i++) {
    put_all(name, all[i].name, "find", threads, finds[i]);
    put_all(name, all[i].name, "insertion", threads, insertions[i]);
  }
}

// In a process of its own, whose memory is then the table's.
static void measure_memory(const Plan &plan, const Contestant &one) {
  fflush(stdout);
  pid_t process = fork();
  if (process == 0) {
    malloc_trim(0);
    auto empty = one.open(0, 1);
    long before = empty->resident();
    size_t steps = 40;
    for (size_t step = 0; step < steps; step++) {
      size_t from = plan.grown * step / steps, to = plan.grown * (step + 1) / steps;
      empty->run(from, to, 1);
      double bytes = double(empty->resident() - before) / to;
      put("memory", one.name, std::to_string(to), 1, bytes, bytes, bytes);
    }
    empty.reset();
    _exit(0);
  }
  int status = 1;
  if (process < 0 || waitpid(process, &status, 0) < 0 || status != 0) perror("fork"), exit(1);
}

int main(int count, char **words) {
  if (count != 5) {
    fprintf(stderr, "measure KEYS GROWN SLICE ROUNDS\n");
    return 2;
  }
  Plan plan{strtoull(words[1], 0, 10), strtoull(words[2], 0, 10), strtoull(words[3], 0, 10),
            strtoull(words[4], 0, 10)};
  puts("measure,table,workload,threads,value,low,high");
  size_t from = plan.grown * 2 / 5;
  Trace growth = insertions(from * 3);
  std::vector<Contestant> all = contestants<uint64_t>(growth);
  for (const Contestant &one : all) measure_memory(plan, one);
  measure_growth(plan, all);
  for (unsigned threads : {1, 2, 4}) measure_pauses(plan, all, "pause", from, threads);
  for (unsigned threads : {1, 2, 4}) measure_pauses(plan, all, "next pause", from * 2, threads);
  compare_answers<uint64_t>();
  compare_answers<std::string>();
  measure_calls(plan, "numbers");
  for (unsigned threads : {1, 2, 4}) measure_growing(plan, all, threads);
  measure_calls(plan, "texts");
}
