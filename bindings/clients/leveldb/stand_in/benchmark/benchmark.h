// benchmark.h: stands in for Google's library, of which LevelDB's db_test uses these names. It runs nothing.
#ifndef AQS_LEVELDB_BENCHMARK_H
#define AQS_LEVELDB_BENCHMARK_H

#include <cstdint>

namespace benchmark {

class State {
 public:
  std::int64_t range(int) const { return 0; }
  std::uint64_t iterations() const { return 1; }
  int* begin() const { return nullptr; }
  int* end() const { return nullptr; }
};

class Benchmark {
 public:
  explicit Benchmark(void (*)(State&)) {}
  Benchmark* Arg(std::int64_t) { return this; }
};

inline void Initialize(int*, char**) {}
inline void RunSpecifiedBenchmarks() {}

}  // namespace benchmark

#define BENCHMARK(function) static ::benchmark::Benchmark* of_##function = (new ::benchmark::Benchmark(function))

#endif
