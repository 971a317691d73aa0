// Times the calls of the S2 library that crates/s2_bench times in this repository, over the same
// pseudo-random cells. The two arguments and both outputs are those of that program.

#include <s2/s2cell_id.h>
#include <s2/s2cell_union.h>

#include <algorithm>
#include <chrono>
#include <cstdint>
#include <cstdio>
#include <cstdlib>
#include <functional>
#include <limits>
#include <string>
#include <utility>
#include <vector>

namespace {

constexpr uint64_t kLeaves = uint64_t{6} << 60;

// How many leaves a region has, the square of level 20 from which a list of cells takes its cells.
constexpr uint64_t kRegion = uint64_t{1} << 20;

// How many cells in a row are taken from one region.
constexpr size_t kInARegion = 256;

// Steele, Lea and Flood's generator SplitMix64.
class Numbers {
 public:
  explicit Numbers(uint64_t state) : state_(state) {}

  uint64_t Next() {
    state_ += 0x9e3779b97f4a7c15;
    uint64_t mixed = (state_ ^ state_ >> 30) * 0xbf58476d1ce4e5b9;
    mixed = (mixed ^ mixed >> 27) * 0x94d049bb133111eb;
    return mixed ^ mixed >> 31;
  }

  uint64_t Place() { return Next() % kLeaves; }

 private:
  uint64_t state_;
};

struct Leaf {
  int face, i, j;
};

S2CellId LeafAt(uint64_t position) { return S2CellId(2 * position + 1); }

// A cell, and a level of a cell above it or its own.
struct Climb {
  S2CellId cell;
  int level;
};

constexpr uint64_t kFaceSide = uint64_t{1} << 30;

// The least and the greatest coordinate of so many squares, the first of which lies round a place.
std::pair<uint64_t, uint64_t> Coordinates(uint64_t place, uint64_t squares, uint64_t side) {
  const uint64_t least = place % kFaceSide - place % kFaceSide % side;
  return {least, least + squares * side - 1};
}

// The squares of the pseudo-random rectangles of crates/s2_bench (src/rects.rt): of 1 to 24 squares a side,
// or rows of 256.
std::vector<std::vector<S2CellId>> Rects(size_t count, bool rows) {
  Numbers numbers(2);
  std::vector<std::vector<S2CellId>> rects;
  for (; count > 0; --count) {
    const uint64_t face = numbers.Next() % 6;
    const uint64_t above = numbers.Next() % 17;
    const uint64_t wide = rows ? 1 : 1 + numbers.Next() % 24;
    const uint64_t high = rows ? 256 : 1 + numbers.Next() % 24;
    const uint64_t side = uint64_t{64} << above;
    const auto [i_min, i_max] = Coordinates(numbers.Next(), wide, side);
    const auto [j_min, j_max] = Coordinates(numbers.Next(), high, side);
    if (i_max >= kFaceSide || j_max >= kFaceSide) continue;
    std::vector<S2CellId> squares;
    for (uint64_t i = i_min; i <= i_max; i += side) {
      for (uint64_t j = j_min; j <= j_max; j += side) {
        const S2CellId leaf =
            S2CellId::FromFaceIJ(static_cast<int>(face), static_cast<int>(i), static_cast<int>(j));
        squares.push_back(leaf.parent(static_cast<int>(24 - above)));
      }
    }
    rects.push_back(squares);
  }
  return rects;
}

struct Inputs {
  std::vector<S2CellId> places;
  std::vector<Leaf> leaves;
  std::vector<S2CellId> cells;
  std::vector<Climb> climbs;
  std::vector<std::string> tokens;
  std::vector<S2CellId> close;
  std::vector<std::vector<S2CellId>> any_rects;
  std::vector<std::vector<S2CellId>> rows;

  explicit Inputs(size_t count) : any_rects(Rects(count, false)), rows(Rects(count, true)) {
    Numbers numbers(1);
    for (size_t k = 0; k < count; ++k) {
      const S2CellId place = LeafAt(numbers.Place());
      Leaf leaf;
      leaf.face = place.ToFaceIJOrientation(&leaf.i, &leaf.j, nullptr);
      const S2CellId cell = place.parent(static_cast<int>(numbers.Next() % 31));
      places.push_back(place);
      leaves.push_back(leaf);
      cells.push_back(cell);
      climbs.push_back({cell, static_cast<int>(numbers.Next() % (cell.level() + 1))});
      tokens.push_back(cell.ToToken());
    }
    uint64_t region = numbers.Place();
    for (size_t k = 0; k < count; ++k) {
      if (k % kInARegion == 0) region = numbers.Place();
      const S2CellId leaf = LeafAt(region / kRegion * kRegion + numbers.Next() % kRegion);
      close.push_back(leaf.parent(static_cast<int>(22 + numbers.Next() % 5)));
    }
  }
};

uint64_t SumOfPositions(const Inputs& inputs) {
  uint64_t sum = 0;
  for (const Leaf& leaf : inputs.leaves) sum += S2CellId::FromFaceIJ(leaf.face, leaf.i, leaf.j).id() / 2;
  return sum;
}

uint64_t SumOfLeaves(const Inputs& inputs) {
  uint64_t sum = 0;
  for (const S2CellId place : inputs.places) {
    int i, j;
    place.ToFaceIJOrientation(&i, &j, nullptr);
    sum += static_cast<uint64_t>(i) << 32 | static_cast<uint64_t>(j);
  }
  return sum;
}

uint64_t SumOfReadTokens(const Inputs& inputs) {
  uint64_t sum = 0;
  for (const std::string& token : inputs.tokens) sum += S2CellId::FromToken(token).id();
  return sum;
}

uint64_t SumOfTokens(const Inputs& inputs) {
  uint64_t sum = 0;
  for (const S2CellId cell : inputs.cells) sum += cell.ToToken().size();
  return sum;
}

uint64_t SumOfParents(const Inputs& inputs) {
  uint64_t sum = 0;
  for (const Climb& climb : inputs.climbs) sum += climb.cell.parent(climb.level).id();
  return sum;
}

// Of each list of `length` cells the cells of its normal form.
uint64_t SumOfCovers(const Inputs& inputs, size_t length) {
  uint64_t sum = 0;
  for (size_t from = 0; from + length <= inputs.close.size(); from += length) {
    const auto list = inputs.close.begin() + from;
    const S2CellUnion cover(std::vector<S2CellId>(list, list + length));
    for (const S2CellId cell : cover) sum += cell.id();
  }
  return sum;
}

// Of each rectangle the cells of the normal form of its squares.
uint64_t SumOfRects(const std::vector<std::vector<S2CellId>>& rects) {
  uint64_t sum = 0;
  for (const std::vector<S2CellId>& squares : rects) {
    const S2CellUnion cover(squares);
    for (const S2CellId cell : cover) sum += cell.id();
  }
  return sum;
}

struct Measure {
  const char* name;
  std::function<uint64_t(const Inputs&)> sum;
  size_t calls;
  int64_t least;
};

Measure Normalise(const char* name, const Inputs& inputs, size_t length) {
  return {name, [length](const Inputs& given) { return SumOfCovers(given, length); },
          inputs.close.size() / length, std::numeric_limits<int64_t>::max()};
}

int64_t Nanoseconds(const Measure& measure, const Inputs& inputs) {
  const auto start = std::chrono::steady_clock::now();
  const volatile uint64_t sum = measure.sum(inputs);
  (void)sum;
  const auto time = std::chrono::steady_clock::now() - start;
  return std::chrono::duration_cast<std::chrono::nanoseconds>(time).count();
}

}  // namespace

int main(int count, char** words) {
  if (count != 3) return 2;
  const Inputs inputs(std::strtoul(words[1], nullptr, 10));
  const size_t cells = std::max<size_t>(inputs.cells.size(), 1);
  const int64_t most = std::numeric_limits<int64_t>::max();
  std::vector<Measure> measures = {
      {"position", SumOfPositions, cells, most},     {"leaf_at", SumOfLeaves, cells, most},
      {"from_token", SumOfReadTokens, cells, most},  {"token", SumOfTokens, cells, most},
      {"parent", SumOfParents, cells, most},         Normalise("normalise_5", inputs, 5),
      Normalise("normalise_64", inputs, 64),         Normalise("normalise_256", inputs, 256),
      {"cover", [](const Inputs& given) { return SumOfRects(given.any_rects); },
       inputs.any_rects.size(), most},
      {"cover_row", [](const Inputs& given) { return SumOfRects(given.rows); }, inputs.rows.size(), most},
  };
  for (int round = std::atoi(words[2]); round > 0; --round) {
    for (Measure& measure : measures) measure.least = std::min(measure.least, Nanoseconds(measure, inputs));
  }
  for (const Measure& measure : measures) {
    std::printf("%s %016lx\n", measure.name, static_cast<unsigned long>(measure.sum(inputs)));
    const long least = measure.least * 1000 / std::max<size_t>(measure.calls, 1);
    std::fprintf(stderr, "%s %ld\n", measure.name, least);
  }
}
