// Compares covers of rectangles with those of the S2 library. Each line of the standard input is a rectangle
// that lies on whole squares of its level, FACE I_MIN I_MAX J_MIN J_MAX LEVEL, and the tokens of its cover.
// The squares of the level that the rectangle has are put into an S2CellUnion, which normalises them. Prints
// how many rectangles and cells there were, and how many rectangles differ; fails if one does.

#include <s2/s2cell_id.h>
#include <s2/s2cell_union.h>

#include <cstdio>
#include <iostream>
#include <sstream>
#include <string>
#include <vector>

int main() {
  size_t rectangles = 0, squares = 0, cells = 0, differences = 0;
  for (std::string line; std::getline(std::cin, line); ++rectangles) {
    std::istringstream words(line);
    int face, i_min, i_max, j_min, j_max, level;
    words >> face >> i_min >> i_max >> j_min >> j_max >> level;
    const int side = 1 << (S2CellId::kMaxLevel - level);
    std::vector<S2CellId> all;
    for (int64_t i = i_min; i <= i_max; i += side) {
      for (int64_t j = j_min; j <= j_max; j += side) {
        all.push_back(S2CellId::FromFaceIJ(face, static_cast<int>(i), static_cast<int>(j)).parent(level));
      }
    }
    squares += all.size();
    const S2CellUnion cover(all);
    std::vector<S2CellId> ours;
    for (std::string token; words >> token;) ours.push_back(S2CellId::FromToken(token));
    cells += ours.size();
    if (ours != cover.cell_ids()) {
      if (++differences <= 5) std::printf("differs: %s\n", line.c_str());
    }
  }
  std::printf("%zu rectangles of %zu squares, covered by %zu cells: %zu differences\n", rectangles, squares,
              cells, differences);
  return differences == 0 ? 0 : 1;
}
