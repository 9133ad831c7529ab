// The example four-nodes, for a program that finds the library by CMake.
#include <earliest.hpp>

int main() {
    earliest::road road("p sp 4 5\na 1 2 7\na 1 3 2\na 3 2 3\na 2 4 1\na 3 4 9\n");
    earliest::search search(road);
    return search.to({1, 0}, 4) == std::optional<std::uint64_t>(6) && search.walk(4) == std::vector<std::uint32_t>{2, 3, 4} ? 0 : 1;
}
