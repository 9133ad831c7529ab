// A matrix of earliest arrivals by a pool of threads, each of which fills some rows of the caller's memory: matrix GR TP DEPARTURE NODE..
// c++ -std=c++17 -pthread -Iinclude examples/matrix.cpp lib/libearliest.a -o matrix
#include <algorithm>
#include <exception>
#include <fstream>
#include <iostream>
#include <sstream>
#include <thread>

#include "earliest.hpp"

static std::string text_of(const char *path) {
    std::ifstream file(path, std::ios::binary);
    if (!file) throw std::runtime_error(std::string(path) + " can't be read");
    std::ostringstream text;
    text << file.rdbuf();
    return text.str();
}

int main(int count, char **words) try {
    if (count < 5) return std::cerr << "matrix GR TP DEPARTURE NODE..\n", 2;
    const earliest::road road(text_of(words[1]), text_of(words[2]));
    const std::uint64_t departure = std::stoull(words[3]);
    std::vector<std::uint32_t> sources;
    for (int i = 4; i < count; i++) sources.push_back(static_cast<std::uint32_t>(std::stoul(words[i])));

    // A row for each source, a place for each node. A thread's search is its own, and so are its rows.
    const std::size_t rows = sources.size(), nodes = road.nodes(), pool = std::clamp<std::size_t>(std::thread::hardware_concurrency(), 1, rows);
    std::vector<std::uint64_t> matrix(rows * nodes);
    std::vector<std::exception_ptr> failures(pool);
    std::vector<std::thread> threads;
    for (std::size_t i = 0; i < pool; i++)
        threads.emplace_back([&, i] {
            try {
                const std::size_t first = rows * i / pool, end = rows * (i + 1) / pool;
                earliest::search search(road, false);
                search.rows_into({sources.data() + first, end - first}, {departure}, earliest::room<std::uint64_t>(matrix.data() + first * nodes, (end - first) * nodes));
            } catch (...) {
                failures[i] = std::current_exception();
            }
        });
    for (auto &thread : threads) thread.join();
    for (auto &failure : failures)
        if (failure) std::rethrow_exception(failure);

    for (std::size_t row = 0; row < rows; row++) {
        std::cout << sources[row] << ":";
        for (auto node : sources) {
            const std::uint64_t arrival = matrix[row * nodes + node - 1];
            std::cout << " " << (arrival == earliest::never ? "-" : std::to_string(arrival));
        }
        std::cout << "\n";
    }
    return 0;
} catch (const std::exception &refused) {
    std::cerr << "matrix: " << refused.what() << "\n";
    return 1;
}
