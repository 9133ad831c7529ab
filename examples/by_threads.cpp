// Earliest arrivals from several nodes, each by a thread of its own: by_threads GR TP NODE..
// c++ -std=c++17 -pthread -Iinclude examples/by_threads.cpp lib/libearliest.a -o by_threads
#include <fstream>
#include <iostream>
#include <sstream>
#include <thread>

#include "earliest.hpp"

static std::string text_of(const char *path) {
    std::ifstream file(path, std::ios::binary);
    if (!file) throw std::runtime_error(std::string(path) + " can't be read");
    std::ostringstream text;
    text << file.rdbuf();
    return text.str();
}

int main(int count, char **words) try {
    if (count < 4) return std::cerr << "by_threads GR TP NODE..\n", 2;
    earliest::road road(text_of(words[1]), text_of(words[2]));
    std::vector<earliest::search> searches;
    for (int i = 3; i < count; i++) searches.emplace_back(road, false);

    // The searches were made by this thread, each is used by one other.
    std::vector<std::string> failures(searches.size());
    std::vector<std::thread> threads;
    for (std::size_t i = 0; i < searches.size(); i++) {
        auto node = static_cast<std::uint32_t>(std::stoul(words[3 + i]));
        threads.emplace_back([&, i, node] {
            try {
                searches[i].from({{node, 0}});
            } catch (const std::exception &refused) {
                failures[i] = refused.what();
            }
        });
    }
    for (auto &thread : threads) thread.join();

    for (std::size_t i = 0; i < searches.size(); i++) {
        std::size_t reached = 0;
        if (failures[i].empty())
            for (auto time : searches[i].arrivals()) reached += time != earliest::never;
        std::cout << "from " << words[3 + i] << ": " << (failures[i].empty() ? std::to_string(reached) + " nodes are reached" : failures[i]) << "\n";
    }
    road.check({}, {0, 0, 0}, "");
    return 0;
} catch (const std::exception &refused) {
    std::cerr << "by_threads: " << refused.what() << "\n";
    return 1;
}
