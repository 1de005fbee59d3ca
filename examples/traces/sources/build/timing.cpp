#include <chrono>
#include <future>
#include <iostream>
#include <vector>

void time_in_turn(const std::vector<std::function<void()>>& steps) {
    for (const auto& step : steps) {
        const auto begun = std::chrono::steady_clock::now();
        std::async(std::launch::async, step).get();
        std::cout << (std::chrono::steady_clock::now() - begun).count() << '\n';
    }
}
