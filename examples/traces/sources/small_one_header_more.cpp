#include <algorithm>
#include <map>
#include <regex>
#include <string>
#include <vector>

struct Reading { std::string name; int value; };

std::map<std::string, std::vector<int>> by_name(const std::vector<Reading>& readings) {
    std::map<std::string, std::vector<int>> found;
    for (const auto& reading : readings) found[reading.name].push_back(reading.value);
    for (auto& entry : found) std::sort(entry.second.begin(), entry.second.end());
    return found;
}

int main() {
    auto found = by_name({{"a", 3}, {"b", 2}, {"a", 1}});
    return found["a"].front() == 1 ? 0 : 1;
}
