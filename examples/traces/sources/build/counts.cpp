#include <algorithm>
#include <string>
#include <unordered_map>
#include <vector>

std::vector<std::pair<std::string, int>> most_frequent(const std::vector<std::string>& words) {
    std::unordered_map<std::string, int> counts;
    for (const auto& word : words) ++counts[word];
    std::vector<std::pair<std::string, int>> found(counts.begin(), counts.end());
    std::sort(found.begin(), found.end(), [](const auto& a, const auto& b) { return a.second > b.second; });
    return found;
}
