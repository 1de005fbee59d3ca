#include <filesystem>
#include <fstream>
#include <iostream>
#include <map>
#include <string>
#include <vector>

std::vector<std::string> words_of(std::ifstream& file);
std::vector<std::pair<std::string, int>> most_frequent(const std::vector<std::string>& words);
std::map<std::string, std::uintmax_t> sizes_below(const std::filesystem::path& folder);

int main(int count, char** words) {
    for (int i = 1; i < count; ++i) {
        std::ifstream file(words[i]);
        for (const auto& [word, times] : most_frequent(words_of(file))) std::cout << times << ' ' << word << '\n';
    }
    for (const auto& [extension, bytes] : sizes_below(".")) std::cout << bytes << ' ' << extension << '\n';
}
