#include <fstream>
#include <regex>
#include <string>
#include <vector>

std::vector<std::string> words_of(std::ifstream& file) {
    static const std::regex word("[a-z]+");
    std::vector<std::string> found;
    for (std::string line; std::getline(file, line);) {
        for (std::sregex_iterator at(line.begin(), line.end(), word), end; at != end; ++at) found.push_back(at->str());
    }
    return found;
}
