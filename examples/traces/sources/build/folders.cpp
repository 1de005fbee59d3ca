#include <filesystem>
#include <map>
#include <string>

std::map<std::string, std::uintmax_t> sizes_below(const std::filesystem::path& folder) {
    std::map<std::string, std::uintmax_t> sizes;
    for (const auto& entry : std::filesystem::recursive_directory_iterator(folder)) {
        if (entry.is_regular_file()) sizes[entry.path().extension().string()] += entry.file_size();
    }
    return sizes;
}
