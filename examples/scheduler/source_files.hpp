// The list of source files that the example learns from: a CSV of name, bytes, includes, templates and past seconds.
#ifndef SOURCE_FILES_HPP
#define SOURCE_FILES_HPP

#include <cstdio>
#include <fstream>
#include <string>
#include <vector>

struct SourceFile {
    std::string name;
    unsigned bytes, includes, templates;
    float seconds; // its last compile
};

// All lines after the heading; none where the list cannot be read or a line is not understood.
inline std::vector<SourceFile> read_source_files(const char *path) {
    std::ifstream list(path);
    std::string line;
    std::getline(list, line);
    std::vector<SourceFile> files;
    while (std::getline(list, line)) {
        SourceFile file;
        const std::size_t comma = line.find(',');
        const char *numbers = line.c_str() + (comma == std::string::npos ? line.size() : comma);
        const int taken =
            std::sscanf(numbers, ",%u,%u,%u,%f", &file.bytes, &file.includes, &file.templates, &file.seconds);
        if (taken != 4)
            return {};
        file.name = line.substr(0, comma);
        files.push_back(file);
    }
    return files;
}

#endif
