// Builds three variants of a shader, and builds them again when a file in its folder changes:
//
//     hot_reload FOLDER SHADER [ROUNDS]     as in: hot_reload shaders pond.wgsl
//
// SHADER is a file of FOLDER; the other .wgsl files there are its modules. A round begins with a change of modification times or
// sizes, and prints for each variant whether its text changed, and the milliseconds of the build. After an error an engine keeps
// the last text. The program ends at the end of standard input, or after ROUNDS rounds.
#include "yettuvam.h"

#include <poll.h>
#include <unistd.h>

#include <algorithm>
#include <chrono>
#include <cstdio>
#include <cstdlib>
#include <filesystem>
#include <fstream>
#include <iterator>
#include <map>
#include <set>
#include <string>
#include <system_error>
#include <vector>

namespace fs = std::filesystem;

constexpr int poll_milliseconds = 200;

struct Variant {
    const char *name;
    std::vector<yettuvam_definition> definitions;
    std::string text;
};

struct File {
    fs::file_time_type time;
    std::uintmax_t size;
    std::string text;
};

using Files = std::map<std::string, File>;

// A name of the length that the compiler counts.
template <size_t N>
yettuvam_definition define(const char (&name)[N], uint32_t kind, int64_t value) {
    return {name, N - 1, kind, value};
}

// Reads the files of the folder that changed, and returns their names. A file that is gone has changed too.
std::vector<std::string> look(const fs::path &folder, Files &files) {
    std::vector<std::string> changed;
    std::set<std::string> found;
    std::error_code error;
    for (const fs::directory_entry &entry : fs::directory_iterator(folder, error)) {
        if (entry.path().extension() != ".wgsl") continue;
        std::error_code no_time, no_size;
        File file{fs::last_write_time(entry.path(), no_time), fs::file_size(entry.path(), no_size), {}};
        std::ifstream stream(entry.path(), std::ios::binary);
        if (no_time || no_size || !stream) continue;
        std::string name = entry.path().filename().string();
        found.insert(name);
        auto known = files.find(name);
        if (known != files.end() && known->second.time == file.time && known->second.size == file.size) continue;
        file.text.assign(std::istreambuf_iterator<char>(stream), {});
        files[name] = std::move(file);
        changed.push_back(name);
    }
    for (auto file = files.begin(); file != files.end();) {
        if (found.count(file->first) != 0) {
            ++file;
            continue;
        }
        changed.push_back(file->first);
        file = files.erase(file);
    }
    std::sort(changed.begin(), changed.end());
    return changed;
}

yettuvam_source source(const std::string &path, const std::string &text) {
    return {path.data(), path.size(), text.data(), text.size()};
}

// Builds a shader of its file and of the other files. The text is the shader's, or the report of an error.
uint32_t build(const std::string &shader, const Files &files, const std::vector<yettuvam_definition> &definitions, std::string &text) {
    auto top = files.find(shader);
    if (top == files.end()) {
        text = "error: there is no file " + shader + "\n";
        return YETTUVAM_FAULTY;
    }
    // The library takes no null pointer, which an empty vector without capacity may hold.
    std::vector<yettuvam_source> modules;
    modules.reserve(files.size());
    for (const auto &[name, file] : files)
        if (name != shader) modules.push_back(source(name, file.text));
    yettuvam_name no_imports{};
    yettuvam_task task{source(shader, top->second.text), modules.data(), modules.size(), definitions.data(), definitions.size(), &no_imports, 0, false};

    // The page is kept for the next build, and grows where a text has no room.
    static std::vector<char> out(16384);
    yettuvam_field field{};
    yettuvam_page page{out.data(), out.size(), &field, 1, 0, 0};
    uint32_t status = yettuvam_build(&task, &page);
    if (status == YETTUVAM_NO_ROOM) {
        out.resize(page.bytes);
        page.out = out.data();
        page.out_len = out.size();
        status = yettuvam_build(&task, &page);
    }
    if (status > YETTUVAM_FAULTY)
        text = status == YETTUVAM_NOT_UTF8 ? "error: a file isn't UTF-8\n" : "error: status " + std::to_string(status) + "\n";
    else
        text.assign(out.data() + field.at, field.len);
    return status;
}

// Builds a variant again, and says what became of it.
void renew(const std::string &shader, const Files &files, Variant &variant) {
    std::string text;
    auto start = std::chrono::steady_clock::now();
    uint32_t status = build(shader, files, variant.definitions, text);
    double taken = std::chrono::duration<double, std::milli>(std::chrono::steady_clock::now() - start).count();
    if (status != YETTUVAM_OK) {
        std::printf("  %s: error, %.2f ms\n%s", variant.name, taken, text.c_str());
    } else if (text == variant.text) {
        std::printf("  %s: as before, %.2f ms\n", variant.name, taken);
    } else {
        std::printf("  %s: changed, %zu bytes, %.2f ms\n", variant.name, text.size(), taken);
        variant.text = text;
    }
}

// Waits for the next look at the folder, and returns whether standard input has ended.
bool input_ends() {
    pollfd input{STDIN_FILENO, POLLIN, 0};
    if (poll(&input, 1, poll_milliseconds) <= 0) return false;
    char bytes[256];
    return read(STDIN_FILENO, bytes, sizeof bytes) <= 0;
}

int main(int count, char **words) {
    if (count < 3) {
        std::fprintf(stderr, "usage: hot_reload FOLDER SHADER [ROUNDS]\n");
        return 2;
    }
    const fs::path folder = words[1];
    if (std::error_code error; !fs::is_directory(folder, error)) {
        std::fprintf(stderr, "error: %s is no folder\n", words[1]);
        return 2;
    }
    const std::string shader = words[2];
    const long rounds = count > 3 ? std::atol(words[3]) : 0;
    std::vector<Variant> variants = {
        {"low", {define("WAVES", YETTUVAM_INT, 2)}, {}},
        {"high", {define("WAVES", YETTUVAM_INT, 6), define("FOAM", YETTUVAM_BOOL, true)}, {}},
        {"night", {define("WAVES", YETTUVAM_INT, 6), define("NIGHT", YETTUVAM_BOOL, true)}, {}},
    };
    Files files;
    long round = 0;
    do {
        std::vector<std::string> changed = look(folder, files);
        if (changed.empty()) continue;
        std::printf("round %ld:", ++round);
        for (const std::string &name : changed) std::printf(" %s", name.c_str());
        std::printf("\n");
        for (Variant &variant : variants) renew(shader, files, variant);
        std::fflush(stdout);
        if (round == rounds) return 0;
    } while (!input_ends());
    return 0;
}
