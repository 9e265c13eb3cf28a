// Does what the program does, by irs.hpp: reads the files that the words name, prints the text, writes the sentence to
// standard error and ends with the status.
#include "irs.hpp"
#include <fstream>
#include <iostream>
#include <iterator>
#include <list>
#include <sys/stat.h>

static bool read_file(const char *name, std::string &bytes) {
    struct stat about;
    if (stat(name, &about) != 0 || S_ISDIR(about.st_mode)) return false;
    std::ifstream source(name, std::ios::binary);
    bytes.assign(std::istreambuf_iterator<char>(source), std::istreambuf_iterator<char>());
    return source.good() || source.eof();
}

// The three ways to an answer agree: the status, the exception, and in C++23 the expected value.
static bool agree(const irs::answer &told) {
    bool well = true;
    try {
        well = told.value() == told.text() && bool(told);
    } catch (const irs::error &why) {
        well = !told && why.status() == told.status() && why.what() == told.sentence() &&
               why.line() + "\n" == told.text();
    }
#if defined(__cpp_lib_expected)
    well = well && told.expected().has_value() == bool(told);
#endif
    return well && (told.status() == 0 || !told.sentence().empty());
}

int main(int argc, char **argv) {
    irs::words words(argv + 1, argv + argc);
    std::list<std::string> held;
    irs::files files;
    for (int i = 2; i < argc; i++) {
        std::string bytes;
        if (!read_file(argv[i], bytes)) continue;
        held.push_back(std::move(bytes));
        files.push_back({argv[i], held.back()});
    }
    const irs::answer told = irs::run(words, files);
    if (!agree(told) || irs::version().rfind("irs " IRS_VERSION ",", 0) != 0) {
        std::cout << "the ways to an answer differ\n";
        return 100;
    }
    std::cout << told.text();
    if (!told.sentence().empty()) std::cerr << told.sentence() << '\n';
    return told.status();
}
