// irs.hpp: libirs for C++17, over irs.h. Words, files, texts and statuses are those of the program (docs/FORMATS.md).
//
//     irs::answer reply = irs::run({"schedule", "terms.json", "-"}, {{"terms.json", document}});
//     if (reply) std::cout << reply.text();
//     if (!reply.sentence().empty()) std::cerr << reply.sentence() << '\n';
//
// or, by exceptions, `std::string text = irs::run(..).value();`, and in C++23 `.expected()`.
// A result owns its text. Every call may throw std::bad_alloc, and nothing else but what is said at value().
// Several threads may call at once. What irs.h asks of a caller (the stack, the processor) holds here too.
#ifndef IRS_HPP
#define IRS_HPP
#include "irs.h"
#include <new>
#include <stdexcept>
#include <string>
#include <string_view>
#include <utility>
#include <vector>
#if defined(__has_include)
#if __has_include(<expected>) && __cplusplus > 202002L
#include <expected>
#endif
#endif

namespace irs {

// A file that is lent for a call: its name as the words have it, and its bytes. Both stay the caller's. A document
// or cash flows whose name ends in `.xml` are read as FpML XML, and any other as JSON.
struct file {
    std::string_view name, bytes;
};

using words = std::vector<std::string_view>;
using files = std::vector<file>;

// What an answer without its text comes to, as an exception: what() is the sentence.
class error : public std::runtime_error {
public:
    error(int status, std::string line, const std::string &sentence)
        : std::runtime_error(sentence), status_(status), line_(std::move(line)) {}
    // The status, 2 to 5, 8 or 9.
    int status() const noexcept { return status_; }
    // The line that the program prints, as "refused K12 1 paymentDates 2".
    const std::string &line() const noexcept { return line_; }

private:
    int status_;
    std::string line_;
};

// The status of a command and its text, and what that means in one sentence.
class answer {
public:
    answer(int status, std::string text, std::string sentence)
        : status_(status), text_(std::move(text)), sentence_(std::move(sentence)) {}
    int status() const noexcept { return status_; }
    const std::string &text() const & noexcept { return text_; }
    std::string text() && noexcept { return std::move(text_); }
    // Empty at status 0, but where payments have no amount for want of a fixing.
    const std::string &sentence() const noexcept { return sentence_; }
    // Whether the command was done: status 0, or 1, which `audit` and `breaks` have where the cash flows depart.
    explicit operator bool() const noexcept { return status_ <= 1; }
    // The text where the command was done; else throws irs::error.
    const std::string &value() const & {
        if (status_ > 1) throw failure();
        return text_;
    }
    std::string value() && {
        if (status_ > 1) throw failure();
        return std::move(text_);
    }
#if defined(__cpp_lib_expected)
    // The text where the command was done, else the error.
    std::expected<std::string, error> expected() const {
        if (status_ > 1) return std::unexpected(failure());
        return text_;
    }
#endif

private:
    error failure() const { return error(status_, text_.substr(0, text_.find('\n')), sentence_); }
    int status_;
    std::string text_, sentence_;
};

namespace detail {

inline irs_bytes lent(std::string_view text) { return irs_lend(text.data(), text.size()); }

inline std::vector<irs_bytes> lent(const words &all) {
    std::vector<irs_bytes> made;
    made.reserve(all.size() + 1);
    for (std::string_view word : all) made.push_back(lent(word));
    // No pointer of the library's call may be NULL, also for no words.
    made.push_back(lent(std::string_view()));
    return made;
}

// Calls with `room` bytes, and again where the text has more.
template <typename Call> std::pair<int, std::string> filled(std::size_t room, Call call) {
    std::string text(room, '\0');
    std::size_t needed = 0;
    int status = call(reinterpret_cast<uint8_t *>(&text[0]), text.size(), &needed);
    if (needed > text.size()) {
        text.resize(needed);
        status = call(reinterpret_cast<uint8_t *>(&text[0]), text.size(), &needed);
    }
    text.resize(needed);
    return {status, std::move(text)};
}

} // namespace detail

// What `irs --version` prints: the versions, and the logic sum of the kit that proves the library.
inline std::string version() {
    auto told = detail::filled(256, [](uint8_t *out, std::size_t length, std::size_t *needed) {
        irs_version(out, length, needed);
        return 0;
    });
    return std::move(told.second);
}

// Does what the program does on a command line, with files from memory: `asked` are the words after the program's
// name. A file that isn't lent is one that can't be read: status 5. Throws std::bad_alloc where memory runs out.
inline answer run(const words &asked, const files &lent_files) {
    const std::vector<irs_bytes> lent_words = detail::lent(asked);
    std::vector<irs_file> pairs;
    pairs.reserve(lent_files.size() + 1);
    for (const file &each : lent_files) pairs.push_back({detail::lent(each.name), detail::lent(each.bytes)});
    pairs.push_back({detail::lent(std::string_view()), detail::lent(std::string_view())});
    std::string sentence(1024, '\0');
    std::size_t said = 0;
    auto told = detail::filled(std::size_t(1) << 16, [&](uint8_t *out, std::size_t length, std::size_t *needed) {
        const auto call = [&] {
            return irs_run(lent_words.data(), asked.size(), pairs.data(), lent_files.size(), out, length, needed,
                           reinterpret_cast<uint8_t *>(&sentence[0]), sentence.size(), &said);
        };
        int status = call();
        if (said > sentence.size()) {
            sentence.resize(said);
            status = call();
        }
        return status;
    });
    if (told.first == 7) throw std::bad_alloc();
    sentence.resize(said);
    return answer(told.first, std::move(told.second), std::move(sentence));
}

} // namespace irs
#endif
