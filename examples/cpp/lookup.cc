// Looks addresses up in a section, and prints each answer as `linetab lookup` does:
// lookup SECTION LINE_STR [--str FILE] [--dead ADDRESS] [--big] [--skip-copies] ADDRESS..
#include "linetab.h"
#include <cinttypes>
#include <cstdio>
#include <exception>
#include <fstream>
#include <iterator>
#include <stdexcept>
#include <string>
#include <utility>
#include <vector>

namespace {

using Bytes = std::vector<unsigned char>;

// The bytes of a file, with one more after them, so that there is a first one to point to.
Bytes read_file(const std::string &name) {
    std::ifstream file(name, std::ios::binary);
    if (!file)
        throw std::runtime_error("cannot read " + name);
    Bytes bytes{std::istreambuf_iterator<char>(file), std::istreambuf_iterator<char>()};
    bytes.push_back(0);
    return bytes;
}

// The section isn't good, or memory ran out.
struct NotGood : std::runtime_error {
    explicit NotGood(const linetab_verdict &verdict) : std::runtime_error("no " + std::to_string(verdict.number)) {}
};

// The lines of a good section. It holds the bytes of all files, and can't be copied, since the section points into them.
class Lines {
public:
    Lines(Bytes line, Bytes line_str, Bytes str, linetab_section how)
        : line_(std::move(line)), line_str_(std::move(line_str)), str_(std::move(str)), section_(how), spans_(1) {
        section_.line = line_.data(), section_.line_len = line_.size() - 1;
        section_.line_str = line_str_.data(), section_.line_str_len = line_str_.size() - 1;
        section_.str = str_.data(), section_.str_len = str_.size() - 1;
        count_ = verify(0);
        spans_.resize(count_ + 1);
        count_ = verify(count_);
        index_.resize(count_ + 1);
        linetab_index(spans_.data(), count_, index_.data(), count_);
    }
    Lines(const Lines &) = delete;
    Lines &operator=(const Lines &) = delete;

    bool lookup(std::uint64_t address, linetab_answer &answer) const {
        return linetab_lookup_indexed(spans_.data(), count_, index_.data(), count_, address, 0, &answer);
    }

    std::string path(const linetab_answer &answer) const {
        linetab_verdict verdict;
        Bytes room(1);
        std::size_t len = 0, again = 0;
        bool is_there = linetab_path(&section_, answer.unit, answer.file, room.data(), 0, &len, &verdict);
        room.resize(len + 1);
        is_there = is_there && linetab_path(&section_, answer.unit, answer.file, room.data(), len, &again, &verdict);
        if (verdict.number != 0)
            throw NotGood(verdict);
        return is_there ? std::string(room.begin(), room.begin() + static_cast<std::ptrdiff_t>(len)) : std::string();
    }

private:
    std::size_t verify(std::size_t room) {
        linetab_verdict verdict;
        const std::size_t count = linetab_verify(&section_, spans_.data(), room, &verdict);
        if (verdict.number != 0)
            throw NotGood(verdict);
        return count;
    }

    Bytes line_, line_str_, str_;
    linetab_section section_;
    std::vector<linetab_span> spans_;
    std::vector<std::uint32_t> index_; // of an entry for each span
    std::size_t count_ = 0;
};

void run(const std::vector<std::string> &words) {
    linetab_section how = {};
    Bytes str(1);
    std::size_t at = 2;
    for (; at < words.size() && words[at].compare(0, 2, "--") == 0; at++) {
        if (words[at] == "--big")
            how.is_big = true;
        else if (words[at] == "--skip-copies")
            how.skip_copies = true;
        else if (words[at] == "--dead" && at + 1 < words.size())
            how.has_dead = true, how.dead = std::stoull(words[++at], nullptr, 16);
        else if (words[at] == "--str" && at + 1 < words.size())
            str = read_file(words[++at]);
        else
            throw std::runtime_error("unknown option " + words[at]);
    }
    const Lines lines(read_file(words[0]), read_file(words[1]), std::move(str), how);
    for (; at < words.size(); at++) {
        const std::uint64_t address = std::stoull(words[at], nullptr, 16);
        linetab_answer answer;
        if (!lines.lookup(address, answer)) {
            std::printf("0x%" PRIx64 ",0 none\n", address);
            continue;
        }
        std::printf("0x%" PRIx64 ",0 unit %" PRIu64 " file %" PRIu64, address, answer.unit, answer.file);
        std::printf(" line %" PRIu64 " column %" PRIu64 " stmt %d", answer.line, answer.column, answer.is_stmt);
        std::printf(" path \"%s\"\n", lines.path(answer).c_str());
    }
}

} // namespace

int main(int argc, char **argv) {
    if (argc < 3) {
        std::fprintf(stderr, "usage: lookup SECTION LINE_STR [--str FILE] [--dead ADDRESS] [--big] [--skip-copies] ADDRESS..\n");
        return 2;
    }
    try {
        run(std::vector<std::string>(argv + 1, argv + argc));
    } catch (const NotGood &no) {
        std::printf("%s\n", no.what());
        return 1;
    } catch (const std::exception &error) {
        std::fprintf(stderr, "lookup: %s\n", error.what());
        return 3;
    }
    return 0;
}
