/* A section checked against tables by path, and what is told printed as the program prints it: checks SECTION LINE_STR TABLE.. */
#include "linetab.h"
#include <cstdio>
#include <fstream>
#include <iterator>
#include <string>
#include <vector>

using Bytes = std::vector<std::uint8_t>;

static Bytes read(const char *name) {
    std::ifstream file(name, std::ios::binary);
    return Bytes(std::istreambuf_iterator<char>(file), std::istreambuf_iterator<char>());
}

static std::string told(const linetab_verdict &verdict, bool answers, const linetab_answer &answer, const Bytes &path) {
    if (!answers)
        return "none";
    const std::string text = '"' + std::string(path.begin(), path.end()) + "\"," + std::to_string(answer.line);
    return verdict.path_version == 3 ? text + ',' + std::to_string(answer.column) : text;
}

int main(int argc, char **argv) {
    if (argc < 4)
        return 2;
    const Bytes line = read(argv[1]), line_str = read(argv[2]), none(1);
    const linetab_section section = {line.data(), line.size(), line_str.data(), line_str.size(), none.data(), 0, 0, false, false, false};
    for (int i = 3; i < argc; i++) {
        const Bytes table = read(argv[i]);
        Bytes by_table(1024), by_section(1024);
        linetab_verdict verdict;
        linetab_check_paths(&section, table.data(), table.size(), by_table.data(), by_table.size(), by_section.data(), by_section.size(),
                            &verdict);
        if (verdict.number == 0) {
            std::puts("yes");
            continue;
        }
        by_table.resize(verdict.index);
        by_section.resize(verdict.value);
        std::printf("no %u differs at 0x%llx,%llu table %s section %s\n", verdict.number, static_cast<unsigned long long>(verdict.address),
                    static_cast<unsigned long long>(verdict.op), told(verdict, verdict.table_answers, verdict.by_table, by_table).c_str(),
                    told(verdict, verdict.section_answers, verdict.by_section, by_section).c_str());
    }
}
