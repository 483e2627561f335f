// Prints records as a table of at most 60 columns, of which the first is bold and the hours are red. Where the library is
// installed, and found after `ldconfig` or by LD_LIBRARY_PATH:
//
//     c++ -o report report.cc -lbasinmug && ./report
#include <basinmug.h>
#include <iostream>
#include <string>
#include <vector>

using Rows = std::vector<std::vector<std::string>>;

// The table of rows with as many cells each, of which the first is a header; empty if there is none.
static std::string table_of(const Rows& rows, const basinmug_print_options& options, const std::string& color) {
    std::string cells, table;
    std::vector<std::size_t> lengths;
    for (const auto& row : rows)
        for (const auto& cell : row) cells += cell, lengths.push_back(cell.size());
    for (int call = 0; call < 2; ++call) {  // The first call counts, the second one prints.
        basinmug_print_answer answer;
        const auto status = basinmug_print_cells(
            &options, "", 0, "", 0, color.data(), color.size(), cells.data(), cells.size(), lengths.data(), lengths.size(),
            rows.at(0).size(), &table[0], table.size(), &answer);
        if (status != BASINMUG_OK) return "";
        table.resize(answer.size);
    }
    return table;
}

int main() {
    const Rows notes = {
        {"id", "date", "author", "note", "hours"},
        {"1", "2026-11-02", "Ada Lovelace",
         "The analytical engine weaves algebraical patterns just as the loom weaves flowers and leaves.", "3.5"},
        {"2", "2026-11-03", "関孝和", "東京で書いた、長い覚え書き。表の端はまっすぐ。", "12.25"},
        {"3", "2026-11-04", "Grace Hopper", "She said \"ship it\" 🚀\nand it shipped.", "0.75"},
    };
    basinmug_print_options options = BASINMUG_PRINT_OPTIONS;
    options.width = 60;
    const std::string table = table_of(notes, options, "0=bold,hours=red");
    std::cout << table;
    return table.empty();
}
