// What C++ makes of the file of a table, as a file, for table_files.py, which has Python make the same:
//
//     table_tool copy FROM TO           as it is; `differences` keeps columns of integers as differences
//     table_tool differences FROM TO
//     table_tool slice FROM TO START STOP
//     table_tool take FROM TO INDEX..
//     table_tool filter FROM TO NAME OPERATOR INTEGER
//     table_tool sort FROM TO first|last [-+]NAME..
//     table_tool append FROM TO OTHER
//     table_tool groups FROM TO COLUMN FOLD NAME..      FOLD by its number in hivevigil.h
//     table_tool select FROM TO NAME..
//     table_tool arrow FROM TO ROWS     after a stream of batches of so many rows
//
// A refusal is written to standard output as its name and its sentence.
#include "hivevigil_table.hpp"
#include <iostream>

using hv::Table;
using Words = std::vector<std::string>;

static Table sorted(const Table &table, const Words &words) {
    std::vector<hv::SortKey> keys;
    for (size_t at = 1; at < words.size(); at++)
        keys.push_back({words[at].substr(1), words[at][0] == '-' ? hv::Order::descending : hv::Order::ascending});
    return table.sort(keys, words[0] == "last" ? hv::Nulls::last : hv::Nulls::first);
}

static Table grouped(const Table &table, const Words &words) {
    const Words keys(words.begin() + 2, words.end());
    return table.group_by(keys).agg({{"answer", static_cast<hv::Fold>(std::stoi(words[1])), words[0]}});
}

static Table through_arrow(const Table &table, const Words &words) {
    ArrowArrayStream stream;
    table.to_arrow(&stream, std::stoul(words[0]));
    return Table::from_arrow(&stream);
}

static Table made(const std::string &command, const std::string &from, const Words &words) {
    if (command == "select") return Table::load(from, words);
    const Table table = Table::load(from);
    if (command == "slice") return table.slice(std::stoul(words[0]), std::stoul(words[1]));
    if (command == "filter") return table.filter_by(words[0], words[1], std::stol(words[2]));
    if (command == "sort") return sorted(table, words);
    if (command == "append") return table.append(Table::load(words[0]));
    if (command == "groups") return grouped(table, words);
    if (command == "arrow") return through_arrow(table, words);
    if (command != "take") return table.clone();
    std::vector<uint64_t> indices;
    for (const std::string &word : words) indices.push_back(std::stoul(word));
    return table.take(indices);
}

int main(int count, char **given) {
    if (count < 4) return 2;
    const std::string command = given[1];
    try {
        made(command, given[2], Words(given + 4, given + count)).save(given[3], command == "differences");
    } catch (const hv::Error &error) {
        std::cout << error.name() << ": " << error.what() << "\n";
    }
}
