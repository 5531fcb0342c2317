// A host in C++ as its programmer writes it: writes a table into a string and reads it back.
#include <lastarunc.h>

#include <iostream>
#include <string>
#include <vector>

int main()
{
    const std::vector<int32_t> given{1, 12, LASTARUNC_MISSING, 12};
    std::string text(LASTARUNC_TEXT_CEILING(given.size()), ' ');
    lastarunc_text written;
    if (lastarunc_write_table(0, 3000, given.size(), given.data(), given.size(),
                              reinterpret_cast<uint8_t *>(&text[0]), text.size(), &written))
        return 1;
    text.resize(static_cast<size_t>(written.length));
    std::cout << text;

    std::vector<int32_t> read(given.size());
    lastarunc_table table;
    lastarunc_read_table(0, 3000, read.size(), reinterpret_cast<const uint8_t *>(text.data()), text.size(), read.data(),
                         read.size(), &table);
    std::cout << (table.refused == 0 && read == given ? "read back\n" : "not read back\n");
}
