// The installed header in C++: a mark in an upload that C++ owns, a refusal with its text, and the version.
#include <iostream>
#include <string>
#include <vector>

#include <marks.h>

static const uint8_t *bytes(const std::string &text)
{
    return reinterpret_cast<const uint8_t *>(text.data());
}

int main()
{
    const std::string mark = "RIDE", upload = "..RIDE..RIDE";
    std::vector<uint16_t> tables(MARKS_TABLES(mark.size()));
    std::vector<uint32_t> finds(8);
    uint64_t count = 0, letters = 0;
    uint32_t said = marks_turbo(bytes(mark), mark.size(), bytes(upload), upload.size(), tables.data(), tables.size(), finds.data(), finds.size(), &count, &letters);
    if (said != MARKS_OK)
        return 1;
    std::cout << "marks " << MARKS_VERSION << ": " << count << " finds, the first at " << finds[0] << "\n";
    said = marks_build(bytes(mark), 0, tables.data(), tables.size(), &count);
    std::cout << "no mark: " << marks_meaning(said) << "\n";
    return said == MARKS_EMPTY_WORD ? 0 : 1;
}
