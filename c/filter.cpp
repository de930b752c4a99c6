// filter IN OUT CLASS: the records of one class, packed, in a file that appears whole.
#include <cstdlib>
#include <iostream>
#include <laz.hpp>

int main(int count, char **words)
try {
    if (count != 4)
        return 2;
    laz::Reader in(words[1], 4);
    laz::Writer out(words[2], in.plain_head(), 50000, LAZ_SETS_COUNTS, 4);
    for (const laz::Records &records : in.batches())
        for (laz::Record record : records)
            if (record.classification() == std::strtoul(words[3], nullptr, 10))
                out.put(record);
    out.finish();
} catch (const laz::Error &error) {
    std::cerr << error.what() << '\n';
    return int(error.error().answer);
}
