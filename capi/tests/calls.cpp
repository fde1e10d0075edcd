// The header in C++: includes it and calls.
#include <nvmearb.h>

#include <array>
#include <cstdio>

#include "library.h"

int main()
{
    std::array<uint8_t, NVMEARB_SQE_BYTES> bytes{};
    bytes[0] = 0x02;
    bytes[4] = 1;
    nvmearb_sqe entry{};
    nvmearb_sqe_decode(bytes.data(), &entry);
    const std::array<uint64_t, 2> sizes{8, 16};
    nvmearb_status status{};
    const bool is_well = IS_OF_HEADER &&
                         nvmearb_outcome(&entry, sizes.data(), sizes.size(), &status) == NVMEARB_OK &&
                         status.sct == 0 && status.sc == 0;
    std::printf("%d passed, %d failed\n", is_well ? 1 : 0, is_well ? 0 : 1);
    return is_well ? 0 : 1;
}
