// Plain reading and the image test of include/tags.h from C++, with what each gives where it is accepted and each refusal. Each expected value is
// worked out by hand from the paper. Prints each check that fails, then their number; the exit status is 0 only if all hold.

#include <cstdio>
#include <vector>

#include "tags.h"

namespace {

unsigned checks, failures;

void same(const char *what, uint64_t got, uint64_t expected)
{
    checks++;
    if (got != expected) {
        failures++;
        std::printf("%s: got %llu, expected %llu\n", what, static_cast<unsigned long long>(got),
                    static_cast<unsigned long long>(expected));
    }
}

uint64_t read(uint64_t n, const std::vector<uint8_t> &memory, uint64_t group)
{
    return tag_plain_read(n, memory.data(), memory.size(), group);
}

void plain_reading()
{
    std::vector<uint8_t> memory(128);
    memory[60] = 0x0a, memory[63] = 0xff; // group 15, low byte first
    same("under bit 0", read(1, memory, 15), 0);
    memory[64] = 1;
    same("under bit 1", read(1, memory, 15), 0xff00000au);
    same("no leaves", read(0, memory, 15), TAG_REFUSED + TAG_LIMITS);
    same("too many leaves", read(262145, memory, 15), TAG_REFUSED + TAG_LIMITS);
    same("another length", read(2, memory, 15), TAG_REFUSED + TAG_LENGTH);
    same("no such group", read(1, memory, 16), TAG_REFUSED + TAG_GROUP);
    memory.pop_back();
    same("a byte less", read(1, memory, 15), TAG_REFUSED + TAG_LENGTH);
}

void image_test()
{
    // The head for n = 2, m = 0, its check as the paper has it.
    std::vector<uint8_t> image(512);
    image[4] = 1, image[6] = 1, image[8] = 2;
    image[508] = 0x05, image[510] = 0xe9, image[511] = 0x04;
    same("an image", tag_image_test(image.data(), image.size()), 0);
    same("a byte less", tag_image_test(image.data(), image.size() - 1), TAG_IMAGE_CHECK);
    image[8] = 0;
    same("a wrong check", tag_image_test(image.data(), image.size()), TAG_IMAGE_CHECK);
    image[508] = 0x03, image[510] = 0xf5, image[511] = 0x02;
    same("n = 0", tag_image_test(image.data(), image.size()), TAG_IMAGE_RULE);
}

} // namespace

int main()
{
    plain_reading();
    image_test();
    std::printf("host.cpp: %u checks, %u failed\n", checks, failures);
    return failures != 0;
}
