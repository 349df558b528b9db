// Gives the target a number of inputs of its own, the same ones in each run: for where there is no libFuzzer. With names
// of files it gives it these.
#include <cstdint>
#include <cstdio>
#include <cstdlib>
#include <fstream>
#include <iterator>
#include <random>
#include <vector>

extern "C" int LLVMFuzzerTestOneInput(const uint8_t* data, size_t size);
extern "C" void print_counts();
size_t frames_compared();

int main(int words, char** word) {
    char* end = nullptr;
    unsigned long count = words == 2 ? std::strtoul(word[1], &end, 10) : 0;
    for (unsigned long number = 1; number <= count; number++) {
        std::mt19937_64 chance(number);
        std::vector<uint8_t> data(4096);
        for (uint8_t& byte : data) byte = static_cast<uint8_t>(chance());
        LLVMFuzzerTestOneInput(data.data(), data.size());
    }
    for (int place = 1; count == 0 && place < words; place++) {
        std::ifstream file(word[place], std::ios::binary);
        std::vector<uint8_t> data((std::istreambuf_iterator<char>(file)), std::istreambuf_iterator<char>());
        LLVMFuzzerTestOneInput(data.data(), data.size());
    }
    print_counts();
    return frames_compared() == 0;
}
