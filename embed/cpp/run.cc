// run BUNDLE STEPS PRELUDE FLAGS ROOT..: as c/run.c. For tests/embedding.
#include "starload.hpp"
#include <cstdlib>
#include <fstream>
#include <iostream>
#include <iterator>

int main(int count, char **words)
{
    if (count < 5)
        return 3;
    std::ifstream file(words[1], std::ios::binary);
    const std::string bundle((std::istreambuf_iterator<char>(file)), std::istreambuf_iterator<char>());
    const std::string prelude = words[3], flags = words[4];
    const auto wants = [&](char flag) { return flags.find(flag) != std::string::npos; };
    starload::Options options;
    if (prelude != "-")
        options.prelude = prelude;
    options.steps = static_cast<std::uint32_t>(std::strtoul(words[2], nullptr, 10));
    options.with_values = wants('v');
    options.with_loads = wants('l');
    options.with_steps = wants('s');
    options.only_roots = wants('r');
    try {
        const auto report = starload::load(bundle, {words + 5, words + count}, options);
        std::cout << report.json;
        return report.ok ? 0 : 1;
    } catch (const starload::Refused &why) {
        std::cerr << "starload: " << why.what() << "\n";
        return 2;
    }
}
