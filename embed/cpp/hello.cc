// g++ -std=c++17 -I embed -I embed/cpp embed/cpp/hello.cc embed/out/libstarload.a -o hello && ./hello
#include "starload.hpp"
#include <iostream>

int main()
{
    try {
        const auto report = starload::load(R"({"//:hello.star": "print('Hello')\nx = 1 + 2\n"})", {"//:hello.star"});
        std::cout << report.json;
        return report.ok ? 0 : 1;
    } catch (const starload::Refused &why) {
        std::cerr << "no report: " << why.what() << "\n";
        return 2;
    }
}
