// starload for C++: one function over starload.h, with strings and an exception. docs/EMBEDDING.md
#ifndef STARLOAD_HPP
#define STARLOAD_HPP
#include "starload.h"
#include <cstdint>
#include <optional>
#include <stdexcept>
#include <string>
#include <string_view>
#include <utility>
#include <vector>

namespace starload {

/// Why there is no report.
class Refused : public std::runtime_error {
public:
    explicit Refused(std::uint32_t number) : std::runtime_error(starload_refusal(number)), refusal(number) {}
    std::uint32_t refusal;
};

struct Options {
    std::optional<std::string> prelude;
    std::uint32_t steps = 1000000;
    bool with_values = false, with_loads = false, with_steps = false, only_roots = false;
};

/// The report as JSON, and whether every file is ok.
struct Report {
    std::string json;
    bool ok;
};

inline starload_bytes bytes(std::string_view text)
{
    static const std::uint8_t none = 0;
    return {text.empty() ? &none : reinterpret_cast<const std::uint8_t *>(text.data()), text.size()};
}

/// The report of a bundle, which is a JSON object from labels to texts. Throws Refused where there is none.
inline Report load(std::string_view bundle, const std::vector<std::string> &roots, const Options &options = {})
{
    std::vector<starload_bytes> words;
    for (const auto &root : roots)
        words.push_back(bytes(root));
    words.push_back(bytes(""));
    starload_asked asked{};
    asked.bundle = bytes(bundle);
    asked.roots = {words.data(), roots.size()};
    asked.prelude = bytes(options.prelude ? std::string_view(*options.prelude) : std::string_view());
    asked.steps = options.steps;
    asked.has_prelude = options.prelude.has_value();
    asked.with_values = options.with_values;
    asked.with_loads = options.with_loads;
    asked.with_steps = options.with_steps;
    asked.only_roots = options.only_roots;
    std::string out(4096 + 4 * bundle.size(), '\0');
    for (;;) {
        const starload_answer answer = starload_run(&asked, reinterpret_cast<std::uint8_t *>(out.data()), out.size());
        if (answer.status == STARLOAD_REFUSED)
            throw Refused(answer.refusal);
        out.resize(answer.length);
        if (answer.status != STARLOAD_ROOM)
            return {std::move(out), answer.status == STARLOAD_OK};
    }
}

} // namespace starload
#endif
