// Answers the cases of answers, as cases.c does.
#include "cedar.hpp"

#include <cstdlib>
#include <fstream>
#include <iostream>
#include <iterator>

struct Case {
    std::string name;
    std::uint32_t status = 0, settings = 0;
    bool brings_entities = false;
};

static std::string content(const std::string &path) {
    std::ifstream file(path, std::ios::binary);
    return {std::istreambuf_iterator<char>(file), {}};
}

// The status and the text of a case: its answers, or what the program prints of files that are refused.
static std::pair<std::uint32_t, std::string> answered(const std::string &folder, const Case &it) {
    const std::string schema = content(folder + "/schema.json"), policies = content(folder + "/policies.cedar");
    const std::string links = content(folder + "/links.json"), entities = content(folder + "/entities.json");
    const std::string lines = content(folder + "/requests.jsonl");
    const bool any_decimal = it.settings & CEDAR_ANY_DECIMAL;
    const unsigned language = it.settings & CEDAR_LANGUAGE_4 ? 4 : 3;
    try {
        const cedar::Engine engine({schema, policies, links, entities, any_decimal, language});
        return {CEDAR_OK, it.brings_entities ? engine.answer_with_entities(lines) : engine.answer(lines)};
    } catch (const cedar::Refusal &refusal) {
        return {refusal.status(), refusal.text};
    } catch (const cedar::Faults &faults) {
        return {faults.status(), faults.report};
    }
}

int main() {
    const char *given = std::getenv("BOBBINJADE_CASES");
    const std::string root = given ? given : "";
    std::ifstream list(root + "/list");
    if (!list) {
        return 9;
    }
    int passed = 0, failed = 0;
    for (Case it; list >> it.name >> it.status >> it.settings >> it.brings_entities;) {
        const auto [status, text] = answered(root + "/" + it.name, it);
        const bool is_right = status == it.status && text == content(root + "/" + it.name + "/wanted.jsonl");
        (is_right ? passed : failed)++;
        if (!is_right) {
            std::cout << it.name << ": status " << status << " with the text\n" << text;
        }
    }
    std::cout << passed << " passed, " << failed << " failed\n";
    return failed != 0;
}
