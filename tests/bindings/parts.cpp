// Reports in parts, in C++: parts.
#include "cedar.hpp"
#include "parts.h"

#include <cstdio>

static int passed, failed;

#define CHECK(is_right) \
    do { \
        const bool is_so = (is_right); \
        (is_so ? passed : failed)++; \
        if (!is_so) { \
            std::printf("%s:%d: %s\n", __FILE__, __LINE__, #is_right); \
        } \
    } while (0)

static cedar::Files files(std::string_view policies) { return {PARTS_SCHEMA, policies, {}, {}}; }

static std::string many(const std::string &policy) {
    std::string text;
    for (int i = 0; i < MANY_POLICIES; i++) {
        text += policy;
    }
    return text;
}

// The parts of a report, one after another.
static std::string joined(cedar::ReportParts &&parts) {
    std::string text;
    for (const std::string &part : parts) {
        text += part;
    }
    return text;
}

// Parts are the report of `validate`, with these totals and at least so many of them.
static void check_whole(const std::string &policies, std::uint64_t count, std::uint64_t faults, std::uint64_t warnings, long least) {
    const std::string totals = "{\"faults\":" + std::to_string(faults) + ",\"warnings\":" + std::to_string(warnings) + "}\n";
    const cedar::Report report = cedar::validate(files(policies));
    cedar::ReportParts parts = cedar::validate_parts(files(policies));
    CHECK(!parts.accepted() && parts.policies() == 0 && parts.text().empty());
    std::string text;
    long made = 0;
    while (parts.next()) {
        text += parts.text();
        made++;
        CHECK(parts.text().size() < PART_BYTES + 256 && parts.policies() <= static_cast<std::uint64_t>(made) * PART_POLICIES);
    }
    CHECK(text == report.text && text.size() >= totals.size() && text.compare(text.size() - totals.size(), totals.size(), totals) == 0);
    CHECK(made >= least && parts.policies() == count && parts.faults() == faults && parts.warnings() == warnings);
    CHECK(parts.accepted() == report.accepted && parts.accepted() == (faults == 0) && !parts.next());
    CHECK(joined(cedar::validate_parts(files(policies))) == text);
}

static void check_lines() {
    const std::string wrong = many(WRONG_POLICY), report = cedar::validate(files(wrong)).text, totals = "{\"faults\":6000,\"warnings\":0}\n";
    for (std::uint64_t lines = 0; lines <= 5; lines++) {
        std::size_t length = 0;
        for (std::uint64_t i = 0; i < lines; i++) {
            length = report.find('\n', length) + 1;
        }
        CHECK(joined(cedar::validate_parts(files(wrong), lines)) == report.substr(0, length) + totals);
    }
    CHECK(joined(cedar::validate_parts(files(wrong), 10000)) == report);
}

// A caller may leave at any part, and a copy goes on by itself.
static void check_leaving() {
    const std::string wrong = many(WRONG_POLICY), report = cedar::validate(files(wrong)).text;
    cedar::ReportParts parts = cedar::validate_parts(files(wrong));
    std::string text;
    for (const std::string &part : parts) {
        text += part;
        break;
    }
    CHECK(!text.empty() && text.size() < report.size() && report.compare(0, text.size(), text) == 0);
    CHECK(parts.faults() == 2 * parts.policies() && parts.policies() < MANY_POLICIES && !parts.accepted());
    cedar::ReportParts copy = parts;
    CHECK(text + joined(std::move(parts)) == report && text + joined(std::move(copy)) == report);
}

template <class Call> static bool is_refused(Call call, std::uint32_t file, std::uint32_t number) {
    try {
        call();
    } catch (const cedar::Refusal &refusal) {
        return refusal.file == file && refusal.number == number && refusal.words.size() > 40;
    }
    return false;
}

static void check_refusals() {
    cedar::ReportParts parts = cedar::validate_parts(files("permit("));
    for (int i = 0; i < 2; i++) {
        CHECK(is_refused([&] { parts.next(); }, CEDAR_POLICIES, 201) && parts.policies() == 0 && !parts.accepted());
    }
    CHECK(is_refused([] { joined(cedar::validate_parts({"{", RIGHT_POLICY, {}, {}})); }, CEDAR_SCHEMA, 301));
    CHECK(is_refused([] { joined(cedar::validate_parts({PARTS_SCHEMA, RIGHT_POLICY, "{}", {}})); }, CEDAR_LINKS, 502));
    CHECK(joined(cedar::validate_parts({PARTS_SCHEMA, RIGHT_POLICY, {}, "no entities"})) == "{\"faults\":0,\"warnings\":0}\n");
}

int main() {
    check_whole("", 0, 0, 0, 1);
    check_whole(RIGHT_POLICY WRONG_POLICY VAIN_POLICY, 3, 2, 1, 1);
    check_whole(many(RIGHT_POLICY), MANY_POLICIES, 0, 0, 3);
    check_whole(many(WRONG_POLICY), MANY_POLICIES, 2 * MANY_POLICIES, 0, 9);
    check_lines();
    check_leaving();
    check_refusals();
    const std::string wanted = FAULT_LINE("policy0", "Admin") FAULT_LINE("policy0", "User") WARNING_LINE("policy1")
        "{\"faults\":2,\"warnings\":1}\n";
    CHECK(joined(cedar::validate_parts(files(WRONG_POLICY VAIN_POLICY))) == wanted);
    std::printf("%d passed, %d failed\n", passed, failed);
    return failed != 0;
}
