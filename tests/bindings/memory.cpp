// Refuses each growth of memory of the library in turn, in calls of cedar.hpp: memory FOLDER, where FOLDER is examples/notes. It is linked
// with refusing.c. `operator new` is that of a shared library, and so is not refused.
//
// A call then throws cedar::OutOfMemory, or ends as with ample memory. The same call ends as usual afterwards.
#include "cedar.hpp"

#include <algorithm>
#include <cstdio>
#include <fstream>
#include <functional>
#include <iterator>

extern "C" long granted_before_refusal;

static std::string content(const std::string &path) {
    std::ifstream file(path, std::ios::binary);
    return {std::istreambuf_iterator<char>(file), {}};
}

static int passed, failed;
static bool has_refused;

static void try_each(const char *name, const std::function<bool()> &call) {
    for (long number = 0;; number++) {
        bool is_right, is_over;
        granted_before_refusal = number;
        has_refused = true;
        try {
            is_right = call();
            is_over = granted_before_refusal >= 0;
        } catch (const cedar::OutOfMemory &) {
            is_over = granted_before_refusal >= 0;
            is_right = !is_over;
        }
        granted_before_refusal = -1;
        has_refused = false;
        is_right = is_right && call();
        (is_right ? passed : failed)++;
        if (!is_right) {
            std::printf("%s: request %ld refused\n", name, number);
        }
        if (is_over) {
            return;
        }
    }
}

int main(int count, char **words) {
    if (count != 2) {
        return 9;
    }
    const std::string folder = std::string(words[1]) + "/";
    const std::string schema = content(folder + "schema.json"), policies = content(folder + "policies.cedar");
    const std::string entities = content(folder + "entities.json"), requests = content(folder + "requests.jsonl");
    const std::string answers = content(folder + "answers.jsonl"), line = requests.substr(0, requests.find('\n'));
    const std::string answer = answers.substr(0, answers.find('\n'));
    const cedar::Files files = {schema, policies, {}, entities}, broken = {schema, "permit(", {}, entities};
    const cedar::Request request = {{"User", "ann"}, {"Action", "write"}, {"Notebook", "plans"}};
    cedar::Engine engine(files);
    const auto asks = [&] {
        return engine.decide(request) && engine.authorize(request).determining.at(0) == "policy0" &&
               engine.answer_line(line) == answer && engine.answer(requests) == answers;
    };
    try_each("ask", asks);
    try_each("publish", [&] { return engine.publish(files), asks(); });
    try_each("publish what is refused", [&] {
        try {
            engine.publish(broken);
        } catch (const cedar::Refusal &refusal) {
            // Where memory is refused, words and line may be missing.
            return refusal.number == 201 && refusal.offset == 7u && (has_refused || refusal.line == 1u) && asks();
        }
        return false;
    });
    try_each("publish entities", [&] { return engine.publish_entities(entities), asks(); });
    try_each("publish entities that are refused", [&] {
        try {
            engine.publish_entities("{}");
        } catch (const cedar::Refusal &refusal) {
            return refusal.file == CEDAR_ENTITIES && refusal.number == 502 && !refusal.offset && asks();
        }
        return false;
    });
    const std::string changes = "{\"upsert\":" + entities + "}";
    try_each("publish changes", [&] { return engine.publish_changes(changes), asks(); });
    try_each("publish changes that are refused", [&] {
        try {
            engine.publish_changes("[]");
        } catch (const cedar::Refusal &refusal) {
            return refusal.file == CEDAR_ENTITIES && refusal.number == 502 && !refusal.offset && asks();
        }
        return false;
    });
    std::string brought = line.substr(0, line.size() - 1) + ",\"entities\":" + entities + "}";
    std::replace(brought.begin(), brought.end(), '\n', ' ');
    brought += "\n" + requests;
    try_each("answer lines with entities", [&] { return engine.answer_with_entities(brought) == answer + "\n" + answers && asks(); });
    try_each("ask over changes", [&] { return engine.with_changes(changes).answer(requests) == answers && asks(); });
    try_each("validate", [&] { return cedar::validate(files).accepted && cedar::explain(files).empty(); });
    const std::string report = cedar::validate(files).text;
    try_each("validate in parts", [&] {
        std::string text;
        for (const std::string &part : cedar::validate_parts(files)) {
            text += part;
        }
        return text == report && engine.kept_changes() > 0;
    });
    std::printf("%d passed, %d failed\n", passed, failed);
    return failed != 0;
}
