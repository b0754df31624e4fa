// An engine that nobody uses any more is freed, also while requests run: memory does not grow with publications. Sixteen threads ask while
// entities of 2.1 MB are published a hundred times. What is resident then is at most twice one engine, and ALLOWED, above what was before.
#include "cedar.hpp"

#include <atomic>
#include <chrono>
#include <cstdio>
#include <fstream>
#include <string>
#include <thread>
#include <unistd.h>

static constexpr int PUBLICATIONS = 100;
static constexpr long ALLOWED = 32 << 20;

static const char SCHEMA[] = R"({"":{"entityTypes":{"Group":{},"User":{"memberOfTypes":["Group"],"shape":{"type":"Record","attributes":)"
                             R"({"name":{"type":"String"}}}}},"actions":{"view":{"appliesTo":{"principalTypes":["User"],)"
                             R"("resourceTypes":["Group"]}}}}})";

// The bytes of this process that are resident; 0 where the system does not say it.
static long resident() {
    std::ifstream file("/proc/self/statm");
    long all = 0, pages = 0;
    file >> all >> pages;
    return pages * sysconf(_SC_PAGESIZE);
}

// 500 groups, and 10,000 users with names, each in one of them.
static std::string many_entities() {
    std::string text = "[";
    for (int at = 0; at < 500; at++) {
        text += R"({"uid":{"type":"Group","id":"group)" + std::to_string(at) + "\"}},";
    }
    for (int at = 0; at < 10000; at++) {
        text += R"({"uid":{"type":"User","id":"user)" + std::to_string(at) + R"("},"attrs":{"name":")" + std::string(100, 'x') +
                R"("},"parents":[{"type":"Group","id":"group)" + std::to_string(at % 500) + "\"}]},";
    }
    text.back() = ']';
    return text;
}

int main() {
    const std::string entities = many_entities();
    const long before = resident();
    cedar::Engine engine({SCHEMA, R"(permit(principal in Group::"group7", action, resource);)", {}, entities});
    const long one = resident() - before;
    std::atomic<bool> is_over{false};
    std::atomic<long> wrong{0};
    std::vector<std::thread> threads;
    for (int i = 0; i < 16; i++) {
        threads.emplace_back([&] {
            const cedar::Request request = {{"User", "user7"}, {"Action", "view"}, {"Group", "group1"}};
            while (!is_over) {
                wrong += !engine.decide(request);
                std::this_thread::sleep_for(std::chrono::milliseconds(1));
            }
        });
    }
    for (int i = 0; i < PUBLICATIONS; i++) {
        engine.publish_entities(entities);
    }
    const long after = resident();
    is_over = true;
    for (std::thread &thread : threads) {
        thread.join();
    }
    std::printf("%ld MB before, one engine %ld MB, %ld MB after %d publications\n", before >> 20, one >> 20, after >> 20, PUBLICATIONS);
    const int passed = (wrong == 0) + (after <= before + 2 * one + ALLOWED);
    std::printf("%d passed, %d failed\n", passed, 2 - passed);
    return passed != 2;
}
