// Eight threads ask while versions are published: threads FOLDER SECONDS, where FOLDER is examples/notes. Each of the three phases below
// lasts so many seconds.
//
// The id of the policy of a version is its number; even versions permit, and odd ones forbid. Each answer has to be that of a version that
// was current during its call: not older than the last that was published before it, and not newer than the last that was begun after it.
// Another thread publishes entities alone all the while, which brings no older policies back.
//
// Then the entities alone have versions. Ann is in the group of the number of the version, of which there are GROUPS, and each group has a
// policy. At last changes make these versions, one after another, while another thread asks over changes of its own.
#include "cedar.hpp"

#include <atomic>
#include <chrono>
#include <cstdio>
#include <fstream>
#include <functional>
#include <iterator>
#include <thread>

static std::string content(const std::string &path) {
    std::ifstream file(path, std::ios::binary);
    return {std::istreambuf_iterator<char>(file), {}};
}

static std::string policies(long number) {
    return "@id(\"" + std::to_string(number) + "\") " + (number % 2 ? "forbid" : "permit") + "(principal, action, resource);";
}

static constexpr long GROUPS = 1000;

static const char SCHEMA[] = R"({"":{"entityTypes":{"Group":{},"User":{"memberOfTypes":["Group"]}},"actions":{"write":{"appliesTo":)"
                             R"({"principalTypes":["User"],"resourceTypes":["Group"]}}}}})";

static std::string policies_of_groups() {
    std::string text;
    for (long number = 0; number < GROUPS; number++) {
        std::string id = std::to_string(number);
        text += "@id(\"" + id + "\") permit(principal in Group::\"" + id + "\", action, resource);\n";
    }
    return text;
}

static std::string entities_of(long number) {
    return R"([{"uid":{"type":"User","id":"ann"},"parents":[{"type":"Group","id":")" + std::to_string(number % GROUPS) + R"("}]}])";
}

static std::atomic<long> begun{0}, done{0}, right{0}, wrong{0}, swaps{0};
static std::atomic<bool> is_over{false};

static void ask(const cedar::Engine &engine) {
    const std::string line = R"({"principal":"User::\"ann\"","action":"Action::\"write\"","resource":"Notebook::\"plans\""})";
    const cedar::Request request = {{"User", "ann"}, {"Action", "write"}, {"Notebook", "plans"}};
    for (long turn = 0; !is_over; turn++) {
        long first = done;
        cedar::Response response = turn % 2 ? engine.authorize(request) : cedar::detail::Reader(engine.answer_line(line)).response();
        long last = begun, answered = std::stol(response.determining.at(0));
        bool is_right = first <= answered && answered <= last && response.allow == (answered % 2 == 0);
        long before = done;
        bool is_allowed = engine.decide(request);
        is_right = is_right && (before != begun || is_allowed == (before % 2 == 0));
        (is_right ? right : wrong)++;
    }
}

static void ask_for_the_group(const cedar::Engine &engine) {
    const cedar::Request request = {{"User", "ann"}, {"Action", "write"}, {"Group", "0"}};
    while (!is_over) {
        long first = done;
        cedar::Response response = engine.authorize(request);
        long last = begun, answered = response.determining.size() == 1 ? std::stol(response.determining[0]) : -1;
        bool is_right = last - first >= GROUPS || (first + (answered - first % GROUPS + GROUPS) % GROUPS) <= last;
        (is_right && response.allow ? right : wrong)++;
    }
}

// Asks in eight threads while versions are published for this long, and prints how many answers there were. Returns whether all was right.
static bool are_right(double seconds, const std::function<void()> &asks, const std::function<void(long)> &publish,
                      const std::function<void()> &meanwhile) {
    begun = done = right = wrong = swaps = 0;
    is_over = false;
    std::vector<std::thread> threads;
    for (int i = 0; i < 8; i++) {
        threads.emplace_back(asks);
    }
    threads.emplace_back([&] {
        for (; !is_over; swaps++) {
            meanwhile();
        }
    });
    auto end = std::chrono::steady_clock::now() + std::chrono::duration<double>(seconds);
    for (long number = 1; std::chrono::steady_clock::now() < end; number++) {
        begun = number;
        publish(number);
        done = number;
    }
    is_over = true;
    for (std::thread &thread : threads) {
        thread.join();
    }
    std::printf("%ld answers, %ld wrong, %ld versions, %ld others\n", right.load(), wrong.load(), done.load(), swaps.load());
    return wrong == 0 && right > 8 && done > 1 && swaps > 1;
}

int main(int count, char **words) {
    if (count != 3) {
        return 9;
    }
    const std::string folder = words[1], schema = content(folder + "/schema.json"), entities = content(folder + "/entities.json");
    const double seconds = std::atof(words[2]);
    cedar::Engine engine({schema, policies(0), {}, entities});
    int passed = are_right(
        seconds, [&] { ask(engine); }, [&](long number) { engine.publish({schema, policies(number), {}, entities}); },
        [&] { engine.publish_entities(swaps % 2 ? "[]" : entities); });
    const std::string groups = policies_of_groups();
    engine.publish({SCHEMA, groups, {}, entities_of(0)});
    passed += are_right(
        seconds, [&] { ask_for_the_group(engine); }, [&](long number) { engine.publish_entities(entities_of(number)); },
        [&] {
            try {
                engine.publish_entities("{}");
            } catch (const cedar::Refusal &) {
            }
        });
    engine.publish_entities(entities_of(0));
    passed += are_right(
        seconds, [&] { ask_for_the_group(engine); },
        [&](long number) { engine.publish_changes("{\"upsert\":" + entities_of(number) + "}"); },
        [&] {
            cedar::Engine other = engine.with_changes(R"({"remove":[{"type":"User","id":"ann"}]})");
            wrong += other.decide({{"User", "ann"}, {"Action", "write"}, {"Group", "0"}});
            try {
                engine.publish_changes("[]");
                wrong++;
            } catch (const cedar::Refusal &) {
            }
        });
    std::printf("%d passed, %d failed\n", passed, 3 - passed);
    return passed != 3;
}
