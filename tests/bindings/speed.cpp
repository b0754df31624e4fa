// How fast calls are: speed FOLDER CALL THREADS COUNT. CALL is one of the names below; FOLDER is examples/notes.
//
// Prints the nanoseconds of processor time that a call takes, and the calls of all threads in a second.
#include "cedar.hpp"

#include <atomic>
#include <chrono>
#include <cstdio>
#include <ctime>
#include <deque>
#include <fstream>
#include <functional>
#include <iterator>
#include <map>
#include <thread>

static std::string content(const std::string &path) {
    std::ifstream file(path, std::ios::binary);
    return {std::istreambuf_iterator<char>(file), {}};
}

static const char LINE[] = R"({"principal":"User::\"ann\"","action":"Action::\"write\"","resource":"Notebook::\"plans\""})";
static const cedar::Request REQUEST = {{"User", "ann"}, {"Action", "write"}, {"Notebook", "plans"}};

// A handle in C: the first one leads to an engine, and each thread has a handle of its own that shares this engine.
struct Handle {
    cedar_engine at;
    explicit Handle(const cedar_files &files) {
        if (cedar_new(&at) != CEDAR_OK || cedar_publish(&at, &files, nullptr, nullptr) != CEDAR_OK) {
            std::exit(9);
        }
    }
    explicit Handle(cedar_engine &first) {
        if (cedar_new(&at) != CEDAR_OK || cedar_share(&first, &at) != CEDAR_OK) {
            std::exit(9);
        }
    }
    Handle(const Handle &) = delete;
    ~Handle() { cedar_free(&at); }
};

// Decides by a call over a handle, or over a shared engine.
template <class Call, class Asked> static bool decide(Call call, Asked *asked, bool with_text) {
    char room[512];
    cedar_buffer text = {room, with_text ? sizeof room : 0, 0};
    cedar_request request = {sizeof request, {"User", 4},     {"ann", 3},   {"Action", 6},
                             {"write", 5},   {"Notebook", 8}, {"plans", 5}, {nullptr, 0}};
    cedar_decision decision = {sizeof decision, 0, 0};
    return call(asked, &request, &decision, &text) == CEDAR_OK && decision.allow == 1;
}

template <class Call, class Asked> static bool answer_line(Call call, Asked *asked) {
    char room[512];
    cedar_buffer text = {room, sizeof room, 0};
    return call(asked, cedar_bytes{LINE, sizeof LINE - 1}, &text) == CEDAR_OK;
}

int main(int count, char **words) {
    if (count != 5) {
        return 9;
    }
    const std::string folder = words[1], schema = content(folder + "/schema.json"), policies = content(folder + "/policies.cedar");
    const std::string entities = content(folder + "/entities.json");
    const long threads = std::atol(words[3]), calls = std::atol(words[4]);
    const cedar::Files files = {schema, policies, {}, entities};
    const cedar_files raw = cedar::detail::raw(files);
    cedar::Engine engine(files);
    cedar_shared *shared = nullptr;
    if (cedar_shared_new(&shared) != CEDAR_OK || cedar_shared_publish(shared, &raw, nullptr, nullptr) != CEDAR_OK) {
        return 9;
    }
    const std::map<std::string, std::function<bool(Handle &)>> kinds = {
        {"c-decide", [](Handle &handle) { return decide(cedar_decide, &handle.at, false); }},
        {"c-decide-text", [](Handle &handle) { return decide(cedar_decide, &handle.at, true); }},
        {"c-answer-line", [](Handle &handle) { return answer_line(cedar_answer_line, &handle.at); }},
        {"shared-decide", [&](Handle &) { return decide(cedar_shared_decide, shared, false); }},
        {"shared-decide-text", [&](Handle &) { return decide(cedar_shared_decide, shared, true); }},
        {"shared-answer-line", [&](Handle &) { return answer_line(cedar_shared_answer_line, shared); }},
        {"c++-decide", [&](Handle &) { return engine.decide(REQUEST); }},
        {"c++-authorize", [&](Handle &) { return engine.authorize(REQUEST).allow; }},
        {"c++-answer-line", [&](Handle &) { return engine.answer_line(LINE).size() > 20; }}};
    const auto &call = kinds.at(words[2]);
    Handle first(raw);
    std::deque<Handle> handles;
    for (long i = 0; i < threads; i++) {
        handles.emplace_back(first.at);
    }
    std::vector<std::thread> all;
    std::atomic<long> wrong{0};
    std::clock_t spent = std::clock();
    auto began = std::chrono::steady_clock::now();
    for (long i = 0; i < threads; i++) {
        all.emplace_back([&, i] {
            // Each thread counts for itself: one counter for all would have them wait for one another at each call.
            long missed = 0;
            for (long k = 0; k < calls; k++) {
                missed += !call(handles[i]);
            }
            wrong += missed;
        });
    }
    for (std::thread &thread : all) {
        thread.join();
    }
    double seconds = std::chrono::duration<double>(std::chrono::steady_clock::now() - began).count();
    cedar_shared_free(shared);
    double total = static_cast<double>(threads * calls);
    std::printf("%.0f %.0f\n", static_cast<double>(std::clock() - spent) / CLOCKS_PER_SEC / total * 1e9, total / seconds);
    return wrong != 0;
}
