// What cedar.hpp promises beyond the answers: checks FOLDER, where FOLDER is examples/.
#include "cedar.hpp"
#include "changes.h"

#include <atomic>
#include <cstdio>
#include <fstream>
#include <functional>
#include <iterator>
#include <thread>

static int passed, failed;

#define CHECK(is_right) \
    do { \
        (is_right) ? passed++ : failed++; \
        if (!(is_right)) { \
            std::printf("%s:%d: %s\n", __FILE__, __LINE__, #is_right); \
        } \
    } while (0)

static std::string content(const std::string &path) {
    std::ifstream file(path, std::ios::binary);
    return {std::istreambuf_iterator<char>(file), {}};
}

template <class Fault> static std::optional<Fault> thrown(const std::function<void()> &call) {
    try {
        call();
    } catch (const Fault &fault) {
        return fault;
    }
    return std::nullopt;
}

static std::string schema, policies, entities, requests, answers;

static cedar::Files files(std::string_view text) { return {schema, text, {}, entities}; }

static cedar::Request asked(std::string_view who, std::string_view action) {
    return {{"User", who}, {"Action", action}, {"Notebook", "plans"}};
}

static void check_refusals(const std::string &broken) {
    cedar::Engine engine(files(policies));
    for (auto &call : {std::function<void()>([&] { engine.publish(files(broken)); }), {[&] { cedar::Engine other(files(broken)); }},
                       {[&] { cedar::validate(files(broken)); }}}) {
        auto refusal = thrown<cedar::Refusal>(call);
        CHECK(refusal && refusal->file == CEDAR_POLICIES && refusal->number == 201 && refusal->offset == 128u && refusal->line == 4u);
        CHECK(refusal && refusal->words.rfind("error[201]: the policy text has a syntax error\n", 0) == 0);
        CHECK(refusal && refusal->text == "{\"file\":\"policies\",\"offset\":128,\"refused\":201}\n" && refusal->status() == CEDAR_REFUSED);
    }
    auto refusal = thrown<cedar::Refusal>([&] { engine.publish({schema, policies, "{}", entities}); });
    CHECK(refusal && refusal->file == CEDAR_LINKS && refusal->number == 502 && !refusal->offset && !refusal->line);
    refusal = thrown<cedar::Refusal>([&] { engine.publish({schema, policies, {}, "{}"}); });
    CHECK(refusal && refusal->file == CEDAR_ENTITIES && refusal->number == 502);
    CHECK(cedar::explain(files(policies)).empty() && cedar::explain(files(broken)).rfind("error[201]", 0) == 0);
    CHECK(engine.answer(requests) == answers);
}

static void check_entities(const std::string &folder) {
    const std::string schema = content(folder + "schema.json"), policies = content(folder + "policies.cedar");
    const std::string entities = content(folder + "entities.json"), broken = content(folder + "broken_entities.json");
    // Ann is in no group, and so not a friend of jane.
    const std::string others = R"([{"uid":{"type":"User","id":"ann"}},{"uid":{"type":"Photo","id":"beach"},"attrs":{"owner":)"
                               R"({"type":"User","id":"jane"},"private":false},"parents":[{"type":"Album","id":"jane_vacation"}]}])";
    const cedar::Request request = {{"User", "ann"}, {"Action", "view"}, {"Photo", "beach"}};
    cedar::Engine engine;
    CHECK(thrown<cedar::NoEngine>([&] { engine.publish_entities(entities); }));
    engine.publish({schema, policies, {}, entities});
    CHECK(engine.is_authorized(request).determining == std::vector<std::string>{"shared-with-friends"});
    engine.publish_entities(others);
    CHECK(!engine.decide(request) && engine.authorize(request).erring.empty());
    auto refusal = thrown<cedar::Refusal>([&] { engine.publish_entities(broken); });
    CHECK(refusal && refusal->file == CEDAR_ENTITIES && refusal->number == 506 && !refusal->offset && refusal->line == 3u);
    CHECK(refusal && refusal->text == "{\"file\":\"entities\",\"refused\":506}\n" && refusal->status() == CEDAR_REFUSED);
    CHECK(refusal && refusal->words.rfind("error[506]: an attribute is not declared\n", 0) == 0);
    auto other = thrown<cedar::Refusal>([&] { engine.publish({schema, policies, {}, broken}); });
    CHECK(refusal && other && refusal->words == other->words && refusal->text == other->text);
    CHECK(!engine.decide(request));
    engine.publish_entities("[]");
    cedar::Response response = engine.authorize(request);
    CHECK(!response.allow && response.determining.empty() && response.erring.size() == 1);
    CHECK(response.erring.at(0).policy == "private" && response.erring.at(0).error == "missing_entity");
    engine.publish_entities(entities);
    CHECK(engine.answer(content(folder + "requests.jsonl")) == content(folder + "answers.jsonl"));
    engine.close();
    CHECK(thrown<cedar::Closed>([&] { engine.publish_entities(entities); }));
    CHECK(thrown<cedar::Closed>([&] { cedar::Engine moved(std::move(engine)); engine.publish_entities(entities); }));
}

// What is kept of changes, as docs/DATA.md has it.
static void check_kept_changes() {
    std::string upserted, removed;
    for (int i = 0; i < 1000; i++) {
        const std::string begin = i ? "," : "", uid = R"({"type":"User","id":"u)" + std::to_string(i) + "\"}";
        upserted += begin + R"({"uid":)" + uid + R"(,"attrs":{"age":1}})";
        removed += begin + uid;
    }
    cedar::Engine engine;
    CHECK(thrown<cedar::NoEngine>([&] { engine.kept_changes(); }));
    engine.publish({CHANGES_SCHEMA, CHANGES_POLICIES, {}, CHANGES_ENTITIES});
    CHECK(engine.kept_changes() == 0);
    engine.publish_changes("{\"upsert\":[" + upserted + "]}");
    CHECK(engine.kept_changes() == 1000 && engine.with_changes(UPSERT(ANN)).kept_changes() == 1001 && engine.kept_changes() == 1000);
    engine.publish_changes("{\"remove\":[" + removed + "]}");
    CHECK(engine.kept_changes() <= 126);
    engine.publish_entities(CHANGES_ENTITIES);
    CHECK(engine.kept_changes() == 0);
    engine.close();
    CHECK(thrown<cedar::Closed>([&] { engine.kept_changes(); }));
}

static void check_changes() {
    const cedar::Request ann = {{"User", "ann"}, {"Action", "view"}, {"Group", "staff"}}, bob = {{"User", "bob"}, ann.action, ann.resource};
    cedar::Engine engine;
    CHECK(thrown<cedar::NoEngine>([&] { engine.publish_changes("{}"); }) && thrown<cedar::NoEngine>([&] { engine.with_changes("{}"); }));
    engine.publish({CHANGES_SCHEMA, CHANGES_POLICIES, {}, CHANGES_ENTITIES});
    CHECK(!engine.decide(ann) && engine.decide(bob));
    // A request that brings its entities: no other request sees them.
    {
        cedar::Engine other = engine.with_changes(UPSERT(ANN));
        CHECK(other.decide(ann) && other.decide(bob) && !engine.decide(ann));
        other.publish_changes(REMOVE(UID("User", "bob")));
        CHECK(!other.decide(bob) && engine.decide(bob));
    }
    CHECK(!engine.decide(ann) && engine.decide(bob));
    engine.publish_changes(UPSERT(ANN));
    CHECK(engine.decide(ann) && engine.authorize(ann).determining == std::vector<std::string>{"staff"});
    cedar::Engine before = engine.with_changes("{}");
    engine.publish_changes(REMOVE(UID("User", "ann")));
    CHECK(!engine.decide(ann) && engine.decide(bob) && before.decide(ann));
    for (const auto &it : REFUSED_CHANGES) {
        for (auto &call : {std::function<void()>([&] { engine.publish_changes(it.text); }), {[&] { engine.with_changes(it.text); }}}) {
            auto refusal = thrown<cedar::Refusal>(call);
            CHECK(refusal && refusal->file == CEDAR_ENTITIES && refusal->number == it.number && !refusal->offset);
            CHECK(refusal && refusal->words.rfind("error[" + std::to_string(it.number) + "]: ", 0) == 0);
            CHECK(refusal && refusal->text == "{\"file\":\"entities\",\"refused\":" + std::to_string(it.number) + "}\n");
            CHECK(!engine.decide(ann) && engine.decide(bob));
        }
    }
    engine.publish_changes(UPSERT(ENTRY("Group", "team", "{}", "")));
    CHECK(!engine.decide(bob) && before.decide(bob));
    engine.close();
    CHECK(thrown<cedar::Closed>([&] { engine.publish_changes("{}"); }) && thrown<cedar::Closed>([&] { engine.with_changes("{}"); }));
    CHECK(before.decide(ann) && before.decide(bob));
}

// The line in which ann wants to view, with entities that it brings.
static std::string bringing(const std::string &entities) {
    return R"({"principal":"User::\"ann\"","action":"Action::\"view\"","resource":"Group::\"staff\"","entities":)" + entities + "}\n";
}

// No line sees the entities of another, and no later call sees them.
static void check_lines_with_entities(const std::string &folder) {
    const std::string allowed = "{\"decision\":\"allow\",\"determining\":[\"staff\"],\"erring\":[]}\n";
    const std::string denied = "{\"decision\":\"deny\",\"determining\":[],\"erring\":[]}\n";
    const std::string lines = bringing("[" ANN "]") + bringing("[]") + bringing("[" ANN "," ANN "]") + bringing("[" ANN "]") +
                              bringing("[" ENTRY("Group", "team", "{}", "") "," ANN "]") + bringing("{}");
    const std::string wanted = allowed + denied + "{\"refused\":401}\n" + allowed + denied + "{\"refused\":502}\n";
    cedar::Engine engine;
    CHECK(thrown<cedar::NoEngine>([&] { engine.answer_with_entities(lines); }));
    engine.publish({CHANGES_SCHEMA, CHANGES_POLICIES, {}, CHANGES_ENTITIES});
    for (int i = 0; i < 3; i++) {
        CHECK(engine.answer_with_entities(lines) == wanted && engine.answer(bringing("[]")) == "{\"refused\":502}\n");
        CHECK(!engine.decide({{"User", "ann"}, {"Action", "view"}, {"Group", "staff"}}));
        CHECK(engine.decide({{"User", "bob"}, {"Action", "view"}, {"Group", "staff"}}));
    }
    CHECK(engine.answer_with_entities("").empty());
    const std::string photos = content(folder + "schema.json"), policies = content(folder + "policies.cedar");
    engine.publish({photos, policies, {}, "[]"});
    CHECK(engine.answer_with_entities(content(folder + "requests_with_entities.jsonl")) == content(folder + "answers_with_entities.jsonl"));
    engine.publish_entities(content(folder + "entities.json"));
    CHECK(engine.answer_with_entities(content(folder + "requests.jsonl")) == content(folder + "answers.jsonl"));
    engine.close();
    CHECK(thrown<cedar::Closed>([&] { engine.answer_with_entities(lines); }));
}

static void check_faults() {
    std::string text;
    for (int i = 0; i < 200; i++) {
        text += "permit(principal, action, resource) when { principal.age > 1 };";
    }
    auto faults = thrown<cedar::Faults>([&] { cedar::Engine engine(files(text)); });
    CHECK(faults && faults->report.size() > 4096 && faults->report.find("{\"faults\":600,\"warnings\":0}\n") != std::string::npos);
    CHECK(faults && faults->words.rfind("error[603]: ", 0) == 0);
    cedar::Report report = cedar::validate(files(text));
    CHECK(faults && !report.accepted && report.text == faults->report);
    report = cedar::validate(files(policies));
    CHECK(report.accepted && report.text == "{\"faults\":0,\"warnings\":0}\n");
}

static void check_room() {
    std::string text;
    for (int i = 0; i < 400; i++) {
        text += "@id(\"a long name of a policy, number " + std::to_string(i) + "\") permit(principal, action, resource);";
    }
    cedar::Engine engine(files(text));
    cedar::Response response = engine.authorize(asked("ann", "write"));
    CHECK(response.allow && response.determining.size() == 400 && response.determining[0] == "a long name of a policy, number 0");
    CHECK(engine.answer_line(requests.substr(0, requests.find('\n'))).size() > 10000);
}

static void check_escapes() {
    cedar::Engine engine(files("@id(\"a\\\"\\\\\\n\\u{1}\\u{e9}\\u{1f600}\") permit(principal, action, resource);"));
    cedar::Response response = engine.authorize(asked("ann", "write"));
    CHECK(response.determining.size() == 1 && response.determining[0] == "a\"\\\n\x01\xc3\xa9\xf0\x9f\x98\x80");
    cedar::Response other = cedar::detail::Reader("{\"decision\":\"deny\",\"determining\":[\"\\ud83d\\ude00\\u00e9\\u20ac\"],\"erring\":"
                                                  "[{\"error\":\"overflow\",\"policy\":\"p\"},{\"error\":\"decimal\",\"policy\":\"q\"}]}")
                                .response();
    CHECK(!other.allow && other.determining[0] == "\xf0\x9f\x98\x80\xc3\xa9\xe2\x82\xac");
    CHECK(other.erring.size() == 2 && other.erring[0].error == "overflow" && other.erring[1].policy == "q");
}

static void check_requests() {
    cedar::Engine engine(files(policies));
    cedar::Request request = asked("ann", "write");
    CHECK(engine.decide(request));
    request.context = "[";
    auto refusal = thrown<cedar::RequestRefusal>([&] { engine.decide(request); });
    CHECK(refusal && refusal->number == 501);
    refusal = thrown<cedar::RequestRefusal>([&] { engine.authorize(asked("ann", "fly")); });
    const std::string words = "error[510]: an action is not declared\n --> request\n   = action: Action::\"fly\" is not declared\n";
    CHECK(refusal && refusal->number == 510 && refusal->words() == words && std::string(refusal->what()) == "cedar: the request is refused: 510");
    const std::string line = R"({"principal":"User::\"ann\"","action":"Action::\"write\"","resource":"Notebook::\"plans\"")";
    const std::string brings = line + R"(,"entities":[{"uid":{"type":"Ghost","id":"g"}}]})";
    CHECK(engine.explain_line(line + "}").empty() && engine.explain_line(brings).rfind("error[502]: ", 0) == 0);
    CHECK(engine.explain_line(brings, CEDAR_LINE_WITH_ENTITIES).rfind("error[503]: ", 0) == 0);
    CHECK(!thrown<cedar::RequestRefusal>([&] { engine.is_authorized(asked("ann", "write")); }));
    CHECK(engine.decide(asked("ann", "write")) && !engine.decide(asked("carol", "write")));
}

static void check_closing() {
    cedar::Engine empty;
    CHECK(thrown<cedar::NoEngine>([&] { empty.decide(asked("ann", "write")); }));
    empty.publish(files(policies));
    CHECK(empty.decide(asked("ann", "write")));
    cedar::Engine engine(std::move(empty));
    CHECK(engine.decide(asked("ann", "write")));
    CHECK(thrown<cedar::Closed>([&] { empty.decide(asked("ann", "write")); }));
    engine.close();
    engine.close();
    CHECK(thrown<cedar::Closed>([&] { engine.decide(asked("ann", "write")); }));
    CHECK(thrown<cedar::Closed>([&] { engine.authorize(asked("ann", "write")); }));
    CHECK(thrown<cedar::Closed>([&] { engine.answer(requests); }));
    CHECK(thrown<cedar::Closed>([&] { engine.answer_line("{}"); }));
    CHECK(thrown<cedar::Closed>([&] { engine.publish(files(policies)); }));
    engine = cedar::Engine(files(policies));
    CHECK(engine.answer(requests) == answers);
}

// The example in the language of Cedar 4 has its answers.
static void check_shares(const std::string &folder) {
    const std::string schema = content(folder + "schema.json"), policies = content(folder + "policies.cedar");
    const std::string entities = content(folder + "entities.json");
    const cedar::Engine engine({schema, policies, {}, entities, false, 4});
    CHECK(engine.answer(content(folder + "requests.jsonl")) == content(folder + "answers.jsonl"));
}

// Files of the language of Cedar 4 are refused in the default language, and an unknown language is refused.
static void check_languages(const std::string &folder) {
    const std::string schema = content(folder + "schema.json"), policies = content(folder + "policies.cedar");
    const std::string entities = content(folder + "entities.json"), changes = content(folder + "changes.json");
    cedar::Files files = {schema, policies, {}, entities};
    auto refusal = thrown<cedar::Refusal>([&] { cedar::Engine engine(files); });
    CHECK(refusal && refusal->file == CEDAR_SCHEMA && refusal->number == 303 && !cedar::explain(files).empty());
    files.language = 4;
    cedar::Engine engine(files);
    CHECK(engine.answer(content(folder + "requests.jsonl")) == content(folder + "answers.jsonl"));
    CHECK(cedar::validate(files).accepted && cedar::explain(files).empty());
    refusal = thrown<cedar::Refusal>([&] { engine.publish_changes(content(folder + "refused_changes.json")); });
    CHECK(refusal && refusal->number == 506 && refusal->words.find("upsert entry 0 (from 0), User::\"bob\"") != std::string::npos);
    engine.publish_changes(changes);
    CHECK(engine.decide({{"User", "bob"}, {"Action", "read"}, {"Doc", "d"}}));
    for (unsigned language : {0u, 2u, 5u, 4u + (1u << 31)}) {
        files.language = language;
        for (auto &call : {std::function<void()>([&] { engine.publish(files); }), {[&] { cedar::Engine other(files); }},
                           {[&] { cedar::validate(files); }}, {[&] { cedar::explain(files); }}}) {
            auto fault = thrown<cedar::Error>(call);
            CHECK(fault && fault->status() == CEDAR_ARGUMENT && fault->what() == std::string("cedar: the language is 3 or 4"));
        }
    }
}

// More threads than places for handles, and closing while they ask.
static void check_many_threads() {
    cedar::Engine engine(files(policies));
    std::vector<std::thread> threads;
    std::atomic<int> wrong{0};
    for (int i = 0; i < 80; i++) {
        threads.emplace_back([&] {
            try {
                for (int k = 0; k < 50; k++) {
                    wrong += !engine.decide(asked("ann", "write"));
                }
            } catch (const cedar::Closed &) {
            }
        });
    }
    for (std::size_t i = 0; i < threads.size(); i++) {
        if (i == threads.size() / 2) {
            engine.close();
        }
        threads[i].join();
    }
    CHECK(wrong == 0);
}

int main(int count, char **words) {
    const std::string examples = count == 2 ? words[1] : "examples", folder = examples + "/notes/";
    schema = content(folder + "schema.json"), policies = content(folder + "policies.cedar"), entities = content(folder + "entities.json");
    requests = content(folder + "requests.jsonl"), answers = content(folder + "answers.jsonl");
    check_refusals(content(folder + "broken_policies.cedar"));
    check_entities(examples + "/photos/");
    check_changes();
    check_kept_changes();
    check_lines_with_entities(examples + "/photos/");
    check_faults();
    check_room();
    check_escapes();
    check_requests();
    check_closing();
    check_languages(examples + "/../tests/bindings/language_4/");
    check_shares(examples + "/shares/");
    check_many_threads();
    std::printf("%d passed, %d failed\n", passed, failed);
    return failed != 0;
}
