// A host in C++, with the jobs and modes of host.c: host FOLDER MODE LINES TEXT ..
#include "cedar.hpp"

#include <fstream>
#include <iostream>
#include <iterator>

static std::string all(std::istream &from) { return {std::istreambuf_iterator<char>(from), {}}; }

static std::string content(const std::string &path) {
    std::ifstream file(path, std::ios::binary);
    return all(file);
}

static std::vector<std::string_view> split(std::string_view text, char stop) {
    std::vector<std::string_view> parts;
    for (std::size_t end; (end = text.find(stop)) != std::string_view::npos; text.remove_prefix(end + 1)) {
        parts.push_back(text.substr(0, end));
    }
    parts.push_back(text);
    return parts;
}

// The answer line of a response; the ids of the examples need no escapes.
static std::string line_of(const cedar::Response &response) {
    std::string line = std::string("{\"decision\":\"") + (response.allow ? "allow" : "deny") + "\",\"determining\":[", comma;
    for (const std::string &policy : response.determining) {
        line += comma + "\"" + policy + "\"";
        comma = ",";
    }
    line += "],\"erring\":[";
    comma.clear();
    for (const cedar::Erring &erring : response.erring) {
        line += comma + "{\"error\":\"" + erring.error + "\",\"policy\":\"" + erring.policy + "\"}";
        comma = ",";
    }
    return line + "]}";
}

static std::string answer_of(const cedar::Engine &engine, std::string_view fields) {
    std::vector<std::string_view> it = split(fields, '\x1f');
    cedar::Request request = {{it.at(0), it.at(1)}, {it.at(2), it.at(3)}, {it.at(4), it.at(5)}, it.at(6)};
    try {
        cedar::Response response = engine.authorize(request);
        return engine.decide(request) == response.allow ? line_of(response) : "decide differs";
    } catch (const cedar::RequestRefusal &refusal) {
        return "{\"refused\":" + std::to_string(refusal.number) + "}";
    }
}

static cedar::Files without_entities(cedar::Files files) {
    files.entities = "[]";
    return files;
}

// Publishes entities over no entities: all at once, or as changes that upsert each.
static void publish_over(cedar::Engine &engine, std::string_view entities, const std::string &mode) {
    if (mode == "changes" || mode == "publish-changes") {
        engine.publish_changes("{\"upsert\":" + std::string(entities) + "}");
    } else {
        engine.publish_entities(entities);
    }
}

static int answered(const cedar::Files &files, const std::string &mode, const std::string &lines, std::ostream &to) {
    const bool is_over = mode == "entities" || mode == "changes", is_brought = mode == "brought";
    cedar::Engine engine(is_over || is_brought ? without_entities(files) : files);
    if (is_over) {
        publish_over(engine, files.entities, mode);
    }
    if (is_brought) {
        to << engine.answer_with_entities(lines);
        return 0;
    }
    if (mode == "batch" || is_over) {
        to << engine.answer(lines);
        return 0;
    }
    std::vector<std::string_view> parts = split(lines, '\n');
    for (std::size_t i = 0; i + 1 < parts.size(); i++) {
        to << (mode == "lines" ? engine.answer_line(parts[i]) : answer_of(engine, parts[i])) << '\n';
    }
    return 0;
}

// Does a job.
static int done(const std::string &folder, const std::string &mode, const std::string &lines, std::ostream &to) {
    const std::string schema = content(folder + "/schema.json"), policies = content(folder + "/policies.cedar");
    const std::string links = content(folder + "/links.json"), entities = content(folder + "/entities.json");
    const cedar::Files files = {schema, policies, links, entities};
    try {
        if (mode == "validate") {
            cedar::Report report = cedar::validate(files);
            to << report.text;
            return report.accepted ? 0 : 3;
        }
        if (mode == "words") {
            to << cedar::explain(files);
            return 0;
        }
        if (mode == "publish") {
            cedar::Engine engine(files);
            return 0;
        }
        if (mode == "publish-entities" || mode == "publish-changes" || mode == "entities-words") {
            cedar::Engine engine(without_entities(files));
            publish_over(engine, files.entities, mode);
            return 0;
        }
        return answered(files, mode, lines, to);
    } catch (const cedar::Refusal &refusal) {
        to << (mode == "entities-words" ? refusal.words : refusal.text);
        return 2;
    } catch (const cedar::Faults &faults) {
        to << faults.report;
        return 3;
    }
}

int main(int count, char **words) {
    for (int at = 1; at + 3 < count; at += 4) {
        std::ofstream to(words[at + 3], std::ios::binary);
        std::cout << done(words[at], words[at + 1], content(words[at + 2]), to) << '\n';
    }
}
