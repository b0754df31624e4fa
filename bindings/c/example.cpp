// Publishes the files of a folder, and answers requests. example FOLDER [LINKS], for example examples/notes. LINKS is a file of links.
#include "cedar.hpp"

#include <cstdlib>
#include <fstream>
#include <iostream>
#include <iterator>

// Reads a file. One that cannot be read ends the example: an empty text in its place would be other policies.
static std::string content(const std::string &path) {
    std::ifstream file(path, std::ios::binary);
    std::string text{std::istreambuf_iterator<char>(file), {}};
    if (!file.is_open() || file.bad()) {
        std::cerr << path << ": it cannot be read\n";
        std::exit(1);
    }
    return text;
}

// Reads the links. A file of no bytes is refused, since the library takes it for no file.
static std::string links_of(const std::string &path) {
    std::string links = content(path);
    if (links.empty()) {
        std::cerr << path << ": a file of links has a list\n";
        std::exit(1);
    }
    return links;
}

int main(int count, char **words) {
    const std::string folder = count > 1 ? words[1] : "examples/notes";
    const std::string schema = content(folder + "/schema.json"), policies = content(folder + "/policies.cedar");
    const std::string links = count > 2 ? links_of(words[2]) : "", entities = content(folder + "/entities.json");
    try {
        cedar::Engine engine({schema, policies, links, entities});

        // Any number of threads may ask, also while another publishes.
        cedar::Request request = {{"User", "ann"}, {"Action", "write"}, {"Notebook", "plans"}};
        std::cout << (engine.decide(request) ? "allow" : "deny") << '\n';
        for (const std::string &policy : engine.authorize(request).determining) {
            std::cout << "determined by " << policy << '\n';
        }

        // All request lines of the folder, as `cedar authorize` answers them.
        std::cout << engine.answer(content(folder + "/requests.jsonl"));

        // Entities that changed are read alone, and the policies are not read again. Threads may ask meanwhile.
        engine.publish_entities(content(folder + "/entities.json"));

        // One user is stored, and another is gone. What the changes do not name stays as it is.
        engine.publish_changes(R"({"upsert":[{"uid":{"type":"User","id":"dora"}}],"remove":[{"type":"User","id":"bob"}]})");

        // A request that brings its entities. No other request sees them.
        cedar::Engine once = engine.with_changes(R"({"upsert":[{"uid":{"type":"User","id":"ann"}}]})");
        std::cout << (once.decide(request) ? "allow" : "deny") << '\n';

        // A request line that brings its entities. No other line sees them.
        std::cout << engine.answer_with_entities(
            R"({"principal":"User::\"ann\"","action":"Action::\"write\"","resource":"Notebook::\"plans\"",)"
            R"("entities":[{"uid":{"type":"User","id":"ann"}}]})");

        // Policies of others: their report comes in parts, and may be left at any of them. After 100 lines only the counts go on.
        for (const std::string &part : cedar::validate_parts({schema, policies, links, entities}, 100)) {
            std::cout << part;
        }

        // Policies that are refused change nothing.
        try {
            engine.publish({schema, "permit(", links, entities});
        } catch (const cedar::Refusal &refusal) {
            std::cout << "refused " << refusal.number << " at " << refusal.offset.value_or(0) << '\n';
        }
    } catch (const cedar::Refusal &refusal) {
        std::cerr << refusal.words;
        return 2;
    } catch (const cedar::Error &error) {
        std::cerr << error.what() << '\n';
        return 1;
    }
}
