/* cedar.hpp: the engine of Bobbinjade for C++17, over cedar.h.
 *
 *   cedar::Engine engine({schema, policies, links, entities});
 *   bool may = engine.decide({{"User", "ann"}, {"Action", "write"}, {"Notebook", "plans"}});
 *
 * Any number of threads may use one Engine at the same time, and a request takes no lock: an Engine is a cedar_shared. `publish` swaps the
 * engine while requests run, `publish_entities` its entities alone, and `publish_changes` changes some of them. Each answer is that of an
 * engine that was current during its call. A move, an assignment and the destructor need the Engine alone. */
#ifndef CEDAR_HPP
#define CEDAR_HPP
#include "cedar.h"

#include <algorithm>
#include <charconv>
#include <cstddef>
#include <cstdint>
#include <functional>
#include <initializer_list>
#include <iterator>
#include <memory>
#include <new>
#include <optional>
#include <stdexcept>
#include <string>
#include <string_view>
#include <utility>
#include <vector>

namespace cedar {

/* The base of what the calls throw. `status` is one of cedar.h. */
class Error : public std::runtime_error {
public:
    Error(std::uint32_t status, const std::string &words) : std::runtime_error(words), status_(status) {}
    explicit Error(std::uint32_t status) : Error(status, std::string("cedar: ") + cedar_status_text(status)) {}
    std::uint32_t status() const noexcept { return status_; }

private:
    std::uint32_t status_;
};

/* Out of memory: nothing was decided, and nothing has changed. It holds no text, so it needs no memory. */
class OutOfMemory : public std::bad_alloc {
public:
    const char *what() const noexcept override { return "cedar: out of memory"; }
};

/* Nothing was published to the engine. */
class NoEngine : public Error {
public:
    NoEngine() : Error(CEDAR_NO_ENGINE) {}
};

/* The engine was closed. */
class Closed : public Error {
public:
    Closed() : Error(CEDAR_CLOSED) {}
};

namespace detail {

inline std::string string(cedar_bytes text) { return std::string(static_cast<const char *>(text.at), text.length); }

} // namespace detail

/* A file is refused. `number` is one of docs/REFUSALS.md, `words` explains it to people, `text` is the line that the program prints. */
class Refusal : public Error {
public:
    explicit Refusal(const cedar_refusal &why)
        : Error(CEDAR_REFUSED, detail::string(why.words)), file(why.file), number(why.number), words(what()), text(detail::string(why.text)) {
        if (why.offset != CEDAR_NO_OFFSET) {
            offset = why.offset;
        }
        if (why.line) {
            line = why.line;
        }
    }
    std::uint32_t file; /* CEDAR_SCHEMA, CEDAR_POLICIES, CEDAR_LINKS or CEDAR_ENTITIES */
    std::uint32_t number;
    std::optional<std::uint64_t> offset; /* in bytes */
    std::optional<std::uint64_t> line;   /* from 1 */
    std::string words, text;
};

/* The policies have faults. `report` is what `cedar validate` prints, `words` explains it to people. */
class Faults : public Error {
public:
    explicit Faults(const cedar_refusal &why)
        : Error(CEDAR_FAULTS, detail::string(why.words)), report(detail::string(why.text)), words(what()) {}
    std::string report, words;
};

/* A request is refused, so nothing was decided. `number` is one of docs/REFUSALS.md. `words` explains it to people: it makes the words when
 * it is called, since that may take a thousand times as long as a decision. They are empty where the engine is closed, or where other files
 * have been published by which the request is not refused with this number. */
class RequestRefusal : public Error {
public:
    RequestRefusal(std::uint32_t refused, std::function<std::string()> explain)
        : Error(CEDAR_NO_REQUEST, "cedar: the request is refused: " + std::to_string(refused)), number(refused), explain_(std::move(explain)) {}
    std::string words() const { return explain_(); }
    std::uint32_t number;

private:
    std::function<std::string()> explain_;
};

/* The files of an engine, as texts. Without a file of links `links` is empty. The schema and the policies are in the language 4, that of
 * Cedar 4, or in the default one, 3. Another number is an Error with the status CEDAR_ARGUMENT. */
struct Files {
    std::string_view schema, policies, links, entities;
    bool any_decimal = false;
    unsigned language = 3;
};

/* The name of an entity: a type such as Shop::User, and an id without quotes. */
struct Uid {
    std::string_view type, id;
};

/* Who wants to do what, on what. `context` is a JSON object, or empty. */
struct Request {
    Uid principal, action, resource;
    std::string_view context = {};
};

/* A policy that failed, and why: overflow, missing_entity or decimal. */
struct Erring {
    std::string policy, error;
};

/* An answer: the decision, the policies that determine it, and the policies that failed. */
struct Response {
    bool allow = false;
    std::vector<std::string> determining;
    std::vector<Erring> erring;
};

/* A report of the validation. */
struct Report {
    bool accepted;
    std::string text;
};

namespace detail {

inline cedar_bytes bytes(std::string_view text) { return {text.data(), text.size()}; }

inline cedar_files raw(const Files &files) {
    if (files.language != 3 && files.language != 4) {
        throw Error(CEDAR_ARGUMENT, "cedar: the language is 3 or 4");
    }
    std::uint32_t settings = files.any_decimal ? CEDAR_ANY_DECIMAL : 0;
    if (files.language == 4) {
        settings |= CEDAR_LANGUAGE_4;
    }
    return {sizeof(cedar_files), bytes(files.schema), bytes(files.policies), bytes(files.links), bytes(files.entities), settings, 0};
}

inline cedar_request raw(const Request &it) {
    return {sizeof(cedar_request), bytes(it.principal.type), bytes(it.principal.id), bytes(it.action.type),
            bytes(it.action.id),   bytes(it.resource.type),  bytes(it.resource.id),  bytes(it.context)};
}

/* Copies of the parts of a request. */
inline std::vector<std::string> copies(const cedar_request &it) {
    std::vector<std::string> parts;
    for (cedar_bytes part : {it.principal_type, it.principal_id, it.action_type, it.action_id, it.resource_type, it.resource_id, it.context}) {
        parts.push_back(part.length ? string(part) : std::string());
    }
    return parts;
}

/* Throws what a status means, unless it is CEDAR_OK. */
inline void check(std::uint32_t status) {
    switch (status) {
    case CEDAR_OK:
        return;
    case CEDAR_MEMORY:
        throw OutOfMemory();
    case CEDAR_NO_ENGINE:
        throw NoEngine();
    case CEDAR_CLOSED:
        throw Closed();
    default:
        throw Error(status);
    }
}

/* Makes a call that writes a text, in a buffer that grows until the text fits. Returns the status. */
template <class Call> std::uint32_t grown(std::string &text, std::size_t room, Call call) {
    for (;;) {
        text.resize(room);
        cedar_buffer buffer = {text.data(), text.size(), 0};
        std::uint32_t status = call(buffer);
        if (status == CEDAR_ROOM || buffer.written > room) {
            room = buffer.written;
            continue;
        }
        text.resize(buffer.written);
        return status;
    }
}

/* The text that a call writes, which has no other status than those of `check`. */
template <class Call> std::string text_of(std::size_t room, Call call) {
    std::string text;
    check(grown(text, room, call));
    return text;
}

/* Why a call refuses what is published, with words. */
struct Why : cedar_refusal {
    Why() : cedar_refusal() {
        size = sizeof(cedar_refusal);
        wants = CEDAR_WANTS_WORDS;
    }
    Why(const Why &) = delete;
    Why &operator=(const Why &) = delete;
    ~Why() { cedar_refusal_free(this); }

    /* Throws why a call has failed with this status, unless it is CEDAR_OK. */
    void check(std::uint32_t status) const {
        if (status == CEDAR_REFUSED) {
            throw Refusal(*this);
        }
        if (status == CEDAR_FAULTS) {
            throw Faults(*this);
        }
        detail::check(status);
    }
};

/* Reads an answer line. */
class Reader {
public:
    explicit Reader(std::string_view text) : rest_(text) {}

    Response response() {
        Response response;
        need("{\"decision\":");
        response.allow = string() == "allow";
        need(",\"determining\":[");
        while (!take("]")) {
            take(",");
            response.determining.push_back(string());
        }
        need(",\"erring\":[");
        while (!take("]")) {
            take(",");
            need("{\"error\":");
            Erring erring;
            erring.error = string();
            need(",\"policy\":");
            erring.policy = string();
            need("}");
            response.erring.push_back(std::move(erring));
        }
        need("}");
        return response;
    }

private:
    bool take(std::string_view word) {
        bool is_next = rest_.substr(0, word.size()) == word;
        rest_.remove_prefix(is_next ? word.size() : 0);
        return is_next;
    }

    void need(std::string_view word) {
        if (!take(word)) {
            throw Error(CEDAR_ARGUMENT, "cedar: an answer has another form");
        }
    }

    std::string string() {
        need("\"");
        std::string text;
        for (;;) {
            std::size_t plain = std::min(rest_.find_first_of("\"\\"), rest_.size());
            text.append(rest_.substr(0, plain));
            rest_.remove_prefix(plain);
            if (take("\"")) {
                return text;
            }
            need("\\");
            escape(text);
        }
    }

    void escape(std::string &text) {
        static constexpr std::string_view NAMES = "\"\\/bfnrt", VALUES = "\"\\/\b\f\n\r\t";
        std::size_t at = rest_.empty() ? std::string_view::npos : NAMES.find(rest_[0]);
        if (at != std::string_view::npos) {
            text += VALUES[at];
            rest_.remove_prefix(1);
            return;
        }
        std::uint32_t unit = hex();
        if (unit >= 0xD800 && unit < 0xDC00) {
            need("\\");
            unit = 0x10000 + ((unit - 0xD800) << 10) + (hex() - 0xDC00);
        }
        utf8(text, unit);
    }

    std::uint32_t hex() {
        need("u");
        std::string_view digits = rest_.substr(0, 4);
        std::uint32_t unit = 0;
        auto read = std::from_chars(digits.data(), digits.data() + digits.size(), unit, 16);
        need(digits.size() == 4 && read.ptr == digits.data() + 4 ? digits : "four digits");
        return unit;
    }

    static void utf8(std::string &text, std::uint32_t point) {
        if (point < 0x80) {
            text += static_cast<char>(point);
            return;
        }
        int more = point < 0x800 ? 1 : point < 0x10000 ? 2 : 3;
        static constexpr std::uint32_t FIRST[] = {0, 0xC0, 0xE0, 0xF0};
        text += static_cast<char>(FIRST[more] | point >> (6 * more));
        while (more-- > 0) {
            text += static_cast<char>(0x80 | (point >> (6 * more) & 0x3F));
        }
    }

    std::string_view rest_;
};

} // namespace detail

/* Validates the policies of files, of which `entities` is not read. Throws Refusal where a file is refused. */
inline Report validate(const Files &files) {
    cedar_files raw = detail::raw(files);
    detail::Why why;
    std::string text;
    std::uint32_t status = detail::grown(text, 4096, [&](cedar_buffer &buffer) {
        cedar_refusal_free(&why);
        return cedar_validate_files(&raw, &why, &buffer);
    });
    if (status != CEDAR_FAULTS) {
        why.check(status);
    }
    return {status == CEDAR_OK, std::move(text)};
}

/* A report in parts, each of which is made when it is asked for. A caller may leave at any part: the rest is then never made. The parts, one
 * after another, are the text of `validate`; with a limit, its first `lines` lines and the line of totals. A part ends after the policy with
 * which it has 64 KiB, or after 1,000 policies. The texts of the files belong to the caller, and have to be there as long as this is. */
class ReportParts {
public:
    explicit ReportParts(const Files &files, std::uint64_t lines = CEDAR_ALL_LINES)
        : files_(detail::raw(files)), place_{sizeof(cedar_report_place), 0, 0, 0, lines} {}

    /* Makes the next part, which `text` then has: whole lines, or none. Returns false where the report has ended. Throws Refusal where a file
     * is refused, and OutOfMemory; then it may be called again, and makes the same part. */
    bool next() {
        if (has_ended_) {
            return false;
        }
        detail::Why why;
        std::string part;
        std::uint32_t status = detail::grown(part, std::size_t{72} << 10, [&](cedar_buffer &buffer) {
            cedar_refusal_free(&why);
            return cedar_validate_part(&files_, &place_, &why, &buffer);
        });
        if (status != CEDAR_MORE && status != CEDAR_FAULTS) {
            why.check(status);
        }
        has_ended_ = status != CEDAR_MORE;
        text_.swap(part);
        return true;
    }

    /* The last part. */
    const std::string &text() const noexcept { return text_; }

    /* How many policies have been reported on so far, how many faults they have, and how many warnings. */
    std::uint64_t policies() const noexcept { return place_.policy; }
    std::uint64_t faults() const noexcept { return place_.faults; }
    std::uint64_t warnings() const noexcept { return place_.warnings; }

    /* Whether the report has ended, and the policies have no faults. */
    bool accepted() const noexcept { return has_ended_ && place_.faults == 0; }

    /* The parts from the next one on, for a loop. It throws what `next` throws. */
    class iterator {
    public:
        using iterator_category = std::input_iterator_tag;
        using value_type = std::string;
        using difference_type = std::ptrdiff_t;
        using pointer = const std::string *;
        using reference = const std::string &;

        reference operator*() const { return parts_->text(); }
        pointer operator->() const { return &parts_->text(); }
        iterator &operator++() {
            parts_ = parts_->next() ? parts_ : nullptr;
            return *this;
        }
        void operator++(int) { ++*this; }
        friend bool operator==(iterator one, iterator other) { return one.parts_ == other.parts_; }
        friend bool operator!=(iterator one, iterator other) { return one.parts_ != other.parts_; }

    private:
        friend class ReportParts;
        explicit iterator(ReportParts *parts) : parts_(parts) {}
        ReportParts *parts_;
    };
    iterator begin() { return iterator(next() ? this : nullptr); }
    iterator end() { return iterator(nullptr); }

private:
    cedar_files files_;
    cedar_report_place place_;
    std::string text_;
    bool has_ended_ = false;
};

/* Validates the policies of files, of which `entities` is not read, and gives the report in parts. It is for policies that one does not trust,
 * whose report may be a thousand times as long as they are:
 *
 *   for (const std::string &part : cedar::validate_parts(files, 1000)) {
 *       std::cout << part;
 *   }
 */
inline ReportParts validate_parts(const Files &files, std::uint64_t lines = CEDAR_ALL_LINES) { return ReportParts(files, lines); }

/* Explains in words why files are refused or have faults. Empty where they are accepted. */
inline std::string explain(const Files &files) {
    cedar_files raw = detail::raw(files);
    return detail::text_of(4096, [&](cedar_buffer &buffer) { return cedar_explain(&raw, CEDAR_WORDS, &buffer); });
}

/* An engine, for any number of threads. */
class Engine {
public:
    /* An engine to which nothing was published. */
    Engine() {
        cedar_shared *made;
        detail::check(cedar_shared_new(&made));
        shared_.reset(made);
    }
    explicit Engine(const Files &files) : Engine() { publish(files); }

    /* Reads and validates files, and has all later calls answer according to them. Where it throws, nothing has changed. The work is done
     * before the swap, so requests do not wait for it. Throws Refusal, Faults, OutOfMemory and Closed. */
    void publish(const Files &files) {
        cedar_files raw = detail::raw(files);
        detail::Why why;
        why.check(cedar_shared_publish(open(), &raw, &why, nullptr));
    }

    /* Reads entities, and has all later calls answer over them, according to the schema, the policies and the links of the current engine,
     * which are not read again. Where it throws, nothing has changed. Requests do not wait for it; another `publish` waits with its swap.
     * Throws Refusal, OutOfMemory, NoEngine and Closed. */
    void publish_entities(std::string_view entities) {
        detail::Why why;
        why.check(cedar_shared_publish_entities(open(), detail::bytes(entities), &why, nullptr));
    }

    /* Reads changes of entities, {"upsert":[entry, ..],"remove":[uid, ..]}, and has all later calls answer over the entities after them. What
     * they do not name is not read again. Where it throws, nothing has changed. Requests do not wait for it; another publisher waits.
     * Throws Refusal, OutOfMemory, NoEngine and Closed. */
    void publish_changes(std::string_view changes) {
        detail::Why why;
        why.check(cedar_shared_publish_changes(open(), detail::bytes(changes), &why, nullptr));
    }

    /* Another engine, of the same policies, over the entities after changes, for example those that a request brings with it. This engine is
     * as before. The other one is freed with its last use. Throws what publish_changes throws. */
    Engine with_changes(std::string_view changes) const {
        detail::Why why;
        cedar_shared *other;
        why.check(cedar_shared_with_changes(open(), detail::bytes(changes), &other, &why, nullptr));
        return Engine(other);
    }

    /* How many changes of entities are kept over the entities that were read as a whole: 0 after `publish` and `publish_entities`. It takes
     * time in proportion to the count. Throws NoEngine, OutOfMemory and Closed. */
    std::uint64_t kept_changes() const {
        std::uint64_t count;
        detail::check(cedar_shared_kept_changes(open(), &count));
        return count;
    }

    /* Whether a request is allowed. It makes no text, so it is the fastest call. Throws RequestRefusal where the request is refused. */
    bool decide(const Request &request) const {
        cedar_decision decision = {sizeof decision, 0, 0};
        cedar_request raw = detail::raw(request);
        check(cedar_shared_decide(open(), &raw, &decision, nullptr), raw, decision);
        return decision.allow == 1;
    }

    /* The answer to a request. Throws RequestRefusal where the request is refused. */
    Response authorize(const Request &request) const {
        cedar_decision decision = {sizeof decision, 0, 0};
        cedar_request raw = detail::raw(request);
        std::string text;
        check(detail::grown(text, 256, [&](cedar_buffer &buffer) { return cedar_shared_decide(open(), &raw, &decision, &buffer); }), raw,
              decision);
        return detail::Reader(text).response();
    }

    /* The earlier name of `authorize`. */
    Response is_authorized(const Request &request) const { return authorize(request); }

    /* The answer line to a request line, as `cedar authorize` writes it, without a line feed. */
    std::string answer_line(std::string_view line) const { return answered(cedar_shared_answer_line, 256, line); }

    /* The answer lines to request lines, all of one engine. */
    std::string answer(std::string_view lines) const { return answered(cedar_shared_answer, 256 + lines.size(), lines); }

    /* The answer lines to request lines that may bring entities, as `cedar authorize --entities-in-lines` writes them, all of one engine.
     * The entities of a line replace those of the engine with their uids, or are added to them, for this line alone. A line with entities
     * that are refused has an answer that says so. */
    std::string answer_with_entities(std::string_view lines) const {
        return answered(cedar_shared_answer_with_entities, 256 + lines.size(), lines);
    }

    /* Why a request line is refused, in words; empty where it is not. `kind` is CEDAR_LINE_WITH_ENTITIES where it may bring entities. */
    std::string explain_line(std::string_view line, std::uint32_t kind = CEDAR_LINE) const {
        return detail::text_of(1024, [&](cedar_buffer &buffer) {
            return cedar_shared_explain_line(open(), detail::bytes(line), kind, 0, CEDAR_WORDS, &buffer);
        });
    }

    /* Frees all that no running call uses. Later calls throw Closed. Closing twice is safe. */
    void close() { cedar_shared_close(shared_.get()); }

private:
    explicit Engine(cedar_shared *shared) : shared_(shared) {}

    cedar_shared *open() const {
        if (!shared_) {
            throw Closed();
        }
        return shared_.get();
    }

    /* Throws why nothing was decided, unless the status is CEDAR_OK. */
    void check(std::uint32_t status, const cedar_request &request, const cedar_decision &decision) const {
        if (status != CEDAR_NO_REQUEST) {
            return detail::check(status);
        }
        cedar_shared_retain(open());
        std::shared_ptr<cedar_shared> shared(open(), Free());
        throw RequestRefusal(decision.refused, [shared, number = decision.refused, parts = detail::copies(request)] {
            cedar_request copy = detail::raw({{parts[0], parts[1]}, {parts[2], parts[3]}, {parts[4], parts[5]}, parts[6]});
            std::string text;
            detail::grown(text, 1024, [&](cedar_buffer &buffer) {
                return cedar_shared_explain_request(shared.get(), &copy, number, CEDAR_WORDS, &buffer);
            });
            return text;
        });
    }

    template <class Call> std::string answered(Call call, std::size_t room, std::string_view lines) const {
        return detail::text_of(room, [&](cedar_buffer &buffer) { return call(open(), detail::bytes(lines), &buffer); });
    }

    struct Free {
        void operator()(cedar_shared *it) const { cedar_shared_free(it); }
    };
    std::unique_ptr<cedar_shared, Free> shared_;
};

} // namespace cedar
#endif
