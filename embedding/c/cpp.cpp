// A C++ program: a node in an object that closes it, with the calls of failreg.h.
#include "failreg_point.h"

#include <cstdio>
#include <cstdlib>
#include <stdexcept>
#include <string>
#include <utility>

namespace {

void must(std::uint32_t status)
{
    if (status != FAILREG_OK)
        throw std::runtime_error(failreg_strerror(status));
}

// A node of a cluster of two, which is closed by its destructor.
class Node {
public:
    explicit Node(std::uint8_t number)
    {
        const std::uint8_t seed[32] = { 1 };
        must(failreg_open(&node, number, 2, 100, seed));
    }
    Node(Node &&other) { std::swap(node, other.node); }
    Node(const Node &) = delete;
    Node &operator=(const Node &) = delete;
    ~Node() { failreg_close(&node); }

    void set(const std::string &name, const std::string &actions)
    {
        failreg_stamp stamp;
        must(failreg_set(&node, name.data(), name.size(), actions.data(), actions.size(), &stamp));
    }

    bool is_failing(const std::string &name)
    {
        failreg_act act;
        must(failreg_pass(&node, name.data(), name.size(), &act));
        return act.outcome == FAILREG_OUTCOME_ACT && act.task == FAILREG_TASK_RETURN;
    }

    std::string message_to(std::uint8_t to)
    {
        must(failreg_emit(&node, to));
        return fetched();
    }

    bool take_in(const std::string &message)
    {
        bool changed;
        const auto bytes = reinterpret_cast<const std::uint8_t *>(message.data());
        must(failreg_deliver(&node, bytes, message.size(), &changed));
        return changed;
    }

    std::uint16_t answer(const std::string &method, const std::string &path, std::string &body)
    {
        std::uint16_t status;
        const std::uint8_t none = 0;
        must(failreg_answer(&node, method.data(), method.size(), path.data(), path.size(), &none, 0,
                            &status));
        body = fetched();
        return status;
    }

    std::uint64_t calls() const
    {
        std::uint64_t calls;
        must(failreg_calls(&node, &calls));
        return calls;
    }

private:
    std::string fetched() const
    {
        std::string bytes(failreg_fetch(&node, &bytes, 0), ' ');
        failreg_fetch(&node, &bytes[0], bytes.size());
        return bytes;
    }

    failreg node = FAILREG_CLOSED_NODE;
};

failreg_program program = FAILREG_PROGRAM;

int number()
{
    FAILREG_POINT(&program, "number");
    FAILREG_RETURN(&program, "number", 7);
    return 0;
}

void check(bool holds, const char *what)
{
    if (!holds) {
        std::fprintf(stderr, "not so: %s\n", what);
        std::exit(1);
    }
}

} // namespace

int main()
{
    Node first(0), other(1);
    first.set("save", "2*return->off");
    check(other.take_in(first.message_to(1)), "a message is news");
    Node moved(std::move(first));
    int lost = 0;
    for (int order = 0; order < 4; order++)
        lost += moved.is_failing("save");
    check(lost == 2 && moved.calls() == 6, "the count holds");
    std::string body;
    check(other.answer("GET", "/fail", body) == 200 && body == "save=2*return->off", "the list");
    check(other.answer("GET", "/nope", body) == 404 && body == "not found", "no such route");
    try {
        other.set("a b", "off");
        check(false, "a bad name is refused");
    } catch (const std::runtime_error &error) {
        check(error.what() == std::string("not a name"), "the words of a refusal");
    }
    const std::uint8_t seed[32] = { 1 };
    const std::string actions = "1*off->1*return->off";
    failreg_stamp stamp;
    must(failreg_open(&program.node, 0, 1, 100, seed));
    must(failreg_set(failreg_lock(&program), "number", 6, actions.data(), actions.size(), &stamp));
    failreg_unlock(&program);
    check(number() == 7 && number() == 0, "a point is one line");
    failreg_close(failreg_lock(&program));
    failreg_unlock(&program);
    std::puts("the C++ test passed");
}
