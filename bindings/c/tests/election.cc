// Two nodes in C++, with handles that close themselves, and lines and rows as strings; and the calls of nulls.c, which are
// those of each function. The last line is 'N passed, M failed'.
#include "testing.h"

#include <cstddef>
#include <cstdint>
#include <string>
#include <vector>

namespace {

using Owners = std::vector<std::uint16_t>;

const bully_setup group = {2, 3, 1000, 1};

// Text of a length that is asked for first.
template <typename Call> std::string text_of(Call call) {
    std::size_t length = 0;
    bully_status status = call(nullptr, std::size_t(0), &length);
    EXPECT(status == (length == 0 ? BULLY_OK : BULLY_SHORT));
    std::string text(length, ' ');
    EXPECT(call(length == 0 ? nullptr : &text[0], length, &length) == BULLY_OK);
    return text;
}

// The same of nodes.
template <typename Call> Owners list_of(Call call) {
    std::size_t count = 0;
    bully_status status = call(nullptr, std::size_t(0), &count);
    EXPECT(status == (count == 0 ? BULLY_OK : BULLY_SHORT));
    Owners items(count);
    EXPECT(call(items.data(), count, &count) == BULLY_OK);
    return items;
}

// A handle that is closed where it ends.
class Agent {
public:
    explicit Agent(std::uint16_t node, const Owners &task = Owners()) {
        EXPECT(bully_agent_open(&handle, &group, nullptr, 0, node, 0, task.data(), task.size()) == BULLY_OK);
    }

    Agent(const Agent &) = delete;
    Agent &operator=(const Agent &) = delete;

    ~Agent() {
        EXPECT(bully_agent_close(&handle) == BULLY_OK);
    }

    bully_agent *operator*() {
        return &handle;
    }

    bully_state show() {
        bully_state state = {};
        EXPECT(bully_agent_show(&handle, &state) == BULLY_OK);
        return state;
    }

    using Told = bully_status (*)(bully_agent *agent, char *text, std::size_t room, std::size_t *length);
    using Listed = bully_status (*)(bully_agent *agent, std::uint16_t *items, std::size_t room, std::size_t *count);

    std::string told(Told call) {
        return text_of([&](char *text, std::size_t room, std::size_t *length) { return call(&handle, text, room, length); });
    }

    Owners listed(Listed call) {
        return list_of([&](std::uint16_t *items, std::size_t room, std::size_t *count) { return call(&handle, items, room, count); });
    }

private:
    bully_agent handle = BULLY_AGENT_CLOSED;
};

// The log of both.
std::string log_of_both;

void step(Agent &agent, bully_status status) {
    EXPECT(status == BULLY_OK);
    log_of_both += agent.told(bully_agent_rows) + agent.told(bully_agent_claim);
}

void call(Agent &caller, Agent &callee, std::uint32_t wanted) {
    char reply[BULLY_REPLY_MAX];
    std::size_t length = 0;
    std::uint32_t answer = 0;
    step(caller, bully_agent_start(*caller));
    std::string line = caller.told(bully_agent_request);
    step(callee, bully_agent_serve(*callee, line.data(), line.size(), reply, sizeof reply, &length));
    step(caller, bully_agent_replied(*caller, reply, length, &answer));
    EXPECT(answer == wanted);
}

// Node 2 halts node 1, leads it, and both have its table.
void elect(Agent &first, Agent &second) {
    Owners owners(3);
    step(first, bully_agent_recover(*first));
    step(second, bully_agent_recover(*second));
    step(second, bully_agent_advance(*second));
    call(second, first, BULLY_YES);
    step(second, bully_agent_advance(*second));
    call(second, first, BULLY_YES);
    step(second, bully_agent_advance(*second));
    EXPECT(second.show().wants == BULLY_WANTS_PLAN);
    EXPECT(bully_agent_prepare(*second, nullptr, 0, owners.data(), owners.size()) == BULLY_OK);
    step(second, bully_agent_plan(*second, owners.data(), owners.size()));
    call(second, first, BULLY_YES);
    step(second, bully_agent_advance(*second));
    EXPECT(first.show().status == BULLY_NORMAL && second.show().status == BULLY_NORMAL);
    EXPECT((second.listed(bully_agent_task) == Owners{1, 1, 2} && first.listed(bully_agent_task) == Owners{1, 1, 2}));
    EXPECT((second.listed(bully_agent_up) == Owners{1} && first.listed(bully_agent_up).empty()));
}

// Node 2 checks node 1; node 1 asks node 2, which crashes meanwhile.
void go_on(Agent &first, Agent &second) {
    char reply[BULLY_REPLY_MAX];
    std::size_t length = 0;
    std::uint32_t answer = 0;
    step(second, bully_agent_check(*second));
    call(second, first, BULLY_YES);
    step(first, bully_agent_timeout(*first));
    step(first, bully_agent_start(*first));
    EXPECT(bully_agent_drop_orphan(*first) == BULLY_NOT_ORPHAN);
    step(second, bully_agent_crash(*second));
    step(first, bully_agent_failed(*first, first.show().number, &answer));
    EXPECT(answer == BULLY_FAILED);
    EXPECT(bully_agent_serve(*second, "ask,1,0,2,are-you-up", 20, reply, sizeof reply, &length) == BULLY_CALLEE_DOWN);
}

// The trace is lawful, and these are its events.
void judge(const std::string &trace, std::uint32_t events) {
    bully_verdict verdict = {9, 9, 9};
    EXPECT(bully_check(reinterpret_cast<const std::uint8_t *>(trace.data()), trace.size(), &verdict) == BULLY_OK);
    EXPECT(verdict.kind == BULLY_LAWFUL && verdict.number == events && verdict.cause == BULLY_OK);
}

void tell() {
    EXPECT(std::string(bully_status_name(BULLY_CALLEE_DOWN)) == "CALLEE_DOWN");
    EXPECT(std::string(bully_status_name(BULLY_ROW_END)) == "ROW_END");
    EXPECT(!std::string(bully_version()).empty());
}

} // namespace

int main() {
    {
        Agent first(1), second(2);
        elect(first, second);
        go_on(first, second);
        const auto header = text_of([](char *row, std::size_t room, std::size_t *told) { return bully_detailed_header(&group, nullptr, 0, row, room, told); });
        EXPECT(header == "bully,3,2,3,1 1,keep\n");
        judge(header + log_of_both, first.show().events + second.show().events);
    }
    Agent kept(1, Owners{1, 1, 2});
    EXPECT(kept.told(bully_agent_claim) == "saw,1,down,-,-,-,1 1 2\n");
    tell();
    try_nulls();
    return tell_counts();
}
