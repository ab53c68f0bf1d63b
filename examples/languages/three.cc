// Three nodes elect a coordinator over a log, which here is a string.
#include <bully.h>

#include <iostream>
#include <stdexcept>
#include <string>

static const char *const statuses[] = {"down", "election", "reorganization", "normal"};

static void must(bully_status status) {
    if (status != BULLY_OK) {
        throw std::runtime_error(bully_status_name(status));
    }
}

class Group {
public:
    explicit Group(const std::string &header) { must(bully_replica_open(&held, header.data(), header.size())); }
    ~Group() { bully_replica_close(&held); }
    Group(const Group &) = delete;
    Group &operator=(const Group &) = delete;

    bool recover(uint16_t node) { return append(bully_replica_event(&held, node, BULLY_EVENT_RECOVER, row, sizeof row, &length)); }
    bool step(uint16_t node) { return append(bully_replica_next(&held, node, row, sizeof row, &length)); }

    void show(uint16_t node) {
        bully_state state;
        must(bully_replica_show(&held, node, &state));
        std::cout << node << ' ' << statuses[state.status] << ' ' << state.coordinator << '\n';
    }

    void show_table() {
        uint16_t owners[5];
        must(bully_replica_planned(&held, owners, 5, &length));
        for (size_t place = 0; place < length; place++) {
            std::cout << (place == 0 ? "" : " ") << owners[place];
        }
        std::cout << '\n';
    }

private:
    bool append(bully_status made) {
        must(made);
        log.append(row, length); // in a store: after exactly the rows that were learned, or not at all
        must(bully_replica_learn(&held, row, length, &taken));
        return length > 0; // else the node rests
    }

    bully_replica held = BULLY_REPLICA_CLOSED;
    std::string log;
    char row[64];
    size_t length = 0, taken = 0;
};

int main() {
    Group group("bully,1,3,5\n"); // 3 nodes, 5 partitions
    for (uint16_t node = 1; node <= 3; node++) {
        group.recover(node);
    }
    while (group.step(1) || group.step(2) || group.step(3)) {
    }
    for (uint16_t node = 1; node <= 3; node++) {
        group.show(node);
    }
    group.show_table();
}
