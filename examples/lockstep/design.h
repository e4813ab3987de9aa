// A toy design of a tag cache, as a simulator would hand it over: ports, a clock, registers. Its own code: nothing
// of the model is in it. On each rising clock it takes one command: an issue, a step of one tracker, or a drain.
#ifndef DESIGN_H
#define DESIGN_H

#include <array>
#include <cstdint>
#include <cstring>
#include <vector>

class Design {
public:
    static constexpr unsigned LEAVES = 600, TRACKERS = 3, LINES = 4;
    enum Command { NONE, ISSUE, STEP, DRAIN };
    enum Said { OK, WAIT, MOVED, READ, DONE, SAME, REFUSED };

    // ports in
    bool clk = false;
    Command command = NONE;
    unsigned x = 0;
    bool write = false, bottom = false;
    uint32_t group = 0, value = 0;
    bool fault = false;  // planted: Map takes a block that another tracker holds
    // ports out
    Said said = OK;
    uint32_t data = 0;
    unsigned turns = 0;

    // tag memory: LEAVES leaf blocks, then the map blocks
    std::vector<uint8_t> ram = std::vector<uint8_t>(64 * (LEAVES + (LEAVES + 511) / 512));

    void eval()
    {
        if (clk && !was) {
            switch (command) {
            case ISSUE: issue(); break;
            case STEP: step(); break;
            case DRAIN: drain(); break;
            case NONE: break;
            }
        }
        was = clk;
    }

private:
    static constexpr uint32_t FREE = UINT32_MAX;
    enum State { IDLE, PROBE, MAP, LEAF, SET, CLEAR };
    struct Way {
        uint32_t tag = FREE;  // the block's number in the memory
        bool dirty = false;
        std::array<uint8_t, 64> row{};
    };
    struct Unit {
        State state = IDLE;
        bool write = false;
        uint32_t group = 0, value = 0;
        unsigned turns = 0;
    };

    bool was = false;
    unsigned hand = 0;
    std::array<Way, LINES> ways;
    std::array<Unit, TRACKERS> units;

    static uint32_t leaf(const Unit &u) { return u.group / 16; }
    static uint32_t map(const Unit &u) { return LEAVES + leaf(u) / 512; }
    static bool holding(const Unit &u) { return u.state >= LEAF; }

    bool held(uint32_t tag, const Unit *but) const
    {
        for (const Unit &u : units)
            if (&u != but && holding(u) && map(u) == tag) return true;
        return false;
    }
    Way *hit(uint32_t tag)
    {
        for (Way &w : ways)
            if (w.tag == tag) return &w;
        return nullptr;
    }
    Way &victim(uint32_t tag)
    {
        for (Way &w : ways)
            if (w.tag == FREE) {
                w.tag = tag;
                w.dirty = false;
                return w;
            }
        while (held(ways[hand].tag, nullptr)) hand = (hand + 1) % LINES;
        Way &w = ways[hand];
        hand = (hand + 1) % LINES;
        if (w.dirty) memcpy(&ram[64 * w.tag], w.row.data(), 64);
        w.tag = tag;
        w.dirty = false;
        return w;
    }
    Way &fetch(uint32_t tag)
    {
        if (Way *w = hit(tag)) return *w;
        Way &w = victim(tag);
        memcpy(w.row.data(), &ram[64 * tag], 64);
        return w;
    }
    static uint32_t word(const Way &w, const Unit &u)
    {
        uint32_t v;
        memcpy(&v, &w.row[4 * (u.group % 16)], 4);
        return v;
    }
    static void put(Way &w, const Unit &u) { memcpy(&w.row[4 * (u.group % 16)], &u.value, 4); }
    static bool bit(const Way &w, const Unit &u) { return w.row[leaf(u) % 512 / 8] >> (leaf(u) % 8) & 1; }

    void go(Unit &u, State next)
    {
        u.state = next;
        said = MOVED;
    }
    void end(Unit &u, Said how, uint32_t v = 0)
    {
        said = how;
        data = v;
        turns = u.turns;
        u.state = IDLE;
    }

    void issue()
    {
        Unit &u = units[x];
        said = REFUSED;
        if (u.state != IDLE) return;
        for (const Unit &other : units)
            if (other.state != IDLE && other.group == group && (other.write || write)) return;
        u = Unit{bottom ? PROBE : MAP, write, group, write ? value : 0, 0};
        said = OK;
    }
    void step()
    {
        Unit &u = units[x];
        said = REFUSED;
        if (u.state == IDLE) return;
        if (u.turns < 65535) u.turns++;
        Way *w;
        switch (u.state) {
        case PROBE:
            w = hit(leaf(u));
            if (w && !u.write) return end(u, READ, word(*w, u));
            if (w && word(*w, u) == u.value) return end(u, SAME);
            return go(u, MAP);
        case MAP:
            if (held(map(u), &u) && !fault) {
                said = WAIT;
                return;
            }
            w = &fetch(map(u));
            if (!bit(*w, u) && !u.write) return end(u, READ, 0);
            if (!bit(*w, u) && u.value == 0) return end(u, SAME);
            return go(u, LEAF);
        case LEAF: return at_leaf(u);
        default:  // SET or CLEAR
            w = hit(map(u));
            w->row[leaf(u) % 512 / 8] ^= 1 << (leaf(u) % 8);
            w->dirty = true;
            return end(u, DONE);
        }
    }
    void at_leaf(Unit &u)
    {
        if (!u.write) return end(u, READ, word(fetch(leaf(u)), u));
        if (bit(*hit(map(u)), u)) {
            Way &w = fetch(leaf(u));
            if (word(w, u) == u.value) return end(u, SAME);
            put(w, u);
            w.dirty = true;
            for (uint8_t byte : w.row)
                if (byte) return end(u, DONE);
            w.tag = FREE;
            return go(u, CLEAR);
        }
        if (u.value == 0) return end(u, SAME);
        Way *w = hit(leaf(u));
        if (!w) w = &victim(leaf(u));
        w->row.fill(0);
        put(*w, u);
        w->dirty = true;
        go(u, SET);
    }
    void drain()
    {
        said = REFUSED;
        for (const Unit &u : units)
            if (u.state != IDLE) return;
        for (Way &w : ways)
            if (w.tag != FREE && w.dirty) {
                memcpy(&ram[64 * w.tag], w.row.data(), 64);
                w.dirty = false;
            }
        said = OK;
    }
};

#endif
