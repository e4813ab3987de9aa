// The model beside a design, in one process, command by command: stops at the first difference, with a picture of
// the model's lines and trackers. `lockstep [--fault] [COMMANDS]`; --fault plants one in the design. In the style of
// a Verilator main: set the ports, raise the clock, read the ports.
#include <cstdio>
#include <cstdlib>
#include <vector>

#include "design.h"
#include "tag_model.h"

// The model's end: who calls it owns the state's words, the line bytes and the memory.
struct Model {
    uint64_t state[TAG_STATE_WORDS];
    uint64_t answer[TAG_ANSWER_WORDS];
    std::vector<uint8_t> bytes = std::vector<uint8_t>(64 * Design::LINES);
    std::vector<uint8_t> memory;

    explicit Model(const std::vector<uint8_t> &ram) : memory(ram)
    {
        const uint64_t device[TAG_DEVICE_WORDS] = {Design::LEAVES, Design::TRACKERS, Design::LINES};
        if (tag_fresh(device, TAG_DEVICE_WORDS, state, TAG_STATE_WORDS, bytes.data(), bytes.size(), memory.data(),
                      memory.size()) != 0)
            exit(2);
    }
    uint64_t issue(uint64_t x, bool write, bool bottom, uint64_t g, uint32_t v)
    {
        return tag_issue(state, TAG_STATE_WORDS, bytes.data(), bytes.size(), memory.data(), memory.size(), x, write,
                         bottom, g, v);
    }
    uint64_t step(uint64_t x)
    {
        return tag_step(state, TAG_STATE_WORDS, bytes.data(), bytes.size(), memory.data(), memory.size(), x, answer,
                        TAG_ANSWER_WORDS);
    }
    uint64_t drain()
    {
        return tag_drain(state, TAG_STATE_WORDS, bytes.data(), bytes.size(), memory.data(), memory.size());
    }
    // Lines and trackers in words, from the state's own words (tag_model.h).
    void picture() const
    {
        for (unsigned i = 0; i < Design::LINES; i++) {
            const uint64_t w = state[4 + i];
            printf("  line %u: ", i);
            if (w == 0) {
                printf("free\n");
                continue;
            }
            const uint64_t block = (w - 1) / 256, holder = (w - 1) / 2 % 128;
            if (block < Design::LEAVES) printf("leaf %u", (unsigned)block);
            else printf("map block %u", (unsigned)block - Design::LEAVES);
            printf("%s", (w - 1) % 2 ? ", changed" : "");
            if (holder) printf(", held by tracker %u", (unsigned)holder - 1);
            printf("\n");
        }
        static const char *const phases[] = {"idle", "Probe", "Map", "Leaf", "Finish, to set", "Finish, to clear"};
        for (unsigned x = 0; x < Design::TRACKERS; x++) {
            const uint64_t *t = state + 68 + TAG_TRACKER_WORDS * x;
            printf("  tracker %u: %s", x, phases[t[0]]);
            if (t[0] != 0) {
                if (t[1]) printf("; a write of %08x to group %u", (unsigned)t[4], (unsigned)t[3]);
                else printf("; a read of group %u", (unsigned)t[3]);
                printf(", %s, turns %u", t[2] ? "bottom-up" : "top-down", (unsigned)t[5]);
            }
            printf("\n");
        }
    }
};

static const char *const words[] = {"ok", "wait", "moved", "read", "done", "same", "refused"};

static void stop(const Model &model, unsigned long at, const Design &design, unsigned said, uint32_t v, unsigned turns)
{
    static const char *const commands[] = {"", "issue to", "step of", "drain before"};
    printf("command %lu, %s tracker %u: the design says %s %08x turns %u, the model %s %08x turns %u\n", at,
           commands[design.command], design.x, words[design.said], design.data, design.turns, words[said], v, turns);
    model.picture();
    exit(1);
}

static uint32_t draw(uint32_t end)
{
    static uint64_t s = 1;
    s = s * 6364136223846793005u + 1442695040888963407u;
    return (uint32_t)(s >> 33) % end;
}

// One command to both: the design by its ports, the model by its calls.
static void clocked(Design &design, Model &model, unsigned long at)
{
    design.clk = false;
    design.eval();
    design.clk = true;
    design.data = design.turns = 0;
    design.eval();

    uint64_t number = 0;
    unsigned said = Design::OK, turns = 0;
    uint32_t v = 0;
    switch (design.command) {
    case Design::ISSUE: number = model.issue(design.x, design.write, design.bottom, design.group, design.value); break;
    case Design::STEP:
        number = model.step(design.x);
        if (number == 0) {
            said = (unsigned)model.answer[0];  // TAG_WAIT .. TAG_SAME are 1 .. 5, as the design's
            v = (uint32_t)model.answer[1];
            turns = (unsigned)model.answer[2];
        }
        break;
    case Design::DRAIN: number = model.drain(); break;
    case Design::NONE: break;
    }
    if (number >= TAG_MODEL_REFUSED) said = Design::REFUSED;
    if (said != design.said || v != design.data || turns != design.turns) stop(model, at, design, said, v, turns);
}

int main(int argc, char **argv)
{
    Design design;
    unsigned long commands = 200000;
    for (int i = 1; i < argc; i++) {
        if (strcmp(argv[i], "--fault") == 0) design.fault = true;
        else commands = strtoul(argv[i], nullptr, 10);
    }
    Model model(design.ram);
    unsigned long at = 1;
    for (; at <= commands; at++) {
        const uint32_t kind = draw(100);
        design.command = kind < 30 ? Design::ISSUE : kind < 98 ? Design::STEP : Design::DRAIN;
        design.x = draw(Design::TRACKERS);
        design.write = draw(3) != 0;
        design.bottom = draw(2);
        // Few leaves, under both map blocks, so that trackers meet.
        design.group = 16 * (draw(2) ? draw(5) : 510 + draw(5)) + draw(2);
        design.value = draw(2) ? 0 : draw(4);
        clocked(design, model, at);
    }
    // To rest, drained: then both memories are the same.
    design.command = Design::STEP;
    for (unsigned i = 0; i < 16 * Design::TRACKERS; i++) {
        design.x = i % Design::TRACKERS;
        clocked(design, model, at++);
    }
    design.command = Design::DRAIN;
    clocked(design, model, at++);
    if (design.ram != model.memory) {
        printf("the memories differ\n");
        return 1;
    }
    printf("%lu commands, no difference, and the memories are the same\n", at - 1);
    model.picture();
    return 0;
}
