// A short host in C++: the lane as a class over the C header, in which a refused call throws its number and words.
#include "rondavitse.h"

#include <array>
#include <cinttypes>
#include <cstdio>
#include <stdexcept>
#include <string>
#include <vector>

struct Refused : std::runtime_error {
    explicit Refused(uint32_t no) : std::runtime_error(rondavitse_words(no)), no(no) {}
    uint32_t no;
};

struct Wish {
    uint8_t sort;
    uint32_t value;
};

class Lane {
  public:
    Lane(const std::string &table, rondavitse_road road, uint64_t first) : Lane() {
        rondavitse_empty(&words);
        check(rondavitse_load(&words, bytes(table), table.size()));
        check(rondavitse_start(&words, road, first));
    }

    // The lane that another host has handed over by its text.
    static Lane take_over(const std::string &text) {
        Lane lane;
        check(rondavitse_take_over(&lane.words, bytes(text), text.size()));
        return lane;
    }

    std::string handover() const {
        std::array<uint8_t, RONDAVITSE_LONGEST_HANDOVER> text;
        const rondavitse_listed answer = rondavitse_handover(&words, text.data(), text.size());
        check(answer.no);
        return std::string(text.begin(), text.begin() + answer.length);
    }

    void change_surface(uint64_t surface) {
        check(rondavitse_surface(&words, surface));
    }

    size_t enter(rondavitse_carrier carrier) {
        const rondavitse_entered answer = rondavitse_enter(&words, carrier);
        check(answer.no);
        return answer.place;
    }

    rondavitse_opening opening_behind(uint64_t number, rondavitse_newcomer newcomer) const {
        return checked(rondavitse_find_opening(&words, 0, number, newcomer));
    }

    rondavitse_opening opening_ahead_of_all(rondavitse_newcomer newcomer) const {
        return checked(rondavitse_find_opening(&words, 1, 0, newcomer));
    }

    rondavitse_cycled cycle(const std::vector<Wish> &wishes) {
        std::array<uint8_t, RONDAVITSE_MOST_CARRIERS> sorts; // never null, as a vector's data may be; past their end the call gives 27
        std::array<uint32_t, RONDAVITSE_MOST_CARRIERS> values;
        for (size_t i = 0; i < wishes.size() && i < sorts.size(); i++) {
            sorts[i] = wishes[i].sort;
            values[i] = wishes[i].value;
        }
        const rondavitse_cycled answer = rondavitse_cycle(&words, wishes.size(), sorts.data(), sorts.size(), values.data(), values.size());
        check(answer.no);
        return answer;
    }

    rondavitse_reading read(uint64_t number) const {
        const rondavitse_read_out answer = rondavitse_read(&words, number);
        check(answer.no);
        return answer.reading;
    }

  private:
    Lane() {
        if (rondavitse_version() != RONDAVITSE_VERSION) {
            throw std::logic_error("header and library do not belong together");
        }
    }

    static const uint8_t *bytes(const std::string &text) {
        return reinterpret_cast<const uint8_t *>(text.data());
    }

    static void check(uint32_t no) {
        if (no != RONDAVITSE_ACCEPTED) {
            throw Refused(no);
        }
    }

    static rondavitse_opening checked(rondavitse_opening answer) {
        check(answer.no);
        return answer;
    }

    rondavitse_lane words;
};

static void try_entry(Lane &lane, const rondavitse_carrier &carrier) {
    try {
        std::printf("carrier %" PRIu64 " enters at place %zu\n", carrier.number, lane.enter(carrier));
    } catch (const Refused &refusal) {
        std::printf("carrier %" PRIu64 " refused by %" PRIu32 ": %s\n", carrier.number, refusal.no, refusal.what());
    }
}

static void try_surface(Lane &lane, uint64_t surface) {
    try {
        lane.change_surface(surface);
        std::printf("surface %" PRIu64 " in force\n", surface);
    } catch (const Refused &refusal) {
        std::printf("surface %" PRIu64 " refused by %" PRIu32 ": %s\n", surface, refusal.no, refusal.what());
    }
}

static void try_take_over(const std::string &text) {
    try {
        Lane::take_over(text);
    } catch (const Refused &refusal) {
        std::printf("taking over refused by %" PRIu32 ": %s\n", refusal.no, refusal.what());
    }
}

// As when another host takes this one's place: nothing goes over but the text.
static Lane in_a_new_host(const Lane &lane) {
    const std::string text = lane.handover();
    std::printf("lane handed over in %zu bytes\n", text.size());
    try_take_over(text.substr(0, text.size() - 1)); // a file that was not yet whole
    std::string faster = text;
    faster.replace(faster.find("speed=16"), 8, "speed=32"); // the second would not stop before the first's tail
    try_take_over(faster);
    return Lane::take_over(text);
}

// A carrier from a side road drives in behind another one, halfway between the ends of the opening; while there is none it waits a cycle, in
// which the foremost speeds up, and asks again.
static void enter_behind(Lane &lane, uint64_t ahead, uint64_t number, const rondavitse_newcomer &newcomer) {
    rondavitse_opening opening = lane.opening_behind(ahead, newcomer);
    while (!opening.exists) {
        std::printf("no opening behind carrier %" PRIu64 ": waits a cycle\n", ahead);
        lane.cycle({{RONDAVITSE_UNITS, rondavitse_units(10)}, {RONDAVITSE_HOLD, 0}});
        opening = lane.opening_behind(ahead, newcomer);
    }
    std::printf("opening behind carrier %" PRIu64 ": %" PRIu64 " to %" PRIu64 "\n", ahead, opening.lowest, opening.highest);
    try_entry(lane, {number, opening.lowest + (opening.highest - opening.lowest) / 2, newcomer.speed, newcomer.length, newcomer.rate});
}

static void try_side_road(Lane &lane, uint64_t ahead, uint64_t number, const rondavitse_newcomer &newcomer) {
    try {
        enter_behind(lane, ahead, number, newcomer);
    } catch (const Refused &refusal) {
        std::printf("opening behind carrier %" PRIu64 " refused by %" PRIu32 ": %s\n", ahead, refusal.no, refusal.what());
    }
}

int main() {
    std::string table = "b=60\nB=120\nA=30\n"; // of a terminal on which all surfaces but the dry one are alike
    for (int code = 1; code < RONDAVITSE_SURFACES; code++) {
        table += "b=20\nB=80\nA=10\n";
    }
    Lane lane(table, {0, 10000, 1000}, 0);
    try_entry(lane, {7, 1000, 0, 200, 90});
    try_entry(lane, {8, 700, 64, 100, 40}); // loaded: its own rate, below the surface's b, would not stop it before the first's tail
    try_entry(lane, {8, 700, 64, 100, 48});
    try_entry(lane, {9, 650, 0, 100, 90}); // behind the second's front and not behind its tail
    try_entry(lane, {10, 500, 0, UINT64_C(4294967396), 90}); // a length of 100 if it were cut
    try_entry(lane, {11, 500, 0, 100, UINT64_C(4294967360)}); // an own rate of 64 if it were cut
    try_surface(lane, 1); // the second would not stop before the first's tail
    for (const int64_t units : {INT64_C(4294967328), INT64_C(32)}) { // the first would be 32 if it were cut
        try {
            const auto answer = lane.cycle({{RONDAVITSE_HOLD, 0}, {RONDAVITSE_UNITS, rondavitse_units(units)}});
            std::printf("cycle: replaced %016" PRIX64 ", gone %" PRIu32 "\n", answer.word, answer.gone);
        } catch (const Refused &refusal) {
            std::printf("cycle refused by %" PRIu32 ": %s\n", refusal.no, refusal.what());
        }
    }
    try_surface(lane, UINT64_C(4294967297)); // 1 if it were cut
    try_surface(lane, 1);
    lane = in_a_new_host(lane);
    const rondavitse_newcomer newcomer = {8, 50, 4};
    try_side_road(lane, UINT64_C(4294967303), 12, newcomer); // behind 7 if it were cut
    try_side_road(lane, 7, 12, newcomer);
    const rondavitse_opening opening = lane.opening_ahead_of_all(newcomer);
    std::printf("opening ahead of all: %" PRIu64 " to %" PRIu64 "\n", opening.lowest, opening.highest);
    for (const uint64_t number : {7, 12, 8}) {
        const rondavitse_reading reading = lane.read(number);
        std::printf("carrier %" PRIu64 ": %.11f m, %.7f m/s\n", number, reading.position, reading.speed);
    }
}
