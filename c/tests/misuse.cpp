// What misuse gets from C++ (misuse.h): each call of monk.hpp throws an error that has the answer of monk.h.
#include "monk.hpp"
#include "misuse.h"
#include <optional>

namespace {

std::optional<monk::monitor> made;
std::optional<monk::seat> seat;
std::optional<monk::visit> in;

template <class Call> int answer_of(Call call) {
    try {
        call();
    } catch (const monk::error &thrown) {
        return thrown.answer;
    }
    return MONK_OK;
}

monk::condition on(unsigned n) { return monk::condition(n); }

#define BY(words) [](unsigned n) { (void)n; return answer_of([n] { (void)n; words; }); }
const call calls[] = {
    {"enter", BY(monk::visit again(*seat)), MONK_OUTSIDE, ALL, NOTHING, 2},
    {"leave", BY(in->leave()), MONK_INSIDE, ALL, NOTHING, 1},
    {"wait", BY(in->wait(on(n))), MONK_INSIDE, NOT_AUTOMATIC, CONDITION, 3},
    {"wait for a test", BY(in->wait(on(n), [] { return false; })), MONK_INSIDE, NOT_AUTOMATIC, CONDITION, 3},
    {"wait for a flag", BY(in->wait(monk::flag(n))), MONK_INSIDE, AUTOMATIC, FLAG, 3},
    {"notify_one", BY(in->notify_one(on(n))), MONK_INSIDE, SIGNALLING, CONDITION, 3},
    {"notify_all", BY(in->notify_all(on(n))), MONK_INSIDE, NON_BLOCKING, CONDITION, 2},
    {"notify_and_leave", BY(in->notify_and_leave(on(n))), MONK_INSIDE, IMMEDIATE, CONDITION, 1},
    {"notify_and_wait", BY(in->notify_and_wait(on(n), on(n))), MONK_INSIDE, IMMEDIATE, CONDITION, 3},
    {"set_flags", BY(in->set_flags(n)), MONK_INSIDE, ALL, BITS, 2},
    {"pause", BY(in->pause(n)), MONK_INSIDE, ALL, EITHER, 3},
    {"finish", BY(in->finish(n)), MONK_INSIDE, ALL, EITHER, 0},
    {"waiting", BY(in->waiting(on(n))), MONK_INSIDE, NOT_AUTOMATIC, CONDITION, 0},
    {"history", BY(in->history(*made)), MONK_INSIDE, ALL, TEXT, 0},
    {"set_wish", BY(seat->set_wish(static_cast<monk_wish>(n))), ANYWHERE, ALL, WISH, 0},
};

}  // namespace

static void begin(const monk_shape *shape) {
    made.emplace(*shape);
    monitor = made->get();
    seat.emplace(*made);
    at = seat->get();
    in.emplace(*seat);
}

static void end() {
    in.reset(), seat.reset(), made.reset();
}

int main() { return try_all(calls, sizeof calls / sizeof *calls); }
