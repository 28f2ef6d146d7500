// monk.hpp: what ends by itself, what is thrown, threads that end inside or in a wait, a run that hangs, 32 threads.
#include "monk.hpp"
#include <algorithm>
#include <atomic>
#include <chrono>
#include <iostream>
#include <optional>
#include <thread>
#include <vector>

namespace {

int checks = 0;

void holds(bool what, const char *said, int line) {
    checks++;
    if (what) return;
    std::cerr << "test_monk.cpp:" << line << ": " << said << "\n";
    std::exit(1);
}
#define HOLDS(what) holds((what), #what, __LINE__)

template <class Call> int answer_of(Call call) {
    try {
        call();
    } catch (const monk::error &thrown) {
        return thrown.answer;
    }
    return MONK_OK;
}

monk_shape shape_of(int kind, unsigned seats) {
    bool automatic = monk_mode_of(kind) == MONK_AUTOMATIC;
    return {kind, seats, automatic ? 0u : 2u, 2u, 20000, 1};
}

void every_kind_visits() {
    for (int kind = MONK_PB; kind <= MONK_NPIS; kind++) {
        monk::monitor monitor(shape_of(kind, 2));
        monk::seat seat(monitor);
        {
            monk::visit in(seat);
            in.set_flags(1);
            HOLDS(in.history(monitor).find("act 0 0 1 1\n") != std::string::npos);
        }
        HOLDS(monk_place(seat.get()) == MONK_OUTSIDE);
        monk::visit again(seat);
        again.finish(0);
        HOLDS(monk_place(seat.get()) == MONK_OUTSIDE);
    }
}

void refusals_are_thrown() {
    HOLDS(answer_of([] { monk::monitor none({42, 1, 0, 0, 0, 0}); }) == MONK_RANGE);
    monk::monitor monitor(shape_of(MONK_PB, 1));
    monk::seat seat(monitor);
    HOLDS(answer_of([&] { monk::seat second(monitor); }) == MONK_NO_SEAT);
    monk::visit in(seat);
    HOLDS(answer_of([&] { monk::visit twice(seat); }) == MONK_NOT_NOW);
    HOLDS(answer_of([&] { in.wait(monk::condition(2)); }) == MONK_RANGE);
    HOLDS(answer_of([&] { in.notify_all(monk::condition(0)); }) == MONK_NOT_OF_KIND);
    HOLDS(answer_of([&] { in.wait(monk::flag(0)); }) == MONK_NOT_OF_KIND);
    HOLDS(answer_of([&] { monitor.close(); }) == MONK_BUSY);
    in.leave();
    HOLDS(answer_of([&] { in.leave(); }) == MONK_NOT_NOW);
}

void an_exception_leaves() {
    monk::monitor monitor(shape_of(MONK_NPNB, 2));
    monk::seat seat(monitor);
    try {
        monk::visit in(seat);
        throw 1;
    } catch (int) {
    }
    HOLDS(monk_place(seat.get()) == MONK_OUTSIDE);
    monk::seat moved(std::move(seat));
    HOLDS(seat.get() == nullptr && moved.number() == 0);
}

void a_seat_that_is_assigned_to_gives_its_own_back() {
    monk::monitor monitor(shape_of(MONK_PB, 2));
    monk::seat first(monitor), second(monitor);
    monk::checked(monk_enter(first.get()));
    // the old seat of `first` is inside: it leaves, and may be taken again at once
    first = std::move(second);
    HOLDS(second.get() == nullptr && first.number() == 1);
    monk::seat third(monitor);
    HOLDS(third.number() == 0 && monk_place(third.get()) == MONK_OUTSIDE);
    monk::seat &same = first;
    first = std::move(same);
    HOLDS(first.get() != nullptr && first.number() == 1);
}

void a_visit_that_outlives_its_seat_disturbs_nobody() {
    monk::monitor monitor(shape_of(MONK_PB, 1));
    std::optional<monk::visit> late;
    {
        monk::seat seat(monitor);
        late.emplace(seat);
    }
    monk::seat next(monitor);
    monk::visit in(next);
    HOLDS(answer_of([&] { late->leave(); }) == MONK_NOT_NOW);
    late.reset();
    HOLDS(monk_place(next.get()) == MONK_INSIDE);
}

void an_error_can_be_assigned() {
    monk::error last(MONK_BUSY);
    last = monk::error(MONK_SPENT);
    HOLDS(last.answer == MONK_SPENT && last.what() == std::string(monk_strerror(MONK_SPENT)));
}

void a_thread_that_ends_keeps_nothing() {
    monk::monitor monitor(shape_of(MONK_PB, 3));
    std::thread([&] {
        monk::seat seat(monitor);
        monk::checked(monk_enter(seat.get()));
    }).join();
    std::thread([&] {
        monk::seat seat(monitor);
        monk::checked(monk_enter(seat.get()));
        monk::checked(monk_start_wait(seat.get(), 0));
    }).join();
    monk::seat seat(monitor);
    monk::visit in(seat);
    in.notify_one(monk::condition(0));
    HOLDS(in.history(monitor).find("resume 1 waiter\nleave 1 signaller 2\n") != std::string::npos);
}

void a_run_that_hangs_is_looked_at() {
    monk::monitor monitor(shape_of(MONK_PNB, 3));
    std::atomic<int> stopped{0};
    std::vector<std::thread> crew;
    for (int i = 0; i < 2; i++)
        crew.emplace_back([&] {
            monk::seat seat(monitor);
            monk::visit in(seat);
            if (answer_of([&] { in.wait(monk::condition(1)); }) == MONK_STOPPED) stopped++;
        });
    std::string text;
    for (int waits = 0; waits < 2;) {
        std::this_thread::sleep_for(std::chrono::milliseconds(5));
        text = monitor.history();
        waits = 0;
        for (auto at = text.find("wait "); at != std::string::npos; at = text.find("wait ", at + 1)) waits++;
    }
    monitor.stop();
    for (auto &thread : crew) thread.join();
    HOLDS(stopped == 2);
}

void many_threads() {
    constexpr int THREADS = 32, VISITS = 200;
    monk::monitor monitor({MONK_NPQB, THREADS, 1, 0, 2 * VISITS + 2, 1});
    std::vector<monk::seat> seats;
    for (int i = 0; i < THREADS; i++) seats.emplace_back(monitor);
    long count = 0;
    std::vector<std::thread> crew;
    for (auto &seat : seats)
        crew.emplace_back([&] {
            for (int i = 0; i < VISITS; i++) {
                monk::visit in(seat);
                count++;
            }
        });
    for (auto &thread : crew) thread.join();
    seats.clear();
    monitor.close();
    HOLDS(count == THREADS * VISITS);
    std::string text = monitor.history();
    HOLDS(std::count(text.begin(), text.end(), '\n') == 1 + 2 * THREADS * VISITS + 1);
}

}  // namespace

int main() {
    every_kind_visits(), refusals_are_thrown(), an_exception_leaves(), a_thread_that_ends_keeps_nothing();
    a_seat_that_is_assigned_to_gives_its_own_back(), an_error_can_be_assigned();
    a_visit_that_outlives_its_seat_disturbs_nobody();
    a_run_that_hangs_is_looked_at(), many_threads();
    std::cout << checks << " checks of monk.hpp hold\n";
}
