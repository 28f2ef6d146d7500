// What a monitor guards, in a program that is built with -fsanitize=thread and links the library as it is installed: a
// counter, strings that go from thread to thread through a queue, what a thread did before it gave its seat back, and
// before it stopped the monitor. The sanitizer may see no race.
#include "monk.hpp"
#include <deque>
#include <iostream>
#include <thread>
#include <vector>

namespace {

constexpr int PAIRS = 2, ITEMS = 2000;
constexpr unsigned NOT_EMPTY = 0;

long count = 0, seen = 0;
std::deque<std::string> queue;

void put(monk::monitor &monitor) {
    monk::seat seat(monitor);
    for (int i = 0; i < ITEMS; i++) {
        monk::visit in(seat);
        count++;
        queue.push_back("an item that is longer than a string keeps in itself, number " + std::to_string(i));
        in.finish(NOT_EMPTY);
    }
}

void take(monk::monitor &monitor) {
    monk::seat seat(monitor);
    for (int i = 0; i < ITEMS; i++) {
        std::string item;
        {
            monk::visit in(seat);
            in.wait(monk::condition(NOT_EMPTY), [] { return !queue.empty(); });
            count++;
            item = std::move(queue.front());
            queue.pop_front();
        }
        if (item.empty()) std::exit(1);
    }
}

// One seat, which one thread after the other takes: its owner sees what was done before it was given back.
void lend(monk::monitor &monitor) {
    for (;;) {
        monk_seat *seat;
        int answer = monk_take_seat(monitor.get(), &seat);
        if (answer == MONK_NO_SEAT) continue;
        monk::checked(answer);
        seen++;
        monk::checked(monk_give_seat(seat));
        return;
    }
}

// A thread that is sent home sees what was done before the stop.
void stop(int kind) {
    monk::monitor monitor({kind, 1, 1, 0, 0, 1});
    int told = 0;
    std::thread waits([&] {
        monk::seat seat(monitor);
        try {
            monk::visit in(seat);
            in.wait(monk::condition(NOT_EMPTY));
        } catch (const monk::error &thrown) {
            if (thrown.answer != MONK_STOPPED || told != 1) std::exit(1);
        }
    });
    told = 1;
    monitor.stop();
    waits.join();
}

void every_kind(int kind) {
    monk::monitor monitor({kind, 2 * PAIRS, 1, 0, 10 * ITEMS, 1}), of_one_seat({kind, 1, 0, 0, 0, 1});
    std::vector<std::thread> crew;
    for (int i = 0; i < PAIRS; i++) {
        crew.emplace_back(put, std::ref(monitor));
        crew.emplace_back(take, std::ref(monitor));
        crew.emplace_back(lend, std::ref(of_one_seat));
    }
    for (auto &thread : crew) thread.join();
}

}  // namespace

int main() {
    for (int kind = MONK_PB; kind <= MONK_NPIR; kind++) every_kind(kind), stop(kind);
    std::cout << count << " visits and " << seen << " lendings, no race seen\n";
}
