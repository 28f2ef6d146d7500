// A race of the program's own, which ThreadSanitizer has to report: racing CALL. One thread writes outside the monitor,
// and then makes a call that is refused, or gives up a seat that is outside. Another comes in, and reads. A call that
// leads nowhere orders nothing.
#include "monk.hpp"
#include <atomic>
#include <iostream>
#include <map>
#include <string>
#include <thread>

namespace {

long data = 0;
std::atomic<bool> is_written{false};

using calls = std::map<std::string, int (*)(monk_seat *)>;

const calls refused = {
    {"leave", [](monk_seat *s) { return monk_leave(s); }},
    {"wait", [](monk_seat *s) { return monk_wait(s, 0); }},
    {"start_wait", [](monk_seat *s) { return monk_start_wait(s, 0); }},
    {"signal", [](monk_seat *s) { return monk_signal(s, 0); }},
    {"signal_leave", [](monk_seat *s) { return monk_signal_leave(s, 0); }},
    {"signal_wait", [](monk_seat *s) { return monk_signal_wait(s, 0, 0); }},
    {"wait_until", [](monk_seat *s) { return monk_wait_until(s, 0); }},
    {"finish", [](monk_seat *s) { return monk_finish(s, 0); }},
};

void write_and(const monk::monitor &monitor, const std::string &name) {
    monk::seat seat(monitor);
    data = 1;
    if (name != "abandon" && refused.at(name)(seat.get()) >= 0) std::exit(1);
}

// `abandon` is what the destructor of the seat calls.
void race(int kind, const std::string &name) {
    monk::monitor monitor({kind, 2, 1, 1, 0, 1});
    monk::seat seat(monitor);
    std::thread writer([&] {
        write_and(monitor, name);
        is_written.store(true, std::memory_order_relaxed);
    });
    while (!is_written.load(std::memory_order_relaxed)) std::this_thread::yield();
    {
        monk::visit in(seat);
        std::cout << "read " << data << std::endl;
    }
    writer.join();
}

}  // namespace

int main(int, char **words) { race(std::stoi(words[2]), words[1]); }
