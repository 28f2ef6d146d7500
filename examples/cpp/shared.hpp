// What the examples share: a monitor for code that runs under all ten kinds, a thread for each worker, and the end of a
// run.
#ifndef SHARED_HPP
#define SHARED_HPP

#include "monk.hpp"
#include <atomic>
#include <fstream>
#include <functional>
#include <iostream>
#include <string>
#include <thread>
#include <vector>

/// KIND [WISH [ROUNDS [FILE]]]
struct asked {
    int kind = MONK_PB;
    monk_wish wish = MONK_WAITER;
    int rounds = 20;
    std::string wish_name = "waiter", path;

    asked(int count, char **words) {
        if (count > 1) kind = monk::checked(monk_kind_named(words[1]));
        if (count > 2) wish_name = words[2];
        if (count > 3) rounds = std::stoi(words[3]);
        if (count > 4) path = words[4];
        if (wish_name == "entry") wish = MONK_ENTRY;
        if (wish_name == "any") wish = MONK_ANY;
    }
};

/// A monitor with so many queues: conditions, or under an automatic kind flags. `may(n)` says whether one of queue n
/// may go on.
class program {
public:
    static constexpr unsigned EVENTS_OF_A_ROUND = 200, SLACK = 100;

    program(const asked &by, unsigned queues, unsigned threads, int rounds, std::function<bool(unsigned)> may)
        : asked_(by), is_automatic_(monk_mode_of(by.kind) == MONK_AUTOMATIC), queues_(queues), may_(std::move(may)),
          monitor_({by.kind, threads, is_automatic_ ? 0 : queues, queues,
                    static_cast<std::uint32_t>(rounds) * EVENTS_OF_A_ROUND + SLACK, 1}) {}

    monk::monitor &monitor() { return monitor_; }

    /// The monitor doesn't know the data, so under an automatic kind whoever changes them sets the flags.
    void say(monk::visit &in) {
        std::uint32_t bits = 0;
        for (unsigned queue = 0; queue < queues_; queue++) bits |= static_cast<std::uint32_t>(may_(queue)) << queue;
        if (is_automatic_) in.set_flags(bits);
    }

    bool waits(const monk::visit &in, unsigned queue) const {
        return !is_automatic_ && in.waiting(monk::condition(queue)) > 0;
    }

    void wait_until_may(monk::visit &in, unsigned queue) {
        say(in);
        while (!may_(queue)) in.pause(queue);
    }

    /// The way out: one of that queue goes on.
    void let_go(monk::visit &in, unsigned queue) {
        say(in);
        in.finish(queue);
    }

    void leave(monk::visit &in) {
        say(in);
        in.leave();
    }

    /// What the monitor should keep from happening outside.
    void expect(bool holds) { wrong_ += !holds; }

    using work = std::function<void(monk::seat &)>;

    int run(const std::vector<work> &works, const char *name, const std::function<std::string()> &result) {
        std::vector<std::thread> crew;
        for (const auto &play : works)
            crew.emplace_back([&] {
                monk::seat seat(monitor_);
                seat.set_wish(asked_.wish);
                play(seat);
            });
        for (auto &thread : crew) thread.join();
        monitor_.close();
        if (!asked_.path.empty()) std::ofstream(asked_.path) << monitor_.history();
        std::cout << monk_kind_name(asked_.kind) << " " << name << " wish " << asked_.wish_name << ": " << result()
            << ", wrong " << wrong_ << "\n";
        return wrong_ != 0;
    }

private:
    asked asked_;
    bool is_automatic_;
    unsigned queues_;
    std::function<bool(unsigned)> may_;
    monk::monitor monitor_;
    std::atomic<int> wrong_{0};
};

#endif
