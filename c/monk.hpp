// monk.hpp - monk.h for C++17: monitors, seats and visits that end by themselves, errors as exceptions.
//
//     monk::monitor monitor({MONK_PB, 4, 2, 0, 10000, 0});       // kind, seats, conditions, flags, budget, seed
//     monk::condition not_full(0), not_empty(1);
//
//     void put(monk::seat &seat, int item) {                      // a seat for each thread
//         monk::visit in(seat);                                   // comes in; leaves at the end, also by an exception
//         in.wait(not_full, [] { return items.size() < SIZE; });
//         items.push_back(item);
//         in.notify_one(not_empty);
//     }
//
// Every call that monk.h refuses throws monk::error, and then nothing has changed. Nothing here can leave a seat
// inside: a visit that ends leaves. A seat that ends, or to which another is moved, is given up wherever it is.
#ifndef MONK_HPP
#define MONK_HPP

#include "monk.h"
#include <cstdint>
#include <cstdlib>
#include <memory>
#include <stdexcept>
#include <string>
#include <utility>

namespace monk {

/// A refused call. `answer` is one of monk.h's, below 0.
class error : public std::runtime_error {
public:
    explicit error(int refusal) : std::runtime_error(monk_strerror(refusal)), answer(refusal) {}
    int answer;
};

/// Returns the answer if it is no error; else throws it.
inline int checked(int answer) {
    if (answer < 0) throw error(answer);
    return answer;
}

/// A condition of a monitor, by its number.
class condition {
public:
    explicit constexpr condition(unsigned number) : number_(number) {}
    constexpr unsigned number() const { return number_; }

private:
    unsigned number_;
};

/// A flag of a monitor, by its number: what threads of automatic kinds wait for.
class flag {
public:
    explicit constexpr flag(unsigned number) : number_(number) {}
    constexpr unsigned number() const { return number_; }

private:
    unsigned number_;
};

/// A monitor. It must live longer than its seats: a monitor that ends before them stays in memory, with its history.
class monitor {
public:
    explicit monitor(const monk_shape &shape) { checked(monk_make(&at_, &shape)); }
    monitor(const monitor &) = delete;
    monitor &operator=(const monitor &) = delete;
    ~monitor() { monk_free(at_); }

    monk_monitor *get() const { return at_; }
    int kind() const { return monk_kind_of(at_); }

    /// Ends all waiting: each call that waits throws an error with MONK_STOPPED.
    void stop() { checked(monk_stop(at_)); }

    /// Closes the monitor, if no seat is taken. From then on the history is complete.
    void close() { checked(monk_close(at_)); }

    /// Returns the text of all events up to now. Unless the monitor is closed, it is read by a seat that nobody has.
    std::string history() const { return history_by(nullptr); }

private:
    friend class visit;
    monk_monitor *at_ = nullptr;

    std::string history_by(monk_seat *by) const {
        char *text = nullptr;
        std::size_t length = 0;
        checked(monk_history(at_, by, &text, &length));
        std::unique_ptr<char, void (*)(void *)> owner(text, std::free);
        return std::string(text, length);
    }
};

/// A seat: one thread at a time uses it. It is given up when it ends, wherever it is.
class seat {
public:
    explicit seat(const monitor &of) { checked(monk_take_seat(of.get(), &at_)); }
    seat(seat &&other) noexcept : at_(std::exchange(other.at_, nullptr)) {}
    /// Gives up at once the seat that it had.
    seat &operator=(seat &&other) noexcept {
        if (this == &other) return *this;
        give_up();
        at_ = std::exchange(other.at_, nullptr);
        return *this;
    }
    ~seat() { give_up(); }

    monk_seat *get() const { return at_; }
    unsigned number() const { return monk_seat_number(at_); }
    std::uint32_t left() const { return monk_left(at_); }
    void set_wish(monk_wish wish) { checked(monk_set_wish(at_, wish)); }

private:
    monk_seat *at_ = nullptr;

    void give_up() noexcept {
        if (at_) monk_abandon(at_);
    }
};

/// A visit: its seat is inside from its beginning to its end. A call that leads outside ends it before its scope does,
/// and so does the end of its seat: from then on every call is refused with MONK_NOT_NOW, even if somebody else has
/// the seat. It may not outlive the monitor.
class visit {
public:
    explicit visit(seat &by) : seat_(by.get()) { checked(monk_enter(seat_)); }
    visit(const visit &) = delete;
    visit &operator=(const visit &) = delete;
    /// Leaves, if the seat is still inside. After a stopped wait it isn't: the seat is given up when it ends.
    ~visit() {
        if (monk_place(seat_) == MONK_INSIDE) monk_leave(seat_);
    }

    void wait(condition on) { checked(monk_wait(seat_, on.number())); }

    /// Waits until `ready()` holds, and tests it after each wait: right under every kind that has conditions.
    template <class Ready> void wait(condition on, Ready ready) {
        while (!ready()) wait(on);
    }

    /// Goes on once the flag is set; automatic kinds.
    void wait(flag until) { checked(monk_wait_until(seat_, until.number())); }

    /// Signals. Under a blocking kind the thread that is served goes on first.
    void notify_one(condition on) { checked(monk_signal(seat_, on.number())); }

    /// Serves all who wait; non-blocking kinds.
    void notify_all(condition on) { checked(monk_broadcast(seat_, on.number())); }

    /// Signals and leaves; immediate return.
    void notify_and_leave(condition on) { checked(monk_signal_leave(seat_, on.number())); }

    /// Signals the first and waits on the second, as one; immediate return.
    void notify_and_wait(condition on, condition then) { checked(monk_signal_wait(seat_, on.number(), then.number())); }

    void set_flags(std::uint32_t bits) { checked(monk_set_flags(seat_, bits)); }

    /// For code under all ten kinds: monk_pause and monk_finish of monk.h.
    void pause(unsigned number) { checked(monk_pause(seat_, number)); }
    void finish(unsigned number) { checked(monk_finish(seat_, number)); }

    void leave() { checked(monk_leave(seat_)); }
    unsigned waiting(condition on) const { return static_cast<unsigned>(checked(monk_waiting(seat_, on.number()))); }
    std::string history(const monitor &of) const { return of.history_by(seat_); }

private:
    monk_seat *seat_;
};

}  // namespace monk

#endif
