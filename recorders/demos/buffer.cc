/* A bounded buffer in C++, which knows nothing of the recorder except MONK_ACT: buffer STYLE

     good       notifies under the lock
     timed      waits 20 microseconds at a time
     late       notifies after it
     if         a fault: a thread that waited doesn't test again
     forgotten  a fault: a taker notifies nobody */
#include <chrono>
#include <condition_variable>
#include <deque>
#include <mutex>
#include <string>
#include <thread>
#include <vector>

#include "../c/monk_log.h"

namespace {

constexpr unsigned putters = 3, takers = 3, size = 2, items = 60, put_code = 0, take_code = 1;

class Buffer {
public:
    explicit Buffer(const std::string &style)
        : timed(style == "timed"), late(style == "late"), once(style == "if"), forgets(style == "forgotten") {
        // the conditions are numbered in the order in which they are first met
        std::lock_guard<std::mutex> lock(mutex);
        not_full.notify_one();
        not_empty.notify_one();
    }

    void put(unsigned item) {
        std::unique_lock<std::mutex> lock(mutex);
        wait_until(lock, not_full, [this] { return kept.size() < size; });
        kept.push_back(item);
        MONK_ACT(put_code, item, 1);
        notify(lock, not_empty);
    }

    unsigned take() {
        std::unique_lock<std::mutex> lock(mutex);
        wait_until(lock, not_empty, [this] { return !kept.empty(); });
        unsigned item = kept.empty() ? 0 : kept.front();
        if (!kept.empty())
            kept.pop_front();
        MONK_ACT(take_code, 0, item + 1ul);
        if (!forgets)
            notify(lock, not_full);
        return item;
    }

private:
    template <class Holds>
    void wait_until(std::unique_lock<std::mutex> &lock, std::condition_variable &condition, Holds holds) {
        if (timed)
            wait_for_moments(lock, condition, holds);
        else if (!once)
            condition.wait(lock, holds);
        else if (!holds())
            condition.wait(lock);
    }

    template <class Holds>
    static void wait_for_moments(std::unique_lock<std::mutex> &lock, std::condition_variable &condition, Holds holds) {
        while (!holds())
            condition.wait_for(lock, std::chrono::microseconds(20));
    }

    void notify(std::unique_lock<std::mutex> &lock, std::condition_variable &condition) {
        if (late)
            lock.unlock();
        condition.notify_one();
    }

    const bool timed, late, once, forgets;
    std::mutex mutex;
    std::condition_variable not_full, not_empty;
    std::deque<unsigned> kept;
};

} // namespace

int main(int words, char **word) {
    Buffer buffer(words > 1 ? word[1] : "good");
    std::vector<std::thread> threads;
    for (unsigned i = 0; i < putters; i++)
        threads.emplace_back([&] {
            for (unsigned item = 1; item <= items; item++)
                buffer.put(item);
        });
    for (unsigned i = 0; i < takers; i++)
        threads.emplace_back([&] {
            for (unsigned taken = 0; taken < items * putters / takers; taken++)
                buffer.take();
        });
    for (auto &thread : threads)
        thread.join();
}
