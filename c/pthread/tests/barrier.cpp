// Threads of C++ that meet at a barrier, over and over; in every second round each looks at a clock as it waits. With
// the fault `one` the last to come wakes only one of the others.
#include <chrono>
#include <condition_variable>
#include <cstdio>
#include <cstring>
#include <mutex>
#include <thread>
#include <vector>

namespace {

constexpr int parties = 5, rounds = 100;
bool wakes_one;

class barrier {
    std::mutex mutex;
    std::condition_variable all_came;
    int missing = parties, round = 0;

    void wait_for(std::unique_lock<std::mutex> &lock, int mine) {
        const auto is_over = [&] { return round != mine; };
        if (mine % 2) return all_came.wait(lock, is_over);
        while (!all_came.wait_for(lock, std::chrono::milliseconds(1), is_over)) continue;
    }

    void open() {
        missing = parties, round++;
        if (wakes_one)
            all_came.notify_one();
        else
            all_came.notify_all();
    }

public:
    void meet() {
        std::unique_lock<std::mutex> lock(mutex);
        if (--missing == 0)
            open();
        else
            wait_for(lock, round);
    }
};

barrier here;
int met[parties];
int wrong;

// After the first barrier of a round nobody is in an earlier round, and before the second nobody is in a later one.
void work(int mine) {
    for (int round = 1; round <= rounds; round++) {
        met[mine] = round;
        here.meet();
        for (int theirs : met)
            if (theirs != round && mine == 0) wrong++;
        here.meet();
    }
}

}  // namespace

int main(int count, char **words) {
    std::vector<std::thread> threads;
    wakes_one = count > 1 && std::strcmp(words[1], "one") == 0;
    for (int i = 0; i < parties; i++) threads.emplace_back(work, i);
    for (auto &thread : threads) thread.join();
    std::printf("barrier: wrong %d\n", wrong);
    return wrong != 0;
}
