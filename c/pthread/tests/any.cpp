// One puts and one takes in turns, by a condition_variable_any, whose waits have no loop.
#include <condition_variable>
#include <cstdio>
#include <mutex>
#include <thread>

namespace {
constexpr int ROUNDS = 100;
std::mutex mutex;
std::condition_variable_any changed;
int items, wrong;

void change(int from) {
    for (int round = 0; round < ROUNDS; round++) {
        std::unique_lock<std::mutex> lock(mutex);
        if (items != from) changed.wait(lock);
        wrong += items != from;
        items = !from;
        changed.notify_all();
    }
}
}  // namespace

int main() {
    std::thread putter(change, 0), taker(change, 1);
    putter.join();
    taker.join();
    std::printf("any: wrong %d\n", wrong);
}
