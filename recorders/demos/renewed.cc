// Ten monitors of std::mutex, one after the other in the same memory; each has a wait. The std::mutex isn't
// destroyed, its condition is.
#include <condition_variable>
#include <cstdio>
#include <mutex>
#include <optional>
#include <thread>

namespace {

struct monitor {
    std::mutex lock;
    std::condition_variable is_set;
    bool set = false;
};

void meet(monitor &m) {
    std::unique_lock held(m.lock);
    std::thread setter([&m] {
        std::lock_guard inside(m.lock);
        m.set = true;
        m.is_set.notify_one();
    });
    m.is_set.wait(held, [&m] { return m.set; });
    held.unlock();
    setter.join();
}

}  // namespace

int main() {
    std::optional<monitor> place;
    for (int i = 0; i < 10; i++) {
        place.emplace();
        meet(*place);
    }
    std::puts("done");
}
