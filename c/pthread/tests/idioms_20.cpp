// Ways in which programs of C++20 end, wait and cancel, one a word: idioms NAME. What each prints, and its status, are
// the same in each run. Without a word the names are printed.
#include <barrier>
#include <chrono>
#include <condition_variable>
#include <cstdio>
#include <cstdlib>
#include <cstring>
#include <future>
#include <latch>
#include <memory>
#include <mutex>
#include <semaphore>
#include <stdexcept>
#include <stop_token>
#include <thread>
#include <vector>

namespace {

using namespace std::chrono_literals;

// (never destroyed, since a thread may wait there when another ends the program)
std::mutex &mutex = *new std::mutex;
std::condition_variable &posted = *new std::condition_variable;
int posts = 0;

void post() {
    std::lock_guard lock(mutex);
    posts++;
    posted.notify_one();
}

void take() {
    std::unique_lock lock(mutex);
    posted.wait(lock, [] { return posts > 0; });
    posts--;
}

// ---- to end

void joins_at_its_end() {
    {
        std::jthread thread(post);
        take();
    }
    std::puts("joined at the end of its scope");
}

void detaches() {
    std::thread(post).detach();
    take();
    std::puts("a detached thread posted");
}

struct Last {
    ~Last() { post(); }
};

void ends_thread_locals() {
    std::thread thread([] { thread_local Last last; (void)&last; });
    take();
    thread.join();
    std::puts("a thread-local value posted");
}

void notifies_at_exit() {
    std::thread thread([] {
        std::unique_lock lock(mutex);
        posts++;
        std::notify_all_at_thread_exit(posted, std::move(lock));
    });
    take();
    thread.join();
    std::puts("notified at its exit");
}

void exits_in_a_thread() {
    std::thread([] { std::puts("exit from a thread"), std::exit(3); }).detach();
    take();
}

void terminates() {
    std::set_terminate([] { std::puts("terminated"), std::fflush(stdout), std::_Exit(6); });
    std::thread thread([] { throw std::runtime_error("nobody catches this"); });
    take();
}

// ---- to cancel

void stops_a_wait() {
    std::condition_variable_any any;
    bool is_stopped = false;
    std::jthread thread([&](std::stop_token stop) {
        std::unique_lock lock(mutex);
        is_stopped = !any.wait(lock, stop, [] { return posts > 0; });
    });
    std::this_thread::sleep_for(20ms);
    thread.request_stop();
    thread.join();
    std::puts(is_stopped ? "stopped in a wait" : "woken");
}

void stops_by_a_callback() {
    std::jthread thread([](std::stop_token stop) {
        std::stop_callback callback(stop, post);
        take();
    });
    thread.request_stop();
    thread.join();
    std::puts("a callback posted");
}

void throws_while_it_holds_two() {
    std::mutex other;
    try {
        std::scoped_lock lock(mutex, other);
        throw std::runtime_error("caught");
    } catch (const std::runtime_error &error) {
        std::scoped_lock lock(mutex, other);
        std::puts(error.what());
    }
}

// ---- to wait

void waits_for_a_future() {
    std::promise<int> promise;
    auto future = promise.get_future();
    std::jthread thread([&] { promise.set_value_at_thread_exit(20); });
    std::printf("%d\n", future.get());
}

void gets_what_was_thrown() {
    auto future = std::async(std::launch::async, []() -> int { throw std::runtime_error("thrown in a thread"); });
    try {
        future.get();
    } catch (const std::runtime_error &error) {
        std::puts(error.what());
    }
}

void runs_a_task() {
    std::packaged_task<int(int)> task([](int number) { return number + 1; });
    auto future = task.get_future().share();
    std::jthread thread(std::move(task), 21);
    std::printf("%d %d\n", future.get(), future.get());
}

void runs_out() {
    std::unique_lock lock(mutex);
    bool is_there = posted.wait_for(lock, 20ms, [] { return posts > 0; });
    std::puts(is_there ? "woken" : "ran out");
}

void meets() {
    std::latch begun(3);
    std::barrier met(3, []() noexcept { std::puts("met"); });
    std::counting_semaphore<3> left(0);
    std::vector<std::jthread> threads;
    for (int i = 0; i < 3; i++) threads.emplace_back([&] {
        begun.arrive_and_wait();
        met.arrive_and_wait();
        left.release();
    });
    for (int i = 0; i < 3; i++) left.acquire();
    std::puts("left");
}

const struct {
    const char *name;
    void (*does)();
} idioms[] = {{"joins_at_its_end", joins_at_its_end}, {"detaches", detaches}, {"ends_thread_locals", ends_thread_locals},
              {"notifies_at_exit", notifies_at_exit}, {"exits_in_a_thread", exits_in_a_thread},
              {"terminates", terminates}, {"stops_a_wait", stops_a_wait}, {"stops_by_a_callback", stops_by_a_callback},
              {"throws_while_it_holds_two", throws_while_it_holds_two}, {"waits_for_a_future", waits_for_a_future},
              {"gets_what_was_thrown", gets_what_was_thrown}, {"runs_a_task", runs_a_task}, {"runs_out", runs_out},
              {"meets", meets}};

}  // namespace

int main(int count, char **words) {
    for (const auto &it : idioms) {
        if (count < 2) std::puts(it.name);
        else if (!std::strcmp(words[1], it.name)) return it.does(), 0;
    }
    return count < 2 ? 0 : 1;
}
