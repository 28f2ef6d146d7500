// A bounded buffer of one place, two threads that put and two that take, under each of the ten kinds.
//
//     buffer [KIND [WISH [ROUNDS [FILE]]]]
#include "shared.hpp"

namespace {

enum { NOT_FULL, NOT_EMPTY, QUEUES, PUTTERS = 2, TAKERS = 2 };

class buffer {
public:
    explicit buffer(const asked &by)
        : rounds_(by.rounds),
          program_(by, QUEUES, PUTTERS + TAKERS, by.rounds, [this](unsigned queue) { return may(queue); }) {}

    bool may(unsigned queue) const { return items_.empty() == (queue == NOT_FULL); }

    void put(monk::seat &by) {
        for (int item = 1; item <= rounds_; item++) {
            monk::visit in(by);
            program_.wait_until_may(in, NOT_FULL);
            items_.push_back(item);
            program_.let_go(in, NOT_EMPTY);
        }
    }

    void take(monk::seat &by) {
        for (int i = 0; i < rounds_; i++) {
            monk::visit in(by);
            program_.wait_until_may(in, NOT_EMPTY);
            sum_ += items_.back();
            items_.pop_back();
            program_.let_go(in, NOT_FULL);
        }
    }

    int run() {
        std::vector<program::work> works(PUTTERS, [this](monk::seat &by) { put(by); });
        works.insert(works.end(), TAKERS, [this](monk::seat &by) { take(by); });
        int failed = program_.run(works, "buffer", [this] { return "sum " + std::to_string(sum_); });
        return failed || sum_ != PUTTERS * rounds_ * (rounds_ + 1L) / 2;
    }

private:
    int rounds_;
    long sum_ = 0;
    std::vector<int> items_;
    program program_;
};

}  // namespace

int main(int count, char **words) { return buffer(asked(count, words)).run(); }
