// Five dining philosophers, under each of the ten kinds; queue n is philosopher n's.
//
//     philosophers [KIND [WISH [ROUNDS [FILE]]]]
#include "shared.hpp"
#include <array>

namespace {

constexpr unsigned COUNT = 5;

/// Fork n lies to the right of philosopher n.
class table {
public:
    explicit table(const asked &by)
        : rounds_(by.rounds), program_(by, COUNT, COUNT, by.rounds, [this](unsigned number) { return may(number); }) {}

    static unsigned left_of(unsigned number) { return (number + COUNT - 1) % COUNT; }
    bool may(unsigned number) const { return !is_used_[number] && !is_used_[left_of(number)]; }

    /// The way out of each visit: one who waits and may eat goes on, and does the same.
    void let_one_go(monk::visit &in) {
        for (unsigned number = 0; number < COUNT; number++)
            if (may(number) && program_.waits(in, number)) return program_.let_go(in, number);
        program_.leave(in);
    }

    void use(unsigned number, bool is_used) { is_used_[number] = is_used_[left_of(number)] = is_used; }

    void dine(monk::seat &by, unsigned number) {
        for (int i = 0; i < rounds_; i++) {
            {
                monk::visit in(by);
                program_.wait_until_may(in, number);
                use(number, true);
                let_one_go(in);
            }
            eats_[number] = true;
            program_.expect(!eats_[left_of(number)] && !eats_[(number + 1) % COUNT]);
            eats_[number] = false;
            monk::visit in(by);
            use(number, false);
            meals_++;
            let_one_go(in);
        }
    }

    int run() {
        std::vector<program::work> works;
        for (unsigned number = 0; number < COUNT; number++)
            works.emplace_back([this, number](monk::seat &by) { dine(by, number); });
        return program_.run(works, "philosophers", [this] { return std::to_string(meals_) + " meals"; });
    }

private:
    int rounds_, meals_ = 0;
    std::array<bool, COUNT> is_used_{};
    std::array<std::atomic<bool>, COUNT> eats_{};
    program program_;
};

}  // namespace

int main(int count, char **words) { return table(asked(count, words)).run(); }
