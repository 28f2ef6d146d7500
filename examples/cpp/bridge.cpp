// A one-lane bridge that bears three cars, three cars on each side, under each of the ten kinds.
//
//     bridge [KIND [WISH [ROUNDS [FILE]]]]
#include "shared.hpp"
#include <array>

namespace {

constexpr unsigned SIDES = 2, CARS = 6;
constexpr int MOST = 3;

class bridge {
public:
    explicit bridge(const asked &by)
        : rounds_(by.rounds), program_(by, SIDES, CARS, by.rounds, [this](unsigned side) { return may(side); }) {}

    bool may(unsigned side) const { return on_[1 - side] == 0 && on_[side] < MOST; }

    void drive(monk::seat &by, unsigned side) {
        for (int i = 0; i < rounds_; i++) {
            {
                monk::visit in(by);
                program_.wait_until_may(in, side);
                on_[side]++;
                program_.let_go(in, side);
            }
            crossing_[side]++;
            program_.expect(crossing_[1 - side] == 0 && crossing_[side] <= MOST);
            crossing_[side]--;
            monk::visit in(by);
            on_[side]--, crossed_++;
            program_.let_go(in, on_[side] == 0 && program_.waits(in, 1 - side) ? 1 - side : side);
        }
    }

    int run() {
        std::vector<program::work> works;
        for (unsigned car = 0; car < CARS; car++)
            works.emplace_back([this, car](monk::seat &by) { drive(by, car % SIDES); });
        return program_.run(works, "bridge", [this] { return std::to_string(crossed_) + " cars crossed"; });
    }

private:
    int rounds_, crossed_ = 0;
    std::array<int, SIDES> on_{};
    std::array<std::atomic<int>, SIDES> crossing_{};
    program program_;
};

}  // namespace

int main(int count, char **words) { return bridge(asked(count, words)).run(); }
