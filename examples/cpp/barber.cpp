// A barber and four customers, with three seats to wait on, under each of the ten kinds.
//
//     barber [KIND [WISH [ROUNDS [FILE]]]]
#include "shared.hpp"

namespace {

enum { SEAT_FREE, CUSTOMER, CUT_DONE, QUEUES, SEATS = 3, CUSTOMERS = 4 };
enum class chair { empty, cutting, done };

class shop {
public:
    explicit shop(const asked &by)
        : rounds_(by.rounds),
          program_(by, QUEUES, CUSTOMERS + 1, by.rounds * CUSTOMERS, [this](unsigned queue) { return may(queue); }) {}

    bool may(unsigned queue) const {
        switch (queue) {
        case SEAT_FREE: return sitting_ < SEATS;
        case CUSTOMER: return sitting_ > 0 && chair_ == chair::empty;
        default: return chair_ == chair::done;
        }
    }

    void come(monk::seat &by) {
        for (int i = 0; i < rounds_; i++) {
            {
                monk::visit in(by);
                program_.wait_until_may(in, SEAT_FREE);
                sitting_++;
                program_.let_go(in, CUSTOMER);
            }
            monk::visit in(by);
            program_.wait_until_may(in, CUT_DONE);
            chair_ = chair::empty;
            program_.let_go(in, CUSTOMER);
        }
    }

    void cut(monk::seat &by) {
        for (int i = 0; i < rounds_ * CUSTOMERS; i++) {
            {
                monk::visit in(by);
                program_.wait_until_may(in, CUSTOMER);
                sitting_--, chair_ = chair::cutting;
                program_.let_go(in, SEAT_FREE);
            }
            monk::visit in(by);
            program_.expect(chair_ == chair::cutting);
            chair_ = chair::done, cuts_++;
            program_.let_go(in, CUT_DONE);
        }
    }

    int run() {
        std::vector<program::work> works(CUSTOMERS, [this](monk::seat &by) { come(by); });
        works.emplace_back([this](monk::seat &by) { cut(by); });
        return program_.run(works, "barber", [this] { return std::to_string(cuts_) + " cuts"; });
    }

private:
    int rounds_, sitting_ = 0, cuts_ = 0;
    chair chair_ = chair::empty;
    program program_;
};

}  // namespace

int main(int count, char **words) { return shop(asked(count, words)).run(); }
