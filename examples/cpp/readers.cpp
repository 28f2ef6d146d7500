// Readers and writers: three read and two write, under each of the ten kinds.
//
//     readers [KIND [WISH [ROUNDS [FILE]]]]
#include "shared.hpp"

namespace {

enum { READ, WRITE, QUEUES, READERS = 3, WRITERS = 2 };

class book {
public:
    explicit book(const asked &by)
        : rounds_(by.rounds),
          program_(by, QUEUES, READERS + WRITERS, by.rounds, [this](unsigned queue) { return may(queue); }) {}

    bool may(unsigned queue) const { return !is_written_ && (queue == READ || reading_ == 0); }

    void read(monk::seat &by) {
        for (int i = 0; i < rounds_; i++) {
            {
                monk::visit in(by);
                program_.wait_until_may(in, READ);
                reading_++;
                program_.let_go(in, READ);
            }
            program_.expect(writers_now_ == 0);
            monk::visit in(by);
            reading_--, reads_++;
            program_.let_go(in, may(WRITE) && program_.waits(in, WRITE) ? WRITE : READ);
        }
    }

    void write(monk::seat &by) {
        for (int i = 0; i < rounds_; i++) {
            {
                monk::visit in(by);
                program_.wait_until_may(in, WRITE);
                is_written_ = true;
                program_.leave(in);
            }
            program_.expect(writers_now_++ == 0);
            writers_now_--;
            monk::visit in(by);
            is_written_ = false, writes_++;
            program_.let_go(in, program_.waits(in, READ) ? READ : WRITE);
        }
    }

    int run() {
        std::vector<program::work> works(READERS, [this](monk::seat &by) { read(by); });
        works.insert(works.end(), WRITERS, [this](monk::seat &by) { write(by); });
        return program_.run(works, "readers",
            [this] { return std::to_string(reads_) + " reads, " + std::to_string(writes_) + " writes"; });
    }

private:
    int rounds_, reading_ = 0, reads_ = 0, writes_ = 0;
    bool is_written_ = false;
    std::atomic<int> writers_now_{0};
    program program_;
};

}  // namespace

int main(int count, char **words) { return book(asked(count, words)).run(); }
