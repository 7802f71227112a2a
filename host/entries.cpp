// The header from C++: every entry is called, every constant is held to the library, which takes what it allows and refuses one more, and each
// message of a session is held to the positions of document 01. A second session goes on from a run, with other account answers, and in a third
// the buyer pays with step 38 of 02. Its last line is `N differences`; any one makes the status 1.
#include "kp_bench.h"

#include <cstdio>
#include <string>
#include <vector>

static int differences = 0;

// what a call answered, beside what documents 01 and 02 say
static void same(const char *what, unsigned answered, unsigned wanted)
{
    if (answered != wanted) {
        std::printf("%s: %u and not %u\n", what, answered, wanted);
        differences++;
    }
}

// a list of steps `1 3 2`, run in a record of so many numbers
static unsigned run(size_t record_len, size_t steps_len, size_t verdicts_len, uint16_t &n)
{
    std::vector<uint16_t> record(record_len), steps(steps_len);
    std::vector<uint8_t> verdicts(verdicts_len);
    for (size_t at = 0; at + 2 < steps_len; at += KP_STEP_LEN) {
        steps[at] = 1;
        steps[at + 1] = 3;
        steps[at + 2] = 2;
    }
    return kp_run(record.data(), record_len, 8, steps.data(), steps_len, verdicts.data(), verdicts_len, &n);
}

// a text, read into a table of so many numbers
static unsigned read(const std::string &text, size_t steps_len, uint16_t &count)
{
    std::vector<uint16_t> steps(steps_len);
    uint16_t answers = 0, line = 0;
    const uint8_t *bytes = reinterpret_cast<const uint8_t *>(text.data());
    return kp_read(bytes, text.size(), steps.data(), steps_len, &answers, &count, &line);
}

static void limits_of_a_run()
{
    uint16_t n = 0;
    same("the most steps", run(KP_RECORD_LEN_MAX, KP_STEPS_LEN_MAX, KP_STEPS_MAX, n), 0);
    same("the most messages", n, KP_MESSAGES_MAX);
    same("room for one message", run(KP_MESSAGE_LEN, 2 * KP_STEP_LEN, 2, n), 0);
    same("one message", n, 1);
    same("half a message", run(KP_MESSAGE_LEN / 2, KP_STEP_LEN, 1, n), 1);
    same("room for one message too many", run(KP_RECORD_LEN_MAX + KP_MESSAGE_LEN, KP_STEP_LEN, 1, n), 1);
    same("a number too many", run(KP_RECORD_LEN_MAX, KP_STEP_LEN + 1, 2, n), 8);
    same("one step too many", run(KP_RECORD_LEN_MAX, KP_STEPS_LEN_MAX + KP_STEP_LEN, KP_STEPS_MAX + 1, n), 8);
    same("a verdict byte too few", run(KP_RECORD_LEN_MAX, KP_STEPS_LEN_MAX, KP_STEPS_MAX - 1, n), 9);
}

static void limits_of_a_text()
{
    uint16_t count = 0;
    std::string most = "A\t8\n";
    for (int i = 0; i < KP_STEPS_MAX; i++)
        most += "1\t3\t2\n";
    same("a text of the most steps", read(most, KP_STEPS_LEN_MAX, count), 0);
    same("its steps", count, KP_STEPS_MAX);
    same("a table one number too short", read(most, KP_STEPS_LEN_MAX - 1, count), 11);
    same("a text of one step too many", read(most + "1\t3\t2\n", KP_STEPS_LEN_MAX, count), 11);
    same("an unreadable text of the most bytes", read(std::string(KP_TEXT_LEN_MAX, 'x'), KP_STEPS_LEN_MAX, count), 10);
    same("one byte more", read(std::string(KP_TEXT_LEN_MAX + 1, 'x'), KP_STEPS_LEN_MAX, count), 11);
}

// whether the message at a place begins with these numbers and has zeros behind them
static void message(const std::vector<uint16_t> &record, size_t place, const std::vector<uint16_t> &wanted)
{
    std::string what = "message " + std::to_string(place) + ", position ";
    for (size_t at = 0; at < KP_MESSAGE_LEN; at++) {
        unsigned number = at < wanted.size() ? wanted[at] : 0;
        same((what + std::to_string(at)).c_str(), record[(place - 1) * KP_MESSAGE_LEN + at], number);
    }
}

// the messages of buyer 3 and seller 2 by the positions of 01: hashed account, mark and slip are the three, five and nine numbers of each line
static void positions(const std::vector<uint16_t> &record)
{
    message(record, 1, {1, 3, 3, 2, /**/ 3, 1, 3});
    message(record, 2, {2, 2, 2, 3, /**/ 2, 3, 3, 1, 3, /**/ 2, /**/ 2, 3, 3, 1, 3});
    message(record, 3, {3, 3, 3, 2, /**/ 1, 2, 3, 3, 1, 3, 3, 3, 1, /**/ 3, /**/ 1, 2, 3, 3, 1, 3, 3, 3, 1, /**/ 2, 3, 3, 1, 3});
    message(record, 4, {4, 2, 2, 1, /**/ 2, 3, 3, 1, 3, /**/ 1, 2, 3, 3, 1, 3, 3, 3, 1, /**/
                        2, /**/ 2, 3, 3, 1, 3, /**/ 1, 2, 3, 3, 1, 3, 3, 3, 1, /**/
                        3, /**/ 1, 2, 3, 3, 1, 3, 3, 3, 1, /**/ 2, 3, 3, 1, 3});
    message(record, 5, {5, 1, 1, 2, /**/ 1, /**/ 1, 1, /**/ 2, 3, 3, 1, 3});
}

// an honest session of buyer 3 and seller 2 after n messages, step by step; returns how many there are then
static uint16_t session(std::vector<uint16_t> &record, uint16_t n, uint16_t answers)
{
    const unsigned steps[][4] = {{1, 3, 2, 0}, {2, 2, n + 1u, 0}, {3, 3, n + 1u, n + 2u}, {4, 2, n + 2u, n + 3u}, {5, n + 4u, 0, 0}};
    for (const auto &s : steps) {
        uint16_t place = 0;
        same("a step", kp_step(record.data(), record.size(), n, answers, s[0], s[1], s[2], s[3], 0, 0, 0, &place), 0);
        same("its place", place, n + 1u);
        n = place;
    }
    return n;
}

// the session of P1, and the report on its reply
static void step_and_report()
{
    std::vector<uint16_t> record(KP_RECORD_LEN_MAX);
    uint16_t n = session(record, 0, 8);
    positions(record);
    same("the report", kp_report(record.data(), record.size(), n, n), 20);
    same("no reply", kp_report(record.data(), record.size(), n, 1), 5);
}

// Buyer 3 pays twice, first in a run and then step by step; his account is good at the first reply and not at the second. No one number of
// account answers gives both codes, and both replies are reported 20.
static void answers_of_each_call()
{
    static const uint16_t list[][KP_STEP_LEN] = {{1, 3, 2}, {2, 2, 1}, {3, 3, 1, 2}, {4, 2, 2, 3}, {5, 4}};
    std::vector<uint16_t> record(KP_RECORD_LEN_MAX);
    uint8_t verdicts[5];
    uint16_t n = 0;
    same("the run", kp_run(record.data(), record.size(), 8, &list[0][0], 5 * KP_STEP_LEN, verdicts, 5, &n), 0);
    n = session(record, n, 0);
    same("the code of the first reply", record[4 * KP_MESSAGE_LEN + 4], 1);
    same("the code of the second reply", record[9 * KP_MESSAGE_LEN + 4], 2);
    same("the report on the first", kp_report(record.data(), record.size(), n, 5), 20);
    same("the report on the second", kp_report(record.data(), record.size(), n, 10), 20);
}

// Buyer 3 pays with step 38: his Payment has the slip under key 0 in both places, the seller asks with it, and the house refuses.
static void paid_under_key_0()
{
    const unsigned steps[][5] = {{1, 3, 2, 0, 0}, {2, 2, 1, 0, 0}, {38, 3, 1, 2, 0}, {4, 2, 2, 3, 0}, {5, 4, 0, 0, 6}};
    std::vector<uint16_t> record(KP_RECORD_LEN_MAX);
    uint16_t n = 0;
    for (const auto &s : steps) {
        uint16_t place = 0;
        same("a step", kp_step(record.data(), record.size(), n, 8, s[0], s[1], s[2], s[3], 0, 0, 0, &place), s[4]);
        n = place == 0 ? n : place;
    }
    same("four messages", n, 4);
    message(record, 3, {3, 3, 3, 2, /**/ 0, 2, 3, 3, 1, 3, 3, 3, 1, /**/ 3, /**/ 0, 2, 3, 3, 1, 3, 3, 3, 1, /**/ 2, 3, 3, 1, 3});
}

// the greatest code is a step, here one that names no message; the next is none
static void limit_of_a_code()
{
    std::vector<uint16_t> record(KP_MESSAGE_LEN);
    uint16_t place = 0;
    same("the greatest code", kp_step(record.data(), record.size(), 0, 8, KP_CODE_MAX, 0, 0, 0, 0, 0, 0, &place), 4);
    same("one more", kp_step(record.data(), record.size(), 0, 8, KP_CODE_MAX + 1, 0, 0, 0, 0, 0, 0, &place), 2);
}

int main()
{
    limits_of_a_run();
    limits_of_a_text();
    limit_of_a_code();
    step_and_report();
    answers_of_each_call();
    paid_under_key_0();
    std::printf("%d differences\n", differences);
    return differences != 0;
}
