#include "cases.h"

struct bench_case wrong_at(uint32_t place)
{
    return (struct bench_case){"Unlock", "wrong in one byte", .state = LOCKED, .code = 0x21, .body = WRONG_PASSWORD,
                               .first = place, .answer = MESSAGE_REPLY, .message = 2};
}

size_t main_size_of(const struct bench_case *bench_case)
{
    return bench_case->main_size == 0 ? MAIN_MOST : bench_case->main_size;
}

size_t window_size_of(const struct bench_case *bench_case)
{
    return bench_case->window_size == 0 ? WINDOW_SIZE : bench_case->window_size;
}

size_t reply_size_of(const struct bench_case *bench_case)
{
    return bench_case->reply_size == 0 ? REPLY_SIZE : bench_case->reply_size;
}
