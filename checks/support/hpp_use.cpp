// What bullmyrtle.hpp adds to bullmyrtle.h: codes as exceptions, that change nothing; views of lent texts and output;
// moves; and that a connection is freed once. Built with --wrap=malloc --wrap=realloc, by which memory is refused.
#include "bullmyrtle.hpp"

#include <cstdio>
#include <cstdlib>
#include <string>
#include <type_traits>

using bullmyrtle::connection;

static bool refuses;

extern "C" void *__real_malloc(std::size_t size);
extern "C" void *__real_realloc(void *at, std::size_t size);
extern "C" void *__wrap_malloc(std::size_t size)
{
    return refuses ? nullptr : __real_malloc(size);
}
extern "C" void *__wrap_realloc(void *at, std::size_t size)
{
    return refuses ? nullptr : __real_realloc(at, size);
}

static void check(bool is_so, const char *what)
{
    if (!is_so) {
        std::fprintf(stderr, "hpp_use: %s\n", what);
        std::exit(1);
    }
}

template <typename Call> static std::int32_t code_of(Call call)
{
    try {
        call();
    } catch (const bullmyrtle::error &error) {
        check(std::string(error.what()) == bm_code_text(error.code()), "an exception has another text than its code");
        return error.code();
    } catch (const std::bad_alloc &) {
        return BM_NO_MEMORY;
    }
    return BM_OK;
}

static connection lines()
{
    bm_options options{};
    options.framing = BM_LINES;
    return connection(options);
}

static void check_codes()
{
    connection it = lines();
    bm_options bad{};
    bad.framing = 9;
    check(code_of([&] { connection other(bad); }) == BM_SETTINGS, "settings that there can't be");
    check(code_of([&] { it.answer(1, "1"); }) == BM_NOT_OPEN, "a number that is no call");
    check(code_of([&] { it.withdraw(1); }) == BM_NOT_WAITING, "a key that is no call");
    check(code_of([&] { it.notify("a", "5"); }) == BM_NOT_JSON, "params that are a number");
    check(code_of([&] { it.call("\xff"); }) == BM_NOT_TEXT, "a method that isn't UTF-8");
    check(code_of([&] { it.feed({}); }) == BM_OK, "an empty view");
    check(code_of([&] { it.written(1); }) == BM_SETTINGS, "a length that isn't lent");
    check(it.pending() == 0 && it.counts().own_calls == 0, "what was refused has changed something");
    it.end();
    check(code_of([&] { it.feed("x"); }) == BM_OVER, "input behind the end");
}

// All that is to be written, in pieces of at most so many bytes.
static std::string written(connection &it, std::size_t most)
{
    std::string all;
    while (!it.output().empty()) {
        const auto piece = it.output().substr(0, most);
        all += piece;
        it.written(piece.size());
    }
    return all;
}

static void check_texts()
{
    connection it = lines();
    const std::string name(100000, 'm'), params = "[\"" + std::string(300000, 'p') + "\"]";
    it.feed("{\"jsonrpc\":\"2.0\",\"method\":\"" + name + "\",\"params\":" + params + ",\"id\":\"i\"}\n");
    auto told = it.next();
    check(told && told->kind == BM_CALL && told->is_request(), "a request is told");
    check(told->name == name && told->text == params && told->id == "\"i\"", "its texts");
    const auto view = told->text;
    it.fail(told->number, -5, told->name.substr(0, 1), told->text);
    it.notify(told->name, told->text);
    check(told->text.data() == view.data() && told->name == name && view == params,
          "its texts hold while it is answered");
    check(it.held() >= name.size() + params.size() + it.pending(), "its buffers hold its texts and what is pending");
    check(!it.next(), "nothing else is told");
    check(written(it, 3) ==
              "{\"error\":{\"code\":-5,\"data\":" + params +
                  ",\"message\":\"m\"},\"id\":\"i\",\"jsonrpc\":\"2.0\"}\n{\"jsonrpc\":\"2.0\",\"method\":\"" + name +
                  "\",\"params\":" + params + "}\n",
          "all bytes, in pieces");
    check(it.output().empty() && it.pending() == 0, "nothing is left");
    check(it.held() <= 73728 + 4096, "and its buffers hold little");
    const auto key = it.call("a", "[]");
    it.feed("{\"jsonrpc\":\"2.0\",\"id\":1,\"result\":7}\n");
    told = it.next();
    check(told && told->kind == BM_REPLIED && told->key == key && told->text == "7", "a response");
    check(!it.fault_at(), "no fault");
}

static void check_moves()
{
    static_assert(!std::is_copy_constructible_v<connection> && std::is_nothrow_move_constructible_v<connection>);
    connection one = lines();
    one.notify("a");
    const auto lent = one.output();
    connection other = std::move(one);
    check(other.output().data() == lent.data() && lent == "{\"jsonrpc\":\"2.0\",\"method\":\"a\"}\n",
          "a connection that was moved has what it had, and lends it");
    one = lines();
    std::swap(one, other);
    check(one.pending() > 0 && other.pending() == 0, "two that were swapped");
}

static void check_memory()
{
    connection it = lines();
    it.feed("{\"jsonrpc\":\"2.0\",\"method\":\"a\",\"id\":1}\n");
    refuses = true;
    const std::int32_t code = code_of([&] { it.next(); }), other = code_of([&] { lines(); });
    refuses = false;
    check(code == BM_NO_MEMORY && other == BM_NO_MEMORY, "refused memory is std::bad_alloc");
    check(it.next() && it.counts().open == 1, "and the call may be made again");
}

int main()
{
    check_codes();
    check_texts();
    check_moves();
    check_memory();
    return 0;
}
