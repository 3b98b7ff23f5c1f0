// One end of a JSON-RPC 2.0 conversation for C++17, over bullmyrtle.h: a connection that frees itself, events whose
// texts are views, and exceptions for codes. Everything is inline, and calls the library as bullmyrtle.h describes it.
#ifndef BULLMYRTLE_HPP
#define BULLMYRTLE_HPP

#include "bullmyrtle.h"

#include <cstddef>
#include <cstdint>
#include <new>
#include <optional>
#include <stdexcept>
#include <string_view>
#include <utility>

namespace bullmyrtle
{

// What a call throws where its code isn't BM_OK. The call has changed nothing. Refused memory is thrown as
// std::bad_alloc, and the call may be made again.
class error : public std::runtime_error
{
  public:
    explicit error(std::int32_t code) : std::runtime_error(bm_code_text(code)), code_(code)
    {
    }

    std::int32_t code() const noexcept
    {
        return code_;
    }

  private:
    std::int32_t code_;
};

// An event, as bm_event has it. Its texts are views of what the library lends: they hold until the connection is fed,
// ended, asked for the next event or destroyed, and so may be passed to its other calls.
struct event {
    std::uint32_t kind = BM_NONE, flags = 0;
    std::uint64_t number = 0, key = 0;
    std::int64_t code = 0;
    std::string_view name, text, id;

    bool is_request() const noexcept
    {
        return kind == BM_CALL && (flags & BM_REQUEST);
    }
};

class connection
{
  public:
    explicit connection(bm_options options)
    {
        options.size = sizeof options;
        check(bm_open(&options, &held_.at));
    }

    connection(const connection &) = delete;
    connection &operator=(const connection &) = delete;

    connection(connection &&other) noexcept : held_(std::exchange(other.held_, bm_connection{nullptr}))
    {
    }

    connection &operator=(connection &&other) noexcept
    {
        std::swap(held_, other.held_);
        return *this;
    }

    ~connection()
    {
        if (held_.at)
            bm_free(held_);
    }

    // Input

    void feed(std::string_view bytes)
    {
        check(bm_feed(&held_, data(bytes), bytes.size()));
    }

    void end(bool has_failed = false)
    {
        check(bm_end(&held_, has_failed ? BM_READ_FAILED : BM_CLOSED));
    }

    // The next event, or nothing where there is none now.
    std::optional<event> next()
    {
        bm_event it;
        check(bm_next(&held_, &it));
        if (it.kind == BM_NONE)
            return std::nullopt;
        return event{it.kind,
                     it.flags,
                     it.number,
                     it.key,
                     it.code,
                     view(it.name, it.name_len),
                     view(it.text, it.text_len),
                     view(it.id, it.id_len)};
    }

    // Where the frame or line begins that put an end to the input.
    std::optional<std::uint64_t> fault_at()
    {
        std::uint64_t offset;
        return bm_fault_at(&held_, &offset) ? std::optional(offset) : std::nullopt;
    }

    // Answers

    void answer(std::uint64_t number, std::string_view json)
    {
        check(bm_answer(&held_, number, data(json), json.size()));
    }

    // An error. Without data the answer has none.
    void fail(std::uint64_t number, std::int64_t code, std::string_view message, std::string_view json = {})
    {
        check(bm_fail(&held_, number, code, data(message), message.size(), data(json), json.size()));
    }

    void close(std::uint64_t number)
    {
        check(bm_close_call(&held_, number));
    }

    void cancel(std::uint64_t number)
    {
        check(bm_cancel(&held_, number));
    }

    // Outgoing calls. Without params a call has none.

    // Sends a request, and returns the key by which its answer is reported. A request that is sent while a request of
    // the other side is answered names its number; 0 names none.
    std::uint64_t call(std::string_view method, std::string_view params = {}, std::uint64_t number = 0)
    {
        std::uint64_t key = 0;
        check(bm_call(&held_, number, data(method), method.size(), data(params), params.size(), &key));
        return key;
    }

    void notify(std::string_view method, std::string_view params = {})
    {
        check(bm_notify(&held_, data(method), method.size(), data(params), params.size()));
    }

    void withdraw(std::uint64_t key)
    {
        check(bm_withdraw(&held_, key));
    }

    // Output

    std::size_t pending() noexcept
    {
        return bm_pending(&held_);
    }

    // For how many bytes its buffers have room, which is little once all is written. With the framing BM_CONTENTS,
    // messages that aren't lent yet aren't counted.
    std::size_t held() noexcept
    {
        return bm_held(&held_);
    }

    // What is to be written, or the first bytes of it: an empty view only where there is nothing. It holds until some
    // of it was written, or the connection is destroyed. With the framing BM_CONTENTS it is one message.
    std::string_view output() noexcept
    {
        const std::uint8_t *at = nullptr;
        const std::size_t length = bm_output(&held_, &at);
        return view(at, length);
    }

    // Says how many bytes of the output were written: ask for it again.
    void written(std::size_t length)
    {
        check(bm_written(&held_, length));
    }

    // State

    bool is_done() noexcept
    {
        return bm_is_done(&held_);
    }

    bm_report counts() noexcept
    {
        bm_report report;
        bm_counts(&held_, &report);
        return report;
    }

    // For the calls of bullmyrtle.h that have no name here.
    bm_connection *get() noexcept
    {
        return &held_;
    }

  private:
    bm_connection held_{nullptr};

    static void check(std::int32_t code)
    {
        if (code == BM_NO_MEMORY)
            throw std::bad_alloc();
        if (code != BM_OK)
            throw error(code);
    }

    static const std::uint8_t *data(std::string_view text) noexcept
    {
        return reinterpret_cast<const std::uint8_t *>(text.data());
    }

    static std::string_view view(const std::uint8_t *at, std::size_t length) noexcept
    {
        return {reinterpret_cast<const char *>(at), length};
    }
};

} // namespace bullmyrtle

#endif
