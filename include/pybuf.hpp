/* pybuf: types of C++17 over pybuf.h that free what they own.
 *
 * Worlds, formats and views are moved and never copied. At the end of its scope a world or a format is freed, and a view is
 * released. Calls of pybuf.h take what `get()` of a world or format and `object()` of a view give. A view ends before its world.
 */
#ifndef PYBUF_HPP
#define PYBUF_HPP

#include "pybuf.h"

#include <memory>
#include <string_view>
#include <utility>

namespace pybuf {

struct frees {
    void operator()(pybuf_world *world) const noexcept { pybuf_world_free(world); }
    void operator()(pybuf_format *format) const noexcept { pybuf_format_free(format); }
};

using world = std::unique_ptr<pybuf_world, frees>;
using format = std::unique_ptr<pybuf_format, frees>;

/* pybuf_world_new. What `made` held is freed, and on any status but PYBUF_OK it holds nothing then. */
inline pybuf_status make(world &made) noexcept
{
    pybuf_world *given = nullptr;
    pybuf_status status = pybuf_world_new(&given);
    made.reset(given);
    return status;
}

/* pybuf_format_parse, likewise. */
inline pybuf_status parse(std::string_view text, format &made) noexcept
{
    pybuf_format *given = nullptr;
    pybuf_status status = pybuf_format_parse(text.data(), text.size(), &given);
    made.reset(given);
    return status;
}

/* A view of an object, or none. */
class view {
public:
    view() noexcept = default;
    view(view &&other) noexcept : of(std::exchange(other.of, nullptr)), number(other.number) {}
    view &operator=(view &&other) noexcept
    {
        if (this != &other) {
            release();
            of = std::exchange(other.of, nullptr);
            number = other.number;
        }
        return *this;
    }
    ~view() { release(); }

    /* pybuf_view of an object. The view that was held is released, and on any status but PYBUF_OK none is held then. */
    pybuf_status open(const world &owner, pybuf_object object) noexcept
    {
        release();
        pybuf_status status = pybuf_view(owner.get(), object, &number);
        if (status == PYBUF_OK)
            of = owner.get();
        return status;
    }

    /* pybuf_release. Where none is held, nothing is done. */
    void release() noexcept
    {
        if (of)
            pybuf_release(std::exchange(of, nullptr), number);
    }

    explicit operator bool() const noexcept { return of != nullptr; }
    pybuf_object object() const noexcept { return number; }

private:
    pybuf_world *of = nullptr;
    pybuf_object number = 0;
};

} // namespace pybuf

#endif
