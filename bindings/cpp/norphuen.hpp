// Norphuen for C++17, over include/norphuen.h, whose comments hold here too. A `heap` closes itself, an `object<T>` is
// the handle of a T, and a `scope` lends a heap while it lives and has a reference to each object asked for. Nothing
// here throws, or allocates beyond the header's calls, except that `images::heap::save` resizes its buffer. `heap` and
// `object` are over the short names; the namespaces `sliced`, `tasks`, `images` and `large` have those of the libraries
// without short names. A heap of a library that lends nothing has no scope.
#ifndef NORPHUEN_HPP
#define NORPHUEN_HPP

#include "norphuen.h"

#include <array>
#include <cassert>
#include <cstddef>
#include <tuple>
#include <type_traits>

// With another library under the short names, the classes are other types.
#if defined NPH_USE_NONMOVING
#define NPH_NAMESPACE nonmoving
#elif defined NPH_USE_TLSF
#define NPH_NAMESPACE tlsf
#elif defined NPH_USE_HALF
#define NPH_NAMESPACE half
#else
#define NPH_NAMESPACE moving
#endif

namespace norphuen {

// The handle of an object that holds a T, or of none. Its type also names the library's heap and, for a heap of tasks, the Task.
// An object may hold handles, its own type's too.
template <class Raw, class T, uint32_t... Task> struct object_of {
    static_assert(((Task < 16) && ...), "tasks are 0 to 15");

    uint32_t handle = NPH_NONE;

    explicit operator bool() const { return handle != NPH_NONE; }
    friend bool operator==(object_of a, object_of b) { return a.handle == b.handle; }
    friend bool operator!=(object_of a, object_of b) { return a.handle != b.handle; }
};

// What the heaps of all libraries share, over the calls of one library. A heap is closed at first, and can't be copied.
template <class Raw, auto Close, auto Malloc, auto Write, auto Read> class heap_of {
  public:
    heap_of(const heap_of &) = delete;
    heap_of &operator=(const heap_of &) = delete;

    // Makes an object whose bytes are all zero, as nph_malloc.
    template <class T, uint32_t... Task> [[nodiscard]] nph_status make(object_of<Raw, T, Task...> &made) {
        return Malloc(&raw_, Task..., bytes_of<T>(), &made.handle);
    }

    // Makes an object that holds a copy of `value`, as nph_malloc and nph_write.
    template <class T, uint32_t... Task> [[nodiscard]] nph_status make(object_of<Raw, T, Task...> &made, const T &value) {
        nph_status status = make(made);
        return status == NPH_OK ? write(made, value) : status;
    }

    // Copies `value` into the object, as nph_write.
    template <class T, uint32_t... Task> [[nodiscard]] nph_status write(object_of<Raw, T, Task...> to, const T &value) {
        return Write(&raw_, Task..., to.handle, 0, &value, bytes_of<T>());
    }

    // Copies the object into `value`, as nph_read.
    template <class T, uint32_t... Task> [[nodiscard]] nph_status read(object_of<Raw, T, Task...> from, T &value) {
        return Read(&raw_, Task..., from.handle, 0, &value, bytes_of<T>());
    }

    // For the other calls of norphuen.h.
    Raw *raw() { return &raw_; }

  protected:
    heap_of() = default;
    ~heap_of() { Close(&raw_); }

    // The length of a T in bytes.
    template <class T> static constexpr uint32_t bytes_of() {
        static_assert(std::is_trivially_copyable_v<T>, "the library moves objects by copying their bytes");
        static_assert(sizeof(T) <= UINT32_MAX, "a length has 32 bits");
        return sizeof(T);
    }

    // Returns the status of a free. The handle of the object is none if that is NPH_OK.
    template <class Object> static nph_status none_if_freed(Object &object, nph_status status) {
        if (status == NPH_OK) object = {};
        return status;
    }

    Raw raw_ = {};
};

// What the scopes of all heaps share, over the calls of one library.
template <class Raw, auto Length, auto Place, auto Lend, auto Return> class loan_of {
  public:
    using raw_heap = Raw;

    loan_of(const loan_of &) = delete;
    loan_of &operator=(const loan_of &) = delete;

    nph_status status() const { return status_; }

  protected:
    explicit loan_of(Raw *heap) : heap_(heap) {}
    ~loan_of() {
        nph_status returned = status_ == NPH_OK ? Return(heap_) : NPH_OK;
        assert(returned == NPH_OK);
        (void)returned;
    }

    // Finds the place of an object of at least `bytes` bytes, if nothing failed before.
    void find(uint32_t handle, size_t bytes, uint32_t *place) {
        uint32_t length = 0;
        if (status_ == NPH_OK) status_ = Length(heap_, handle, &length);
        if (status_ == NPH_OK && length < bytes) status_ = NPH_RANGE;
        if (status_ == NPH_OK) status_ = Place(heap_, handle, place);
    }

    // Lends the heap, if nothing failed before.
    void lend() {
        if (status_ == NPH_OK) status_ = Lend(heap_, &words_);
    }

    Raw *heap_;
    nph_status status_ = NPH_OK;
    uint64_t *words_ = nullptr;
};

// Lends the heap from its construction to its end, if its status is NPH_OK: then `auto &[x, y] = scope;` names the objects.
// Each call on the heap but nph_return and nph_close returns NPH_LENT meanwhile. Else the status is that of a failed
// nph_length, nph_place or nph_lend, NPH_RANGE if an object is shorter than its type, or NPH_BUSY if a job is pending in a
// heap of slices. No reference to an object is used after the scope's end.
template <class Heap, class... T> class scope : public Heap::loan {
    static_assert((std::is_trivially_copyable_v<T> && ...), "the library moves objects by copying their bytes");
    static_assert(((alignof(T) <= 8) && ...), "objects are aligned to 8 bytes");

  public:
    [[nodiscard]] explicit scope(Heap &lent, object_of<typename Heap::loan::raw_heap, T>... objects) : Heap::loan(lent.raw()) {
        uint32_t *place = places_;
        (this->find(objects.handle, sizeof(T), place++), ...);
        this->lend();
    }

    // The object number I. A reference would outlive a temporary scope, so that has none.
    template <size_t I> auto &get() & {
        assert(this->status() == NPH_OK);
        return *static_cast<std::tuple_element_t<I, std::tuple<T...>> *>(Heap::bytes(this->words_, places_[I]));
    }
    template <size_t I> auto &get() && = delete;

  private:
    uint32_t places_[sizeof...(T)] = {};
};

inline namespace NPH_NAMESPACE {

template <class T> using object = object_of<nph_heap, T>;

class heap : public heap_of<nph_heap, nph_close, nph_malloc, nph_write, nph_read> {
  public:
#ifndef NPH_USE_NONMOVING
    // What a scope calls.
    using loan = loan_of<nph_heap, nph_length, nph_place, nph_lend, nph_return>;
    static void *bytes(uint64_t *words, uint32_t place) { return nph_bytes(words, place); }
#endif

    // As nph_open.
    [[nodiscard]] nph_status open(uint32_t pages, uint32_t page_bytes, uint32_t k, uint32_t proxies) {
        return nph_open(&raw_, pages, page_bytes, k, proxies);
    }

    // What `open` with these settings asks for, as nph_bytes_needed.
    [[nodiscard]] static nph_status bytes_needed(uint32_t pages, uint32_t page_bytes, uint32_t k, uint32_t proxies,
                                                 nph_needed &needed) {
        return nph_bytes_needed(pages, page_bytes, k, proxies, &needed);
    }

#if !defined NPH_USE_TLSF && !defined NPH_USE_HALF
    // How many pages are enough for these needs, as nph_pages_needed.
    [[nodiscard]] static nph_status pages_needed(uint32_t page_bytes, uint32_t k, const nph_need *needs, size_t count,
                                                 uint32_t &pages) {
        return nph_pages_needed(page_bytes, k, needs, count, &pages);
    }
#endif

    // Frees the object, whose handle is none afterwards, as nph_free.
    template <class T> [[nodiscard]] nph_status drop(object<T> &dropped, nph_freed *freed = nullptr) {
        return none_if_freed(dropped, nph_free(&raw_, dropped.handle, freed));
    }
};

} // namespace NPH_NAMESPACE

// Frees in slices. The other calls of the header are made with `raw`.
namespace sliced {

template <class T> using object = object_of<nph_sliced_heap, T>;

class heap : public heap_of<nph_sliced_heap, nph_sliced_close, nph_sliced_malloc, nph_sliced_write, nph_sliced_read> {
  public:
    // What a scope calls.
    using loan = loan_of<nph_sliced_heap, nph_sliced_length, nph_sliced_place, nph_sliced_lend, nph_sliced_return>;
    static void *bytes(uint64_t *words, uint32_t place) { return nph_sliced_bytes(words, place); }

    // As nph_sliced_open.
    [[nodiscard]] nph_status open(uint32_t pages, uint32_t page_bytes, uint32_t proxies, uint32_t quantum) {
        return nph_sliced_open(&raw_, pages, page_bytes, proxies, quantum);
    }

    // What `open` with these settings asks for, as nph_sliced_bytes_needed.
    [[nodiscard]] static nph_status bytes_needed(uint32_t pages, uint32_t page_bytes, uint32_t proxies, nph_needed &needed) {
        return nph_sliced_bytes_needed(pages, page_bytes, proxies, &needed);
    }

    // Frees the object, whose handle is none afterwards, and does the first slice of its job, as nph_sliced_free.
    template <class T> [[nodiscard]] nph_status drop(object<T> &dropped) {
        return none_if_freed(dropped, nph_sliced_free(&raw_, dropped.handle));
    }

    // Does one slice of the pending job, and writes how many words are left, of the next job if one began, as nph_sliced_step and
    // nph_sliced_left.
    [[nodiscard]] nph_status step(uint32_t &left) {
        nph_status status = nph_sliced_step(&raw_);
        return status == NPH_OK ? nph_sliced_left(&raw_, &left) : status;
    }
};

} // namespace sliced

// Heaps of tasks. The handles of two tasks have different types, so a call for one task takes no handle of another. `make`, `write`,
// `read` and `drop` take the task's number from the handle's type; the other calls of the header are made with `raw`.
namespace tasks {

template <class T, uint32_t Task> using object = object_of<nph_tasks_heap, T, Task>;

class heap : public heap_of<nph_tasks_heap, nph_tasks_close, nph_tasks_malloc, nph_tasks_write, nph_tasks_read> {
  public:
    // As nph_tasks_open.
    [[nodiscard]] nph_status open(uint32_t pages, uint32_t page_bytes, uint32_t proxies) {
        return nph_tasks_open(&raw_, pages, page_bytes, proxies);
    }

    // What `open` with these settings asks for, as nph_tasks_bytes_needed.
    [[nodiscard]] static nph_status bytes_needed(uint32_t pages, uint32_t page_bytes, uint32_t proxies, nph_needed &needed) {
        return nph_tasks_bytes_needed(pages, page_bytes, proxies, &needed);
    }

    // Frees the object, whose handle is none afterwards, as nph_tasks_free.
    template <class T, uint32_t Task> [[nodiscard]] nph_status drop(object<T, Task> &dropped, nph_freed *freed = nullptr) {
        return none_if_freed(dropped, nph_tasks_free(&raw_, Task, dropped.handle, freed));
    }
};

} // namespace tasks

// Images. An object has an id that the program chooses; in braces a constant of more than 16 bits does not compile. The other
// calls of the header are made with `raw`.
namespace images {

template <class T> struct object : object_of<nph_images_heap, T> {
    constexpr explicit object(uint16_t id) : object_of<nph_images_heap, T>{id} {}
};

// As nph_images_make, with the parameters of nph_malloc.
inline nph_status make_under(nph_images_heap *heap, uint32_t bytes, uint32_t *id) { return nph_images_make(heap, *id, bytes); }

class heap : public heap_of<nph_images_heap, nph_images_close, make_under, nph_images_write, nph_images_read> {
  public:
    // As nph_images_open.
    [[nodiscard]] nph_status open(uint32_t pages, uint32_t page_bytes, uint32_t k, uint32_t proxies) {
        return nph_images_open(&raw_, pages, page_bytes, k, proxies);
    }

    // What `open` with these settings asks for, as nph_images_bytes_needed.
    [[nodiscard]] static nph_status bytes_needed(uint32_t pages, uint32_t page_bytes, uint32_t k, uint32_t proxies,
                                                 nph_needed &needed) {
        return nph_images_bytes_needed(pages, page_bytes, k, proxies, &needed);
    }

    // Opens the heap with the settings and objects of an image, as nph_images_load. Its bytes are in a vector, an array or the
    // like. `offset` is written with NPH_IMAGE.
    template <class Bytes> [[nodiscard]] nph_status load(const Bytes &image, uint32_t k, uint64_t &offset) {
        static_assert(sizeof(*image.data()) == 1, "an image is bytes");
        const void *bytes = image.size() == 0 ? "" : static_cast<const void *>(image.data());
        return nph_images_load(&raw_, bytes, image.size(), k, &offset);
    }

    // Resizes a vector of bytes or the like to the heap's image, as nph_images_image_bytes and nph_images_save.
    template <class Bytes> [[nodiscard]] nph_status save(Bytes &image) {
        static_assert(sizeof(*image.data()) == 1, "an image is bytes");
        uint64_t count = 0;
        nph_status status = nph_images_image_bytes(&raw_, &count);
        if (status != NPH_OK) return status;
        image.resize(static_cast<size_t>(count));
        return nph_images_save(&raw_, image.data(), image.size(), &count);
    }

    // Makes the object of this id, as nph_images_make and nph_images_write.
    template <class T> [[nodiscard]] nph_status make(object<T> made, const T &value) { return heap_of::make(made, value); }

    // Frees the object of this id, as nph_images_free.
    template <class T> [[nodiscard]] nph_status drop(object<T> dropped) { return nph_images_free(&raw_, dropped.handle); }
};

} // namespace images

// Long objects. A T may be longer than a page. If it is a std::array, write_element and read_element copy one element. The other
// calls of the header are made with `raw`.
namespace large {

template <class T> using object = object_of<nph_large_heap, T>;

class heap : public heap_of<nph_large_heap, nph_large_close, nph_large_malloc, nph_large_write, nph_large_read> {
  public:
    // As nph_large_open.
    [[nodiscard]] nph_status open(uint32_t pages, uint32_t page_bytes, uint32_t proxies) {
        return nph_large_open(&raw_, pages, page_bytes, proxies);
    }

    // What `open` with these settings asks for, as nph_large_bytes_needed.
    [[nodiscard]] static nph_status bytes_needed(uint32_t pages, uint32_t page_bytes, uint32_t proxies, nph_needed &needed) {
        return nph_large_bytes_needed(pages, page_bytes, proxies, &needed);
    }

    // Frees the object with its parts, and its handle is none afterwards, as nph_large_free.
    template <class T> [[nodiscard]] nph_status drop(object<T> &dropped) {
        return none_if_freed(dropped, nph_large_free(&raw_, dropped.handle));
    }

    // Copies `value` into an element, as nph_large_write. Fails with NPH_RANGE also if there is no such element.
    template <class T, size_t N>
    [[nodiscard]] nph_status write_element(object<std::array<T, N>> to, size_t index, const T &value) {
        return index < N ? nph_large_write(&raw_, to.handle, at<T>(index), &value, bytes_of<T>()) : NPH_RANGE;
    }

    // Copies an element into `value`, as nph_large_read. Fails with NPH_RANGE also if there is no such element.
    template <class T, size_t N> [[nodiscard]] nph_status read_element(object<std::array<T, N>> from, size_t index, T &value) {
        return index < N ? nph_large_read(&raw_, from.handle, at<T>(index), &value, bytes_of<T>()) : NPH_RANGE;
    }

  private:
    template <class T> static uint32_t at(size_t index) { return static_cast<uint32_t>(index * sizeof(T)); }
};

} // namespace large
} // namespace norphuen

template <class Heap, class... T>
struct std::tuple_size<norphuen::scope<Heap, T...>> : std::integral_constant<size_t, sizeof...(T)> {};
template <size_t I, class Heap, class... T> struct std::tuple_element<I, norphuen::scope<Heap, T...>> {
    using type = std::tuple_element_t<I, std::tuple<T...>> &;
};

#endif
