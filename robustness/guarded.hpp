// Memory that ends at a page which nobody may touch: a read or write past its end stops the program, in code that no
// sanitizer has seen as well. The page before it is closed too.
#ifndef GUARDED_HPP
#define GUARDED_HPP

#include <cstddef>
#include <cstdio>
#include <cstdlib>
#include <sys/mman.h>
#include <unistd.h>

template <class T>
class Guarded {
  public:
    explicit Guarded(std::size_t count) : count(count) {
        const std::size_t page = static_cast<std::size_t>(sysconf(_SC_PAGESIZE));
        const std::size_t open = (count * sizeof(T) + page - 1) / page * page;
        whole = open + 2 * page;
        base = static_cast<char *>(mmap(nullptr, whole, PROT_NONE, MAP_PRIVATE | MAP_ANONYMOUS, -1, 0));
        if (base == MAP_FAILED || (open > 0 && mprotect(base + page, open, PROT_READ | PROT_WRITE) != 0)) {
            std::perror("guarded memory");
            std::abort();
        }
        first = reinterpret_cast<T *>(base + page + open) - count;
    }
    ~Guarded() { munmap(base, whole); }
    Guarded(const Guarded &) = delete;
    Guarded &operator=(const Guarded &) = delete;

    T *data() const { return first; }
    std::size_t size() const { return count; }
    T *begin() const { return first; }
    T *end() const { return first + count; }

  private:
    std::size_t count, whole;
    char *base;
    T *first;
};

#endif
