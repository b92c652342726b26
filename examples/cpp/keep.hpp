// How the samples store texts.
#ifndef KEEP_HPP
#define KEEP_HPP

#include <cerrno>
#include <cstdio>
#include <fcntl.h>
#include <string>
#include <string_view>
#include <unistd.h>

// A text with its CR, which ends a record; an empty one has none.
inline std::string with_cr(std::string_view text) {
    bool lacks = !text.empty() && text.back() != '\r';
    return std::string(text).append(lacks ? "\r" : "");
}

// A file of texts, each with its CR, which one program at a time writes. Half of a text doesn't stay in it, since the
// next text would be read as its rest: `^^^GLU|1` and `H|\^&` are a glucose of 1H.
class text_file {
    int file_;
    off_t end_ = 0;    // where its last whole text ends
    bool is_good_ = false;

    // Drops what follows the last whole text, if anything does; whether nothing does now.
    bool cut_back() { return lseek(file_, 0, SEEK_END) == end_ || (ftruncate(file_, end_) == 0 && fsync(file_) == 0); }

    // Finds where the last whole text ends; false if the file can't be read, or a line feed or more than a text
    // follows: it is no file of texts.
    bool find_end() {
        char last = 0;
        off_t size = end_ = lseek(file_, 0, SEEK_END);
        for (; end_ > 0; end_--) {
            if (pread(file_, &last, 1, end_ - 1) != 1 || last == '\n' || size - end_ == 1 << 20)
                return false;
            if (last == '\r')
                return true;
        }
        return true;
    }

public:
    // Opens the file, and cuts off half a text that a power failure left after its last CR. It is false if that fails,
    // or another program writes the file.
    explicit text_file(const char *path) : file_(open(path, O_RDWR | O_CREAT | O_APPEND, 0600)) {
        struct flock alone = {};
        alone.l_type = F_WRLCK;
        alone.l_whence = SEEK_SET;
        if (file_ < 0 || fcntl(file_, F_SETLK, &alone) != 0)
            return;
        if (!find_end()) {
            std::fprintf(stderr, "%s is no file of texts\n", path);
            errno = EINVAL;
            return;
        }
        if (auto half = static_cast<long long>(lseek(file_, 0, SEEK_END) - end_); half > 0)
            std::fprintf(stderr, "%s: half a text of %lld bytes is cut off\n", path, half);
        is_good_ = cut_back();
    }
    text_file(const text_file &) = delete;
    text_file &operator=(const text_file &) = delete;
    ~text_file() {
        if (file_ >= 0)
            close(file_);
    }
    explicit operator bool() const { return is_good_; }

    // Appends a text, with a CR if it has none; whether it is on the disk. Else the file is as it was, or nothing is
    // kept in it until it can be cut back.
    bool keep(std::string_view text) {
        std::string whole = with_cr(text);
        auto size = static_cast<ssize_t>(whole.size());
        if (!cut_back())
            return false;
        if (write(file_, whole.data(), whole.size()) == size && fsync(file_) == 0) {
            end_ += size;
            return true;
        }
        cut_back();    // if that fails, the next call tries it again
        return false;
    }
};

#endif
