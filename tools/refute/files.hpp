// Files: lines from the front, lines and records from the back, and text that is written. Memory is a few buffers.
#pragma once
#include <fcntl.h>
#include <sys/stat.h>
#include <unistd.h>

#include <cerrno>
#include <charconv>
#include <cstdint>
#include <cstring>
#include <stdexcept>
#include <string>
#include <string_view>
#include <vector>

// The proof, or a piece of one, doesn't show what it has to.
struct Refused : std::runtime_error {
    using std::runtime_error::runtime_error;
};

// A file or a word that can't be used.
struct Unusable : std::runtime_error {
    using std::runtime_error::runtime_error;
};

// Fails where a file that is read would be written over, also through links.
inline void refuse_clash(const std::string& out, const std::vector<std::string>& inputs) {
    struct stat written, read;
    if (::stat(out.c_str(), &written) != 0 || !S_ISREG(written.st_mode)) return;
    for (const std::string& input : inputs) {
        if (::stat(input.c_str(), &read) == 0 && read.st_dev == written.st_dev && read.st_ino == written.st_ino)
            throw Unusable(out + " would be written over, and is an input; give the output another name");
    }
}

constexpr size_t BLOCK = 1 << 22;

// An open file, closed at the end.
class Handle {
   public:
    Handle(const std::string& path, int flags) : path(path), number(::open(path.c_str(), flags | O_CLOEXEC, 0666)) {
        if (number < 0) fail();
    }
    Handle(const Handle&) = delete;
    Handle& operator=(const Handle&) = delete;
    ~Handle() { ::close(number); }

    [[noreturn]] void fail() const { throw Unusable(path + ": " + std::strerror(errno)); }

    // Fails unless this is a regular file: a device may never end, and a pipe can't be read from its end.
    void must_be_regular() const {
        struct stat about;
        if (::fstat(number, &about) != 0) fail();
        if (!S_ISREG(about.st_mode)) throw Unusable(path + ": not a regular file");
    }

    size_t read(char* to, size_t most, uint64_t from) const {
        size_t done = 0;
        while (done < most) {
            const ssize_t got = ::pread(number, to + done, most - done, static_cast<off_t>(from + done));
            if (got < 0 && errno == EINTR) continue;
            if (got < 0) fail();
            if (got == 0) break;
            done += static_cast<size_t>(got);
        }
        return done;
    }

    void write(const char* from, size_t length) const {
        while (length > 0) {
            const ssize_t put = ::write(number, from, length);
            if (put < 0 && errno == EINTR) continue;
            if (put <= 0) fail();
            from += put;
            length -= static_cast<size_t>(put);
        }
    }

    const std::string path;

   private:
    const int number;
};

// The lines of a file from the first on.
class Lines {
   public:
    explicit Lines(const std::string& path) : file(path, O_RDONLY) { file.must_be_regular(); }

    // The next line without its line feed; false at the end.
    bool next(std::string_view& line) {
        for (;;) {
            const char* begin = buffer.data() + at;
            if (const void* end = std::memchr(begin, '\n', filled - at)) {
                return taken(line, static_cast<size_t>(static_cast<const char*>(end) - begin), 1);
            }
            if (!fill()) return filled > at && taken(line, filled - at, 0);
        }
    }

    uint64_t number() const { return count; }
    // Where the next line begins.
    uint64_t place() const { return start + at; }

   private:
    bool taken(std::string_view& line, size_t length, size_t feed) {
        line = {buffer.data() + at, length};
        at += length + feed;
        ++count;
        return true;
    }

    bool fill() {
        std::memmove(buffer.data(), buffer.data() + at, filled - at);
        start += at;
        filled -= at;
        at = 0;
        if (filled == buffer.size()) buffer.resize(2 * buffer.size());
        const size_t got = file.read(buffer.data() + filled, buffer.size() - filled, start + filled);
        filled += got;
        return got > 0;
    }

    Handle file;
    std::vector<char> buffer = std::vector<char>(BLOCK);
    uint64_t start = 0, count = 0;
    size_t at = 0, filled = 0;
};

// A file from some place back to its first byte.
class Backward {
   public:
    Backward(const Handle& file, uint64_t end) : file(file), start(end) {}

    // The line before, without its line feed; false where there is none.
    bool previous_line(std::string_view& line) {
        if (start + at == 0) return false;
        // The line feed of the line itself, where it has one.
        if (at == 0) extend();
        if (buffer[at - 1] == '\n') --at;
        size_t seen = at;
        for (;;) {
            while (seen > 0 && buffer[seen - 1] != '\n') --seen;
            if (seen > 0 || start == 0) break;
            seen += extend();
        }
        line = {buffer.data() + seen, at - seen};
        at = seen;
        return true;
    }

    // The `length` bytes before; nullptr if there are fewer.
    const char* previous(size_t length) {
        while (at < length && start > 0) extend();
        if (at < length) return nullptr;
        at -= length;
        return buffer.data() + at;
    }

   private:
    // Reads the bytes before the buffer; returns their number.
    size_t extend() {
        const size_t more = static_cast<size_t>(std::min<uint64_t>(start, BLOCK));
        std::vector<char> wider(more + at);
        if (file.read(wider.data(), more, start - more) != more) throw Unusable(file.path + ": shorter than before");
        std::memcpy(wider.data() + more, buffer.data(), at);
        buffer.swap(wider);
        start -= more;
        at += more;
        return more;
    }

    const Handle& file;
    // Bytes of the file from `start` on, of which those up to `at` are still to be taken.
    std::vector<char> buffer;
    uint64_t start;
    size_t at = 0;
};

// Text that is written to a file beside, which has its name once `close` has returned.
class Text {
   public:
    explicit Text(const std::string& path) : path(path), file(path + ".part", O_WRONLY | O_CREAT | O_TRUNC) {}
    ~Text() {
        if (!is_closed) ::unlink(file.path.c_str());
    }

    void put(std::string_view text) {
        if (buffer.size() + text.size() > BLOCK) flush();
        buffer.append(text);
    }

    void put(int64_t number) {
        char digits[24];
        const auto end = std::to_chars(digits, digits + sizeof digits, number).ptr;
        put(std::string_view(digits, static_cast<size_t>(end - digits)));
    }

    template <typename Numbers>
    void put_all(const Numbers& numbers) {
        for (const auto number : numbers) {
            put(static_cast<int64_t>(number));
            put(" ");
        }
    }

    void close() {
        flush();
        if (::rename(file.path.c_str(), path.c_str()) != 0) file.fail();
        is_closed = true;
    }

   private:
    void flush() {
        file.write(buffer.data(), buffer.size());
        buffer.clear();
    }

    const std::string path;
    Handle file;
    std::string buffer;
    bool is_closed = false;
};

// The numbers of a line, after its first word if that is a letter; false if it has anything else.
inline bool read_numbers(std::string_view line, std::vector<int64_t>& numbers) {
    numbers.clear();
    const char* at = line.data();
    const char* end = at + line.size();
    for (;;) {
        while (at < end && (*at == ' ' || *at == '\t' || *at == '\r')) ++at;
        if (at == end) return true;
        int64_t number = 0;
        const auto read = std::from_chars(at, end, number);
        if (read.ec != std::errc() || (read.ptr < end && *read.ptr != ' ' && *read.ptr != '\t' && *read.ptr != '\r')) return false;
        numbers.push_back(number);
        at = read.ptr;
    }
}

// Whether a line is one of DIMACS text: neither empty nor a comment.
inline bool says_something(std::string_view line) {
    const size_t first = line.find_first_not_of(" \t\r");
    return first != std::string_view::npos && line[first] != 'c';
}
