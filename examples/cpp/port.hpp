// How the samples reach a line over TCP: a port of this machine for one analyzer, or the port of a host. And the clock
// that they use.
#ifndef PORT_HPP
#define PORT_HPP

#include <arpa/inet.h>
#include <chrono>
#include <cstdio>
#include <ctime>
#include <netdb.h>
#include <poll.h>
#include <string>
#include <string_view>
#include <sys/socket.h>
#include <unistd.h>

// A clock that runs on while the machine is suspended, where there is one: what came before is late then.
struct line_clock {
    using duration = std::chrono::nanoseconds;
    using rep = duration::rep;
    using period = duration::period;
    using time_point = std::chrono::time_point<line_clock>;
    static constexpr bool is_steady = true;

    static time_point now() noexcept {
#ifdef CLOCK_BOOTTIME
        constexpr clockid_t kind = CLOCK_BOOTTIME;
#else
        constexpr clockid_t kind = CLOCK_MONOTONIC;
#endif
        timespec it{};
        clock_gettime(kind, &it);
        return time_point(std::chrono::seconds(it.tv_sec) + std::chrono::nanoseconds(it.tv_nsec));
    }
};

// The line of the first analyzer that connects to a port; port 0 is one that is free, and is printed. -1 if it fails.
inline int accept_one(unsigned short port) {
    int server = socket(AF_INET, SOCK_STREAM, 0), again = 1;
    sockaddr_in at{};
    socklen_t size = sizeof at;
    at.sin_family = AF_INET;
    at.sin_port = htons(port);
    at.sin_addr.s_addr = htonl(INADDR_LOOPBACK);
    if (server < 0 || setsockopt(server, SOL_SOCKET, SO_REUSEADDR, &again, sizeof again) != 0
        || bind(server, reinterpret_cast<sockaddr *>(&at), sizeof at) != 0 || listen(server, 1) != 0
        || getsockname(server, reinterpret_cast<sockaddr *>(&at), &size) != 0)
        return -1;
    if (port == 0) {
        std::printf("port %d\n", ntohs(at.sin_port));
        std::fflush(stdout);
    }
    int line = accept(server, nullptr, nullptr);
    close(server);    // the next program may have the port
    return line;
}

// A new line to HOST:PORT, -1 if it fails.
inline int connect_to(const std::string &place) {
    std::size_t colon = place.rfind(':');
    addrinfo wanted{}, *found = nullptr;
    wanted.ai_socktype = SOCK_STREAM;
    if (colon == std::string::npos
        || getaddrinfo(place.substr(0, colon).c_str(), place.substr(colon + 1).c_str(), &wanted, &found) != 0)
        return -1;
    int line = -1;
    for (addrinfo *it = found; it != nullptr && line < 0; it = it->ai_next) {
        line = socket(it->ai_family, it->ai_socktype, it->ai_protocol);
        if (line >= 0 && connect(line, it->ai_addr, it->ai_addrlen) != 0) {
            close(line);
            line = -1;
        }
    }
    freeaddrinfo(found);
    return line;
}

// Whether bytes come within a second, or the end of the line.
inline bool comes(int line) {
    pollfd ready = {line, POLLIN, 0};
    return poll(&ready, 1, 1000) != 0;
}

// Sends bytes, none too; whether the line takes them all. A line that the other side closed ends no program.
inline bool put(int line, std::string_view bytes) {
    return ::send(line, bytes.data(), bytes.size(), MSG_NOSIGNAL) == static_cast<ssize_t>(bytes.size());
}

#endif
