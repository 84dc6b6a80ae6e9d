// Sends orders to a FIX venue on this machine as so many members at once, and says how long their acknowledgements took.
//
//   load PORT MEMBERS ORDERS WINDOW [BEGIN]     each of the members M0, M1, .. sends ORDERS orders, at most WINDOW of them unanswered
//
// BEGIN is the number of the first message (1; a member that has been here before goes on with its next number). One thread, epoll. An
// acknowledgement is an ExecutionReport(8) with ExecType(150) 0. It prints one line: orders a second, and the times from an order's
// last byte to its acknowledgement's last byte in microseconds: median, 99 %, worst.
#include <arpa/inet.h>
#include <fcntl.h>
#include <netinet/tcp.h>
#include <sys/epoll.h>
#include <sys/socket.h>
#include <unistd.h>

#include <algorithm>
#include <chrono>
#include <cstdio>
#include <cstdlib>
#include <cstring>
#include <ctime>
#include <deque>
#include <string>
#include <vector>

namespace {

using Clock = std::chrono::steady_clock;

std::string stamp() {
    timespec now;
    clock_gettime(CLOCK_REALTIME, &now);
    tm parts;
    gmtime_r(&now.tv_sec, &parts);
    char text[64];
    std::snprintf(text, sizeof text, "%04d%02d%02d-%02d:%02d:%02d.%03ld", parts.tm_year + 1900, parts.tm_mon + 1, parts.tm_mday,
                  parts.tm_hour, parts.tm_min, parts.tm_sec, now.tv_nsec / 1000000);
    return text;
}

std::string framed(const std::string& content) {
    std::string frame = "8=FIXT.1.1\x01" "9=" + std::to_string(content.size()) + "\x01" + content;
    unsigned sum = 0;
    for (unsigned char byte : frame) sum += byte;
    char check[10];
    std::snprintf(check, sizeof check, "10=%03u\x01", sum % 256);
    return frame + check;
}

struct Member {
    int socket = -1;
    std::string name, in, out;
    int next = 1, sent = 0, acknowledged = 0;
    bool up = false;
    std::deque<Clock::time_point> waiting;
};

std::string message(Member& member, const char* kind, const std::string& body) {
    return framed(std::string("35=") + kind + "\x01" "49=" + member.name + "\x01" "56=PEGV\x01" "34=" + std::to_string(member.next++)
                  + "\x01" "52=" + stamp() + "\x01" + body);
}

void flush(Member& member) {
    while (!member.out.empty()) {
        const ssize_t count = send(member.socket, member.out.data(), member.out.size(), MSG_NOSIGNAL);
        if (count <= 0) return;
        member.out.erase(0, count);
    }
}

void fill(Member& member, int orders, int window, const std::string& run) {
    while (member.up && member.sent < orders && member.sent - member.acknowledged < window) {
        const std::string id = run + std::to_string(member.sent);
        const std::string now = stamp();
        member.out += message(member, "D", "11=" + id + "\x01" "55=S" + std::to_string(member.sent % 16) + "\x01" "54=1\x01" "38=100\x01"
                              "40=P\x01" "1094=2\x01" "60=" + now + "\x01");
        member.waiting.push_back(Clock::now());
        ++member.sent;
    }
    flush(member);
}

// Takes the whole frames that have come. False at the end of the connection.
bool receive(Member& member, std::vector<double>& times) {
    char room[65536];
    for (;;) {
        const ssize_t count = recv(member.socket, room, sizeof room, 0);
        if (count == 0) return false;
        if (count < 0) break;
        member.in.append(room, count);
    }
    const auto now = Clock::now();
    std::size_t at = 0;
    for (;;) {
        const std::size_t end = member.in.find("\x01" "10=", at);
        if (end == std::string::npos || member.in.size() < end + 8) break;
        const std::size_t begin = at;
        at = end + 8;
        const std::string frame = member.in.substr(begin, at - begin);
        if (frame.find("\x01" "35=A\x01") != std::string::npos) member.up = true;
        if (frame.find("\x01" "35=8\x01") != std::string::npos && frame.find("\x01" "150=0\x01") != std::string::npos && !member.waiting.empty()) {
            times.push_back(std::chrono::duration<double, std::micro>(now - member.waiting.front()).count());
            member.waiting.pop_front();
            ++member.acknowledged;
        }
        if (frame.find("\x01" "35=1\x01") != std::string::npos) {
            const std::size_t id = frame.find("\x01" "112=");
            const std::string value = frame.substr(id + 5, frame.find('\x01', id + 1) - id - 5);
            member.out += message(member, "0", "112=" + value + "\x01");
        }
        if (frame.find("\x01" "35=5\x01") != std::string::npos || frame.find("\x01" "35=3\x01") != std::string::npos) {
            std::fprintf(stderr, "load: %s was told %s\n", member.name.c_str(), frame.c_str());
            return false;
        }
    }
    member.in.erase(0, at);
    return true;
}

}  // namespace

int main(int count, char** words) {
    if (count < 5) {
        std::fprintf(stderr, "usage: load PORT MEMBERS ORDERS WINDOW [BEGIN]\n");
        return 2;
    }
    const int port = std::atoi(words[1]), members = std::atoi(words[2]), orders = std::atoi(words[3]), window = std::atoi(words[4]);
    const int begin = count > 5 ? std::atoi(words[5]) : 1;
    const std::string run = "o" + std::to_string(begin) + "-";
    std::vector<Member> all(members);
    const int poll = epoll_create1(0);
    for (int number = 0; number < members; ++number) {
        Member& member = all[number];
        member.name = "M" + std::to_string(number);
        member.next = begin;
        member.socket = socket(AF_INET, SOCK_STREAM, 0);
        sockaddr_in where{};
        where.sin_family = AF_INET;
        where.sin_port = htons(port);
        where.sin_addr.s_addr = htonl(INADDR_LOOPBACK);
        if (connect(member.socket, reinterpret_cast<sockaddr*>(&where), sizeof where) != 0) {
            std::perror("load: connect");
            return 1;
        }
        const int yes = 1;
        setsockopt(member.socket, IPPROTO_TCP, TCP_NODELAY, &yes, sizeof yes);
        fcntl(member.socket, F_SETFL, O_NONBLOCK);
        epoll_event event{};
        event.events = EPOLLIN | EPOLLOUT | EPOLLET;
        event.data.u32 = number;
        epoll_ctl(poll, EPOLL_CTL_ADD, member.socket, &event);
        member.out += message(member, "A", "98=0\x01" "108=30\x01" "1137=9\x01");
        flush(member);
    }
    std::vector<double> times;
    times.reserve(static_cast<std::size_t>(members) * orders);
    std::vector<epoll_event> events(256);
    bool begun = false;
    Clock::time_point start;
    const std::size_t wanted = static_cast<std::size_t>(members) * orders;
    while (times.size() < wanted) {
        const int ready = epoll_wait(poll, events.data(), static_cast<int>(events.size()), 10000);
        if (ready == 0) {
            std::fprintf(stderr, "load: nothing came for ten seconds: %zu of %zu acknowledged\n", times.size(), wanted);
            return 1;
        }
        for (int at = 0; at < ready; ++at) {
            Member& member = all[events[at].data.u32];
            if (!receive(member, times)) {
                std::fprintf(stderr, "load: the venue let %s go\n", member.name.c_str());
                return 1;
            }
            flush(member);
            if (begun) fill(member, orders, window, run);
        }
        if (!begun && std::all_of(all.begin(), all.end(), [](const Member& member) { return member.up; })) {
            begun = true;
            start = Clock::now();
            for (Member& member : all) fill(member, orders, window, run);
        }
    }
    const double seconds = std::chrono::duration<double>(Clock::now() - start).count();
    std::sort(times.begin(), times.end());
    std::printf("%.0f %.0f %.0f %.0f\n", wanted / seconds, times[times.size() / 2], times[times.size() * 99 / 100], times.back());
    return 0;
}
