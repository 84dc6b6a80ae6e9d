// Talks to a running peglive as two members, FUND and BANK, through QuickFIX with its file stores. It ends with 0 only where every step came,
// nothing was lost and no order was taken twice.
//
//     live SETTINGS day KILL START    a day in the middle of which the venue is killed and started again by these commands
//     live SETTINGS leave             goes on with that day, and kills itself right after BANK's order
//     live SETTINGS return            goes on from the file stores
#include <csignal>

#include "members.h"

namespace {

// How often a member was told, first or again, that an order is new.
std::size_t acceptances(const Members& members, const std::string& member, const std::string& id) {
    return members.distinct(member, {{11, id}, {150, "0"}});
}

// Whether a member has a report, first or again.
bool has_either(const Members& members, const std::string& member, const std::map<int, std::string>& fields) {
    return members.has(member, fields) || members.has(member, fields, true);
}

void both_log_on(Members& members) {
    members.wait("both members are logged on", [&] { return members.up["FUND"] && members.up["BANK"]; });
}

void run_command(const std::string& command) {
    if (std::system(command.c_str()) != 0) throw std::runtime_error("this failed: " + command);
}

void day(Members& members, FIX::SocketInitiator& initiator, const std::string& kill, const std::string& start) {
    both_log_on(members);
    order("FUND", "f-1", "1", "500");
    members.wait("a new order is accepted", [&] { return members.has("FUND", {{11, "f-1"}, {150, "0"}}); });
    order("BANK", "b-1", "2", "100");
    members.wait("BANK's order is filled", [&] { return members.has("BANK", {{11, "b-1"}, {150, "F"}, {39, "2"}}); });

    run_command(kill);
    members.wait("the venue is gone", [&] { return !members.up["FUND"] && !members.up["BANK"]; });
    // QuickFIX keeps what is sent now in its store, and sends it once it is asked for it.
    order("FUND", "f-2", "1", "50");
    order("BANK", "b-2", "2", "300");
    run_command(start);
    members.wait("both are logged on again", [&] { return members.up["FUND"] && members.up["BANK"]; });
    members.wait("the order from before the kill trades", [&] { return has_either(members, "FUND", {{11, "f-1"}, {150, "F"}, {151, "100"}}); });
    members.wait("both orders of the time between came", [&] {
        return acceptances(members, "FUND", "f-2") == 1 && acceptances(members, "BANK", "b-2") == 1;
    });

    // FUND has lost the last two messages that it got.
    FIX::Session* fund = FIX::Session::lookupSession(session_of("FUND"));
    const int asked = members.asked_again;
    fund->disconnect();
    members.wait("FUND is cut off", [&] { return !members.up["FUND"]; });
    fund->setNextTargetMsgSeqNum(fund->getExpectedTargetNum() - 2);
    members.wait("FUND is back", [&] { return members.up["FUND"]; });
    members.wait("what it missed is asked for again", [&] { return members.asked_again > asked; });
    order("FUND", "f-3", "1", "70");
    members.wait("and comes", [&] { return members.has("FUND", {{11, "f-3"}, {150, "0"}}); });
    if (acceptances(members, "FUND", "f-1") != 1 || acceptances(members, "FUND", "f-2") != 1 || acceptances(members, "BANK", "b-2") != 1) {
        throw std::runtime_error("an order was taken twice");
    }
    std::cout << "ok: no order was taken twice" << std::endl;

    initiator.stop();
    members.wait("all are logged out", [&] { return !members.up["FUND"] && !members.up["BANK"]; });
}

// FUND wants 220 shares of ABC when this begins: 100 of f-1, 50 of f-2 and 70 of f-3.
void leave(Members& members) {
    both_log_on(members);
    order("FUND", "f-4", "1", "200");
    members.wait("FUND's next order is accepted", [&] { return members.has("FUND", {{11, "f-4"}, {150, "0"}}); });
    order("BANK", "b-3", "2", "120");
    std::raise(SIGKILL);
}

void come_back(Members& members, FIX::SocketInitiator& initiator) {
    both_log_on(members);
    members.wait("BANK's order from before the kill was taken", [&] { return acceptances(members, "BANK", "b-3") == 1; });
    members.wait("and filled", [&] { return has_either(members, "BANK", {{11, "b-3"}, {150, "F"}, {39, "2"}, {14, "120"}}); });
    send("BANK", "H", {{11, "b-3"}, {55, "ABC"}, {54, "2"}}, false);
    members.wait("its status is told", [&] { return members.has("BANK", {{11, "b-3"}, {150, "I"}, {39, "2"}, {14, "120"}}); });
    send("FUND", "H", {{11, "f-4"}, {55, "ABC"}, {54, "1"}}, false);
    members.wait("FUND's order rests as it was", [&] { return members.has("FUND", {{11, "f-4"}, {150, "I"}, {39, "0"}, {151, "200"}}); });
    // All that FUND still wants, and no share more.
    order("BANK", "b-4", "2", "300");
    members.wait("all that rests trades", [&] { return members.has("BANK", {{11, "b-4"}, {150, "F"}, {39, "2"}, {14, "300"}}); });
    members.wait("and is told to FUND", [&] { return members.has("FUND", {{11, "f-4"}, {150, "F"}, {39, "2"}, {14, "200"}}); });
    if (acceptances(members, "BANK", "b-3") != 1 || acceptances(members, "FUND", "f-4") > 1) {
        throw std::runtime_error("an order was taken twice");
    }
    std::cout << "ok: no order was taken twice" << std::endl;

    initiator.stop();
    members.wait("all are logged out", [&] { return !members.up["FUND"] && !members.up["BANK"]; });
}

}  // namespace

int main(int count, char** words) {
    const std::string step = count > 2 ? words[2] : "";
    if (step == "day" && count == 5) {
        const std::string kill = words[3], start = words[4];
        return run(words[1], [&](Members& members, FIX::SocketInitiator& initiator) { day(members, initiator, kill, start); });
    }
    if (step == "leave" && count == 3) return run(words[1], [](Members& members, FIX::SocketInitiator&) { leave(members); });
    if (step == "return" && count == 3) return run(words[1], come_back);
    std::cerr << "usage: live SETTINGS day KILL START | live SETTINGS leave | live SETTINGS return" << std::endl;
    return EXIT_FAILURE;
}
