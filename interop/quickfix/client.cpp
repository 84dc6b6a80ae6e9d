// Talks to a running venue as two members, FUND and BANK, and as RISK, a drop session that gets copies of the reports of both, through
// QuickFIX with the dictionaries beside this file.
// It goes through a day in small and ends with 0 only where every step came and every message of the venue fitted the dictionaries.
#include "members.h"

namespace {

void day(Members& members, FIX::SocketInitiator& initiator) {
    members.wait("both members are logged on", [&] { return members.up["FUND"] && members.up["BANK"]; });
    members.wait("the drop session is logged on", [&] { return members.up["RISK"]; });

    order("FUND", "f-1", "1", "500");
    members.wait("a new order is accepted", [&] { return members.has("FUND", {{11, "f-1"}, {150, "0"}}); });
    send("FUND", "G", {{11, "f-2"}, {41, "f-1"}, {55, "ABC"}, {54, "1"}, {38, "400"}, {40, "P"}, {1094, "2"}});
    members.wait("it is replaced", [&] { return members.has("FUND", {{11, "f-2"}, {150, "5"}, {151, "400"}}); });
    send("FUND", "H", {{11, "f-2"}, {55, "ABC"}, {54, "1"}}, false);
    members.wait("its status is told", [&] { return members.has("FUND", {{11, "f-2"}, {150, "I"}, {839, "20.0050"}}); });

    order("BANK", "b-1", "2", "100");
    members.wait("BANK's order is filled", [&] { return members.has("BANK", {{11, "b-1"}, {150, "F"}, {39, "2"}, {31, "20.0050"}}); });
    members.wait("FUND's is filled in part", [&] { return members.has("FUND", {{11, "f-2"}, {150, "F"}, {39, "1"}, {151, "300"}}); });

    send("FUND", "F", {{11, "f-3"}, {41, "none"}, {55, "ABC"}, {54, "1"}});
    members.wait("a cancel of no order is refused", [&] { return members.has("FUND", {{11, "f-3"}, {39, "8"}, {434, "1"}, {9702, "16"}}); });
    send("FUND", "D", {{11, "f-4"}, {55, "ABC"}, {54, "1"}, {38, "0"}, {40, "P"}, {1094, "2"}});
    members.wait("an order without shares is rejected", [&] { return members.has("FUND", {{11, "f-4"}, {150, "8"}, {9702, "3"}}); });

    // RISK has copies of what both were told, each with its member's name.
    members.wait("the new order is copied", [&] { return members.has("RISK", {{11, "f-1"}, {150, "0"}, {9703, "FUND"}}); });
    members.wait("BANK's fill is copied", [&] { return members.has("RISK", {{11, "b-1"}, {150, "F"}, {31, "20.0050"}, {9703, "BANK"}}); });
    members.wait("FUND's fill is copied", [&] { return members.has("RISK", {{11, "f-2"}, {150, "F"}, {151, "300"}, {9703, "FUND"}}); });
    members.wait("the refused cancel is copied", [&] { return members.has("RISK", {{11, "f-3"}, {434, "1"}, {9702, "16"}, {9703, "FUND"}}); });

    // FUND is cut off, and BANK trades with what FUND left in the book.
    const std::size_t before = members.count("FUND");
    FIX::Session* fund = FIX::Session::lookupSession(session_of("FUND"));
    fund->disconnect();
    members.wait("FUND is cut off", [&] { return !members.up["FUND"]; });
    order("BANK", "b-2", "2", "50");
    members.wait("BANK's next order is filled", [&] { return members.has("BANK", {{11, "b-2"}, {150, "F"}, {39, "2"}}); });

    // FUND comes back and has lost the last two messages that it got before.
    fund->setNextTargetMsgSeqNum(fund->getExpectedTargetNum() - 2);
    members.wait("FUND is back", [&] { return members.up["FUND"]; });
    members.wait("what it missed is asked for again", [&] { return members.asked_again > 0; });
    members.wait("the rejection comes again", [&] { return members.has("FUND", {{11, "f-4"}, {150, "8"}}, true); });
    members.wait("the fill of the time between comes", [&] {
        return members.count("FUND") > before
            && (members.has("FUND", {{11, "f-2"}, {150, "F"}, {151, "250"}}) || members.has("FUND", {{11, "f-2"}, {150, "F"}, {151, "250"}}, true));
    });

    send("FUND", "F", {{11, "f-5"}, {41, "f-2"}, {55, "ABC"}, {54, "1"}});
    members.wait("what is left is canceled", [&] { return members.has("FUND", {{11, "f-5"}, {41, "f-2"}, {150, "4"}, {39, "4"}}); });

    members.wait("the cancel is copied", [&] { return members.has("RISK", {{11, "f-5"}, {41, "f-2"}, {150, "4"}, {9703, "FUND"}}); });
    members.wait("every report is copied once", [&] { return members.count("RISK") == members.count("FUND") + members.count("BANK"); });

    initiator.stop();
    members.wait("all are logged out", [&] { return !members.up["FUND"] && !members.up["BANK"] && !members.up["RISK"]; });
}

}  // namespace

int main(int count, char** words) {
    if (count != 2) {
        std::cerr << "usage: client SETTINGS" << std::endl;
        return EXIT_FAILURE;
    }
    return run(words[1], day);
}
