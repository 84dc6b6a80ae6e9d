// What one would build without this venue, for comparison: an acceptor over QuickFIX with its file store, which acknowledges each order and does nothing
// else. It has no book, and syncs nothing.
//
//   acceptor SETTINGS     serves until it is killed, each connection by a thread of its own: QuickFIX is faster so than with one thread for all
#include <unistd.h>

#include <iostream>
#include <string>

#include "quickfix/Application.h"
#include "quickfix/FileStore.h"
#include "quickfix/Session.h"
#include "quickfix/SessionSettings.h"
#include "quickfix/ThreadedSocketAcceptor.h"

namespace {

class Acknowledging : public FIX::Application {
public:
    void onCreate(const FIX::SessionID&) override {}
    void onLogon(const FIX::SessionID&) override {}
    void onLogout(const FIX::SessionID&) override {}
    void toAdmin(FIX::Message&, const FIX::SessionID&) override {}
    void toApp(FIX::Message&, const FIX::SessionID&) throw(FIX::DoNotSend) override {}
    void fromAdmin(const FIX::Message&, const FIX::SessionID&)
        throw(FIX::FieldNotFound, FIX::IncorrectDataFormat, FIX::IncorrectTagValue, FIX::RejectLogon) override {}

    void fromApp(const FIX::Message& order, const FIX::SessionID& session)
        throw(FIX::FieldNotFound, FIX::IncorrectDataFormat, FIX::IncorrectTagValue, FIX::UnsupportedMessageType) override {
        if (order.getHeader().getField(35) != "D") return;
        FIX::Message report;
        report.getHeader().setField(35, "8");
        const std::string number = order.getHeader().getField(34), symbol = order.getField(55);
        report.setField(37, symbol + "-" + number);
        report.setField(11, order.getField(11));
        report.setField(17, symbol + "-" + number + "-1");
        report.setField(150, "0");
        report.setField(39, "0");
        report.setField(55, symbol);
        report.setField(54, order.getField(54));
        report.setField(38, order.getField(38));
        report.setField(40, order.getField(40));
        report.setField(151, order.getField(38));
        report.setField(14, "0");
        report.setField(6, "0");
        report.setField(60, order.getField(60));
        FIX::Session::sendToTarget(report, session);
    }
};

}  // namespace

int main(int count, char** words) {
    if (count != 2) {
        std::cerr << "usage: acceptor SETTINGS\n";
        return 2;
    }
    try {
        FIX::SessionSettings settings(words[1]);
        Acknowledging application;
        FIX::FileStoreFactory stores(settings);
        FIX::ThreadedSocketAcceptor acceptor(application, stores, settings);
        acceptor.start();
        for (;;) pause();
    } catch (const std::exception& fault) {
        std::cerr << "acceptor: " << fault.what() << std::endl;
        return 1;
    }
}
